/* A UDP echo server on port 5000 of a W5500; it ends by `break` after the datagram "bye". A timer wakes it each millisecond, and it looks
   whether a datagram has come. Compile with
   avr-gcc -mmcu=atmega328p -Os -Wall -o udp_echo.elf udp_echo.c && avr-objcopy -O ihex udp_echo.elf udp_echo.hex */
#include <avr/interrupt.h>
#include <avr/sleep.h>

#include "serial.h"
#include "w5500.h"

#define SOCKET 1

static uint8_t head[8];
static uint8_t body[128];

/* Only wakes the part. */
EMPTY_INTERRUPT(TIMER0_COMPA_vect);

/* Timer 0: 16 MHz over 64 over 250, a millisecond. */
static void timer_begin(void)
{
    TCCR0A = 1 << WGM01;
    TCCR0B = 1 << CS01 | 1 << CS00;
    OCR0A = 249;
    TIMSK0 = 1 << OCIE0A;
}

/* Takes a datagram: its head is the sender's address, port and the length. What of a body does not fit is thrown away. */
static uint16_t receive(void)
{
    uint16_t length;
    uint16_t rest;
    socket_receive(SOCKET, head, sizeof head);
    length = (uint16_t)head[6] << 8 | head[7];
    rest = length > sizeof body ? length - sizeof body : 0;
    socket_receive(SOCKET, body, length - rest);
    if (rest != 0) {
        chip_write2(SN_RX_RD, REGISTERS(SOCKET), chip_read2(SN_RX_RD, REGISTERS(SOCKET)) + rest);
        socket_command(SOCKET, RECV);
    }
    return length - rest;
}

static void say_text(uint16_t length)
{
    uint16_t i;
    SAY("datagram: ");
    for (i = 0; i < length; i++)
        serial_put(body[i]);
    serial_put('\n');
}

int main(void)
{
    uint16_t length;
    serial_begin();
    spi_begin();
    timer_begin();
    chip_write1(MR, COMMON, 0x80);
    socket_open(SOCKET, UDP, 5000);
    SAY("waiting on port 5000\n");
    set_sleep_mode(SLEEP_MODE_IDLE);
    sleep_enable();
    sei();
    do {
        while (read_steady(SN_RX_RSR, SOCKET) == 0)
            sleep_cpu();
        length = receive();
        say_text(length);
        chip_write(SN_DIPR, REGISTERS(SOCKET), head, 6); /* DIPR and DPORT stand behind one another, as in the head */
        if (length != 0 && !socket_send(SOCKET, body, length))
            break;
    } while (length != 3 || body[0] != 'b' || body[1] != 'y' || body[2] != 'e');
    cli();
    socket_command(SOCKET, CLOSE);
    serial_end();
    __asm__ volatile("break");
    return 0;
}
