/* A TCP echo server on port 5000 of a W5500, for one connection; it ends by `break` once that has ended. INTn wakes it, a timer
   counts milliseconds, and between the two it sleeps. Compile with
   avr-gcc -mmcu=atmega328p -Os -Wall -o tcp_echo.elf tcp_echo.c && avr-objcopy -O ihex tcp_echo.elf tcp_echo.hex */
#include <avr/interrupt.h>
#include <avr/sleep.h>

#include "serial.h"
#include "w5500.h"

#define SOCKET 0

static volatile uint16_t milliseconds;
static volatile uint8_t chip_asks;
static uint8_t buffer[64];
static uint16_t echoed;

/* 16 MHz over 16,000. */
ISR(TIMER1_COMPA_vect)
{
    milliseconds++;
}

/* INTn stays low until the socket's interrupts are cleared, so its own interrupt is turned off until they are. */
ISR(INT0_vect)
{
    EIMSK = 0;
    chip_asks = 1;
}

static void begin(void)
{
    static const uint8_t gateway[] = {10, 0, 0, 1, 255, 255, 255, 0, 0x02, 0, 0, 0, 0, 1, 10, 0, 0, 9};
    serial_begin();
    spi_begin();
    chip_write1(MR, COMMON, 0x80);
    chip_write(GAR, COMMON, gateway, sizeof gateway); /* GAR, SUBR, SHAR and SIPR stand behind one another */
    chip_write1(SIMR, COMMON, 1 << SOCKET);
    chip_write1(SN_IMR, REGISTERS(SOCKET), IR_CON | IR_DISCON | IR_RECV | IR_TIMEOUT);
    TCCR1B = 1 << WGM12 | 1 << CS10;
    OCR1A = 15999;
    TIMSK1 = 1 << OCIE1A;
    EICRA = 0; /* INT0 at the low level */
    EIMSK = 1 << INT0;
}

/* Sleeps until INTn has been low. `sei` lets one more instruction run, so nothing comes between the look and the sleep. */
static void wait_for_chip(void)
{
    cli();
    while (!chip_asks) {
        sleep_enable();
        sei();
        sleep_cpu();
        sleep_disable();
        cli();
    }
    chip_asks = 0;
    sei();
}

static void say_peer(void)
{
    uint8_t i;
    chip_read(SN_DIPR, REGISTERS(SOCKET), buffer, 6);
    SAY("connected: ");
    for (i = 0; i < 4; i++) {
        serial_number(buffer[i]);
        serial_put(i < 3 ? '.' : ':');
    }
    serial_number((uint16_t)buffer[4] << 8 | buffer[5]);
    serial_put('\n');
}

/* Sends back all that has come. */
static void echo(void)
{
    uint16_t count;
    while ((count = read_steady(SN_RX_RSR, SOCKET)) != 0) {
        if (count > sizeof buffer)
            count = sizeof buffer;
        socket_receive(SOCKET, buffer, count);
        if (!socket_send(SOCKET, buffer, count))
            return;
        echoed += count;
        SAY("echoed ");
        serial_number(count);
        serial_put('\n');
    }
}

/* Does what the socket's interrupts ask for. Whether the connection goes on. */
static uint8_t serve(void)
{
    uint8_t raised = chip_read1(SN_IR, REGISTERS(SOCKET));
    chip_write1(SN_IR, REGISTERS(SOCKET), raised);
    if (raised & IR_CON)
        say_peer();
    echo();
    switch (socket_status(SOCKET)) {
    case SOCK_CLOSE_WAIT:
        SAY("the client has ended\n");
        socket_command(SOCKET, DISCON);
        while (socket_status(SOCKET) != SOCK_CLOSED)
            ;
        return 0;
    case SOCK_CLOSED:
        SAY("the connection is lost\n");
        return 0;
    default:
        return 1;
    }
}

int main(void)
{
    begin();
    socket_open(SOCKET, TCP, 5000);
    socket_command(SOCKET, LISTEN);
    SAY("listening on port 5000\n"); /* a client may be there already */
    sei();
    do {
        EIMSK = 1 << INT0;
        wait_for_chip();
    } while (serve());
    cli();
    serial_number(echoed);
    SAY(" bytes in ");
    serial_number(milliseconds);
    SAY(" ms\n");
    serial_end();
    __asm__ volatile("break");
    return 0;
}
