/* A TCP client on socket 0 of a W5500: it connects to 10.0.0.2:80, says a line, prints what comes until the server ends, and ends by
   `break`. A timer wakes it each millisecond. Compile with
   avr-gcc -mmcu=atmega328p -Os -Wall -o tcp_client.elf tcp_client.c && avr-objcopy -O ihex tcp_client.elf tcp_client.hex */
#include <avr/interrupt.h>
#include <avr/sleep.h>

#include "serial.h"
#include "w5500.h"

#define SOCKET 0

static uint8_t buffer[64];

/* Only wakes the part. */
EMPTY_INTERRUPT(TIMER0_COMPA_vect);

/* Timer 0: 16 MHz over 64 over 250, a millisecond. */
static void begin(void)
{
    serial_begin();
    spi_begin();
    chip_write1(MR, COMMON, 0x80);
    TCCR0A = 1 << WGM01;
    TCCR0B = 1 << CS01 | 1 << CS00;
    OCR0A = 249;
    TIMSK0 = 1 << OCIE0A;
    set_sleep_mode(SLEEP_MODE_IDLE);
    sleep_enable();
    sei();
}

/* Whether the connection was made. A refused one closes the socket, one that is not answered raises TIMEOUT as well. */
static uint8_t connect(void)
{
    static const uint8_t server[] = {10, 0, 0, 2, 0, 80};
    socket_open(SOCKET, TCP, 40000);
    chip_write(SN_DIPR, REGISTERS(SOCKET), server, sizeof server); /* DIPR and DPORT stand behind one another */
    SAY("connecting to 10.0.0.2:80\n");
    socket_command(SOCKET, CONNECT);
    while (socket_status(SOCKET) == SOCK_SYNSENT)
        sleep_cpu();
    if (socket_status(SOCKET) != SOCK_CLOSED) {
        SAY("connected\n");
        return 1;
    }
    if (chip_read1(SN_IR, REGISTERS(SOCKET)) & IR_TIMEOUT)
        SAY("no answer\n");
    else
        SAY("refused\n");
    return 0;
}

/* Prints what has come. Whether there was anything. */
static uint8_t print(void)
{
    uint16_t count = read_steady(SN_RX_RSR, SOCKET);
    uint16_t i;
    if (count > sizeof buffer)
        count = sizeof buffer;
    if (count == 0)
        return 0;
    socket_receive(SOCKET, buffer, count);
    for (i = 0; i < count; i++)
        serial_put(buffer[i]);
    return 1;
}

/* Says a line, and prints what comes until the server ends. The status is read first: behind CLOSE_WAIT no more comes. */
static void talk(void)
{
    static const uint8_t line[] = "Hello from the board\n";
    uint8_t status;
    if (!socket_send(SOCKET, line, sizeof line - 1))
        return;
    for (;;) {
        status = socket_status(SOCKET);
        if (print())
            continue;
        if (status != SOCK_ESTABLISHED)
            return;
        sleep_cpu();
    }
}

int main(void)
{
    begin();
    if (connect()) {
        talk();
        if (socket_status(SOCKET) == SOCK_CLOSE_WAIT) {
            socket_command(SOCKET, DISCON);
            while (socket_status(SOCKET) != SOCK_CLOSED)
                ;
            SAY("the server has ended\n");
        } else {
            SAY("the connection is lost\n");
        }
    }
    cli();
    serial_end();
    __asm__ volatile("break");
    return 0;
}
