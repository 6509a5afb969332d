/* A TCP server on port 5000 of a W5500 that adds up what a client tells it, line by line: `add N`, `show`, `bye`. It serves one client,
   gives up after 5 s in which nothing comes, and ends by `break`. Compile with
   avr-gcc -mmcu=atmega328p -Os -Wall -o sums.elf sums.c && avr-objcopy -O ihex sums.elf sums.hex */
#include <avr/interrupt.h>
#include <avr/sleep.h>
#include <string.h>

#include "../serial.h"
#include "../w5500.h"

#define SOCKET 0
#define PATIENCE 5000

static volatile uint16_t idle; /* milliseconds since something came */
static char line[24];
static uint8_t length;
static uint8_t is_long;
static uint16_t sum;
static uint16_t lines;

/* 16 MHz over 16,000. */
ISR(TIMER1_COMPA_vect)
{
    idle++;
}

static void begin(void)
{
    static const uint8_t addresses[] = {10, 0, 0, 1, 255, 255, 255, 0, 0x02, 0, 0, 0, 0, 1, 10, 0, 0, 9};
    serial_begin();
    spi_begin();
    chip_write1(MR, COMMON, 0x80);
    chip_write(GAR, COMMON, addresses, sizeof addresses);
    TCCR1B = 1 << WGM12 | 1 << CS10;
    OCR1A = 15999;
    TIMSK1 = 1 << OCIE1A;
    set_sleep_mode(SLEEP_MODE_IDLE);
    sleep_enable();
}

static uint8_t answer(const char *text)
{
    return socket_send(SOCKET, (const uint8_t *)text, strlen(text));
}

/* A number in decimal, and a line end. */
static uint8_t answer_number(uint16_t number)
{
    char text[7];
    char *at = text + sizeof text - 1;
    *at = 0;
    *--at = '\n';
    do {
        *--at = '0' + number % 10;
        number /= 10;
    } while (number != 0);
    return answer(at);
}

/* Adds the number that stands there, where it is one and the sum has room for it. */
static uint8_t add(const char *text)
{
    uint32_t number = 0;
    if (*text == 0)
        return answer("a number?\n");
    for (; *text != 0; text++) {
        if (*text < '0' || *text > '9')
            return answer("a number?\n");
        number = number * 10 + (*text - '0');
        if (number > 65535)
            return answer("too much\n");
    }
    if (number + sum > 65535)
        return answer("too much\n");
    sum += number;
    return answer_number(sum);
}

/* Does what a line says. Whether the connection goes on. */
static uint8_t serve(void)
{
    lines++;
    if (is_long)
        return answer("too long\n");
    if (strncmp(line, "add ", 4) == 0)
        return add(line + 4);
    if (strcmp(line, "show") == 0)
        return answer_number(sum);
    if (strcmp(line, "bye") == 0) {
        answer("bye\n");
        return 0;
    }
    return answer("what?\n");
}

/* Takes what has come, byte by byte. Whether the connection goes on. */
static uint8_t take(void)
{
    uint16_t count = read_steady(SN_RX_RSR, SOCKET);
    uint8_t byte;
    while (count-- != 0) {
        idle = 0;
        socket_receive(SOCKET, &byte, 1);
        if (byte != '\n') {
            if (length < sizeof line - 1)
                line[length++] = byte;
            else
                is_long = 1;
            continue;
        }
        line[length] = 0;
        if (!serve())
            return 0;
        length = 0;
        is_long = 0;
    }
    return 1;
}

/* Serves until somebody ends, and says who. */
static void serve_all(void)
{
    uint8_t status;
    uint8_t goes_on;
    do {
        status = socket_status(SOCKET);
        goes_on = take();
        if (goes_on)
            sleep_cpu();
        else
            status = socket_status(SOCKET);
    } while (goes_on && status == SOCK_ESTABLISHED && idle < PATIENCE);
    if (!goes_on && status != SOCK_CLOSED)
        SAY("we end\n");
    else if (status == SOCK_CLOSE_WAIT)
        SAY("the client ends\n");
    else if (status == SOCK_CLOSED)
        SAY("the client is lost\n");
    else
        SAY("the client is silent\n");
}

int main(void)
{
    begin();
    socket_open(SOCKET, TCP, 5000);
    socket_command(SOCKET, LISTEN);
    SAY("listening\n");
    sei();
    while (socket_status(SOCKET) == SOCK_LISTEN && idle < PATIENCE)
        sleep_cpu();
    if (socket_status(SOCKET) == SOCK_LISTEN) {
        SAY("nobody came\n");
    } else {
        idle = 0;
        serve_all();
        idle = 0;
        if (socket_status(SOCKET) != SOCK_CLOSED)
            socket_command(SOCKET, DISCON);
        while (socket_status(SOCKET) != SOCK_CLOSED && idle < PATIENCE)
            sleep_cpu();
    }
    cli();
    serial_number(lines);
    SAY(" lines, the sum is ");
    serial_number(sum);
    serial_put('\n');
    serial_end();
    __asm__ volatile("break");
    return 0;
}
