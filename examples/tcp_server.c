/* An echo server on port 5000 of all eight sockets of a W5500. A socket whose connection has ended listens again. Nothing waits for one
   client alone: INTn wakes the part, SIR says which sockets ask for something, and each is served as far as it goes. After a connection
   on which "bye" came and nothing more the server ends by `break`. Compile with
   avr-gcc -mmcu=atmega328p -Os -Wall -o tcp_server.elf tcp_server.c && avr-objcopy -O ihex tcp_server.elf tcp_server.hex */
#include <avr/interrupt.h>
#include <avr/sleep.h>

#include "serial.h"
#include "w5500.h"

#define SOCKETS 8
#define PORT 5000

static volatile uint8_t chip_asks;
static uint8_t buffer[256];
static uint8_t sending; /* a bit for each socket whose last SEND was not answered by SENDOK yet */
static uint32_t echoed[SOCKETS];
static uint8_t first[SOCKETS][3]; /* the first bytes of each connection */

/* INTn stays low until the sockets' interrupts are cleared, so its own interrupt is turned off until they are. */
ISR(INT0_vect)
{
    EIMSK = 0;
    chip_asks = 1;
}

/* Sleeps until INTn has been low. `sei` lets one more instruction run, so nothing comes between the look and the sleep. */
static void wait_for_chip(void)
{
    EIMSK = 1 << INT0;
    cli();
    while (!chip_asks) {
        sleep_enable();
        sei();
        sleep_cpu();
        sleep_disable();
        cli();
    }
    chip_asks = 0;
    sei();
}

static void listen(uint8_t socket)
{
    sending &= ~(1 << socket);
    echoed[socket] = 0;
    chip_write1(SN_IMR, REGISTERS(socket), IR_CON | IR_DISCON | IR_RECV | IR_TIMEOUT | IR_SENDOK);
    socket_open(socket, TCP, PORT);
    socket_command(socket, LISTEN);
}

static void begin(void)
{
    static const uint8_t gateway[] = {10, 0, 0, 1, 255, 255, 255, 0, 0x02, 0, 0, 0, 0, 1, 10, 0, 0, 9};
    uint8_t socket;
    serial_begin();
    spi_begin();
    chip_write1(MR, COMMON, 0x80);
    chip_write(GAR, COMMON, gateway, sizeof gateway); /* GAR, SUBR, SHAR and SIPR stand behind one another */
    chip_write1(SIMR, COMMON, 0xFF);
    EICRA = 0; /* INT0 at the low level */
    for (socket = 0; socket < SOCKETS; socket++)
        listen(socket);
}

static void keep_first(uint8_t socket, uint16_t count)
{
    uint16_t i;
    for (i = 0; i < count && echoed[socket] + i < sizeof first[0]; i++)
        first[socket][echoed[socket] + i] = buffer[i];
}

/* Copies what has come from the RX buffer into the TX buffer, as much as fits, and sends it with one SEND. */
static void echo(uint8_t socket)
{
    uint16_t count = read_steady(SN_RX_RSR, socket);
    uint16_t room = read_steady(SN_TX_FSR, socket);
    uint16_t from = chip_read2(SN_RX_RD, REGISTERS(socket));
    uint16_t to = chip_read2(SN_TX_WR, REGISTERS(socket));
    uint16_t piece;
    if (count > room)
        count = room;
    if (count == 0)
        return;
    for (; count != 0; count -= piece) {
        piece = count < sizeof buffer ? count : sizeof buffer;
        chip_read(from, RX_BUFFER(socket), buffer, piece);
        chip_write(to, TX_BUFFER(socket), buffer, piece);
        keep_first(socket, piece);
        echoed[socket] += piece;
        from += piece;
        to += piece;
    }
    chip_write2(SN_RX_RD, REGISTERS(socket), from);
    socket_command(socket, RECV);
    chip_write2(SN_TX_WR, REGISTERS(socket), to);
    socket_command(socket, SEND);
    sending |= 1 << socket;
}

static void say(uint8_t socket, const char *what)
{
    SAY("socket ");
    serial_number(socket);
    serial_text(what);
    serial_long(echoed[socket]);
    SAY(" bytes\n");
}

static uint8_t is_bye(uint8_t socket)
{
    uint8_t *said = first[socket];
    return echoed[socket] == 3 && said[0] == 'b' && said[1] == 'y' && said[2] == 'e';
}

/* Ends this side too, once all was sent back. Whether the server goes on. */
static uint8_t end(uint8_t socket)
{
    uint8_t goes_on = !is_bye(socket);
    socket_command(socket, DISCON);
    while (socket_status(socket) != SOCK_CLOSED)
        ;
    say(socket, PSTR(": ended after "));
    if (goes_on)
        listen(socket);
    return goes_on;
}

/* Does what the socket's interrupts ask for. Whether the server goes on. The status is read first: behind CLOSE_WAIT no more comes. */
static uint8_t serve(uint8_t socket)
{
    uint8_t raised = chip_read1(SN_IR, REGISTERS(socket));
    uint8_t status;
    chip_write1(SN_IR, REGISTERS(socket), raised);
    if (raised & IR_SENDOK)
        sending &= ~(1 << socket);
    status = socket_status(socket);
    if (status == SOCK_CLOSED) {
        say(socket, PSTR(": lost after "));
        listen(socket);
        return 1;
    }
    if (sending & 1 << socket)
        return 1;
    echo(socket);
    if (status == SOCK_CLOSE_WAIT && !(sending & 1 << socket))
        return end(socket);
    return 1;
}

/* Serves the sockets that ask for it. Whether the server goes on. */
static uint8_t serve_all(void)
{
    uint8_t asks = chip_read1(SIR, COMMON);
    uint8_t socket;
    for (socket = 0; socket < SOCKETS; socket++)
        if (asks & 1 << socket && !serve(socket))
            return 0;
    return 1;
}

int main(void)
{
    begin();
    SAY("listening on port 5000\n");
    sei();
    do
        wait_for_chip();
    while (serve_all());
    cli();
    SAY("bye\n");
    serial_end();
    __asm__ volatile("break");
    return 0;
}
