/* A UDP server on port 5000 of socket 0 of a W5500, which has all of the buffers: it sends each datagram back whole, of up to 1,472 bytes,
   to where it came from. INTn wakes it. An empty datagram has no answer, since an empty SEND sends nothing. It ends by `break` after the
   datagram "bye". Compile with
   avr-gcc -mmcu=atmega328p -Os -Wall -o udp_answer.elf udp_answer.c && avr-objcopy -O ihex udp_answer.elf udp_answer.hex */
#include <avr/interrupt.h>
#include <avr/sleep.h>

#include "serial.h"
#include "w5500.h"

#define SOCKET 0
#define SOCKETS 8

static volatile uint8_t chip_asks;
static uint8_t head[8]; /* of a datagram in the RX buffer: its sender's address and port, and its length */
static uint8_t buffer[256];
static uint32_t answered;

/* INTn stays low until the socket's interrupts are cleared, so its own interrupt is turned off until they are. */
ISR(INT0_vect)
{
    EIMSK = 0;
    chip_asks = 1;
}

/* Sleeps until INTn has been low, and clears the socket's interrupts. `sei` lets one more instruction run, so nothing comes between the
   look and the sleep. */
static void wait_for_chip(void)
{
    EIMSK = 1 << INT0;
    cli();
    while (!chip_asks) {
        sleep_enable();
        sei();
        sleep_cpu();
        sleep_disable();
        cli();
    }
    chip_asks = 0;
    sei();
    chip_write1(SN_IR, REGISTERS(SOCKET), IR_RECV | IR_SENDOK | IR_TIMEOUT);
}

/* All 16 KB of both buffers are this socket's; sizes are set while all sockets are closed. */
static void begin(void)
{
    uint8_t socket;
    serial_begin();
    spi_begin();
    chip_write1(MR, COMMON, 0x80);
    for (socket = 0; socket < SOCKETS; socket++) {
        chip_write1(SN_RXBUF_SIZE, REGISTERS(socket), socket == SOCKET ? 16 : 0);
        chip_write1(SN_TXBUF_SIZE, REGISTERS(socket), socket == SOCKET ? 16 : 0);
    }
    chip_write1(SIMR, COMMON, 1 << SOCKET);
    chip_write1(SN_IMR, REGISTERS(SOCKET), IR_RECV | IR_TIMEOUT | IR_SENDOK);
    EICRA = 0; /* INT0 at the low level */
    socket_open(SOCKET, UDP, 5000);
}

/* Copies the body from the RX buffer into the TX buffer. What stands in `buffer` then is its last piece. */
static void copy_body(uint16_t length)
{
    uint16_t from = chip_read2(SN_RX_RD, REGISTERS(SOCKET));
    uint16_t to = chip_read2(SN_TX_WR, REGISTERS(SOCKET));
    uint16_t piece;
    for (; length != 0; length -= piece) {
        piece = length < sizeof buffer ? length : sizeof buffer;
        chip_read(from, RX_BUFFER(SOCKET), buffer, piece);
        chip_write(to, TX_BUFFER(SOCKET), buffer, piece);
        from += piece;
        to += piece;
    }
    chip_write2(SN_RX_RD, REGISTERS(SOCKET), from);
    socket_command(SOCKET, RECV);
    chip_write2(SN_TX_WR, REGISTERS(SOCKET), to);
}

/* Sends a datagram back. One SEND at a time: the next one waits for SENDOK. Whether the socket goes on. */
static uint8_t answer(void)
{
    uint16_t length;
    socket_receive(SOCKET, head, sizeof head);
    length = (uint16_t)head[6] << 8 | head[7];
    copy_body(length);
    if (length != 0) {
        chip_write(SN_DIPR, REGISTERS(SOCKET), head, 6); /* DIPR and DPORT stand behind one another, as in the head */
        chip_write1(SN_IR, REGISTERS(SOCKET), IR_SENDOK);
        socket_command(SOCKET, SEND);
        while (!(chip_read1(SN_IR, REGISTERS(SOCKET)) & IR_SENDOK))
            if (socket_status(SOCKET) == SOCK_CLOSED)
                return 0;
        answered++;
    }
    return length != 3 || buffer[0] != 'b' || buffer[1] != 'y' || buffer[2] != 'e';
}

/* Answers all that has come. Whether the server goes on. */
static uint8_t answer_all(void)
{
    while (read_steady(SN_RX_RSR, SOCKET) != 0)
        if (!answer())
            return 0;
    return socket_status(SOCKET) != SOCK_CLOSED;
}

int main(void)
{
    begin();
    SAY("waiting on port 5000\n");
    sei();
    do
        wait_for_chip();
    while (answer_all());
    cli();
    serial_long(answered);
    SAY(" answers\n");
    serial_end();
    __asm__ volatile("break");
    return 0;
}
