/* A W5500 on the SPI of an ATmega328P, whose pins and bytes are in spi.h; INTn is on PD2. This stands in for WIZnet's ioLibrary, with the
   frames and the order of calls of its socket.c, so that the examples need nothing else. wizchip.h does so by ioLibrary's names. */
#ifndef W5500_H
#define W5500_H

#include "spi.h"

/* Blocks: the common registers; of socket n its registers, its TX buffer, its RX buffer. */
#define COMMON 0
#define REGISTERS(n) (4 * (n) + 1)
#define TX_BUFFER(n) (4 * (n) + 2)
#define RX_BUFFER(n) (4 * (n) + 3)

/* Common registers. */
#define MR 0x0000
#define GAR 0x0001
#define SUBR 0x0005
#define SHAR 0x0009
#define SIPR 0x000F
#define SIR 0x0017
#define SIMR 0x0018
#define VERSIONR 0x0039

/* Registers of a socket. */
#define SN_MR 0x00
#define SN_CR 0x01
#define SN_IR 0x02
#define SN_SR 0x03
#define SN_PORT 0x04
#define SN_DIPR 0x0C
#define SN_DPORT 0x10
#define SN_RXBUF_SIZE 0x1E
#define SN_TXBUF_SIZE 0x1F
#define SN_TX_FSR 0x20
#define SN_TX_WR 0x24
#define SN_RX_RSR 0x26
#define SN_RX_RD 0x28
#define SN_IMR 0x2C

/* Values of SN_MR, SN_CR, SN_IR and SN_SR. */
#define TCP 1
#define UDP 2
#define OPEN 0x01
#define LISTEN 0x02
#define CONNECT 0x04
#define DISCON 0x08
#define CLOSE 0x10
#define SEND 0x20
#define RECV 0x40
#define IR_CON 0x01
#define IR_DISCON 0x02
#define IR_RECV 0x04
#define IR_TIMEOUT 0x08
#define IR_SENDOK 0x10
#define SOCK_CLOSED 0x00
#define SOCK_INIT 0x13
#define SOCK_LISTEN 0x14
#define SOCK_SYNSENT 0x15
#define SOCK_ESTABLISHED 0x17
#define SOCK_CLOSE_WAIT 0x1C
#define SOCK_UDP 0x22

/* The head of a frame: the address, the high byte first, then the block and whether it is written. */
static inline void frame(uint16_t address, uint8_t block, uint8_t writes)
{
    chip_select();
    spi_write(address >> 8);
    spi_write(address);
    spi_write(block << 3 | writes << 2);
}

static inline void chip_read(uint16_t address, uint8_t block, uint8_t *bytes, uint16_t count)
{
    frame(address, block, 0);
    while (count-- != 0)
        *bytes++ = spi_read();
    chip_deselect();
}

static inline void chip_write(uint16_t address, uint8_t block, const uint8_t *bytes, uint16_t count)
{
    frame(address, block, 1);
    while (count-- != 0)
        spi_write(*bytes++);
    chip_deselect();
}

static inline uint8_t chip_read1(uint16_t address, uint8_t block)
{
    uint8_t byte;
    frame(address, block, 0);
    byte = spi_read();
    chip_deselect();
    return byte;
}

static inline void chip_write1(uint16_t address, uint8_t block, uint8_t byte)
{
    frame(address, block, 1);
    spi_write(byte);
    chip_deselect();
}

/* Registers of two bytes have the high one at the lower address. */
static inline uint16_t chip_read2(uint16_t address, uint8_t block)
{
    uint8_t high;
    uint8_t low;
    frame(address, block, 0);
    high = spi_read();
    low = spi_read();
    chip_deselect();
    return (uint16_t)high << 8 | low;
}

static inline void chip_write2(uint16_t address, uint8_t block, uint16_t word)
{
    frame(address, block, 1);
    spi_write(word >> 8);
    spi_write(word);
    chip_deselect();
}

/* Gives a command, and waits until it is accepted. */
static inline void socket_command(uint8_t socket, uint8_t what)
{
    chip_write1(SN_CR, REGISTERS(socket), what);
    while (chip_read1(SN_CR, REGISTERS(socket)) != 0)
        ;
}

static inline uint8_t socket_status(uint8_t socket)
{
    return chip_read1(SN_SR, REGISTERS(socket));
}

/* A register of two bytes that may change between them is read until it reads the same twice. */
static inline uint16_t read_steady(uint16_t address, uint8_t socket)
{
    uint16_t word = chip_read2(address, REGISTERS(socket));
    uint16_t again;
    while ((again = chip_read2(address, REGISTERS(socket))) != word)
        word = again;
    return word;
}

/* Clears the interrupts, and opens a socket for TCP or UDP on a port. */
static inline void socket_open(uint8_t socket, uint8_t protocol, uint16_t port)
{
    chip_write1(SN_IR, REGISTERS(socket), 0xFF);
    chip_write1(SN_MR, REGISTERS(socket), protocol);
    chip_write2(SN_PORT, REGISTERS(socket), port);
    socket_command(socket, OPEN);
    while (socket_status(socket) == SOCK_CLOSED)
        ;
}

/* Takes so many received bytes out of the RX buffer, and frees their places. */
static inline void socket_receive(uint8_t socket, uint8_t *bytes, uint16_t count)
{
    uint16_t at = chip_read2(SN_RX_RD, REGISTERS(socket));
    chip_read(at, RX_BUFFER(socket), bytes, count);
    chip_write2(SN_RX_RD, REGISTERS(socket), at + count);
    socket_command(socket, RECV);
}

/* Puts bytes into the TX buffer once they fit, and sends them. Whether they have all left: a connection that is lost meanwhile closes. */
static inline uint8_t socket_send(uint8_t socket, const uint8_t *bytes, uint16_t count)
{
    uint16_t at;
    while (read_steady(SN_TX_FSR, socket) < count)
        if (socket_status(socket) == SOCK_CLOSED)
            return 0;
    at = chip_read2(SN_TX_WR, REGISTERS(socket));
    chip_write(at, TX_BUFFER(socket), bytes, count);
    chip_write2(SN_TX_WR, REGISTERS(socket), at + count);
    socket_command(socket, SEND);
    while (!(chip_read1(SN_IR, REGISTERS(socket)) & IR_SENDOK))
        if (socket_status(socket) == SOCK_CLOSED)
            return 0;
    chip_write1(SN_IR, REGISTERS(socket), IR_SENDOK);
    return 1;
}

#endif
