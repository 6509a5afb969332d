/* A W5500 by the names and in the order of calls of WIZnet's ioLibrary, in blocking mode, for wiz_server.c, wiz_client.c and wiz_udp.c.
   It is written anew: the names and what goes over the bus are ioLibrary's, the text is not. */
#ifndef WIZCHIP_H
#define WIZCHIP_H

#include <stdint.h>

/* A place of the chip: the offset address, and below it the block, as they stand in a frame. */
#define WIZCHIP_PLACE(address, block) ((uint32_t)(address) << 8 | (uint8_t)((block) << 3))
#define WIZCHIP_SREG_BLOCK(sn) (4 * (sn) + 1)
#define WIZCHIP_TXBUF_BLOCK(sn) (4 * (sn) + 2)
#define WIZCHIP_RXBUF_BLOCK(sn) (4 * (sn) + 3)
#define WIZCHIP_WRITES 0x04 /* the bit of the control byte */

/* Common registers. */
#define MR WIZCHIP_PLACE(0x0000, 0)
#define GAR WIZCHIP_PLACE(0x0001, 0)
#define SUBR WIZCHIP_PLACE(0x0005, 0)
#define SHAR WIZCHIP_PLACE(0x0009, 0)
#define SIPR WIZCHIP_PLACE(0x000F, 0)
#define MR_RST 0x80

/* Registers of a socket. */
#define Sn_MR(sn) WIZCHIP_PLACE(0x0000, WIZCHIP_SREG_BLOCK(sn))
#define Sn_CR(sn) WIZCHIP_PLACE(0x0001, WIZCHIP_SREG_BLOCK(sn))
#define Sn_IR(sn) WIZCHIP_PLACE(0x0002, WIZCHIP_SREG_BLOCK(sn))
#define Sn_SR(sn) WIZCHIP_PLACE(0x0003, WIZCHIP_SREG_BLOCK(sn))
#define Sn_PORT(sn) WIZCHIP_PLACE(0x0004, WIZCHIP_SREG_BLOCK(sn))
#define Sn_DIPR(sn) WIZCHIP_PLACE(0x000C, WIZCHIP_SREG_BLOCK(sn))
#define Sn_DPORT(sn) WIZCHIP_PLACE(0x0010, WIZCHIP_SREG_BLOCK(sn))
#define Sn_RXBUF_SIZE(sn) WIZCHIP_PLACE(0x001E, WIZCHIP_SREG_BLOCK(sn))
#define Sn_TXBUF_SIZE(sn) WIZCHIP_PLACE(0x001F, WIZCHIP_SREG_BLOCK(sn))
#define Sn_TX_FSR(sn) WIZCHIP_PLACE(0x0020, WIZCHIP_SREG_BLOCK(sn))
#define Sn_TX_WR(sn) WIZCHIP_PLACE(0x0024, WIZCHIP_SREG_BLOCK(sn))
#define Sn_RX_RSR(sn) WIZCHIP_PLACE(0x0026, WIZCHIP_SREG_BLOCK(sn))
#define Sn_RX_RD(sn) WIZCHIP_PLACE(0x0028, WIZCHIP_SREG_BLOCK(sn))

/* Their values. */
#define Sn_MR_TCP 0x01
#define Sn_MR_UDP 0x02
#define Sn_CR_OPEN 0x01
#define Sn_CR_LISTEN 0x02
#define Sn_CR_CONNECT 0x04
#define Sn_CR_DISCON 0x08
#define Sn_CR_CLOSE 0x10
#define Sn_CR_SEND 0x20
#define Sn_CR_RECV 0x40
#define Sn_IR_CON 0x01
#define Sn_IR_DISCON 0x02
#define Sn_IR_RECV 0x04
#define Sn_IR_TIMEOUT 0x08
#define Sn_IR_SENDOK 0x10
#define SOCK_CLOSED 0x00
#define SOCK_INIT 0x13
#define SOCK_LISTEN 0x14
#define SOCK_ESTABLISHED 0x17
#define SOCK_CLOSE_WAIT 0x1C
#define SOCK_UDP 0x22

/* What the socket functions answer where it is no number of bytes. */
#define SOCK_OK 1
#define SOCK_BUSY 0
#define SOCKERR_SOCKINIT (-3)
#define SOCKERR_SOCKCLOSED (-4)
#define SOCKERR_SOCKMODE (-5)
#define SOCKERR_SOCKSTATUS (-7)
#define SOCKERR_PORTZERO (-11)
#define SOCKERR_IPINVALID (-12)
#define SOCKERR_TIMEOUT (-13)
#define SOCKERR_DATALEN (-14)

typedef struct {
    uint8_t mac[6];
    uint8_t ip[4];
    uint8_t sn[4]; /* the subnet's mask */
    uint8_t gw[4];
} wiz_NetInfo;

static void (*wizchip_select)(void);
static void (*wizchip_deselect)(void);
static uint8_t (*wizchip_read_byte)(void);
static void (*wizchip_write_byte)(uint8_t byte);
static uint8_t sock_is_sending;        /* a bit for each socket whose last SEND was not answered by SENDOK yet */
static uint16_t sock_remained_size[8]; /* what recvfrom left of a datagram */
static uint16_t sock_any_port = 0xC000;

static inline void reg_wizchip_cs_cbfunc(void (*select)(void), void (*deselect)(void))
{
    wizchip_select = select;
    wizchip_deselect = deselect;
}

static inline void reg_wizchip_spi_cbfunc(uint8_t (*read)(void), void (*write)(uint8_t byte))
{
    wizchip_read_byte = read;
    wizchip_write_byte = write;
}

/* The head of a frame, whose place has the bit of a write where it writes. */
static inline void wizchip_frame(uint32_t place)
{
    wizchip_select();
    wizchip_write_byte(place >> 16);
    wizchip_write_byte(place >> 8);
    wizchip_write_byte(place);
}

static inline void WIZCHIP_READ_BUF(uint32_t place, uint8_t *bytes, uint16_t count)
{
    wizchip_frame(place);
    while (count-- != 0)
        *bytes++ = wizchip_read_byte();
    wizchip_deselect();
}

static inline void WIZCHIP_WRITE_BUF(uint32_t place, const uint8_t *bytes, uint16_t count)
{
    wizchip_frame(place | WIZCHIP_WRITES);
    while (count-- != 0)
        wizchip_write_byte(*bytes++);
    wizchip_deselect();
}

static inline uint8_t WIZCHIP_READ(uint32_t place)
{
    uint8_t byte;
    WIZCHIP_READ_BUF(place, &byte, 1);
    return byte;
}

static inline void WIZCHIP_WRITE(uint32_t place, uint8_t byte)
{
    WIZCHIP_WRITE_BUF(place, &byte, 1);
}

/* Registers of two bytes take two frames, the high byte first. */
static inline uint16_t wizchip_read_word(uint32_t place)
{
    uint16_t high = WIZCHIP_READ(place);
    return high << 8 | WIZCHIP_READ(place + WIZCHIP_PLACE(1, 0));
}

static inline void wizchip_write_word(uint32_t place, uint16_t word)
{
    WIZCHIP_WRITE(place, word >> 8);
    WIZCHIP_WRITE(place + WIZCHIP_PLACE(1, 0), word);
}

/* A size that may change between its two bytes is read until it reads the same twice; 0 counts at once. */
static inline uint16_t wizchip_read_size(uint32_t place)
{
    uint16_t first;
    uint16_t second;
    do {
        first = wizchip_read_word(place);
        second = first != 0 ? wizchip_read_word(place) : 0;
    } while (first != second);
    return first;
}

#define setSn_MR(sn, byte) WIZCHIP_WRITE(Sn_MR(sn), byte)
#define getSn_MR(sn) WIZCHIP_READ(Sn_MR(sn))
#define setSn_CR(sn, byte) WIZCHIP_WRITE(Sn_CR(sn), byte)
#define getSn_CR(sn) WIZCHIP_READ(Sn_CR(sn))
#define setSn_IR(sn, bits) WIZCHIP_WRITE(Sn_IR(sn), (bits) & 0x1F)
#define getSn_IR(sn) (WIZCHIP_READ(Sn_IR(sn)) & 0x1F)
#define getSn_SR(sn) WIZCHIP_READ(Sn_SR(sn))
#define setSn_PORT(sn, port) wizchip_write_word(Sn_PORT(sn), port)
#define setSn_DIPR(sn, addr) WIZCHIP_WRITE_BUF(Sn_DIPR(sn), addr, 4)
#define getSn_DIPR(sn, addr) WIZCHIP_READ_BUF(Sn_DIPR(sn), addr, 4)
#define setSn_DPORT(sn, port) wizchip_write_word(Sn_DPORT(sn), port)
#define getSn_DPORT(sn) wizchip_read_word(Sn_DPORT(sn))
#define setSn_RXBUF_SIZE(sn, kilobytes) WIZCHIP_WRITE(Sn_RXBUF_SIZE(sn), kilobytes)
#define setSn_TXBUF_SIZE(sn, kilobytes) WIZCHIP_WRITE(Sn_TXBUF_SIZE(sn), kilobytes)
#define getSn_RxMAX(sn) ((uint16_t)WIZCHIP_READ(Sn_RXBUF_SIZE(sn)) << 10)
#define getSn_TxMAX(sn) ((uint16_t)WIZCHIP_READ(Sn_TXBUF_SIZE(sn)) << 10)
#define getSn_RX_RSR(sn) wizchip_read_size(Sn_RX_RSR(sn))
#define getSn_TX_FSR(sn) wizchip_read_size(Sn_TX_FSR(sn))

/* Gives a command, and waits until it is accepted. */
static inline void wizchip_command(uint8_t sn, uint8_t what)
{
    setSn_CR(sn, what);
    while (getSn_CR(sn))
        ;
}

/* Puts bytes into the TX buffer behind the last ones, and moves Sn_TX_WR. */
static inline void wiz_send_data(uint8_t sn, const uint8_t *bytes, uint16_t count)
{
    uint16_t at = wizchip_read_word(Sn_TX_WR(sn));
    WIZCHIP_WRITE_BUF(WIZCHIP_PLACE(at, WIZCHIP_TXBUF_BLOCK(sn)), bytes, count);
    wizchip_write_word(Sn_TX_WR(sn), at + count);
}

/* Takes bytes out of the RX buffer, and moves Sn_RX_RD; their places are free after RECV. */
static inline void wiz_recv_data(uint8_t sn, uint8_t *bytes, uint16_t count)
{
    uint16_t at = wizchip_read_word(Sn_RX_RD(sn));
    WIZCHIP_READ_BUF(WIZCHIP_PLACE(at, WIZCHIP_RXBUF_BLOCK(sn)), bytes, count);
    wizchip_write_word(Sn_RX_RD(sn), at + count);
}

/* Resets the chip, and sets the sizes of its buffers, in KB, eight of each direction. */
static inline int8_t wizchip_init(const uint8_t *txsize, const uint8_t *rxsize)
{
    uint8_t sn;
    WIZCHIP_WRITE(MR, MR_RST);
    (void)WIZCHIP_READ(MR);
    for (sn = 0; sn < 8; sn++)
        setSn_TXBUF_SIZE(sn, txsize[sn]);
    for (sn = 0; sn < 8; sn++)
        setSn_RXBUF_SIZE(sn, rxsize[sn]);
    return 0;
}

static inline void wizchip_setnetinfo(const wiz_NetInfo *net)
{
    WIZCHIP_WRITE_BUF(SHAR, net->mac, 6);
    WIZCHIP_WRITE_BUF(GAR, net->gw, 4);
    WIZCHIP_WRITE_BUF(SUBR, net->sn, 4);
    WIZCHIP_WRITE_BUF(SIPR, net->ip, 4);
}

static inline int8_t close(uint8_t sn)
{
    wizchip_command(sn, Sn_CR_CLOSE);
    setSn_IR(sn, 0xFF);
    sock_is_sending &= ~(1 << sn);
    sock_remained_size[sn] = 0;
    while (getSn_SR(sn) != SOCK_CLOSED)
        ;
    return SOCK_OK;
}

/* Opens a socket for TCP or UDP. Port 0 takes the next free one. TCP wants an own address. */
static inline int8_t socket(uint8_t sn, uint8_t protocol, uint16_t port, uint8_t flag)
{
    uint8_t own[4];
    WIZCHIP_READ_BUF(SIPR, own, 4);
    if (protocol == Sn_MR_TCP && !(own[0] | own[1] | own[2] | own[3]))
        return SOCKERR_SOCKINIT;
    close(sn);
    setSn_MR(sn, protocol | (flag & 0xF0));
    setSn_PORT(sn, port != 0 ? port : sock_any_port++);
    wizchip_command(sn, Sn_CR_OPEN);
    while (getSn_SR(sn) == SOCK_CLOSED)
        ;
    return sn;
}

/* Whether the socket is one for TCP that was opened and nothing more: SOCK_OK, or what is wrong. */
static inline int8_t wizchip_begins(uint8_t sn)
{
    if ((getSn_MR(sn) & 0x0F) != Sn_MR_TCP)
        return SOCKERR_SOCKMODE;
    return getSn_SR(sn) == SOCK_INIT ? SOCK_OK : SOCKERR_SOCKINIT;
}

/* Listens. The status is read once behind the command: where it is another one by then, the socket is closed. */
static inline int8_t listen(uint8_t sn)
{
    int8_t begins = wizchip_begins(sn);
    if (begins != SOCK_OK)
        return begins;
    wizchip_command(sn, Sn_CR_LISTEN);
    if (getSn_SR(sn) != SOCK_LISTEN) {
        close(sn);
        return SOCKERR_SOCKCLOSED;
    }
    return SOCK_OK;
}

/* Connects, and waits for ESTABLISHED, a time-out, or the end of the socket. Any other status is waited through. */
static inline int8_t connect(uint8_t sn, const uint8_t *addr, uint16_t port)
{
    int8_t begins = wizchip_begins(sn);
    if (begins != SOCK_OK)
        return begins;
    if (!(addr[0] | addr[1] | addr[2] | addr[3]))
        return SOCKERR_IPINVALID;
    if (port == 0)
        return SOCKERR_PORTZERO;
    setSn_DIPR(sn, addr);
    setSn_DPORT(sn, port);
    wizchip_command(sn, Sn_CR_CONNECT);
    while (getSn_SR(sn) != SOCK_ESTABLISHED) {
        if (getSn_IR(sn) & Sn_IR_TIMEOUT) {
            setSn_IR(sn, Sn_IR_TIMEOUT);
            return SOCKERR_TIMEOUT;
        }
        if (getSn_SR(sn) == SOCK_CLOSED)
            return SOCKERR_SOCKCLOSED;
    }
    return SOCK_OK;
}

/* Ends this side, and waits until the other one has ended too. */
static inline int8_t disconnect(uint8_t sn)
{
    wizchip_command(sn, Sn_CR_DISCON);
    sock_is_sending &= ~(1 << sn);
    while (getSn_SR(sn) != SOCK_CLOSED) {
        if (getSn_IR(sn) & Sn_IR_TIMEOUT) {
            close(sn);
            return SOCKERR_TIMEOUT;
        }
    }
    return SOCK_OK;
}

/* Whether bytes may be sent in this status. */
static inline uint8_t wizchip_sends(uint8_t status)
{
    return status == SOCK_ESTABLISHED || status == SOCK_CLOSE_WAIT;
}

/* Whether the last SEND was answered: SOCK_OK, SOCK_BUSY, or SOCKERR_TIMEOUT, after which the socket is closed. */
static inline int8_t wizchip_sent(uint8_t sn)
{
    uint8_t raised = getSn_IR(sn);
    if (raised & Sn_IR_SENDOK) {
        setSn_IR(sn, Sn_IR_SENDOK);
        sock_is_sending &= ~(1 << sn);
        return SOCK_OK;
    }
    if (raised & Sn_IR_TIMEOUT) {
        close(sn);
        return SOCKERR_TIMEOUT;
    }
    return SOCK_BUSY;
}

/* Sends as many of these bytes as the whole buffer takes, once there is room, and gives how many that were: none while the last SEND
   was not answered. */
static inline int32_t send(uint8_t sn, const uint8_t *bytes, uint16_t count)
{
    int8_t sent;
    uint16_t most;
    uint16_t room;
    if (count == 0)
        return SOCKERR_DATALEN;
    if (!wizchip_sends(getSn_SR(sn)))
        return SOCKERR_SOCKSTATUS;
    if (sock_is_sending & 1 << sn && (sent = wizchip_sent(sn)) != SOCK_OK)
        return sent;
    most = getSn_TxMAX(sn);
    if (count > most)
        count = most;
    do {
        room = getSn_TX_FSR(sn);
        if (!wizchip_sends(getSn_SR(sn))) {
            close(sn);
            return SOCKERR_SOCKSTATUS;
        }
    } while (room < count);
    wiz_send_data(sn, bytes, count);
    wizchip_command(sn, Sn_CR_SEND);
    sock_is_sending |= 1 << sn;
    return count;
}

/* Waits for bytes, and takes up to so many. Where the peer has ended, nothing more is there and all was sent, the socket is closed. */
static inline int32_t recv(uint8_t sn, uint8_t *bytes, uint16_t count)
{
    uint16_t there;
    uint8_t status;
    if (count == 0)
        return SOCKERR_DATALEN;
    do {
        there = getSn_RX_RSR(sn);
        status = getSn_SR(sn);
        if (!wizchip_sends(status) || (status == SOCK_CLOSE_WAIT && there == 0 && getSn_TX_FSR(sn) == getSn_TxMAX(sn))) {
            close(sn);
            return SOCKERR_SOCKSTATUS;
        }
    } while (there == 0);
    if (count > there)
        count = there;
    wiz_recv_data(sn, bytes, count);
    wizchip_command(sn, Sn_CR_RECV);
    return count;
}

/* Sends a datagram, and waits until it has left. */
static inline int32_t sendto(uint8_t sn, const uint8_t *bytes, uint16_t count, const uint8_t *addr, uint16_t port)
{
    uint8_t raised;
    uint16_t most = getSn_TxMAX(sn);
    if (count == 0)
        return SOCKERR_DATALEN;
    if (getSn_SR(sn) != SOCK_UDP)
        return SOCKERR_SOCKSTATUS;
    setSn_DIPR(sn, addr);
    setSn_DPORT(sn, port);
    if (count > most)
        count = most;
    while (getSn_TX_FSR(sn) < count)
        if (getSn_SR(sn) == SOCK_CLOSED)
            return SOCKERR_SOCKCLOSED;
    wiz_send_data(sn, bytes, count);
    wizchip_command(sn, Sn_CR_SEND);
    do {
        raised = getSn_IR(sn);
        if (raised & Sn_IR_TIMEOUT) {
            setSn_IR(sn, Sn_IR_TIMEOUT);
            return SOCKERR_TIMEOUT;
        }
    } while (!(raised & Sn_IR_SENDOK));
    setSn_IR(sn, Sn_IR_SENDOK);
    return count;
}

/* Takes a datagram, or up to so many bytes of one; the rest comes by the next call. Its sender's address and port stand in front. */
static inline int32_t recvfrom(uint8_t sn, uint8_t *bytes, uint16_t count, uint8_t *addr, uint16_t *port)
{
    uint8_t head[8];
    uint8_t i;
    if (count == 0)
        return SOCKERR_DATALEN;
    if (sock_remained_size[sn] == 0) {
        while (getSn_RX_RSR(sn) == 0)
            if (getSn_SR(sn) == SOCK_CLOSED)
                return SOCKERR_SOCKCLOSED;
        wiz_recv_data(sn, head, 8);
        wizchip_command(sn, Sn_CR_RECV);
        for (i = 0; i < 4; i++)
            addr[i] = head[i];
        *port = (uint16_t)head[4] << 8 | head[5];
        sock_remained_size[sn] = (uint16_t)head[6] << 8 | head[7];
    }
    if (count > sock_remained_size[sn])
        count = sock_remained_size[sn];
    wiz_recv_data(sn, bytes, count);
    wizchip_command(sn, Sn_CR_RECV);
    sock_remained_size[sn] -= count;
    return count;
}

#endif
