/* A TCP echo server on port 5000 after the loop of ioLibrary's own example: look at Sn_SR, and do what the state asks for. A client comes
   after the other; after one that said "bye" and nothing more it ends by `break`. Compile in this folder with
   avr-gcc -mmcu=atmega328p -Os -Wall -o wiz_server.elf wiz_server.c && avr-objcopy -O ihex wiz_server.elf wiz_server.hex */
#include "serial.h"
#include "spi.h"
#include "wizchip.h"

#define SN 0
#define PORT 5000

static uint8_t buffer[256];
static uint16_t echoed;
static uint8_t first[3]; /* the first bytes of the connection */

static void begin(void)
{
    static const uint8_t sizes[] = {2, 2, 2, 2, 2, 2, 2, 2};
    static const wiz_NetInfo net = {{0x02, 0, 0, 0, 0, 1}, {10, 0, 0, 9}, {255, 255, 255, 0}, {10, 0, 0, 1}};
    serial_begin();
    spi_begin();
    reg_wizchip_cs_cbfunc(chip_select, chip_deselect);
    reg_wizchip_spi_cbfunc(spi_read, spi_write);
    wizchip_init(sizes, sizes);
    wizchip_setnetinfo(&net);
}

static void say_client(void)
{
    uint8_t addr[4];
    uint8_t i;
    getSn_DIPR(SN, addr);
    SAY("connected: ");
    for (i = 0; i < 4; i++) {
        serial_number(addr[i]);
        serial_put(i < 3 ? '.' : ':');
    }
    serial_number(getSn_DPORT(SN));
    serial_put('\n');
}

/* Sends back what has come, up to a buffer of it. `send` gives 0 while the bytes before are under way. */
static void echo(uint16_t size)
{
    int32_t count;
    int32_t sent;
    uint16_t i;
    if (size > sizeof buffer)
        size = sizeof buffer;
    count = recv(SN, buffer, size);
    for (i = 0; (int32_t)i < count && echoed + i < sizeof first; i++)
        first[echoed + i] = buffer[i];
    for (i = 0; (int32_t)i < count; i += sent) {
        sent = send(SN, buffer + i, count - i);
        if (sent < 0)
            return;
        echoed += sent;
    }
}

static uint8_t is_bye(void)
{
    return echoed == 3 && first[0] == 'b' && first[1] == 'y' && first[2] == 'e';
}

/* The peer has ended, and all of its bytes are back: this side ends too. Whether the server goes on. */
static uint8_t end(void)
{
    uint8_t goes_on = !is_bye();
    if (disconnect(SN) != SOCK_OK)
        SAY("the connection is lost\n");
    SAY("ended after ");
    serial_number(echoed);
    SAY(" bytes\n");
    return goes_on;
}

/* A turn of the loop. Whether the server goes on. */
static uint8_t serve(void)
{
    uint8_t status = getSn_SR(SN);
    uint16_t size;
    switch (status) {
    case SOCK_ESTABLISHED:
    case SOCK_CLOSE_WAIT:
        if (getSn_IR(SN) & Sn_IR_CON) {
            setSn_IR(SN, Sn_IR_CON);
            echoed = 0;
            say_client();
        }
        size = getSn_RX_RSR(SN);
        if (size > 0)
            echo(size);
        else if (status == SOCK_CLOSE_WAIT)
            return end();
        break;
    case SOCK_INIT:
        if (listen(SN) == SOCK_OK)
            SAY("listening on port 5000\n");
        else
            SAY("not listening\n");
        break;
    case SOCK_CLOSED:
        socket(SN, Sn_MR_TCP, PORT, 0);
        break;
    }
    return 1;
}

int main(void)
{
    begin();
    while (serve())
        ;
    SAY("bye\n");
    serial_end();
    __asm__ volatile("break");
    return 0;
}
