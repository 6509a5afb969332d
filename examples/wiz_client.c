/* A TCP client after the loop of ioLibrary's own example: look at Sn_SR, and do what the state asks for. It connects to 10.0.0.2:80, says
   a line, prints what comes until the server ends, and begins anew, until a connection fails; then it ends by `break`. Compile in this
   folder with
   avr-gcc -mmcu=atmega328p -Os -Wall -o wiz_client.elf wiz_client.c && avr-objcopy -O ihex wiz_client.elf wiz_client.hex */
#include "serial.h"
#include "spi.h"
#include "wizchip.h"

#define SN 0

static uint8_t buffer[64];
static uint16_t own_port = 50000;

static void begin(void)
{
    static const uint8_t sizes[] = {2, 2, 2, 2, 2, 2, 2, 2};
    static const wiz_NetInfo net = {{0x02, 0, 0, 0, 0, 1}, {10, 0, 0, 9}, {255, 255, 255, 0}, {10, 0, 0, 1}};
    serial_begin();
    spi_begin();
    reg_wizchip_cs_cbfunc(chip_select, chip_deselect);
    reg_wizchip_spi_cbfunc(spi_read, spi_write);
    wizchip_init(sizes, sizes);
    wizchip_setnetinfo(&net);
}

/* Connects and says a line. Whether the connection was made. */
static uint8_t begin_to_talk(void)
{
    static const uint8_t server[] = {10, 0, 0, 2};
    static const uint8_t line[] = "Hello from the board\n";
    switch (connect(SN, server, 80)) {
    case SOCK_OK:
        SAY("connected\n");
        send(SN, line, sizeof line - 1);
        return 1;
    case SOCKERR_TIMEOUT:
        SAY("no answer\n");
        return 0;
    default:
        SAY("refused\n");
        return 0;
    }
}

/* Prints what has come, up to a buffer of it. */
static void print(uint16_t size)
{
    int32_t count;
    uint8_t i;
    if (size > sizeof buffer)
        size = sizeof buffer;
    count = recv(SN, buffer, size);
    for (i = 0; i < count; i++)
        serial_put(buffer[i]);
}

/* A turn of the loop. Whether the client goes on. */
static uint8_t turn(void)
{
    uint8_t status = getSn_SR(SN);
    uint16_t size;
    switch (status) {
    case SOCK_ESTABLISHED:
    case SOCK_CLOSE_WAIT:
        size = getSn_RX_RSR(SN);
        if (size > 0) {
            print(size);
        } else if (status == SOCK_CLOSE_WAIT) {
            disconnect(SN);
            SAY("the server has ended\n");
        }
        return 1;
    case SOCK_INIT:
        return begin_to_talk();
    case SOCK_CLOSED:
        socket(SN, Sn_MR_TCP, own_port++, 0);
        return 1;
    default:
        return 1;
    }
}

int main(void)
{
    begin();
    while (turn())
        ;
    close(SN);
    serial_end();
    __asm__ volatile("break");
    return 0;
}
