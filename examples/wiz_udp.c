/* A UDP echo server on port 5000 after the loop of ioLibrary's own example: look at Sn_SR, and do what the state asks for. It ends by
   `break` after the datagram "bye". Compile in this folder with
   avr-gcc -mmcu=atmega328p -Os -Wall -o wiz_udp.elf wiz_udp.c && avr-objcopy -O ihex wiz_udp.elf wiz_udp.hex */
#include "serial.h"
#include "spi.h"
#include "wizchip.h"

#define SN 1
#define PORT 5000

static uint8_t buffer[256];
static uint8_t addr[4]; /* the sender of the last datagram */
static uint16_t port;

static void begin(void)
{
    static const uint8_t sizes[] = {2, 2, 2, 2, 2, 2, 2, 2};
    static const wiz_NetInfo net = {{0x02, 0, 0, 0, 0, 1}, {10, 0, 0, 9}, {255, 255, 255, 0}, {10, 0, 0, 1}};
    serial_begin();
    spi_begin();
    reg_wizchip_cs_cbfunc(chip_select, chip_deselect);
    reg_wizchip_spi_cbfunc(spi_read, spi_write);
    wizchip_init(sizes, sizes);
    wizchip_setnetinfo(&net);
}

/* Sends a datagram back, of a longer one than the buffer piece by piece. Whether the server goes on. */
static uint8_t echo(void)
{
    int32_t count = recvfrom(SN, buffer, sizeof buffer, addr, &port);
    if (count > 0 && sendto(SN, buffer, count, addr, port) == count) {
        SAY("echoed ");
        serial_number(count);
        serial_put('\n');
    }
    return count != 3 || buffer[0] != 'b' || buffer[1] != 'y' || buffer[2] != 'e';
}

/* A turn of the loop. Whether the server goes on. */
static uint8_t serve(void)
{
    switch (getSn_SR(SN)) {
    case SOCK_UDP:
        return getSn_RX_RSR(SN) == 0 || echo();
    case SOCK_CLOSED:
        if (socket(SN, Sn_MR_UDP, PORT, 0) == SN)
            SAY("waiting on port 5000\n");
        return 1;
    default:
        return 1;
    }
}

int main(void)
{
    begin();
    while (serve())
        ;
    close(SN);
    serial_end();
    __asm__ volatile("break");
    return 0;
}
