/* The SPI of an ATmega328P with a W5500 on it: SCSn on PB2, MOSI on PB3, MISO on PB4, SCK on PB5. WIZnet's ioLibrary is given the first
   four functions by
       reg_wizchip_cs_cbfunc(chip_select, chip_deselect);
       reg_wizchip_spi_cbfunc(spi_read, spi_write); */
#ifndef SPI_H
#define SPI_H

#include <avr/io.h>
#include <stdint.h>

static inline void chip_select(void)
{
    PORTB &= ~(1 << PB2);
}

static inline void chip_deselect(void)
{
    PORTB |= 1 << PB2;
}

/* SPIF rises when the byte has been exchanged. */
static inline void spi_write(uint8_t byte)
{
    SPDR = byte;
    while (!(SPSR & (1 << SPIF)))
        ;
}

static inline uint8_t spi_read(void)
{
    spi_write(0);
    return SPDR;
}

/* The SPI as master in mode 0 at half the clock; the select line is high before it becomes an output. */
static inline void spi_begin(void)
{
    PORTB |= 1 << PB2;
    DDRB |= 1 << PB2 | 1 << PB3 | 1 << PB5;
    SPCR = 1 << SPE | 1 << MSTR;
    SPSR = 1 << SPI2X;
}

#endif
