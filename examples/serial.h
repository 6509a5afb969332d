/* Text by the USART of an ATmega328P with a clock of 16 MHz: 115,200 bit/s, eight data bits, transmitter alone. */
#ifndef SERIAL_H
#define SERIAL_H

#include <avr/io.h>
#include <avr/pgmspace.h>
#include <stdint.h>

/* Enables the transmitter. */
static inline void serial_begin(void)
{
    UCSR0A = 1 << U2X0;
    UBRR0 = 16;
    UCSR0B = 1 << TXEN0;
}

/* Waits until the transmitter takes a byte, and hands it over. The flag TXC is cleared first, so that serial_end sees its own byte. */
static inline void serial_put(uint8_t byte)
{
    while (!(UCSR0A & (1 << UDRE0)))
        ;
    UCSR0A = 1 << TXC0 | 1 << U2X0;
    UDR0 = byte;
}

/* Puts a text that stands in flash. */
static inline void serial_text(const char *text)
{
    uint8_t byte;
    while ((byte = pgm_read_byte(text++)) != 0)
        serial_put(byte);
}

/* Puts a number in decimal. */
static inline void serial_number(uint16_t number)
{
    uint16_t unit = 10000;
    while (unit > 1 && number < unit)
        unit /= 10;
    for (; unit != 0; unit /= 10)
        serial_put('0' + number / unit % 10);
}

/* The same of a greater number. */
static inline void serial_long(uint32_t number)
{
    uint32_t unit = 1000000000;
    while (unit > 1 && number < unit)
        unit /= 10;
    for (; unit != 0; unit /= 10)
        serial_put('0' + number / unit % 10);
}

/* Waits until the last byte has left. */
static inline void serial_end(void)
{
    while (!(UCSR0A & (1 << TXC0)))
        ;
}

/* A text in flash, as serial_text takes it. */
#define SAY(text) serial_text(PSTR(text))

#endif
