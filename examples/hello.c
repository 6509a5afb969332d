/* Prints a line by the USART of an ATmega328P, and ends. Compile with
   avr-gcc -mmcu=atmega328p -Os -o hello.elf hello.c && avr-objcopy -O ihex hello.elf hello.hex */
#include <avr/interrupt.h>
#include <avr/io.h>
#include <avr/pgmspace.h>
#include <avr/sleep.h>

static const char greeting[] PROGMEM = "hello, board: 6 * 7 = ";

static void put(char c)
{
    while (!(UCSR0A & (1 << UDRE0)))
        ;
    UCSR0A = 1 << TXC0;
    UDR0 = c;
}

static void put_number(unsigned int n)
{
    char digits[5];
    unsigned char count = 0;
    do {
        digits[count++] = '0' + n % 10;
        n /= 10;
    } while (n != 0);
    while (count != 0)
        put(digits[--count]);
}

int main(void)
{
    volatile unsigned int six = 6;
    const char *at;
    UBRR0 = 0;
    UCSR0B = 1 << TXEN0;
    for (at = greeting; pgm_read_byte(at) != 0; at++)
        put(pgm_read_byte(at));
    put_number(six * 7);
    put('\n');
    while (!(UCSR0A & (1 << TXC0)))
        ;
    cli();
    sleep_enable();
    sleep_cpu();
    return 0;
}
