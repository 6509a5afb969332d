/* A logger: a timer ticks each millisecond, lines are made by vsnprintf in buffers on the stack, and the USART takes their bytes
   from a queue by interrupts. Both functions with a buffer have a stack frame, and interrupts come while it is set up and given back.
   Compile with
   avr-gcc -mmcu=atmega328p -Os -o logger.elf logger.c && avr-objcopy -O ihex logger.elf logger.hex */
#include <avr/interrupt.h>
#include <avr/io.h>
#include <stdarg.h>
#include <stdint.h>
#include <stdio.h>

#define LINES 2000

static volatile uint16_t ticks;
static volatile uint8_t queue[64];
static volatile uint8_t first, count;

ISR(TIMER0_COMPA_vect)
{
    ticks++;
}

/* The USART takes a byte. */
ISR(USART_UDRE_vect)
{
    UDR0 = queue[first];
    first = (first + 1) % sizeof queue;
    if (--count == 0)
        UCSR0B &= ~(1 << UDRIE0);
}

/* Waits until the queue has room, and puts a byte into it. */
static void put(uint8_t byte)
{
    uint8_t sreg = SREG;
    while (count == sizeof queue)
        ;
    cli();
    queue[(first + count) % sizeof queue] = byte;
    count++;
    UCSR0A = 1 << TXC0;
    UCSR0B |= 1 << UDRIE0;
    SREG = sreg;
}

static uint16_t milliseconds(void)
{
    uint8_t sreg = SREG;
    uint16_t now;
    cli();
    now = ticks;
    SREG = sreg;
    return now;
}

/* Puts a line. */
__attribute__((noinline)) static void say(const char *format, ...)
{
    char line[132];
    va_list values;
    va_start(values, format);
    vsnprintf(line, sizeof line, format, values);
    va_end(values);
    for (const char *at = line; *at; at++)
        put(*at);
}

/* Puts a line with its number before it. */
__attribute__((noinline)) static void note(uint16_t number, const char *format, ...)
{
    char words[112];
    va_list values;
    va_start(values, format);
    vsnprintf(words, sizeof words, format, values);
    va_end(values);
    say("%04u %s\n", number, words);
}

int main(void)
{
    TCCR0A = 1 << WGM01;
    OCR0A = 249;
    TIMSK0 = 1 << OCIE0A;
    TCCR0B = 1 << CS01 | 1 << CS00;
    UBRR0 = 0;
    UCSR0B = 1 << TXEN0;
    sei();
    for (uint16_t number = 1; number <= LINES; number++)
        note(number, "%u down, %u to go", number, LINES - number);
    say("%u lines, and the clock %s\n", LINES, milliseconds() > 1000 ? "ran" : "stood");
    while (count != 0)
        ;
    while (!(UCSR0A & (1 << TXC0)))
        ;
    cli();
    __asm__ volatile("break");
    return 0;
}
