/* The ring of byte_ring.rgo on an AVR: the interrupt of a timer puts the numbers 0, 1, 2, .. in, modulo 256, and the main loop takes them out and prints
 * them, a line each, until COUNT were taken. */
#include "board_avr.h"
#include "byte_ring.h"
#include <avr/sleep.h>

enum { COUNT = 600, CYCLES = 60 };

static struct byte_ring words = RGC_START_byte_ring;

/* One round of the part `handler`. The device, which is no part, sets its word before: it has the next value once the last one was put in. */
ISR(TIMER1_COMPA_vect)
{
    static uint8_t next;
    const uint8_t before = RGC_LOAD(&words.head);
    RGC_STORE(&words.device, next);
    byte_ring_round_handler(&words);
    next = (uint8_t)(next + (RGC_LOAD(&words.head) != before));
}

static void print(char byte)
{
    while (!(UCSR0A & (1 << UDRE0))) {
    }
    UDR0 = (uint8_t)byte;
}

static void print_number(uint8_t number)
{
    print((char)('0' + number / 100));
    print((char)('0' + number / 10 % 10));
    print((char)('0' + number % 10));
    print('\n');
}

/* Rounds of the part `main`. */
int main(void)
{
    UCSR0B = 1 << TXEN0;
    TCCR1B = (1 << WGM12) | (1 << CS10);
    OCR1A = CYCLES;
    TIMSK1 = 1 << OCIE1A;
    sei();
    for (uint16_t taken = 0; taken < COUNT;) {
        const uint8_t before = RGC_LOAD(&words.tail);
        byte_ring_round_main(&words);
        if (RGC_LOAD(&words.tail) != before) {
            print_number(words.got);
            taken++;
        }
    }
    /* Asleep with interrupts off, the emulator ends. */
    cli();
    sleep_mode();
    return 0;
}
