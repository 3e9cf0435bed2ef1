/* A ring of docs/DEVICE.md or of interrupt_ring.rgo on a device: the interrupt of a timer puts values in, the main loop takes them out and prints them. */
#ifndef BOARD
#define BOARD "board.h"
#endif
#include BOARD
#include "ring.h"

#include "values.h"

enum { COUNT = sizeof values / sizeof *values, CYCLES = 20, STARTED_OUTSIDE = 1 };

static struct ring words = RGC_START_ring;

/* One round of the part `handler`. The device, which is no part, sets its word before: it has the next value once the last one was put in. */
void board_tick(void)
{
    static uint32_t given;
    if (given < COUNT) {
        const uint8_t before = RGC_LOAD(&words.head);
        RGC_STORE(&words.device, values[given]);
        ring_round_handler(&words);
        given += RGC_LOAD(&words.head) != before;
    }
}

/* Rounds of the part `main`, until all values were taken. */
int main(void)
{
    if (!ring_pre(&words)) {
        return STARTED_OUTSIDE;
    }
    board_start_timer(CYCLES);
    for (uint32_t taken = 0; taken < COUNT;) {
        const uint8_t before = RGC_LOAD(&words.tail);
        ring_round_main(&words);
        if (RGC_LOAD(&words.tail) != before) {
            board_print(words.got);
            taken++;
        }
    }
    return 0;
}
