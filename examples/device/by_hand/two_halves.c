/* The tick of two_halves.rgo as it is written by hand; scripts/c_sizes measures it beside the C that rgc emits. A controller of 8 bits loads a half with
 * interrupts off. */
#include BOARD

struct two_halves {
    volatile uint16_t hi, lo;
    uint16_t t_hi, t_lo, again;
};

void two_halves_round_handler(struct two_halves *w);
void two_halves_run_reader(struct two_halves *w);

/* An interrupt handler: the reader doesn't come between. */
void two_halves_round_handler(struct two_halves *w)
{
    while (w->hi == 0xFFFFu && w->lo == 0xFFFFu) {
    }
    const uint16_t lo = (uint16_t)(w->lo + 1u);
    w->lo = lo;
    if (lo == 0) {
        w->hi = (uint16_t)(w->hi + 1u);
    }
}

void two_halves_run_reader(struct two_halves *w)
{
    do {
        w->t_hi = (uint16_t)RGC_LOAD(&w->hi);
        w->t_lo = (uint16_t)RGC_LOAD(&w->lo);
        w->again = (uint16_t)RGC_LOAD(&w->hi);
    } while (w->again != w->t_hi);
}
