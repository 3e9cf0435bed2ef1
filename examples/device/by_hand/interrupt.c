/* The counter of interrupt.rgo as it is written by hand; scripts/c_sizes measures it beside the C that rgc emits. */
#include BOARD

struct interrupt {
    volatile uint8_t off, lo, hi;
    uint8_t t_lo, t_hi;
};

void interrupt_run_main(struct interrupt *w);
void interrupt_round_handler(struct interrupt *w);

void interrupt_run_main(struct interrupt *w)
{
    w->off = 1;
    w->t_lo = w->lo;
    w->t_hi = w->hi;
    w->off = 0;
}

/* An interrupt handler: main doesn't come between. */
void interrupt_round_handler(struct interrupt *w)
{
    while (w->off) {
    }
    const uint8_t lo = (uint8_t)(w->lo + 1u);
    w->lo = lo;
    if (lo == 0) {
        w->hi = (uint8_t)(w->hi + 1u);
    }
}
