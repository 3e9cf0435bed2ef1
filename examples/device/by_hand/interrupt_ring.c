/* The ring of interrupt_ring.rgo as it is written by hand; scripts/c_sizes measures it beside the C that rgc emits. */
#include BOARD

struct interrupt_ring {
    volatile uint32_t slot[16];
    volatile uint8_t head, tail;
    volatile uint32_t device;
    uint32_t value, got;
};

void interrupt_ring_round_handler(struct interrupt_ring *w);
void interrupt_ring_round_main(struct interrupt_ring *w);

void interrupt_ring_round_handler(struct interrupt_ring *w)
{
    const uint8_t head = w->head;
    if ((uint8_t)(head - w->tail) < 16u) {
        w->value = w->device;
        w->slot[head & 15u] = w->value;
        w->head = (uint8_t)(head + 1u);
    }
}

void interrupt_ring_round_main(struct interrupt_ring *w)
{
    const uint8_t tail = w->tail;
    if (w->head != tail) {
        w->got = w->slot[tail & 15u];
        w->tail = (uint8_t)(tail + 1u);
    }
}
