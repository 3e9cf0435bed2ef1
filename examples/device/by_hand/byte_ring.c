/* The ring of byte_ring.rgo as it is written by hand; scripts/c_sizes measures it beside the C that rgc emits. */
#include BOARD

struct byte_ring {
    volatile uint8_t slot[32];
    volatile uint8_t head, tail, device;
    uint8_t value, got;
};

void byte_ring_round_handler(struct byte_ring *w);
void byte_ring_round_main(struct byte_ring *w);

void byte_ring_round_handler(struct byte_ring *w)
{
    const uint8_t head = w->head;
    if ((uint8_t)(head - w->tail) < 32u) {
        w->value = w->device;
        w->slot[head & 31u] = w->value;
        w->head = (uint8_t)(head + 1u);
    }
}

void byte_ring_round_main(struct byte_ring *w)
{
    const uint8_t tail = w->tail;
    if (w->head != tail) {
        w->got = w->slot[tail & 31u];
        w->tail = (uint8_t)(tail + 1u);
    }
}
