/* One Cortex-M core from M3 on, parts in the main loop and in interrupt handlers: a critical section is a stretch with interrupts off.
 * Atomic words are those of <stdatomic.h>. */
#ifndef BOARD_H
#define BOARD_H
#include <stdint.h>

/* Interrupts go off; what they were before comes back at the end, so a section may be entered with interrupts off. */
static inline uint32_t board_off(void)
{
    uint32_t mask;
    __asm volatile("mrs %0, primask\n\tcpsid i" : "=r"(mask) : : "memory");
    return mask;
}

static inline void board_on(uint32_t mask)
{
    __asm volatile("msr primask, %0" : : "r"(mask) : "memory");
}

#define RGC_ENTER(w) const uint32_t board_mask = board_off()
#define RGC_LEAVE(w) board_on(board_mask)

/* Of start.c: a timer that calls board_tick() from its interrupt, a line of output, and the end of the emulation. */
void board_start_timer(uint32_t cycles);
void board_tick(void);
void board_print(uint32_t number);
_Noreturn void board_end(int status);

#endif
