/* One Cortex-M core, M0 too, which has no atomic operations in C: parts in the main loop and in interrupt handlers. An access of up to 32 bits is one
 * instruction; an exchange is a few with interrupts off, and so is a critical section. There are no barriers: a handler sees the accesses of the
 * core that it interrupts in their order, and `volatile` keeps the compiler to it: also of words at which parts are kept apart. */
#ifndef BOARD_SINGLE_CORE_H
#define BOARD_SINGLE_CORE_H
#include <stdbool.h>
#include <stddef.h>
#include <stdint.h>

/* Interrupts go off; what they were before comes back at the end. */
static inline uint32_t board_off(void)
{
    uint32_t mask;
    __asm volatile("mrs %0, primask\n\tcpsid i" : "=r"(mask) : : "memory");
    return mask;
}

static inline void board_on(uint32_t mask)
{
    __asm volatile("msr primask, %0" : : "r"(mask) : "memory");
}

#define RGC_ENTER(w) const uint32_t board_mask = board_off()
#define RGC_LEAVE(w) board_on(board_mask)

/* An access of more than 32 bits doesn't compile. */
#define BOARD_FITS(at) ((void)sizeof(char[sizeof *(at) <= 4 ? 1 : -1]))
#define RGC_ATOMIC(type) volatile type
#define RGC_APART(type) volatile type
#define RGC_LOAD(at) (BOARD_FITS(at), *(at))
#define RGC_STORE(at, value) ((void)(BOARD_FITS(at), *(at) = (value)))
#define RGC_CAS(at, old, value) (BOARD_FITS(at), board_exchange((at), &(old), (value), sizeof *(at)))

static inline uint32_t board_read(const volatile void *at, size_t size)
{
    return size == 1 ? *(const volatile uint8_t *)at : size == 2 ? *(const volatile uint16_t *)at : *(const volatile uint32_t *)at;
}

static inline void board_write(volatile void *at, uint32_t value, size_t size)
{
    if (size == 1) {
        *(volatile uint8_t *)at = (uint8_t)value;
    } else if (size == 2) {
        *(volatile uint16_t *)at = (uint16_t)value;
    } else {
        *(volatile uint32_t *)at = value;
    }
}

/* Where the word has the old value it gets the new one; else the old one is what it has. */
static inline bool board_exchange(volatile void *at, void *old, uint32_t value, size_t size)
{
    const uint32_t mask = board_off(), found = board_read(at, size);
    const bool is_old = found == board_read(old, size);
    if (is_old) {
        board_write(at, value, size);
    } else {
        board_write(old, found, size);
    }
    board_on(mask);
    return is_old;
}

/* Of start.c: a timer that calls board_tick() from its interrupt, a line of output, and the end of the emulation. */
void board_start_timer(uint32_t cycles);
void board_tick(void);
void board_print(uint32_t number);
_Noreturn void board_end(int status);

#endif
