/* An AVR controller of 8 bits: parts in the main loop and in interrupt handlers. An access of one byte is one instruction; a wider one, an exchange and a
 * critical section are a few with interrupts off. */
#ifndef BOARD_AVR_H
#define BOARD_AVR_H
#include <avr/interrupt.h>
#include <avr/io.h>
#include <stdbool.h>
#include <stddef.h>
#include <stdint.h>

/* Interrupts go off; what they were before comes back at the end. */
static inline uint8_t board_off(void)
{
    const uint8_t state = SREG;
    __asm volatile("cli" : : : "memory");
    return state;
}

static inline void board_on(uint8_t state)
{
    __asm volatile("" : : : "memory");
    SREG = state;
}

#define RGC_ENTER(w) const uint8_t board_state = board_off()
#define RGC_LEAVE(w) board_on(board_state)

/* The compiler keeps `volatile` accesses in their order, also those of words at which parts are kept apart. */
#define RGC_ATOMIC(type) volatile type
#define RGC_APART(type) volatile type
#define RGC_LOAD(at) (sizeof *(at) == 1 ? *(at) : board_load((at), sizeof *(at)))
#define RGC_STORE(at, value) (sizeof *(at) == 1 ? (void)(*(at) = (value)) : board_store((at), (value), sizeof *(at)))
#define RGC_CAS(at, old, value) board_exchange((at), &(old), (value), sizeof *(at))

static inline uint64_t board_read(const volatile void *at, size_t size)
{
    return size == 1 ? *(const volatile uint8_t *)at : size == 2 ? *(const volatile uint16_t *)at : size == 4 ? *(const volatile uint32_t *)at : *(const volatile uint64_t *)at;
}

static inline void board_write(volatile void *at, uint64_t value, size_t size)
{
    if (size == 1) {
        *(volatile uint8_t *)at = (uint8_t)value;
    } else if (size == 2) {
        *(volatile uint16_t *)at = (uint16_t)value;
    } else if (size == 4) {
        *(volatile uint32_t *)at = (uint32_t)value;
    } else {
        *(volatile uint64_t *)at = value;
    }
}

static inline uint64_t board_load(const volatile void *at, size_t size)
{
    const uint8_t state = board_off();
    const uint64_t found = board_read(at, size);
    board_on(state);
    return found;
}

static inline void board_store(volatile void *at, uint64_t value, size_t size)
{
    const uint8_t state = board_off();
    board_write(at, value, size);
    board_on(state);
}

/* Where the word has the old value it gets the new one; else the old one is what it has. */
static inline bool board_exchange(volatile void *at, void *old, uint64_t value, size_t size)
{
    const uint8_t state = board_off();
    const uint64_t found = board_read(at, size);
    const bool is_old = found == board_read(old, size);
    if (is_old) {
        board_write(at, value, size);
    } else {
        board_write(old, found, size);
    }
    board_on(state);
    return is_old;
}

#endif
