/* From reset to main, and what board.h declares: the core's own timer, and output by semihosting, which an emulator or a debugger takes. */
#ifndef BOARD
#define BOARD "board.h"
#endif
#include BOARD

extern uint32_t data_begin[], data_end[], data_image[], bss_begin[], bss_end[], stack_top[];
int main(void);
void reset(void);

enum { WRITE_TEXT = 0x04, EXIT = 0x20, EXITED = 0x20026 };
enum { TIMER_ON = 1, TIMER_INTERRUPTS = 2, TIMER_OF_CORE = 4 };
#define TIMER ((volatile uint32_t *)0xE000E010) /* control, reload, current */

static void semihost(int what, const void *with)
{
    register int r0 __asm("r0") = what;
    register const void *r1 __asm("r1") = with;
    __asm volatile("bkpt 0xAB" : "+r"(r0) : "r"(r1) : "memory");
}

void board_print(uint32_t number)
{
    char text[12], *at = text + sizeof text;
    *--at = '\0';
    *--at = '\n';
    do {
        *--at = (char)('0' + number % 10);
        number /= 10;
    } while (number);
    semihost(WRITE_TEXT, at);
}

_Noreturn void board_end(int status)
{
    const int why[] = { EXITED, status };
    for (;;) {
        semihost(EXIT, why);
    }
}

void board_start_timer(uint32_t cycles)
{
    TIMER[1] = cycles - 1;
    TIMER[2] = 0;
    TIMER[0] = TIMER_ON | TIMER_INTERRUPTS | TIMER_OF_CORE;
}

void reset(void)
{
    for (uint32_t *to = data_begin, *from = data_image; to < data_end;) {
        *to++ = *from++;
    }
    for (uint32_t *to = bss_begin; to < bss_end;) {
        *to++ = 0;
    }
    board_end(main());
}

static void fault(void)
{
    board_end(2);
}

/* What the processor reads after a reset: the stack, and where to go. The last of the 16 is the timer of the core. */
__attribute__((section(".vectors"), used)) static const struct {
    const uint32_t *stack;
    void (*handlers[15])(void);
} vectors = { stack_top, { reset, fault, fault, fault, fault, fault, [14] = board_tick } };
