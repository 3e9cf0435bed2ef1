/* Each part in a context of its own, in one thread: resume() lets a part go on until it pauses or has ended. */
#define _GNU_SOURCE
#include <ucontext.h>
#include <stdbool.h>
#include <stdint.h>
#include "program.h"

/* The place of a part that has ended, and of one that is inside a step. */
enum { ENDED = -1, INSIDE = -2, STACK = 65536 };

static void at_step(int part, int block);
#define RGC_AT(part, block) at_step((part), (block))

static int place[PARTS], now;

static void run_part(int number);
static ucontext_t back, there[PARTS];
static char stacks[PARTS][STACK];

static void pause_here(void)
{
    swapcontext(&there[now], &back);
}

static void go(int part)
{
    run_part(part);
    place[part] = ENDED;
}

static void resume(int part)
{
    now = part;
    swapcontext(&back, &there[part]);
}

/* A part begins: it comes to its first step where it is resumed. */
static void begin(int part)
{
    getcontext(&there[part]);
    there[part].uc_stack.ss_sp = stacks[part];
    there[part].uc_stack.ss_size = STACK;
    there[part].uc_link = &back;
    makecontext(&there[part], (void (*)(void))go, 1, part);
    place[part] = INSIDE;
}
