/* Runs with a switch at each access: RUNS SEED TURNS STEPS VALUES.., where the values are those of the words at the start. In each of its turns a
 * part that is drawn at random goes on to its next access. A line is printed of states in which no part is inside a step: the parts' places and
 * the words. After so many turns the parts make their steps to the end. A part makes so many steps at most. With RANKS some parts run on one core:
 * one of a lower rank interrupts the others; those of rank -1 have a core of their own. */
#include "coroutines.h"

static int held, holder;
#define RGC_ENTER(w) do { pause_here(); while (held) { pause_here(); } held = 1; holder = now; } while (0)
#define RGC_LEAVE(w) do { pause_here(); held = 0; } while (0)
#define RGC_WAIT(w) pause_here()
#define RGC_ATOMIC(type) type
#define RGC_LOAD(at) (pause_here(), *(at))
#define RGC_STORE(at, value) ((void)(pause_here(), *(at) = (value)))
#define RGC_CAS(at, old, value) (pause_here(), *(at) == (old) ? (*(at) = (value), true) : ((old) = *(at), false))
#include "words.h"

static uint64_t drawn;
static long most, made_by[PARTS];

static int draw(int below)
{
    drawn ^= drawn << 13;
    drawn ^= drawn >> 7;
    drawn ^= drawn << 17;
    return (int)((drawn >> 20) % (uint64_t)below);
}

static void at_step(int part, int block)
{
    place[part] = block;
    pause_here();
    place[part] = INSIDE;
    made_by[part]++;
}

static bool is_inside(int part)
{
    return place[part] == INSIDE;
}

static bool interrupts(int part, int other)
{
#ifdef RANKS
    static const int ranks[PARTS] = RANKS;
    return ranks[part] >= 0 && ranks[part] < ranks[other];
#else
    (void)part, (void)other;
    return false;
#endif
}

/* While a part is inside a step, those that it interrupts stand still; and a section holds off those that interrupt the part in it. */
static bool stands_still(int part)
{
    for (int other = 0; other < PARTS; other++) {
        if (is_inside(other) && interrupts(other, part)) {
            return true;
        }
    }
    return held && interrupts(part, holder);
}

static bool goes_on(int part)
{
    return is_inside(part) || (place[part] != ENDED && made_by[part] < most);
}

static bool any(bool (*is)(int part))
{
    for (int part = 0; part < PARTS; part++) {
        if (is(part)) {
            return true;
        }
    }
    return false;
}

static void print_state(void)
{
    for (int part = 0; part < PARTS; part++) {
        printf("%s%d", part ? " " : "", place[part]);
    }
    print_words();
    puts("");
}

/* The parts that are inside a step go on until none is. */
static void settle(void)
{
    while (any(is_inside)) {
        for (int part = 0; part < PARTS; part++) {
            if (is_inside(part) && !stands_still(part)) {
                resume(part);
            }
        }
    }
}

static void run(long turns)
{
    const int often = draw(4);
    int part = draw(PARTS);
    for (long made = 0; made < turns && any(goes_on); made++) {
        if (!often || !draw(1 << often) || !goes_on(part)) {
            part = draw(PARTS);
        }
        if (goes_on(part) && !stands_still(part)) {
            resume(part);
        }
        if (!draw(32)) {
            settle();
            print_state();
        }
    }
    settle();
    print_state();
}

int main(int count, char **values)
{
    const long runs = atol(values[1]), turns = atol(values[3]);
    (void)count;
    drawn = strtoull(values[2], NULL, 10) * 2654435761u + 88172645463325252u;
    most = atol(values[4]);
    words = calloc(1, sizeof *words);
    for (long made = 0; made < runs; made++) {
        set_words(values + 5);
        held = 0;
        for (int part = 0; part < PARTS; part++) {
            made_by[part] = 0;
            begin(part);
        }
        settle();
        run(turns);
    }
    return 0;
}
