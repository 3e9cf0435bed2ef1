/* Single steps. Each line of the input is `r`, all parts begin anew; `s PART VALUES..`, the words get these values and the part makes a step;
 * or `f VALUES..`, which asks for the formulas. A line is printed for each: the place of the part, the words, and what the step did. */
#include "coroutines.h"

static int loads, stores, swaps, sections, held, wrong;
static const volatile void *touched;

/* Whether the part that makes the step is the only one that writes the word: it reads it as its own. */
static bool is_own(const volatile void *at);

/* A step makes all its accesses to atomic words at one of them, but for those to words that it reads as its own. */
#define TOUCH(at) (wrong |= touched && touched != (const volatile void *)(at), touched = (const volatile void *)(at))
#define RGC_ENTER(w) (wrong |= held, held = 1, sections++)
#define RGC_LEAVE(w) (wrong |= !held, held = 0)
#define RGC_ATOMIC(type) type
#define RGC_LOAD(at) (is_own(at) ? (void)0 : (void)(TOUCH(at), loads++), *(at))
#define RGC_STORE(at, value) ((void)(TOUCH(at), stores++, *(at) = (value)))
#define RGC_CAS(at, old, value) (TOUCH(at), swaps++, *(at) == (old) ? (*(at) = (value), true) : ((old) = *(at), false))
#include "words.h"

static bool is_own(const volatile void *at)
{
#define PUBLISHED(part, member) if (now == part && at == (const volatile void *)&words->member) { return true; }
    EACH_PUBLISHED(PUBLISHED)
#undef PUBLISHED
    return false;
}

static void at_step(int part, int block)
{
    wrong |= held;
    place[part] = block;
    pause_here();
    place[part] = INSIDE;
}

static void begin_all(void)
{
    for (int part = 0; part < PARTS; part++) {
        begin(part);
        resume(part);
    }
}

int main(void)
{
    static char line[65536];
    words = calloc(1, sizeof *words);
    while (fgets(line, sizeof line, stdin)) {
        char *values[WORDS + 2];
        int count = 0;
        for (char *it = strtok(line, " \n"); it && count < WORDS + 2; it = strtok(NULL, " \n")) {
            values[count++] = it;
        }
        loads = stores = swaps = sections = wrong = 0;
        touched = NULL;
        if (values[0][0] == 'r') {
            begin_all();
            continue;
        }
        if (values[0][0] == 'f') {
            set_words(values + 1);
            printf("%d %d\n", rg_pre(words), rg_post(words));
            continue;
        }
        const int part = atoi(values[1]);
        set_words(values + 2);
        resume(part);
        printf("%d", place[part]);
        print_words();
        printf(" did %d %d %d %d %d\n", loads, stores, swaps, sections, wrong | held);
    }
    return 0;
}
