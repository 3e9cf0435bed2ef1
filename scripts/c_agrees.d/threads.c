/* Runs in threads: RUNS MICROSECONDS STEPS VALUES.., where the values are those of the words at the start. After so many microseconds the parts
 * that have not ended stop before their next steps, and so does a part that has made so many steps. A line is printed for each run: the parts'
 * places, and the words. */
#define _GNU_SOURCE
#include <pthread.h>
#include <sched.h>
#include <stdatomic.h>
#include <stdbool.h>
#include <stdint.h>
#include <unistd.h>

enum { ENDED = -1 };

static void at_step(int part, int block);
static pthread_mutex_t lock = PTHREAD_MUTEX_INITIALIZER;
#define RGC_ENTER(w) ((void)pthread_mutex_lock(&lock))
#define RGC_LEAVE(w) ((void)pthread_mutex_unlock(&lock))
#define RGC_WAIT(w) ((void)sched_yield())
#define RGC_AT(part, block) at_step((part), (block))
#include "words.h"

static int place[PARTS];
static long most, made_by[PARTS];
static atomic_int stop, left;

static void at_step(int part, int block)
{
    /* (relaxed: it orders nothing that the parts do) */
    if (made_by[part]++ == most || atomic_load_explicit(&stop, memory_order_relaxed)) {
        place[part] = block;
        atomic_fetch_sub(&left, 1);
        pthread_exit(NULL);
    }
}

static void *go(void *number)
{
    const int part = (int)(intptr_t)number;
    made_by[part] = 0;
    run_part(part);
    place[part] = ENDED;
    atomic_fetch_sub(&left, 1);
    return NULL;
}

static void run(long microseconds)
{
    pthread_t threads[PARTS];
    atomic_store(&stop, 0);
    atomic_store(&left, PARTS);
    for (int part = 0; part < PARTS; part++) {
        pthread_create(&threads[part], NULL, go, (void *)(intptr_t)part);
    }
    for (long waited = 0; waited < microseconds && atomic_load(&left); waited += 100) {
        usleep(100);
    }
    atomic_store(&stop, 1);
    for (int part = 0; part < PARTS; part++) {
        pthread_join(threads[part], NULL);
    }
}

int main(int count, char **values)
{
    const long runs = atol(values[1]), microseconds = atol(values[2]);
    (void)count;
    most = atol(values[3]);
    words = calloc(1, sizeof *words);
    for (long made = 0; made < runs; made++) {
        set_words(values + 4);
        run(microseconds);
        for (int part = 0; part < PARTS; part++) {
            printf("%s%d", part ? " " : "", place[part]);
        }
        print_words();
        puts("");
    }
    return 0;
}
