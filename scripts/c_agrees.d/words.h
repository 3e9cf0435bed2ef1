/* The words of a header, by their numbers, and its parts. program.h is made for each program: it names them. The macros of the
 * device are defined before this is included. */
#include "program.h"
#include "rg.h"
#include <stdio.h>
#include <stdlib.h>
#include <string.h>

/* In memory of its own, so that fixed words, which are const, can be set too. */
static struct rg *words;

static void put(void *at, size_t size, uint64_t value)
{
    const uint8_t byte = (uint8_t)value;
    const uint16_t half = (uint16_t)value;
    const uint32_t whole = (uint32_t)value;
    memcpy(at, size == 1 ? (const void *)&byte : size == 2 ? (const void *)&half : size == 4 ? (const void *)&whole : (const void *)&value, size);
}

static void set_word(int number, uint64_t value)
{
    switch (number) {
#define WORD(number, member) case number: put((void *)(uintptr_t)&words->member, sizeof words->member, value); break;
    EACH_WORD(WORD)
#undef WORD
    }
}

static unsigned long long word(int number)
{
    switch (number) {
#define WORD(number, member) case number: return words->member;
    EACH_WORD(WORD)
#undef WORD
    }
    return 0;
}

/* Sets all words, from texts. */
static void set_words(char **values)
{
    for (int k = 0; k < WORDS; k++) {
        set_word(k, strtoull(values[k], NULL, 10));
    }
}

static void print_words(void)
{
    for (int k = 0; k < WORDS; k++) {
        printf(" %llu", word(k));
    }
}

static void run_part(int number)
{
    switch (number) {
#define PART(number, name) case number: rg_run_##name(words); break;
    EACH_PART(PART)
#undef PART
    }
}
