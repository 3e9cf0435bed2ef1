/* A file of C that includes a header twice, under two titles, and uses all that it declares. program.h is made for each program. HOSTED includes all
 * headers of C before. */
#ifdef HOSTED
#include <assert.h>
#include <complex.h>
#include <ctype.h>
#include <errno.h>
#include <fenv.h>
#include <float.h>
#include <inttypes.h>
#include <iso646.h>
#include <limits.h>
#include <locale.h>
#include <math.h>
#include <setjmp.h>
#include <signal.h>
#include <stdalign.h>
#include <stdarg.h>
#include <stdatomic.h>
#include <stddef.h>
#include <stdio.h>
#include <stdlib.h>
#include <stdnoreturn.h>
#include <string.h>
#include <tgmath.h>
#include <threads.h>
#include <time.h>
#include <uchar.h>
#include <wchar.h>
#include <wctype.h>
#endif
#ifdef BOARD
#include BOARD
#else
#define RGC_ENTER(w) ((void)(w))
#define RGC_LEAVE(w) ((void)(w))
#endif
#include "program.h"
#include "rg.h"
#include "Rg.h"

#define PART(number, name) void part_##number(struct rg *w); void part_##number(struct rg *w) { rg_run_##name(w); }
EACH_PART(PART)
#define ROUND(number, name) void round_##number(struct rg *w); void round_##number(struct rg *w) { rg_round_##name(w); }
EACH_ROUND(ROUND)

#define SECOND(number, name) void second_##number(struct Rg *w); void second_##number(struct Rg *w) { Rg_run_##name(w); }
EACH_SECOND(SECOND)

bool formulas(struct rg *w);
bool formulas(struct rg *w)
{
    return rg_pre(w) && rg_post(w);
}

bool second_formulas(struct Rg *w);
bool second_formulas(struct Rg *w)
{
    return Rg_pre(w) && Rg_post(w);
}

#ifdef RGC_START_rg
struct rg start(void);
struct rg start(void)
{
    const struct rg words = RGC_START_rg;
    return words;
}

struct Rg second_start(void);
struct Rg second_start(void)
{
    const struct Rg words = RGC_START_Rg;
    return words;
}
#endif
