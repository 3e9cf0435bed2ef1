/* Parts alone, as a compiler makes them of the header without marks, and with what it says of waiting where the device says nothing. Each line of
 * the input is `PART MILLISECONDS VALUES..`: the words get these values, and the part runs in a process of its own for so long at most, of the
 * processor's time, and to the end of the section in which it then is. A line is printed for each: `ended`, `goes on`, or the signal that stopped it, and the words. */
#include <signal.h>
#include <stdbool.h>
#include <stdint.h>
#include <sys/mman.h>
#include <sys/time.h>
#include <sys/wait.h>
#include <unistd.h>

/* Whether the part is inside a section, where nobody looks at the words, and whether its time is over. */
static volatile sig_atomic_t inside, over;

static void stop(int number)
{
    if (inside) {
        over = 1;
    } else {
        signal(number, SIG_DFL);
        raise(number);
    }
}

static void leave(void)
{
    inside = 0;
    if (over) {
        stop(SIGVTALRM);
    }
}

#define RGC_ENTER(w) do { inside = 1; __asm volatile("" : : : "memory"); } while (0)
#define RGC_LEAVE(w) do { __asm volatile("" : : : "memory"); leave(); } while (0)
#include "words.h"

static void run_alone(int part, long milliseconds)
{
    const struct itimerval most = {.it_value = {milliseconds / 1000, milliseconds % 1000 * 1000}};
    signal(SIGVTALRM, stop);
    setitimer(ITIMER_VIRTUAL, &most, NULL);
    run_part(part);
    _exit(0);
}

int main(void)
{
    static char line[65536];
    words = mmap(NULL, sizeof *words, PROT_READ | PROT_WRITE, MAP_SHARED | MAP_ANONYMOUS, -1, 0);
    while (fgets(line, sizeof line, stdin)) {
        char *values[WORDS + 2];
        int count = 0, status = 0;
        for (char *it = strtok(line, " \n"); it && count < WORDS + 2; it = strtok(NULL, " \n")) {
            values[count++] = it;
        }
        set_words(values + 2);
        fflush(stdout);
        const pid_t child = fork();
        if (!child) {
            run_alone(atoi(values[0]), atol(values[1]));
        }
        waitpid(child, &status, 0);
        if (WIFSIGNALED(status) && WTERMSIG(status) != SIGVTALRM) {
            printf("signal %d", WTERMSIG(status));
        } else {
            printf(WIFEXITED(status) ? "ended" : "goes on");
        }
        print_words();
        puts("");
    }
    return 0;
}
