/* progress.c: a progress bar on standard error, where that is a terminal and the work takes longer than half a second. */

#include "hf.h"

#include <signal.h>
#include <time.h>
#include <unistd.h>

enum { WIDTH = 40 };
static const double FIRST = 0.5, NEXT = 0.1; /* seconds */

static bool on_terminal;
static volatile sig_atomic_t drawn;
static double begun, last;

static double now(void)
{
    struct timespec time;
    clock_gettime(CLOCK_MONOTONIC, &time);
    return (double)time.tv_sec + (double)time.tv_nsec / 1e9;
}

void progress_begin(void)
{
    on_terminal = isatty(STDERR_FILENO);
    begun = now();
}

/* Draws the bar where it is due: `all` is not 0. */
void progress(const char *work, size_t done, size_t all)
{
    if (!on_terminal)
        return;
    double time = now();
    if (time - begun < FIRST || time - last < NEXT)
        return;
    char bar[WIDTH + 1];
    for (size_t i = 0; i < WIDTH; i++)
        bar[i] = i < WIDTH * done / all ? '#' : '.';
    bar[WIDTH] = '\0';
    drawn = true;
    fprintf(stderr, "\r%s [%s] %3zu%%", work, bar, 100 * done / all);
    last = time;
}

/* Takes the bar off the terminal; by a system call, since a stopping signal does it too. */
void progress_end(void)
{
    static const char OFF[] = "\r\033[K";
    if (drawn && write(STDERR_FILENO, OFF, sizeof OFF - 1) < 0)
        return;
    drawn = false;
}
