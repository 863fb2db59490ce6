/* temporary.c: a file is replaced by writing a new one beside it and renaming that. The new one is removed when hf fails or is stopped by a
   signal, and the key is wiped. */

#include "hf.h"

#include <errno.h>
#include <limits.h>
#include <signal.h>
#include <stdlib.h>
#include <string.h>
#include <unistd.h>

static const int STOPPING[] = {SIGINT, SIGTERM, SIGHUP, SIGQUIT};
enum { STOPPING_COUNT = sizeof STOPPING / sizeof STOPPING[0] };

static char temporary[PATH_MAX];
static volatile sig_atomic_t stands;

static void tidy(void)
{
    if (stands)
        unlink(temporary);
    stands = 0;
    wipe_key();
}

static void stop(int number)
{
    progress_end();
    tidy();
    signal(number, SIG_DFL);
    raise(number);
}

/* Tidies at the end and at each stopping signal that is not ignored. */
void tidy_at_the_end(void)
{
    atexit(tidy);
    for (int i = 0; i < STOPPING_COUNT; i++)
        if (signal(STOPPING[i], stop) == SIG_IGN)
            signal(STOPPING[i], SIG_IGN);
}

/* Holds the stopping signals back, or lets them through, so that the name and the file agree when one comes. */
static void hold_signals(int how)
{
    sigset_t set;
    sigemptyset(&set);
    for (int i = 0; i < STOPPING_COUNT; i++)
        sigaddset(&set, STOPPING[i]);
    sigprocmask(how, &set, NULL);
}

/* How many characters of the path name its directory, with the slash. */
int directory_length(const char *path)
{
    const char *slash = strrchr(path, '/');
    return slash == NULL ? 0 : (int)(slash + 1 - path);
}

/* Makes a new file in the directory of `path`, for the owner alone, open for writing. */
int make_temporary(const char *path)
{
    if (snprintf(temporary, sizeof temporary, "%.*s.hf-XXXXXX", directory_length(path), path) >= (int)sizeof temporary)
        fail(WRONG, "cannot write %s: the name is too long", path);
    hold_signals(SIG_BLOCK);
    int file = mkstemp(temporary);
    int error = errno;
    stands = file >= 0;
    hold_signals(SIG_UNBLOCK);
    if (file < 0)
        fail(WRONG, "cannot write a file beside %s: %s", path, strerror(error));
    return file;
}

/* Puts the new file in the place of `path`. */
void rename_temporary(const char *path)
{
    hold_signals(SIG_BLOCK);
    bool renamed = rename(temporary, path) == 0;
    int error = errno;
    if (renamed)
        stands = 0;
    hold_signals(SIG_UNBLOCK);
    if (!renamed)
        fail(WRONG, "cannot replace %s: %s", path, strerror(error));
}
