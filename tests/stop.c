/* stop.c: preloaded into hf, it stops it at one system call, so that the tests need no luck to hit the moment.

   STOP_AT is CALL:NUMBER: the call is write, fsync or rename, and NUMBER says which of them, from 1 on. STOP_BY is a signal's number, or 0 for
   a call that fails with "No space left on device". */

#define _GNU_SOURCE
#include <dlfcn.h>
#include <errno.h>
#include <signal.h>
#include <stdio.h>
#include <stdlib.h>
#include <string.h>
#include <sys/types.h>

/* Whether this call of that name is the one; it is stopped by the signal where there is one. */
static int stopped(const char *call)
{
    static int seen;
    const char *at = getenv("STOP_AT"), *by = getenv("STOP_BY");
    size_t length = strlen(call);
    if (at == NULL || by == NULL || strncmp(at, call, length) != 0 || at[length] != ':' || ++seen != atoi(at + length + 1))
        return 0;
    if (atoi(by) != 0) {
        raise(atoi(by));
        return 0;
    }
    errno = ENOSPC;
    return 1;
}

/* hf leaves a signal ignored that it finds so, as SIGINT is where a shell runs the tests in the background: here it is let through. */
__attribute__((constructor)) static void let_through(void)
{
    const char *by = getenv("STOP_BY");
    if (by != NULL && atoi(by) != 0)
        signal(atoi(by), SIG_DFL);
}

ssize_t write(int file, const void *bytes, size_t length)
{
    ssize_t (*next)(int, const void *, size_t) = (ssize_t(*)(int, const void *, size_t))dlsym(RTLD_NEXT, "write");
    return stopped("write") ? -1 : next(file, bytes, length);
}

int fsync(int file)
{
    int (*next)(int) = (int (*)(int))dlsym(RTLD_NEXT, "fsync");
    return stopped("fsync") ? -1 : next(file);
}

int rename(const char *from, const char *to)
{
    int (*next)(const char *, const char *) = (int (*)(const char *, const char *))dlsym(RTLD_NEXT, "rename");
    return stopped("rename") ? -1 : next(from, to);
}
