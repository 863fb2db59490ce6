/* main.c: the command hf, from its command line to its exit status. */

#include "hf.h"

#include <fcntl.h>
#include <signal.h>

/* A standard file that is closed is opened so that using it fails, and no other file takes its number. */
static void hold_standard_files(void)
{
    for (int file = 0; file <= 2; file++)
        if (fcntl(file, F_GETFD) == -1)
            open("/dev/null", file == 0 ? O_WRONLY : O_RDONLY);
}

int main(int count, char **words)
{
    hold_standard_files();
    signal(SIGPIPE, SIG_IGN);
    signal(SIGXFSZ, SIG_IGN); /* a write that fails is told, and the new file removed */
    tidy_at_the_end();
    progress_begin();
    struct request request = request_of(count, words);
    enum status status = request.command->run(&request);
    close_output();
    return status;
}
