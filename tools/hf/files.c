/* files.c: files read whole, and files replaced whole, so that a failed or interrupted command leaves the old one as it was. */

#include "hf.h"

#include <errno.h>
#include <fcntl.h>
#include <limits.h>
#include <stdlib.h>
#include <string.h>
#include <sys/file.h>
#include <sys/stat.h>
#include <unistd.h>

/* Reads the file to its end, or until `room` bytes are full, and answers how many bytes there are. */
size_t read_file(const char *name, uint8_t *bytes, size_t room)
{
    size_t done = 0;
    ssize_t now = 1;
    int file = open(name, O_RDONLY | O_CLOEXEC);
    if (file < 0)
        fail(WRONG, "cannot open %s: %s", name, strerror(errno));
    while (now > 0 && done < room) {
        now = read(file, bytes + done, room - done);
        if (now < 0)
            fail(WRONG, "cannot read %s: %s", name, strerror(errno));
        done += (size_t)now;
    }
    close(file);
    return done;
}

bool same_file(const char *one, const char *other)
{
    struct stat a, b;
    return stat(one, &a) == 0 && stat(other, &b) == 0 && a.st_dev == b.st_dev && a.st_ino == b.st_ino;
}

/* Ends with an error where the file is there and is not one that hf may replace. */
void want_replaceable(const char *name)
{
    struct stat state;
    if (stat(name, &state) != 0)
        return;
    if (S_ISDIR(state.st_mode))
        fail(WRONG, "cannot write %s: it is a directory", name);
    if (!S_ISREG(state.st_mode))
        fail(WRONG, "cannot write %s: it is no ordinary file", name);
    if (access(name, W_OK) != 0)
        fail(WRONG, "cannot write %s: %s", name, strerror(errno));
}

/* Keeps other runs of hf from changing the file until this one ends, so that none loses the other's change. A file that is replaced while
   this one waits is opened anew. A file that is not there needs no lock. It is opened for writing too, since a file of NFS is only locked so. */
void lock_file(const char *name)
{
    struct stat held, named;
    for (;;) {
        int file = open(name, O_RDWR | O_CLOEXEC);
        if (file < 0 && errno == ENOENT)
            return;
        if (file < 0)
            fail(WRONG, "cannot open %s: %s", name, strerror(errno));
        bool locked = flock(file, LOCK_EX | LOCK_NB) == 0;
        if (!locked && errno == EWOULDBLOCK) {
            note("note: waiting for another command that changes %s", name);
            locked = flock(file, LOCK_EX) == 0;
        }
        if (!locked || fstat(file, &held) != 0)
            fail(WRONG, "cannot lock %s: %s", name, strerror(errno));
        if (stat(name, &named) == 0 && held.st_dev == named.st_dev && held.st_ino == named.st_ino)
            return;
        close(file);
    }
}

/* Puts into `path` the path of the file itself, behind symbolic links. */
static void path_behind(const char *name, char path[PATH_MAX])
{
    struct stat state;
    if (realpath(name, path) != NULL)
        return;
    if (errno != ENOENT)
        fail(WRONG, "cannot write %s: %s", name, strerror(errno));
    if (lstat(name, &state) == 0)
        fail(WRONG, "cannot write %s: it is a symbolic link that leads nowhere", name);
    snprintf(path, PATH_MAX, "%s", name);
}

static void write_all(int file, const char *name, const uint8_t *bytes, size_t length)
{
    while (length > 0) {
        ssize_t now = write(file, bytes, length);
        if (now < 0)
            fail(WRONG, "cannot write %s: %s", name, strerror(errno));
        bytes += now;
        length -= (size_t)now;
    }
}

/* Gives the new file the owner, group and permissions of the old one, or those that a new file has. A user who may not give a file away
   becomes its owner; its group is always kept. */
static void give_permissions(int file, const char *name, const char *path)
{
    struct stat old;
    mode_t mode;
    if (stat(path, &old) == 0) {
        mode = old.st_mode & 07777;
        if (fchown(file, old.st_uid, old.st_gid) != 0 && fchown(file, (uid_t)-1, old.st_gid) != 0)
            fail(WRONG, "cannot keep the group of %s: %s", name, strerror(errno));
    } else {
        mode_t mask = umask(0);
        umask(mask);
        mode = 0666 & ~mask;
    }
    if (fchmod(file, mode) != 0)
        fail(WRONG, "cannot set the permissions of %s: %s", name, strerror(errno));
}

/* Makes the new name last, should the power go. Where the system cannot, the file is written all the same, so this is no error. */
static void sync_directory(const char *name, const char *path)
{
    char directory[PATH_MAX];
    snprintf(directory, sizeof directory, "%.*s.", directory_length(path), path);
    int file = open(directory, O_RDONLY | O_DIRECTORY | O_CLOEXEC);
    if (file < 0 || fsync(file) != 0)
        note("note: %s is written, but may not outlast a loss of power: %s", name, strerror(errno));
    if (file >= 0)
        close(file);
}

/* Replaces the file by the bytes, all of it or nothing. */
void replace_file(const char *name, const uint8_t *bytes, size_t length)
{
    char path[PATH_MAX];
    path_behind(name, path);
    int file = make_temporary(path);
    write_all(file, name, bytes, length);
    give_permissions(file, name, path);
    if (fsync(file) != 0 || close(file) != 0)
        fail(WRONG, "cannot write %s: %s", name, strerror(errno));
    rename_temporary(path);
    tell_written(name);
    sync_directory(name, path);
}

/* Whether the file is an ordinary one that is standard output, as /dev/stdout may be. */
static bool is_standard_output(const char *name)
{
    struct stat state, output;
    return stat(name, &state) == 0 && fstat(STDOUT_FILENO, &output) == 0 && S_ISREG(state.st_mode) && state.st_dev == output.st_dev &&
           state.st_ino == output.st_ino;
}

/* Replaces an ordinary file, or writes to a device or pipe. A file that is standard output is not replaced: what it holds already stays. */
void write_file(const char *name, const uint8_t *bytes, size_t length)
{
    struct stat state;
    if (is_standard_output(name)) {
        put_bytes(bytes, length);
        return;
    }
    if (stat(name, &state) != 0 || S_ISREG(state.st_mode) || S_ISDIR(state.st_mode)) {
        want_replaceable(name);
        replace_file(name, bytes, length);
        return;
    }
    int file = open(name, O_WRONLY | O_CLOEXEC);
    if (file < 0)
        fail(WRONG, "cannot open %s: %s", name, strerror(errno));
    write_all(file, name, bytes, length);
    if (close(file) != 0)
        fail(WRONG, "cannot write %s: %s", name, strerror(errno));
}
