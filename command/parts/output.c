#include "output.h"

#include "say.h"

#include <errno.h>
#include <fcntl.h>
#include <libgen.h>
#include <stdio.h>
#include <stdlib.h>
#include <string.h>
#include <sys/stat.h>
#include <unistd.h>

enum { NAME = 4096 };   /* bytes of the longest name, its end included: PATH_MAX of Linux */

/* ---- standard output ---- */

void gather_output(void)
{
    static char gathered[1 << 21];  /* the fullest result files, each figure moved, take three quarters of it */

    setvbuf(stdout, gathered, _IOFBF, sizeof gathered);
}

enum status finish_output(void)
{
    int failed = ferror(stdout);

    errno = 0;
    if (fclose(stdout) == 0 && !failed)
        return ALL_WELL;
    say_unwritten("standard output", errno != 0 ? errno : EIO);
    return NOT_DONE;
}

/* ---- a file ---- */

/* The name of the file itself, where this one is a symbolic link to it. */
static int follow(const char *name, char *target)
{
    struct stat about;
    char *real = NULL;

    if (lstat(name, &about) == 0 && S_ISLNK(about.st_mode)) {
        real = realpath(name, NULL);
        if (real == NULL)
            return 0;
        name = real;
    }
    errno = ENAMETOOLONG;
    if (strlen(name) >= NAME) {
        free(real);
        return 0;
    }
    strcpy(target, name);
    free(real);
    return 1;
}

/* The mode of a new file, as any program's. */
static mode_t new_mode(void)
{
    mode_t mask = umask(0);

    umask(mask);
    return 0666 & ~mask;
}

/* Whether two names are of one file. */
static int is_same(const struct stat *about, const char *name)
{
    struct stat other;

    return stat(name, &other) == 0 && other.st_dev == about->st_dev && other.st_ino == about->st_ino;
}

/* Whether what has this name, if anything has, may be replaced, and with which mode; if not, it is said. */
static int may_replace(const char *target, const char *source, mode_t *mode)
{
    struct stat about;

    if (stat(target, &about) != 0) {
        *mode = new_mode();
        if (errno == ENOENT)
            return 1;
        say_unwritten(target, errno);
    } else if (S_ISDIR(about.st_mode)) {
        say_unwritten(target, EISDIR);
    } else if (!S_ISREG(about.st_mode)) {
        say("%s: is no regular file, and is not replaced by one: leave -o out, and let the shell write there", target);
    } else if (is_same(&about, source)) {
        say("%s: is the file that was read, and is not written over: give another name", target);
    } else {
        *mode = about.st_mode & 0777;
        return 1;
    }
    return 0;
}

/* Writes all; a signal or a short write is no failure. */
static int put_all(int file, const uint8_t *bytes, size_t length)
{
    while (length > 0) {
        ssize_t put = write(file, bytes, length);

        if (put >= 0) {
            bytes += put;
            length -= (size_t)put;
        } else if (errno != EINTR) {
            return 0;
        }
    }
    return 1;
}

/* Fills the file and sees it onto the disk; closed in any case. */
static int fill(int file, mode_t mode, const uint8_t *bytes, size_t length)
{
    int good = fchmod(file, mode) == 0 && put_all(file, bytes, length) && fsync(file) == 0;
    int reason = errno;

    if (close(file) != 0 && good)
        return 0;
    errno = reason;
    return good;
}

/* Sees the folder's new entry onto the disk, where its file system can. */
static int settle_folder(const char *target)
{
    char name[NAME];
    int folder, good;

    strcpy(name, target);
    folder = open(dirname(name), O_RDONLY);
    if (folder == -1)
        return errno == EACCES;     /* a folder may be written and not read */
    good = fsync(folder) == 0 || errno == EINVAL;
    close(folder);
    return good;
}

/* Writes the new file beside its place, and puts it there. */
static enum status replace(const char *target, mode_t mode, const uint8_t *bytes, size_t length)
{
    char beside[NAME + 8];
    int file;

    snprintf(beside, sizeof beside, "%s.XXXXXX", target);
    file = mkstemp(beside);
    if (file == -1) {
        say_unwritten(target, errno);
        return NOT_DONE;
    }
    if (!fill(file, mode, bytes, length) || rename(beside, target) != 0) {
        say_unwritten(target, errno);
        unlink(beside);
        return NOT_DONE;
    }
    if (!settle_folder(target)) {
        say("%s: is written, and its folder is not on the disk yet: %s: look at that disk", target, strerror(errno));
        return NOT_DONE;
    }
    return ALL_WELL;
}

static enum status write_file(const char *name, const char *source, const uint8_t *bytes, size_t length)
{
    char target[NAME];
    mode_t mode;

    if (!follow(name, target)) {
        say_unwritten(name, errno);
        return NOT_DONE;
    }
    return may_replace(target, source, &mode) ? replace(target, mode, bytes, length) : NOT_DONE;
}

const char *output_name(const struct call *call)
{
    return call->output == NULL ? "standard output" : call->output;
}

enum status write_output(const char *name, const char *source, const uint8_t *bytes, size_t length)
{
    if (name != NULL)
        return write_file(name, source, bytes, length);
    if (put_all(STDOUT_FILENO, bytes, length))
        return ALL_WELL;
    say_unwritten("standard output", errno);
    return NOT_DONE;
}
