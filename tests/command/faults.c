/*
**  Faults of a machine, for the command: linked with --wrap, these stand before the system's calls, and
**  three calls of the library's; the word in the environment's FAULT says which of them fails, and how.
*/
#include "kelubashi.h"

#include <errno.h>
#include <signal.h>
#include <stdlib.h>
#include <string.h>
#include <sys/types.h>

int __real_rename(const char *from, const char *to);
int __real_fsync(int file);
int __real_close(int file);
int __real_fchmod(int file, mode_t mode);
ssize_t __real_write(int file, const void *bytes, size_t length);
ssize_t __real_read(int file, void *bytes, size_t length);
uint64_t __real_kelubashi1_summary(const uint64_t *states, size_t words, uint64_t count, uint64_t centres,
                                   uint64_t *list, size_t k, uint64_t *answer, size_t n);
uint64_t __real_kelubashi1_check(const uint8_t *file, size_t length, uint64_t *verdicts, size_t k, uint64_t *answer, size_t n);
uint64_t __real_kelubashi1_compare(const uint8_t *left, size_t left_length, const uint8_t *right, size_t right_length,
                                   uint64_t *rows, size_t k, uint64_t *answer, size_t n);

int __wrap_rename(const char *from, const char *to);
int __wrap_fsync(int file);
int __wrap_close(int file);
int __wrap_fchmod(int file, mode_t mode);
ssize_t __wrap_write(int file, const void *bytes, size_t length);
ssize_t __wrap_read(int file, void *bytes, size_t length);
uint64_t __wrap_kelubashi1_summary(const uint64_t *states, size_t words, uint64_t count, uint64_t centres,
                                   uint64_t *list, size_t k, uint64_t *answer, size_t n);
uint64_t __wrap_kelubashi1_check(const uint8_t *file, size_t length, uint64_t *verdicts, size_t k, uint64_t *answer, size_t n);
uint64_t __wrap_kelubashi1_compare(const uint8_t *left, size_t left_length, const uint8_t *right, size_t right_length,
                                   uint64_t *rows, size_t k, uint64_t *answer, size_t n);

static int reads = 0;   /* calls of read so far */

static int fault(const char *name)
{
    const char *set = getenv("FAULT");

    return set != NULL && strcmp(set, name) == 0;
}

static int failed(int reason)
{
    errno = reason;
    return -1;
}

/* Killed when all is on the disk and nothing in its place yet. */
int __wrap_rename(const char *from, const char *to)
{
    if (fault("kill"))
        raise(SIGKILL);
    return fault("rename") ? failed(EIO) : __real_rename(from, to);
}

/* The first is of the file, the second of its folder. */
int __wrap_fsync(int file)
{
    static int calls = 0;

    calls++;
    if (fault("fsync") || (fault("folder") && calls == 2))
        return failed(fault("fsync") ? ENOSPC : EIO);
    return fault("no folder fsync") && calls == 2 ? failed(EINVAL) : __real_fsync(file);
}

/* The input is closed first, then the output. */
int __wrap_close(int file)
{
    static int calls = 0;
    int done = __real_close(file);

    calls++;
    return fault("close") && calls == 2 ? failed(EDQUOT) : done;
}

int __wrap_fchmod(int file, mode_t mode)
{
    return fault("fchmod") ? failed(EPERM) : __real_fchmod(file, mode);
}

/* A few bytes at a time, with signals between; or some, and then a full disk. */
ssize_t __wrap_write(int file, const void *bytes, size_t length)
{
    static int calls = 0;

    calls++;
    if (fault("few") && calls % 2 == 0)
        return failed(EINTR);
    if (fault("full") && calls == 2)
        return failed(ENOSPC);
    return __real_write(file, bytes, (fault("few") || fault("full")) && length > 100 ? 100 : length);
}

ssize_t __wrap_read(int file, void *bytes, size_t length)
{
    reads++;
    if (fault("few") && reads % 2 == 0)
        return failed(EINTR);
    if (fault("unread") && reads == 2)
        return failed(EIO);
    return __real_read(file, bytes, (fault("few") || fault("unread")) && length > 100 ? 100 : length);
}

/* A library that gives no list, once a file has been read: what comes before is the self-check's. */
uint64_t __wrap_kelubashi1_summary(const uint64_t *states, size_t words, uint64_t count, uint64_t centres,
                                   uint64_t *list, size_t k, uint64_t *answer, size_t n)
{
    return __real_kelubashi1_summary(states, words, count, fault("summary") && reads > 0 ? centres + 1 : centres,
                                     list, k, answer, n);
}

/* A library that gives no verdicts, or accepts no row, of a file that has been read. */
uint64_t __wrap_kelubashi1_check(const uint8_t *file, size_t length, uint64_t *verdicts, size_t k, uint64_t *answer, size_t n)
{
    uint64_t refusal = __real_kelubashi1_check(file, length, verdicts, fault("no verdicts") && reads > 0 ? 0 : k, answer, n);

    if (refusal == 0 && fault("accepts none") && reads > 0)
        memset(verdicts, 0, (size_t)answer[1] * sizeof *verdicts);
    return refusal;
}

/*
**  A library that finds no room for the rows, or an answer run of another length, once files have been read; or such a run from
**  the start on, which the self-check tells.
*/
uint64_t __wrap_kelubashi1_compare(const uint8_t *left, size_t left_length, const uint8_t *right, size_t right_length,
                                   uint64_t *rows, size_t k, uint64_t *answer, size_t n)
{
    if (fault("unsound") || (fault("no answer") && reads > 0))
        n--;
    if (fault("no room for rows") && reads > 0)
        k = 0;
    return __real_kelubashi1_compare(left, left_length, right, right_length, rows, k, answer, n);
}
