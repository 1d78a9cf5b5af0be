#include "say.h"

#include "kelubashi.h"

#include <errno.h>
#include <inttypes.h>
#include <stdarg.h>
#include <stdio.h>
#include <string.h>

static const char *speaker = NULL;

void speak_as(const char *subcommand)
{
    speaker = subcommand;
}

/* How every line starts. */
static void begin(void)
{
    if (speaker == NULL)
        fputs("kelubashi: ", stderr);
    else
        fprintf(stderr, "kelubashi %s: ", speaker);
}

void say(const char *format, ...)
{
    va_list rest;

    begin();
    va_start(rest, format);
    vfprintf(stderr, format, rest);
    va_end(rest);
    fputc('\n', stderr);
}

void put_refusal(FILE *stream, uint64_t number)
{
    fprintf(stream, "refused (%" PRIu64 "): %s", number, kelubashi_refusal_text(number));
}

void put_refused(FILE *stream, uint64_t number)
{
    put_refusal(stream, number);
    fprintf(stream, "; %s\n", kelubashi_refusal_advice(number));
}

void say_refused(uint64_t number, const char *format, ...)
{
    va_list rest;

    begin();
    va_start(rest, format);
    vfprintf(stderr, format, rest);
    va_end(rest);
    fputc(' ', stderr);
    put_refused(stderr, number);
}

/* What to do where the system gives this reason. */
static const char *advice_for(int reason)
{
    switch (reason) {
    case ENOENT:
    case ENOTDIR:
        return "correct the name";
    case EISDIR:
        return "name a file and not a folder";
    case EACCES:
    case EPERM:
        return "look at the rights of the file and of its folder";
    case ENAMETOOLONG:
        return "give a shorter name";
    case ENOSPC:
    case EDQUOT:
        return "make room on that disk";
    case EFBIG:
        return "look at the limit of file sizes (ulimit -f)";
    case EROFS:
        return "name a file on a disk that can be written";
    case EPIPE:
        return "its reader went away";
    case EBADF:
        return "it is closed: open it";
    default:
        return "look at that disk or device";
    }
}

void say_unread(const char *name, int reason)
{
    say("%s: cannot be read: %s: %s", name, strerror(reason), advice_for(reason));
}

void say_unwritten(const char *name, int reason)
{
    say("%s: cannot be written: %s: %s", name, strerror(reason), advice_for(reason));
}

const char *shown(const char *word)
{
    static char text[64];
    size_t i;

    for (i = 0; i + 1 < sizeof text && word[i] != '\0'; i++)
        text[i] = (char)(word[i] < ' ' || word[i] > '~' ? '?' : word[i]);
    text[i] = '\0';
    if (word[i] != '\0')
        memcpy(text + i - 2, "..", 2);
    return text;
}
