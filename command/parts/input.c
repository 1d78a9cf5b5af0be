#include "input.h"

#include "say.h"

#include <errno.h>
#include <fcntl.h>
#include <unistd.h>

/* Reads to the end, or until the room is full: a pipe hands over what it has, and a signal is no end. */
static int read_all(int file, uint8_t *room, size_t size, size_t *length)
{
    *length = 0;
    while (*length < size) {
        ssize_t got = read(file, room + *length, size - *length);

        if (got == 0)
            return 1;
        if (got > 0)
            *length += (size_t)got;
        else if (errno != EINTR)
            return 0;
    }
    return 1;
}

int read_whole(const char *name, uint8_t *room, size_t size, size_t *length)
{
    int file = open(name, O_RDONLY | O_NOCTTY);
    int good = file != -1 && read_all(file, room, size, length);

    if (!good)
        say_unread(name, errno);
    if (file != -1)
        close(file);
    return good;
}

uint64_t word_from(const uint8_t *bytes)
{
    uint64_t word = 0;
    int i;

    for (i = 7; i >= 0; i--)
        word = word << 8 | bytes[i];
    return word;
}
