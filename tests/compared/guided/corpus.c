#include "corpus.h"

#include "compared/shared/drive.h"

#include <stdio.h>
#include <stdlib.h>
#include <string.h>

#define MANY 20000     /* steps; those of a search are some thousand */

struct kept {
    uint8_t *bytes;
    size_t length;
    uint64_t steps;
};

static struct corpus {
    struct kept *inputs;
    size_t count, room;
} corpora[KINDS];

size_t corpus_count(enum kind kind)
{
    return corpora[kind].count;
}

size_t corpus_size(void)
{
    size_t size = 0;
    int kind;

    for (kind = 0; kind < KINDS; kind++)
        size += corpora[kind].count;
    return size;
}

static void *enough(void *memory)
{
    if (memory == NULL) {
        fprintf(stderr, "guided: no memory is left for a corpus of %zu: give fewer inputs\n", corpus_size());
        exit(EXIT_FAILURE);
    }
    return memory;
}

void corpus_keep(enum kind kind, const struct file *input, uint64_t steps)
{
    struct corpus *c = &corpora[kind];
    struct kept *new;

    if (c->count == c->room) {
        c->room = 2 * c->room + 64;
        c->inputs = enough(realloc(c->inputs, c->room * sizeof *c->inputs));
    }
    new = &c->inputs[c->count++];
    new->bytes = enough(malloc(input->length + 1));
    memcpy(new->bytes, input->bytes, input->length);
    new->length = input->length;
    new->steps = steps;
}

/* The later it was found, the rarer is what it met. */
static const struct kept *any_kept(const struct corpus *c)
{
    uint64_t back = any_below(c->count);

    return &c->inputs[c->count - 1 - any_below(back + 1)];
}

void corpus_take(enum kind kind, struct file *input)
{
    const struct corpus *c = &corpora[kind];
    const struct kept *one = any_kept(c);
    int tries = one_in(8) ? 0 : 8;

    while (one->steps > MANY && tries-- > 0)
        one = any_kept(c);
    memcpy(input->bytes, one->bytes, one->length);
    input->length = one->length;
}
