#include "edges.h"

#include <stddef.h>

#define SLOTS 16384     /* some hundred edges are there */

/* An edge that was gone at any time: its two blocks, how often the input went it, and a bit for each count. */
static struct edge {
    uint32_t from, to, times;
    uint8_t met;
} table[SLOTS];

static struct edge *gone[SLOTS];     /* by this input */
static size_t gone_count;
static uint32_t last;
static uint64_t edges, counts;

void __sanitizer_cov_trace_pc(void);

/* Blocks are counted from here on, since a program may be loaded at another address each time. */
void __sanitizer_cov_trace_pc(void)
{
    uint32_t here = (uint32_t)((uintptr_t)__builtin_return_address(0) - (uintptr_t)__sanitizer_cov_trace_pc);
    uint32_t slot = (here * UINT32_C(0x9E3779B1) + last * UINT32_C(0x85EBCA77)) >> 18;
    struct edge *e = &table[slot];

    while (e->to != 0 && (e->to != here || e->from != last))
        e = &table[++slot % SLOTS];
    if (e->times++ == 0) {
        e->from = last;
        e->to = here;
        gone[gone_count++] = e;
    }
    last = here;
}

void edges_begin(void)
{
    while (gone_count > 0)
        gone[--gone_count]->times = 0;
    last = 0;
}

static uint8_t bit_of(uint32_t times)
{
    static const uint32_t ends[] = { 1, 2, 3, 7, 15, 31, 127 };
    size_t i;

    for (i = 0; i < sizeof ends / sizeof ends[0] && times > ends[i]; i++)
        ;
    return (uint8_t)(1 << i);
}

int edges_new(void)
{
    uint64_t before = counts;
    size_t i;

    for (i = 0; i < gone_count; i++) {
        uint8_t bit = bit_of(gone[i]->times);

        edges += gone[i]->met == 0;
        counts += (gone[i]->met & bit) == 0;
        gone[i]->met |= bit;
    }
    return counts != before;
}

uint64_t edges_steps(void)
{
    uint64_t steps = 0;
    size_t i;

    for (i = 0; i < gone_count; i++)
        steps += gone[i]->times;
    return steps;
}

uint64_t edges_met(void)
{
    return edges;
}

uint64_t edges_counts(void)
{
    return counts;
}
