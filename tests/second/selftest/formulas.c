#include "formulas.h"

#include "second/parts.h"

#include <stddef.h>

void put_row(const struct start *s, uint64_t psi, uint64_t row[18])
{
    struct figures at = sec_figures(s, sec_double(psi));
    double mu = s->mu, r = at.radius, r0 = s->r0;
    double f = 1 - (mu * at.s2) / r0, g = s->searched - mu * at.s3;
    double fd = -((mu * at.s1) / (r * r0)), gd = 1 - (mu * at.s2) / r;
    size_t i;

    row[0] = sec_word(mu);
    row[7] = sec_word(s->whole);
    row[8] = psi;
    for (i = 0; i < 3; i++) {
        double x = s->position[i], v = s->velocity[i], p = f * x + g * v;

        row[1 + i] = sec_word(x);
        row[4 + i] = sec_word(v);
        row[9 + i] = sec_word(p);
        row[12 + i] = sec_word(fd * x + gd * v);
        row[15 + i] = sec_word((-mu * p) / ((r * r) * r));
    }
}
