#include "figures.h"

#include <errno.h>
#include <inttypes.h>
#include <math.h>
#include <stdio.h>
#include <stdlib.h>
#include <string.h>

const char *take_figure(const char *text, int any_bits, uint64_t *word)
{
    double figure;
    char *end;

    errno = 0;
    figure = strtod(text, &end);
    if (end == text || *end != '\0')
        return "is no figure";
    /* a subnormal that is rounded is told as out of range too, and is none */
    if (errno == ERANGE && (isinf(figure) || figure == 0))
        return "is out of the range of doubles";
    if (!any_bits && !isfinite(figure))
        return "is not finite: write a figure, or give --any-bits";
    *word = kelubashi_word(figure);
    return NULL;
}

const char *take_number(const char *text, uint64_t *number)
{
    char *end;

    if (*text < '0' || *text > '9')
        return "is no number of a record: those are 0, 1, 2 .., and have no sign";
    errno = 0;
    *number = strtoull(text, &end, 10);
    if (*end != '\0')
        return "is no number of a record: those are 0, 1, 2 .., and have no sign";
    return errno == ERANGE ? "is out of the range of numbers" : NULL;
}

int name_width(const char *name)
{
    int width = (int)strlen(name);

    return width < 6 ? 6 : width;
}

int column_width(enum column column)
{
    const struct unit *unit = ABOUT[column].unit;

    return unit == NULL ? name_width(ABOUT[column].name) : unit->width;
}

static void put_figure(const struct unit *unit, double figure)
{
    double size = fabs(figure), most = 1;
    int i;

    for (i = unit->digits + 2; i < unit->width; i++)    /* sign and point */
        most *= 10;
    if (size < most)
        printf(" %*.*f", unit->width, unit->digits, figure);
    else
        printf(" %*.*g", unit->width, unit->width - 8, figure);     /* sign, point, e+308 */
}

void put_column(enum column column, uint64_t word)
{
    if (ABOUT[column].kind == FIGURE)
        put_figure(ABOUT[column].unit, kelubashi_figure(word));
    else
        printf(" %*" PRIu64, column_width(column), word);
}
