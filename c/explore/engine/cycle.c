/* If an endless schedule repeats the same steps, they are reported once. */
#include "shrink.h"

enum { MOST_CYCLE = 5000, LEAST_TURNS = 3 };

/* Whether two points are equal. Without `words`, the values may differ, for a driver that counts what it reads. */
static bool are_the_same(const struct step *a, const struct step *b, bool words)
{
    return a->kind == b->kind && a->vf == b->vf && a->of == b->of && a->address == b->address && a->bus == b->bus &&
           a->length == b->length && (!words || (a->word == b->word && a->status == b->status));
}

static struct cycle find(const uint16_t *schedule, const struct step *steps, uint32_t points, bool words)
{
    struct cycle cycle = {0, 0};
    for (uint32_t length = 1; length <= MOST_CYCLE && length * LEAST_TURNS <= points; length++) {
        uint32_t at = points;
        while (at > length && schedule[at - 1] == schedule[at - 1 - length] &&
               are_the_same(&steps[at - 1], &steps[at - 1 - length], words))
            at--;
        uint32_t from = at - length;
        if (points - from < LEAST_TURNS * length || from > points / 2)
            continue;
        cycle.from = from;
        cycle.length = length;
        break;
    }
    return cycle;
}

struct cycle nicxi_find_cycle(const uint16_t *schedule, const struct step *steps, uint32_t points)
{
    struct cycle cycle = find(schedule, steps, points, true);
    return cycle.length ? cycle : find(schedule, steps, points, false);
}
