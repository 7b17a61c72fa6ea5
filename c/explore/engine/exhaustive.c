#include "exhaustive.h"

#include <stdlib.h>
#include <string.h>

#include "independent.h"
#include "options.h"

/* IDLE marks a listed actor that had nothing to do at that point. */
enum { PATIENCE = 32, IDLE = 0x8000 };

/* An entry in a sleep set: a step already explored at this point, with everything that follows it. */
struct asleep {
    uint16_t actor;
    bool goes_on;  /* the step's actor could continue after it */
    uint32_t left; /* preemptions left after it */
    struct step step;
};

/* A point of the current schedule. `can` and `asleep` are offsets into lists shared by all points. */
struct node {
    uint32_t can, count;
    uint32_t at;   /* index of the choice being tried; `count` if all were tried */
    uint32_t left; /* preemptions left before this point */
    uint32_t asleep, inherited, asleep_count;
    bool is_current; /* the first runnable actor is the one that acted last */
    bool is_alone;   /* the chosen actor has waited so long that it is the only one tried here */
};

struct exhaustive {
    uint32_t preemptions;
    bool sleeps, is_first, is_strange;
    bool is_glance;  /* the schedule ends after its first step in another process's part */
    bool was_glance; /* is_glance when the schedule started */
    struct parts *parts;
    uint64_t mine, seen;
    volatile uint64_t *part; /* the part being searched, for the parent to read after a crash */
    struct node *nodes;
    uint32_t depth; /* the number of nodes */
    uint32_t root;  /* the number of leading nodes with the first schedule's choice */
    uint32_t asked; /* the last point at which an actor was chosen, plus 1 */
    uint16_t *can;
    uint32_t can_count, can_room;
    struct asleep *asleep;
    uint32_t asleep_count, asleep_room;
};

struct exhaustive *nicxi_exhaustive(uint32_t preemptions, bool sleeps, struct parts *parts, volatile uint64_t *part)
{
    struct exhaustive *it = calloc(1, sizeof *it);
    if (!it)
        return NULL;
    it->preemptions = preemptions;
    it->sleeps = sleeps;
    it->parts = parts;
    it->part = part;
    *part = parts->base;
    it->is_first = true;
    it->nodes = calloc((size_t)nicxi.most_points + 1, sizeof *it->nodes);
    if (!nicxi.steps)
        nicxi.steps = calloc((size_t)nicxi.most_points + 1, sizeof *nicxi.steps);
    if (it->nodes && nicxi.steps)
        return it;
    nicxi_free_exhaustive(it);
    return NULL;
}

void nicxi_free_exhaustive(struct exhaustive *it)
{
    if (!it)
        return;
    free(it->nodes);
    free(it->can);
    free(it->asleep);
    free(it);
}

bool nicxi_exhaustive_is_strange(const struct exhaustive *it)
{
    return it->is_strange;
}

bool nicxi_exhaustive_is_glance(const struct exhaustive *it)
{
    return it->is_glance || (it->was_glance && nicxi.is_cut);
}

/* --- growable lists; if memory runs out, the search stops as for a driver that behaves differently on each run --- */

static bool add_can(struct exhaustive *it, const uint16_t *can, uint32_t count)
{
    if (it->can_count + count > it->can_room) {
        uint32_t room = 2 * (it->can_count + count);
        uint16_t *list = realloc(it->can, room * sizeof *list);
        if (!list)
            return false;
        it->can = list;
        it->can_room = room;
    }
    memcpy(it->can + it->can_count, can, count * sizeof *can);
    it->can_count += count;
    return true;
}

static bool add_asleep(struct exhaustive *it, const struct asleep *asleep)
{
    if (it->asleep_count == it->asleep_room) {
        uint32_t room = 2 * it->asleep_room + 16;
        struct asleep *list = realloc(it->asleep, room * sizeof *list);
        if (!list)
            return false;
        it->asleep = list;
        it->asleep_room = room;
    }
    it->asleep[it->asleep_count++] = *asleep;
    return true;
}

static uint32_t place_of(const uint16_t *can, uint32_t count, uint16_t actor)
{
    uint32_t k = 0;
    while (k < count && (can[k] & ~IDLE) != actor)
        k++;
    return k;
}

static uint16_t actor_at(const struct exhaustive *it, const struct node *node, uint32_t k)
{
    return it->can[node->can + k] & (uint16_t)~IDLE;
}

/* --- a node --- */

static uint32_t cost(const struct node *node, uint32_t k)
{
    return node->is_current && k != 0;
}

static uint32_t left_after(const struct exhaustive *it, const struct node *node, uint32_t k)
{
    return it->preemptions == UNBOUNDED ? UNBOUNDED : node->left - cost(node, k);
}

/* Whether exploring the sleeping step z before another step also covers the opposite order. It doesn't if the first
   order cost more preemptions, because the bound may then have cut that search short. */
static bool had_as_many(const struct exhaustive *it, const struct asleep *z, uint32_t left)
{
    return it->preemptions == UNBOUNDED || z->left >= left + z->goes_on;
}

static bool is_asleep(const struct exhaustive *it, const struct node *node, uint16_t actor)
{
    for (uint32_t k = 0; k < node->inherited; k++)
        if (it->asleep[node->asleep + k].actor == actor)
            return true;
    return false;
}

static bool is_to_try(const struct exhaustive *it, const struct node *node, uint32_t k)
{
    if (it->preemptions != UNBOUNDED && cost(node, k) > node->left)
        return false;
    return !is_asleep(it, node, actor_at(it, node, k));
}

static void go_to(struct exhaustive *it, struct node *node, uint32_t k)
{
    while (k < node->count && !is_to_try(it, node, k))
        k++;
    node->at = k;
}

/* Fills in the sleep set after a node's choice: the steps asleep before it and the steps already tried at the node, if
   they are independent of the choice. */
static bool inherit(struct exhaustive *it, const struct node *above, struct node *node)
{
    const struct step *made = &nicxi.steps[above - it->nodes];
    uint32_t left = left_after(it, above, above->at);
    for (uint32_t k = 0; it->sleeps && k < above->asleep_count; k++) {
        struct asleep z = it->asleep[above->asleep + k];
        bool is_new = k >= above->inherited;
        if (z.actor == actor_at(it, above, above->at) || (is_new && !had_as_many(it, &z, left)))
            continue;
        if (nicxi_are_independent(&z.step, made) && !add_asleep(it, &z))
            return false;
    }
    node->inherited = node->asleep_count = it->asleep_count - node->asleep;
    return true;
}

/* Tries the actor that acted longest ago first. So a schedule without further choices is fair. */
static void sort(uint16_t *can, uint32_t count, bool is_current)
{
    for (uint32_t k = is_current + 1u; k < count && !nicxi_is_value(can[0]); k++) {
        uint16_t actor = can[k];
        uint32_t to = k;
        for (; to > is_current && nicxi.actors[can[to - 1]].last > nicxi.actors[actor].last; to--)
            can[to] = can[to - 1];
        can[to] = actor;
    }
}

/* An actor that has been runnable for this long without acting must act. Otherwise two actors that wake each other
   could continue forever. */
static bool is_starved(uint16_t actor)
{
    return !nicxi_is_value(actor) && *nicxi.points > nicxi.actors[actor].since + PATIENCE;
}

static void note_offers(const uint16_t *can, uint32_t count)
{
    uint32_t point = *nicxi.points;
    for (uint32_t k = 0; k < count && !nicxi_is_value(can[0]); k++) {
        struct actor *actor = &nicxi.actors[can[k]];
        if (actor->offered + 1 < point || actor->last == point)
            actor->since = point;
        actor->offered = point;
    }
}

static struct node *add_node(struct exhaustive *it, const uint16_t *can, uint32_t count)
{
    struct node *node = &it->nodes[it->depth], *above = it->depth ? node - 1 : NULL;
    memset(node, 0, sizeof *node);
    node->can = it->can_count;
    node->count = count;
    node->left = above ? left_after(it, above, above->at) : it->preemptions;
    node->is_current = above && nicxi_goes_on(can);
    node->asleep = it->asleep_count;
    if (!add_can(it, can, count) || (above && !inherit(it, above, node)))
        return NULL;
    sort(it->can + node->can, count, node->is_current);
    it->depth++;
    go_to(it, node, 0);
    node[1].is_current = false;
    return node;
}

static void drop_node(struct exhaustive *it)
{
    struct node *node = &it->nodes[--it->depth];
    it->can_count = node->can;
    it->asleep_count = node->asleep;
    if (it->root > it->depth)
        it->root = it->depth;
}

/* --- a schedule --- */

/* Takes the next part that no process has taken, and returns its number. */
static uint64_t next_part(struct parts *parts)
{
    uint64_t next = __sync_fetch_and_add(&parts->next, 1);
    return parts->shards ? next * parts->shards + parts->shard : next;
}

/* Starts the next part, whether this process or another one searches it. */
static void begin_part(struct exhaustive *it)
{
    *it->part = it->parts->base + it->seen + 1;
    it->is_glance = it->seen++ != it->mine;
    if (!it->is_glance)
        it->mine = next_part(it->parts);
}

/* Moves to the next choice at the last node. At a point in the first schedule, each choice is a part. The first step of
   another process's part is run too, because the sleep sets of later parts need to know what it did. So the process
   explores exactly the schedules of its parts that a single process would. */
static bool advance(struct exhaustive *it, struct node *node)
{
    bool is_root = it->depth <= it->root;
    it->is_glance = false;
    do {
        go_to(it, node, node->at + 1);
        if (is_root && node->at < node->count)
            begin_part(it);
    } while (it->is_glance && !it->sleeps && node->at < node->count);
    it->is_glance = it->is_glance && node->at < node->count;
    node[1].is_current = false;
    return node->at < node->count;
}

/* Adds actors that weren't offered at this point before: paused threads, when no other actor has anything to do. */
static bool add_more(struct exhaustive *it, struct node *node, const uint16_t *can, uint32_t count)
{
    for (uint32_t k = 0; k < count; k++) {
        if (place_of(it->can + node->can, node->count, can[k]) < node->count)
            continue;
        if (!add_can(it, &can[k], 1))
            return false;
        node->count++;
    }
    return true;
}

/* Called if a device step had nothing to do: tries another actor at the same point. */
static bool try_another(struct exhaustive *it, struct node *node, const uint16_t *can, uint32_t count)
{
    it->can[node->can + node->at] |= IDLE;
    if (node->at == 0)
        node->is_current = false;
    if (!add_more(it, node, can, count))
        return false;
    advance(it, node);
    return true;
}

/* Marks steps as idle that had nothing to do at this point, so they aren't tried again here or later. */
static void remember_idle(const struct exhaustive *it, const struct node *node)
{
    for (uint32_t k = 0; k < node->count; k++)
        if (it->can[node->can + k] & IDLE)
            nicxi_set_idle(actor_at(it, node, k));
}

/* Makes the choice at a point reached before. At the last point the choice may have changed since then. */
static uint32_t choose_again(struct exhaustive *it, const struct node *node, const uint16_t *can, uint32_t count)
{
    if (node->at == node->count)
        return count;
    uint16_t wanted = actor_at(it, node, node->at);
    uint32_t k = place_of(can, count, wanted);
    if (k == count && nicxi_may_come(wanted, can, count)) {
        it->asked = 0;
        return 0;
    }
    it->is_strange |= k == count;
    return k;
}

/* In another process's part, the schedule ends at the point after the part's choice. That point only shows whether the
   chosen actor could continue; if the actor is a device step, the step is tried to find out. */
static uint32_t end_glance(struct exhaustive *it, const uint16_t *can, uint32_t count, bool again)
{
    struct node *node = &it->nodes[it->depth - 1];
    bool is_current = can[0] == actor_at(it, node, node->at);
    if (*nicxi.points > it->depth)
        return count;
    node[1].is_current = is_current && !again;
    return is_current && !again && nicxi_may_be_idle(can, 1) ? 0 : count;
}

static uint32_t choose(void *argument, const uint16_t *can, uint32_t count)
{
    struct exhaustive *it = argument;
    uint32_t point = *nicxi.points;
    struct node *node = &it->nodes[point];
    bool again = it->asked == point + 1, is_last = point + 1 == it->depth;
    it->asked = point + 1;
    note_offers(can, count);
    if (it->is_glance && point >= it->depth)
        return end_glance(it, can, count, again);
    if (point > it->depth || (again && !is_last)) {
        it->is_strange = true;
        return count;
    }
    if (point == it->depth) {
        node = add_node(it, can, count);
        is_last = true;
    } else if (again && !try_another(it, node, can, count)) {
        node = NULL;
    } else if (!again) {
        remember_idle(it, node);
    }
    it->is_strange |= !node;
    if (node && is_last && node->at < node->count)
        node->is_alone = !node->is_current && is_starved(actor_at(it, node, node->at));
    return node ? choose_again(it, node, can, count) : count;
}

nicx_chooser nicxi_exhaustive_chooser(struct exhaustive *it)
{
    nicx_chooser chooser = {choose, it};
    it->asked = 0;
    it->was_glance = it->is_glance;
    return chooser;
}

/* Only the choice at the last point has changed. */
uint32_t nicxi_exhaustive_prefix(const struct exhaustive *it)
{
    return it->depth ? it->depth - 1 : 0;
}

/* --- the next schedule --- */

void nicxi_exhaustive_made(struct exhaustive *it)
{
    if (it->is_first)
        it->root = it->depth;
    it->is_first = false;
}

/* After its search, here or in another process, a choice sleeps while the node's remaining choices are tried. */
static bool put_to_sleep(struct exhaustive *it, struct node *node)
{
    uint32_t depth = (uint32_t)(node - it->nodes);
    struct asleep z;
    z.actor = actor_at(it, node, node->at);
    z.left = left_after(it, node, node->at);
    z.goes_on = node[1].is_current;
    z.step = nicxi.steps[depth];
    it->asleep_count = node->asleep + node->asleep_count;
    node->asleep_count++;
    return add_asleep(it, &z);
}

bool nicxi_exhaustive_next(struct exhaustive *it)
{
    if (it->is_first) {
        it->mine = next_part(it->parts);
        return true;
    }
    while (it->depth && !it->is_strange) {
        struct node *node = &it->nodes[it->depth - 1];
        bool was_made = node->at < node->count;
        if (was_made && it->sleeps && !put_to_sleep(it, node))
            it->is_strange = true;
        if (was_made && !node->is_alone && advance(it, node))
            return true;
        drop_node(it);
    }
    return false;
}
