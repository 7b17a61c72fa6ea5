#include "runs.h"

#include "step.h"

/* Returns a block's height in its tree, a hash of its number. The root has the smallest height, and no two blocks have
   the same. */
static uint32_t height_of(uint32_t block)
{
    block = (block ^ block >> 16) * UINT32_C(0x85ebca6b);
    block = (block ^ block >> 13) * UINT32_C(0xc2b2ae35);
    return block ^ block >> 16;
}

static bool is_above(uint32_t one, uint32_t other)
{
    return other == NICL_NO_RUN || height_of(one) < height_of(other);
}

/* --- searches --- */

uint32_t nicl_runs_at(const struct nicl_runs *it, uintptr_t address)
{
    uint32_t at = it->root, found = NICL_NO_RUN;
    while (at != NICL_NO_RUN) {
        bool is_below = nicl_run_begin(it, at) <= address;
        NICL_STEP();
        found = is_below ? at : found;
        at = is_below ? it->blocks[at].right : it->blocks[at].left;
    }
    return found;
}

uint32_t nicl_runs_above(const struct nicl_runs *it, uintptr_t address)
{
    uint32_t at = it->root, found = NICL_NO_RUN;
    while (at != NICL_NO_RUN) {
        bool ends_above = nicl_run_end(it, at) > address;
        NICL_STEP();
        found = ends_above ? at : found;
        at = ends_above ? it->blocks[at].left : it->blocks[at].right;
    }
    return found;
}

uint32_t nicl_runs_last(const struct nicl_runs *it)
{
    uint32_t at = it->root;
    while (at != NICL_NO_RUN && it->blocks[at].right != NICL_NO_RUN) {
        NICL_STEP();
        at = it->blocks[at].right;
    }
    return at;
}

/* --- the tree --- */

/* Returns the place of a run, or the place at which to insert it. */
static uint32_t *place_of(struct nicl_runs *it, uint32_t run)
{
    uint32_t *place = &it->root;
    while (*place != run && !is_above(run, *place)) {
        struct nicl_block *at = &it->blocks[*place];
        NICL_STEP();
        place = (uintptr_t)at->host < nicl_run_begin(it, run) ? &at->right : &at->left;
    }
    return place;
}

/* Splits a tree at a run: the runs below it become its left subtree, the runs above it its right subtree. */
static void part(struct nicl_runs *it, uint32_t tree, uint32_t run)
{
    uint32_t *below = &it->blocks[run].left, *above = &it->blocks[run].right;
    while (tree != NICL_NO_RUN) {
        struct nicl_block *at = &it->blocks[tree];
        NICL_STEP();
        if ((uintptr_t)at->host < nicl_run_begin(it, run)) {
            *below = tree;
            below = &at->right;
            tree = at->right;
        } else {
            *above = tree;
            above = &at->left;
            tree = at->left;
        }
    }
    *below = *above = NICL_NO_RUN;
}

static void insert(struct nicl_runs *it, uint32_t run, uint32_t blocks)
{
    uint32_t *place = place_of(it, run);
    it->blocks[run].run = blocks;
    part(it, *place, run);
    *place = run;
}

/* Replaces a run with its two subtrees, merged. */
static void take_out(struct nicl_runs *it, uint32_t run)
{
    uint32_t *place = place_of(it, run), left = it->blocks[run].left, right = it->blocks[run].right;
    while (left != NICL_NO_RUN && right != NICL_NO_RUN) {
        NICL_STEP();
        if (is_above(left, right)) {
            *place = left;
            place = &it->blocks[left].right;
            left = *place;
        } else {
            *place = right;
            place = &it->blocks[right].left;
            right = *place;
        }
    }
    *place = left != NICL_NO_RUN ? left : right;
    it->blocks[run].run = 0;
}

/* --- runs --- */

void nicl_runs_add(struct nicl_runs *it, uint32_t first, uint32_t end)
{
    uint32_t before = nicl_runs_at(it, nicl_run_begin(it, first));
    if (before != NICL_NO_RUN && before + it->blocks[before].run == first &&
        nicl_run_end(it, before) == nicl_run_begin(it, first))
        it->blocks[before].run += end - first;
    else
        insert(it, first, end - first);
}

void nicl_runs_remove(struct nicl_runs *it, uint32_t first, uint32_t end)
{
    uint32_t run = nicl_runs_at(it, nicl_run_begin(it, first)), run_end = run + it->blocks[run].run;
    if (run == first)
        take_out(it, run);
    else
        it->blocks[run].run = first - run;
    if (end < run_end)
        insert(it, end, run_end - end);
}
