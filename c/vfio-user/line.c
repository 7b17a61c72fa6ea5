#include "line.h"

#include "notifier.h"

void line_begin(struct line *it, bool is_there, unsigned int owner)
{
    *it = (struct line){.is_masked = false};
    vectors_begin(&it->pin, is_there, owner);
    vectors_begin(&it->msi, is_there, owner);
    vectors_begin(&it->unmask, is_there, owner);
}

void line_clear(struct line *it)
{
    line_clear_pin(it);
    vectors_clear(&it->msi);
    it->is_masked = false;
    it->seen = 0;
}

void line_clear_pin(struct line *it)
{
    vectors_clear(&it->pin);
    vectors_clear(&it->unmask);
}

void line_mask(struct line *it, bool is_masked)
{
    it->is_masked = is_masked;
}

bool line_unmask_by(struct line *it, int file)
{
    enum notifier_taken taken = NOTIFIER_NOTHING;
    if (file >= 0)
        taken = notifier_takes(file) ? notifier_take(file) : NOTIFIER_CANT;
    if (taken == NOTIFIER_CANT || !vectors_set(&it->unmask, 0, file))
        return false;
    if (taken == NOTIFIER_SIGNALLED)
        it->is_masked = false;
    return true;
}

int line_unmask_file(const struct line *it)
{
    return it->unmask.files[0];
}

bool line_take_unmask(struct line *it)
{
    if (!vectors_has(&it->unmask, 0) || notifier_take(it->unmask.files[0]) != NOTIFIER_SIGNALLED)
        return false;
    it->is_masked = false;
    it->unmasked++;
    return true;
}

bool line_level(struct line *it, bool level)
{
    if (!level || it->is_masked || !vectors_has(&it->pin, 0))
        return false;
    vectors_raise(&it->pin, 0);
    it->is_masked = true;
    return true;
}

bool line_causes(struct line *it, uint32_t causes)
{
    bool is_new = (causes & ~it->seen) != 0;
    it->seen = causes;
    if (is_new)
        vectors_raise(&it->msi, 0);
    return is_new;
}

void line_after_access(struct line *it, uint32_t causes)
{
    it->seen &= causes;
}

void line_forget(struct line *it)
{
    it->pin.pending = it->msi.pending = 0;
    it->seen = 0;
}
