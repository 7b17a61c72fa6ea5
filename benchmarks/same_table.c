/* Measures the crates' register table, in C. Addresses are found by binary search, and accesses depend on the row's
   kind. The hash is computed in two ways: bit by bit, and with precomputed windows of the key. benchmarks/run writes
   the table from dev/register_table.py. Prints a line for each measure: its name, the number of operations, and the
   nanoseconds. */
#include <string.h>

#include "measure.h"
#include "same_table.h"

static uint32_t cells[CELLS], wanted[CELLS];
static uint32_t order[ENTRIES];

static const struct entry *find(uint32_t address)
{
    uint32_t low = 0, high = ENTRIES;
    while (low < high) {
        uint32_t middle = (low + high) / 2;
        if (table[middle].address < address)
            low = middle + 1;
        else
            high = middle;
    }
    return low < ENTRIES && table[low].address == address ? &table[low] : NULL;
}

__attribute__((noinline)) static uint32_t read_register(uint32_t address)
{
    const struct entry *e = find(address);
    uint32_t word;
    if (!e)
        return 0;
    switch (e->kind) {
    case CALC: return e->address == 8 ? (cells[0] & 4 ? 0 : 0x00080000) : e->address == 0x10010 ? 0x300 : 0x70000000;
    case SET:
    case CLEAR:
    case VRESET: return 0;
    case RC:
    case CAUSE:
        word = cells[e->cell];
        cells[e->cell] = 0;
        return word & e->view;
    default: return cells[e->cell] & e->view;
    }
}

static void store(const struct entry *e, uint32_t word)
{
    uint32_t mask = e->mask & e->view;
    cells[e->cell] = (cells[e->cell] & ~mask) | (word & mask);
}

__attribute__((noinline)) static int write_register(uint32_t address, uint32_t word)
{
    const struct entry *e = find(address);
    if (!e)
        return 0;
    switch (e->kind) {
    case RO:
    case CALC:
    case RC: break;
    case VRESET:
        if (word & 0x04000000)
            memset(cells, 0, sizeof cells / 64);
        break;
    case EERD: cells[e->cell] = word & 0xfffd; break;
    case CAUSE: cells[e->cell] &= ~(word & e->view); break;
    case ONES: cells[e->cell] |= word & e->mask & e->view; break;
    case SET: cells[e->target] |= word & 0x7fffffff & e->view; break;
    case CLEAR: cells[e->target] &= ~(word & e->view); break;
    case HELD:
        if (!(cells[e->enable] & 0x02000000))
            store(e, word);
        break;
    case ENABLE:
        wanted[e->cell] = word & 0x02000000;
        store(e, word);
        break;
    case CTRL:
        if (word & 0x04000008)
            memset(cells, 0, sizeof cells);
        else
            store(e, word);
        break;
    default: store(e, word);
    }
    return 1;
}

__attribute__((noinline)) static uint32_t hash(const uint8_t *key, const uint8_t *input, unsigned length)
{
    uint32_t result = 0, window = (uint32_t)key[0] << 24 | key[1] << 16 | key[2] << 8 | key[3];
    for (unsigned i = 0; i < length; i++)
        for (unsigned bit = 0; bit < 8; bit++) {
            if (input[i] & (0x80 >> bit))
                result ^= window;
            window = window << 1 | (key[i + 4] >> (7 - bit) & 1);
        }
    return result;
}

static uint32_t windows[288];

static void make_windows(const uint8_t *key)
{
    for (unsigned k = 0; k < 288; k++) {
        uint64_t bits = 0;
        for (unsigned j = 0; j < 5; j++)
            bits = bits << 8 | key[k / 8 + j];
        windows[k] = (uint32_t)(bits >> (8 - k % 8));
    }
}

__attribute__((noinline)) static uint32_t hash_by_windows(const uint8_t *input, unsigned length)
{
    uint32_t result = 0;
    for (unsigned i = 0; i < length; i++)
        for (unsigned bit = 0; bit < 8; bit++)
            result ^= windows[8 * i + bit] & -(uint32_t)(input[i] >> (7 - bit) & 1);
    return result;
}

int main(void)
{
    uint32_t sum = 0;
    uint8_t key[40], input[36];
    for (uint32_t i = 0; i < ENTRIES; i++)
        order[i] = table[i].address;
    shuffle(order, ENTRIES);
    for (int i = 0; i < 40; i++)
        key[i] = (uint8_t)(i * 37 + 11);
    for (int i = 0; i < 36; i++)
        input[i] = (uint8_t)(i * 91 + 5);
    MEASURE("read", ENTRIES, 2000, for (int i = 0; i < ENTRIES; i++) sum ^= read_register(order[i]));
    MEASURE("write", ENTRIES, 2000, for (int i = 0; i < ENTRIES; i++) sum += write_register(order[i], WORD));
    MEASURE("tails", 256, 20000, for (uint32_t q = 0; q < 64; q++) {
        sum += write_register(0x01018 + 0x40 * q, q);
        sum ^= read_register(0x01018 + 0x40 * q);
        sum += write_register(0x06018 + 0x40 * q, q);
        sum ^= read_register(0x06018 + 0x40 * q);
    });
    MEASURE("hash12", 1, 2000000, sum ^= hash(key, input, 12); input[round % 12]++);
    MEASURE("hash36", 1, 1000000, sum ^= hash(key, input, 36); input[round % 36]++);
    make_windows(key);
    if (hash_by_windows(input, 36) != hash(key, input, 36))
        return 1;
    MEASURE("windows12", 1, 2000000, sum ^= hash_by_windows(input, 12); input[round % 12]++);
    MEASURE("windows36", 1, 1000000, sum ^= hash_by_windows(input, 36); input[round % 36]++);
    sink = sum;
    return 0;
}
