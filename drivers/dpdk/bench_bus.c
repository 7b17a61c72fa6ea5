#include "bench.h"

#include "run.h"

bool bench_open(const struct bus_options *options)
{
    return run_open(options, false);
}

void bench_close(void)
{
    run_close();
}

uint32_t bench_read(unsigned int function, uint32_t offset)
{
    return bus_read(run_bus, function, offset);
}

void bench_write(unsigned int function, uint32_t offset, uint32_t word)
{
    bus_write(run_bus, function, offset, word);
}

bool bench_lend(uint64_t bus, void *host, size_t length)
{
    return memory_lend(&run_memory, bus, host, length);
}
