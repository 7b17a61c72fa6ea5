// The link form also intercepts C++ threads, if libstdc++ is linked statically. With -DLOST a signal comes before the
// wait for it. With -DORDER=relaxed a std::atomic orders nothing; with -DORDER=seq_cst it orders all accesses before
// it. c/explore/check.py runs this test.
#include <atomic>
#include <condition_variable>
#include <mutex>
#include <thread>

#include "nic82599_explore.h"

namespace
{

struct {
    std::mutex lock;
    std::condition_variable changed;
    bool is_set;
    std::atomic<bool> is_reported;
    int value;
} driver;

#ifdef ORDER
#define BY_ORDER_OF(order) std::memory_order_##order
#define BY_ORDER(order) BY_ORDER_OF(order)

void tell()
{
    driver.value = 1;
    driver.is_reported.store(true, BY_ORDER(ORDER));
}

void run(void *)
{
    driver.is_reported = false;
    std::thread other(tell);
    while (!driver.is_reported.load(BY_ORDER(ORDER)))
        std::this_thread::yield();
    if (driver.value != 1)
        nicx_fail("the other thread's store isn't there");
    other.join();
}
#else
void set(nic *card)
{
    {
        std::lock_guard<std::mutex> guard(driver.lock);
        driver.is_set = true;
        nic_write32(card, NIC_RDT(0), 1);
    }
    driver.changed.notify_one();
}

void run(void *)
{
    std::thread other(set, nicx_device());
#ifndef LOST
    std::unique_lock<std::mutex> guard(driver.lock);
    driver.changed.wait(guard, [] { return driver.is_set; });
    guard.unlock();
#else
    if (!driver.is_set) {
        std::unique_lock<std::mutex> guard(driver.lock);
        driver.changed.wait(guard);
    }
#endif
    other.join();
}
#endif

const char *bring_up()
{
    return nullptr;
}

void begin()
{
    nicx_task("run", run, nullptr);
}

const char *end()
{
    return nullptr;
}

} // namespace

int main(int argc, char **argv)
{
    nicx_scenario scenario{};
    scenario.name = "std_threads";
    scenario.fifo = 8;
    scenario.blocks = 4;
    scenario.queues = 1;
    scenario.bring_up = bring_up;
    scenario.begin = begin;
    scenario.end = end;
    return nicx_main(argc, argv, &scenario);
}
