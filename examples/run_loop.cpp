/* A run in the cab from C++17: twelve ticks of three tasks on three cores under rule 4, lending.
   It is examples/run_loop.c again, and prints the same.
   g++ -std=c++17 -Iinclude examples/run_loop.cpp -Ltarget/staticlib -lsivorandra -o run_loop */
#include <array>
#include <cstdio>
#include "sivorandra.hpp"

namespace {

using sivorandra::Number;
using sivorandra::Record;
using sivorandra::Refusal;
using sivorandra::Run;

constexpr std::uint32_t ticks = 12;

constexpr std::array records{
    // offset, width of odd jobs, length, deadline, period, width of even jobs
    Record{0, 2, 2, 5, 5, 2},
    Record{0, 2, 3, 5, 5, 2},
    Record{0, 1, 4, 5, 5, 1},
};

/* What happens in the cab; sets of positions, bit 0 for position 1. */
std::uint32_t without_work(std::uint32_t tick) { return tick == 5 ? 2 : 0; }
std::uint32_t ended_in(std::uint32_t tick) { return tick == 0 ? 1 : tick == 4 ? 4 : 0; }
std::uint32_t switched_off_after(std::uint32_t tick) { return tick == 7 ? 3 : 0; }

/* What to do at a refusal: 0 where the loop can go on, else the status of the program. */
int refused(std::uint32_t tick, const char *what, Refusal refusal)
{
    std::printf("tick %u: %s is refused, number %u: %s\n", static_cast<unsigned>(tick), what,
                static_cast<unsigned>(refusal.number), refusal.text());
    switch (refusal.number) {
    case Number::bad_report:  // 16: advance with the reports that are in `working`
    case Number::bad_empty:   // 20: ask again without the jobs that are not released now
    case Number::not_firm:    // 21: this table loses no task while it runs
    case Number::no_position: // 22: there is no such task; the run is as it was
        return 0;
    case Number::late:        // 15: the position has missed its deadline: stop the machine
        return 1;
    default:                  // 14: this is no run, and 1 to 13, 19: this is no table to start
        return 2;
    }
}

/* The tick passes: each position that works runs on its cores. Which jobs have ended? */
std::uint32_t dispatch(std::uint32_t tick, const Run::Sets &sets, std::uint32_t working)
{
    std::printf("tick %u:", static_cast<unsigned>(tick));
    for (std::size_t p = 0; p < records.size(); p++)
        if (sets[p] != 0)
            std::printf(" position %u %s %u;", static_cast<unsigned>(p + 1),
                        working >> p & 1 ? "works on" : "holds", static_cast<unsigned>(sets[p]));
    std::printf("\n");
    return ended_in(tick);
}

} // namespace

int main()
{
    auto run = Run::start(sivorandra::Table::link(3, sivorandra::Rule::lending, 0, records));
    if (!run)
        return refused(0, "the start", run.refusal());

    for (std::uint32_t tick = 0; tick < ticks; tick++) {
        std::uint32_t empties = without_work(tick);
        auto sets = run->sets(empties);
        if (!sets) {
            if (int status = refused(tick, "the row", sets.refusal()))
                return status;
            empties = 0;
            sets = run->sets(empties);
            if (!sets)
                return refused(tick, "the row", sets.refusal());
        }
        auto working = run->working(empties);
        if (!working)
            return refused(tick, "who works", working.refusal());

        std::uint32_t reports = dispatch(tick, *sets, *working);
        if (auto taken = run->advance(reports, empties); !taken) {
            if (int status = refused(tick, "the advance", taken.refusal()))
                return status;
            if (auto again = run->advance(reports & *working, empties); !again)
                return refused(tick, "the advance", again.refusal());
        }
        if (std::uint32_t off = switched_off_after(tick))
            if (auto out = run->withdraw(off); !out)
                if (int status = refused(tick, "the withdrawal", out.refusal()))
                    return status;
    }
    return 0;
}
