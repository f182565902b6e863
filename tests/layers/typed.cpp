/* The calls of C++ for tests/outside/layers, printed as plain.c prints the plain ones. A Result has no more than its value or its refusal: what a layer does not tell is as plain.c has it in a
   refusal. */
#include "plain_calls.h"
#include "sivorandra.hpp"
#include <array>
#include <cstdio>

namespace {

using sivorandra::Refusal;
using sivorandra::Result;

template <class Value> bool tell(const Result<Value> &result)
{
    if (result)
        std::printf("done 0 0");
    else
        std::printf("refused %u %u", static_cast<unsigned>(result.refusal().number), static_cast<unsigned>(result.refusal().position));
    return static_cast<bool>(result);
}

template <class Value> void list(const Value &numbers)
{
    for (auto number : numbers)
        std::printf(" %llu", static_cast<unsigned long long>(number));
    std::printf("\n");
}

void mix(const std::uint32_t *words)
{
    std::uint32_t sum = 2166136261u;
    for (std::size_t i = 0; i < SIVORANDRA_RUN_WORDS; i++)
        sum = (sum ^ words[i]) * 16777619u;
    std::printf(" run %u\n", static_cast<unsigned>(sum));
}

void ask(const question &asked)
{
    sivorandra::Words words(asked.words, asked.words_len);
    for (auto judge : {sivorandra::judge, sivorandra::judge_ticks, sivorandra::judge_events}) {
        auto verdict = judge(words);
        if (verdict) {
            static const char *const names[] = {"firm", "full", "miss"};
            std::printf("%s %u %u", names[static_cast<int>(verdict->is)], static_cast<unsigned>(verdict->first), static_cast<unsigned>(verdict->second));
        } else
            tell(verdict);
        std::printf("\n");
    }
    auto why = sivorandra::sentence(words);
    if (why)
        std::printf("done %u 0 '%s'\n", static_cast<unsigned>(why->view().size()), why->c_str());
    else {
        tell(why);
        std::printf(" ''\n");
    }
    auto times = sivorandra::response_times(words);
    list(tell(times) ? *times : sivorandra::Figures{});
    auto bounds = sivorandra::bounds(words);
    if (bounds)
        std::printf("%s %d 0", bounds->passes ? "done" : "not-passed", bounds->passes ? 1 : 0);
    else
        tell(bounds);
    list(bounds ? bounds->ticks : sivorandra::Figures{});
    auto kept = sivorandra::conflict(words);
    if (kept)
        std::printf("done %u 0 %u\n", static_cast<unsigned>(*kept), static_cast<unsigned>(*kept));
    else {
        tell(kept);
        std::printf(" 0\n");
    }
    auto slack = sivorandra::slack(words);
    list(tell(slack) ? *slack : sivorandra::Figures{});
    std::array<std::uint8_t, TICKS * 64> rows{};
    tell(sivorandra::plan(words, 0, TICKS, rows.data(), rows.size()));
    list(rows);
    auto begun = sivorandra::SuppliedPlan::begin(words);
    tell(begun);
    std::printf("\n");
    std::size_t cores = asked.words_len > 1 && asked.words[1] <= 64 ? asked.words[1] : 0;
    sivorandra::SuppliedPlan plan = begun ? *begun : sivorandra::SuppliedPlan();
    for (std::size_t tick = 0; tick < TICKS; tick++) {
        auto answer = plan.check_row(rows.data() + tick * cores, cores);
        if (answer && *answer == sivorandra::SuppliedPlan::RowAnswer::accepted)
            std::printf("accepted 0 0");
        else
            tell(answer);
        std::printf("\n");
    }
    auto started = sivorandra::Run::start(words);
    bool goes = tell(started);
    if (!goes) {
        std::printf("\n"); // a refused start leaves no run here
        return;
    }
    sivorandra::Run run = *started;
    mix(run.words());
    for (std::size_t i = 0; i < asked.count; i++) {
        operation one = asked.operations[i];
        if (one.letter == 'q') {
            auto row = run.row(one.first);
            list(tell(row) ? *row : sivorandra::Run::Row{});
            auto sets = run.sets(one.first);
            list(tell(sets) ? *sets : sivorandra::Run::Sets{});
            auto working = run.working(one.first);
            std::printf(" %u\n", tell(working) ? static_cast<unsigned>(*working) : 0u);
            continue;
        }
        if (one.letter == 'a')
            tell(run.advance(one.first, one.second));
        else if (one.letter == 'w')
            tell(run.withdraw(one.first));
        else if (one.letter == 'W')
            tell(run.withdraw_all(one.first));
        else {
            sivorandra::Run::Stored words_of_it{};
            for (std::size_t at = 0; at < words_of_it.size(); at++)
                words_of_it[at] = run.words()[at];
            words_of_it[one.first % SIVORANDRA_RUN_WORDS] ^= 5;
            run = sivorandra::Run(words_of_it);
            std::printf("done 0 0");
        }
        mix(run.words());
    }
}

} // namespace

int main()
{
    static question asked;
    while (next_question(&asked)) {
        ask(asked);
        std::printf(".\n");
    }
    return 0;
}
