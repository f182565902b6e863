/* Sivorandra for C++17, header only over sivorandra.h: link libsivorandra.a (-lsivorandra).

   THE RUN LOOP. A call returns a Result: a value, or the refusal. It throws nothing, and compiles
   with -fno-exceptions -fno-rtti. Taking the value of a refusal, by `*` or `->`, ends the program.

       auto run = sivorandra::Run::start(words);
       if (!run)
           return report(run.refusal());          // text(), whose p is position; number, position
       for (;;) {                                 // once in every tick
           std::uint32_t empties = ...;           // of the jobs released now: those with no work
           auto sets = run->sets(empties);        // (*sets)[0]: the cores of position 1
           auto working = run->working(empties);  // the positions whose job is to run now
           if (!sets || !working)
               return report(!sets ? sets.refusal() : working.refusal()); // 15 late, 20 empties
           std::uint32_t ended = dispatch(*sets, *working);    // the tick passes
           if (auto taken = run->advance(ended & *working, empties); !taken)
               return report(taken.refusal());    // 16: correct `ended`, and advance again
       }

   A set has bit 0 for position 1, or for core 0. `run->withdraw(2)`, between two ticks, withdraws
   position 2. After 15 the run stays in its tick for good; it comes only in a table that is full
   and not firm. The first screen of sivorandra.h says more, and what a call costs.
   examples/run_loop.cpp is the whole program, examples/judge.cpp judges a file. */
#ifndef SIVORANDRA_HPP
#define SIVORANDRA_HPP

#include "sivorandra.h"

#include <array>
#include <cstddef>
#include <cstdint>
#include <cstdlib>
#include <string_view>

namespace sivorandra {

/* ---------------------------------------------------------------- refusals and results

       if (auto verdict = sivorandra::judge(words); !verdict)
           std::puts(verdict.refusal().text()); */

enum class Rule : std::uint32_t {
    greedy = SIVORANDRA_GREEDY,
    limited = SIVORANDRA_LIMITED,
    idling = SIVORANDRA_IDLING,
    lending = SIVORANDRA_LENDING
};

/* The number of a refusal; a later library may have more. */
enum class Number : std::uint32_t {
    not_a_table = SIVORANDRA_NOT_A_TABLE,
    bad_cores = SIVORANDRA_BAD_CORES,
    bad_rule = SIVORANDRA_BAD_RULE,
    no_head = SIVORANDRA_NO_HEAD,
    no_record = SIVORANDRA_NO_RECORD,
    record_again = SIVORANDRA_RECORD_AGAIN,
    bad_width = SIVORANDRA_BAD_WIDTH,
    bad_time = SIVORANDRA_BAD_TIME,
    long_horizon = SIVORANDRA_LONG_HORIZON,
    bad_range = SIVORANDRA_BAD_RANGE,
    short_rows = SIVORANDRA_SHORT_ROWS,
    past_miss = SIVORANDRA_PAST_MISS,
    table_misses = SIVORANDRA_TABLE_MISSES,
    not_a_run = SIVORANDRA_NOT_A_RUN,
    late = SIVORANDRA_LATE,
    bad_report = SIVORANDRA_BAD_REPORT,
    no_miss = SIVORANDRA_NO_MISS,
    short_buffer = SIVORANDRA_SHORT_BUFFER,
    bad_fence = SIVORANDRA_BAD_FENCE,
    bad_empty = SIVORANDRA_BAD_EMPTY,
    not_firm = SIVORANDRA_NOT_FIRM,
    no_position = SIVORANDRA_NO_POSITION,
    slack_not_given = SIVORANDRA_SLACK_NOT_GIVEN,
    bad_row = SIVORANDRA_BAD_ROW,
    deadline_missed = SIVORANDRA_DEADLINE_MISSED,
    phases_differ = SIVORANDRA_PHASES_DIFFER
};

/* Why a call is refused: its number, and the position at fault or 0; with 24 to 26 the tick. */
struct Refusal {
    Number number;
    std::uint32_t position;

    const char *text() const
    {
        return sivorandra_number_text(static_cast<std::uint32_t>(number));
    }
};

inline bool operator==(Refusal a, Refusal b)
{
    return a.number == b.number && a.position == b.position;
}

/* A value, or the refusal. `*` and `->` end the program where it is a refusal, and so does
   refusal() where it is a value. */
template <class Value> class [[nodiscard]] Result {
public:
    Result(const Value &value) : value_(value), refusal_(), has_(true) {}
    Result(Refusal refusal) : value_(), refusal_(refusal), has_(false) {}

    explicit operator bool() const { return has_; }
    Value &operator*() { return need(has_), value_; }
    const Value &operator*() const { return need(has_), value_; }
    Value *operator->() { return need(has_), &value_; }
    const Value *operator->() const { return need(has_), &value_; }
    Refusal refusal() const { return need(!has_), refusal_; }

private:
    static void need(bool holds)
    {
        if (!holds)
            std::abort();
    }

    Value value_;
    Refusal refusal_;
    bool has_;
};

/* The value of a call that has none. */
struct Done {};

namespace detail {

/* The result of a typed call: the value where it returns 0. */
template <class Value>
Result<Value> result(int status, const sivorandra_answer &answer, const Value &value)
{
    if (status == 0)
        return value;
    return Refusal{static_cast<Number>(answer.first), answer.second};
}

} // namespace detail

/* ---------------------------------------------------------------- tables

       constexpr std::array records{
           // offset, width of odd jobs, length, deadline, period, width of even jobs
           sivorandra::Record{0, 2, 2, 5, 5, 2}, sivorandra::Record{0, 1, 4, 5, 5, 1}};
       auto table = sivorandra::Table::link(3, sivorandra::Rule::limited, 0, records);
       auto verdict = sivorandra::judge(table); */

using Record = sivorandra_record;

/* The words of a table, lent: any container of them, or a pointer and how many there are. */
class Words {
public:
    Words(const std::uint32_t *data, std::size_t size) : data_(data), size_(size) {}
    template <class Container>
    Words(const Container &words) : data_(words.data()), size_(words.size()) {}

    const std::uint32_t *data() const { return data_; }
    std::size_t size() const { return size_; }

private:
    const std::uint32_t *data_;
    std::size_t size_;
};

/* A table by value. */
class Table {
public:
    /* The records in this order, the first at position 1; more than 32 are no table (1). */
    template <class Records>
    static Table link(std::uint32_t cores, Rule rule, std::uint64_t fence, const Records &records)
    {
        Table table;
        table.size_ = sivorandra_link(cores, static_cast<sivorandra_rule>(rule), fence,
                                      records.data(), records.size(), nullptr,
                                      table.words_.data(), table.words_.size());
        return table;
    }

    /* The same, where order[i] is the index of the record at position i + 1. */
    template <class Records, class Order>
    static Table link(std::uint32_t cores, Rule rule, std::uint64_t fence, const Records &records,
                      const Order &order)
    {
        Table table;
        if (order.size() == records.size())
            table.size_ = sivorandra_link(cores, static_cast<sivorandra_rule>(rule), fence,
                                          records.data(), records.size(), order.data(),
                                          table.words_.data(), table.words_.size());
        return table;
    }

    const std::uint32_t *data() const { return words_.data(); }
    std::size_t size() const { return size_; }

private:
    std::array<std::uint32_t, SIVORANDRA_TABLE_WORDS> words_{};
    std::size_t size_ = 0;
};

/* ---------------------------------------------------------------- questions about a table

       if (auto verdict = sivorandra::judge(words); verdict && verdict->accepted())
           ship();
       if (auto why = sivorandra::sentence(words))
           std::puts(why->c_str()); */

struct Verdict {
    enum class Case { firm, full, miss };
    Case is;
    std::uint32_t first, second; /* S and P; of a miss tick and position */

    bool accepted() const { return is != Case::miss; }
};

namespace detail {

inline Result<Verdict> verdict(int status, const sivorandra_answer &answer)
{
    auto is = answer.kind == SIVORANDRA_IS_FIRM   ? Verdict::Case::firm
              : answer.kind == SIVORANDRA_IS_FULL ? Verdict::Case::full
                                                  : Verdict::Case::miss;
    return result(answer.kind == SIVORANDRA_IS_MISS ? 0 : status, answer,
                  Verdict{is, answer.first, answer.second});
}

} // namespace detail

/* firm, full or miss; or refused by the table's numbers. */
inline Result<Verdict> judge(Words words)
{
    sivorandra_answer answer;
    int status = sivorandra_table_judge(words.data(), words.size(), &answer);
    return detail::verdict(status, answer);
}

/* The same, always tick by tick. */
inline Result<Verdict> judge_ticks(Words words)
{
    sivorandra_answer answer;
    int status = sivorandra_table_judge_ticks(words.data(), words.size(), &answer);
    return detail::verdict(status, answer);
}

/* The same, always event by event. */
inline Result<Verdict> judge_events(Words words)
{
    sivorandra_answer answer;
    int status = sivorandra_table_judge_events(words.data(), words.size(), &answer);
    return detail::verdict(status, answer);
}

/* Rows a up to but not including b, a byte a core. */
inline Result<Done> plan(Words words, std::uint32_t a, std::uint32_t b, std::uint8_t *rows,
                         std::size_t size)
{
    sivorandra_answer answer;
    int status =
        sivorandra_table_plan(words.data(), words.size(), a, b, rows, size, &answer);
    return detail::result(status, answer, Done{});
}

/* Why a table misses. */
class Sentence {
public:
    const char *c_str() const { return text_.data(); }
    std::string_view view() const { return std::string_view(text_.data(), size_); }

private:
    friend Result<Sentence> sentence(Words words);
    std::array<char, SIVORANDRA_SENTENCE_BYTES + 1> text_{};
    std::size_t size_ = 0;
};

inline Result<Sentence> sentence(Words words)
{
    Sentence made;
    sivorandra_answer answer;
    int status =
        sivorandra_table_sentence(words.data(), words.size(), made.text_.data(), &answer);
    made.size_ = status == 0 ? answer.first : 0;
    return detail::result(status, answer, made);
}

/* A number for each position, position 1 first; 0 past the last. */
using Figures = std::array<std::uint32_t, SIVORANDRA_MOST_TASKS>;

/* The worst-case response times. */
inline Result<Figures> response_times(Words words)
{
    Figures figures{};
    sivorandra_answer answer;
    int status = sivorandra_table_response_times(words.data(), words.size(), figures.data(),
                                                 &answer);
    return detail::result(status, answer, figures);
}

/* By how many ticks each position alone may become longer. */
inline Result<Figures> slack(Words words)
{
    Figures figures{};
    sivorandra_answer answer;
    int status = sivorandra_table_slack(words.data(), words.size(), figures.data(), &answer);
    return detail::result(status, answer, figures);
}

/* Whether the table passes the interference test, and so is accepted; and its bounds, or zeros. */
struct Bounds {
    bool passes;
    Figures ticks;
};

inline Result<Bounds> bounds(Words words)
{
    Figures figures{};
    sivorandra_answer answer;
    int status = sivorandra_table_bounds(words.data(), words.size(), figures.data(), &answer);
    bool passes = status == 0;
    return detail::result(answer.kind == SIVORANDRA_IS_NOT_PASSED ? 0 : status, answer,
                          Bounds{passes, figures});
}

/* A minimal set of positions that misses. */
inline Result<std::uint32_t> conflict(Words words)
{
    std::uint32_t kept = 0;
    sivorandra_answer answer;
    int status = sivorandra_table_conflict(words.data(), words.size(), &kept, &answer);
    return detail::result(status, answer, kept);
}

/* ---------------------------------------------------------------- a run

       auto run = sivorandra::Run::start(table);
       if (run)
           if (auto out = run->withdraw(2); !out)      // position 2, for good
               std::puts(out.refusal().text()); */

/* A run by value: copy it, keep it, go back to it. */
class Run {
public:
    using Stored = std::array<std::uint32_t, SIVORANDRA_RUN_WORDS>;
    using Row = std::array<std::uint8_t, SIVORANDRA_ROW_BYTES>;
    using Sets = std::array<std::uint64_t, SIVORANDRA_SETS>;

    /* No run: every call refuses it with 14. */
    Run() : run_() {}

    /* A run from any words: those that are no run are refused with 14. */
    explicit Run(const Stored &words) : run_()
    {
        for (std::size_t i = 0; i < words.size(); i++)
            run_.words[i] = words[i];
    }

    static Result<Run> start(Words words)
    {
        Run run;
        sivorandra_answer answer;
        int status = sivorandra_run_start(&run.run_, words.data(), words.size(), &answer);
        return detail::result(status, answer, run);
    }

    const std::uint32_t *words() const { return run_.words; }
    std::uint32_t cores() const { return sivorandra_run_cores(&run_); }
    std::uint32_t tasks() const { return sivorandra_run_tasks(&run_); }

    Result<Row> row(std::uint32_t empties) const
    {
        Row row{};
        sivorandra_answer answer;
        int status = sivorandra_run_row(&run_, empties, row.data(), &answer);
        return detail::result(status, answer, row);
    }

    Result<Sets> sets(std::uint32_t empties) const
    {
        Sets sets{};
        sivorandra_answer answer;
        int status = sivorandra_run_sets(&run_, empties, sets.data(), &answer);
        return detail::result(status, answer, sets);
    }

    Result<std::uint32_t> working(std::uint32_t empties) const
    {
        std::uint32_t set = 0;
        sivorandra_answer answer;
        int status = sivorandra_run_working(&run_, empties, &set, &answer);
        return detail::result(status, answer, set);
    }

    Result<Done> advance(std::uint32_t reports, std::uint32_t empties)
    {
        sivorandra_answer answer;
        int status = sivorandra_run_advance(&run_, reports, empties, &answer);
        return detail::result(status, answer, Done{});
    }

    Result<Done> withdraw(std::uint32_t position)
    {
        sivorandra_answer answer;
        int status = sivorandra_run_withdraw(&run_, position, &answer);
        return detail::result(status, answer, Done{});
    }

    /* All positions of a set, or none. */
    Result<Done> withdraw_all(std::uint32_t set)
    {
        sivorandra_answer answer;
        int status = sivorandra_run_withdraw_all(&run_, set, &answer);
        return detail::result(status, answer, Done{});
    }

private:
    sivorandra_run run_;
};

/* ---------------------------------------------------------------- a plan by another planner

       auto plan = sivorandra::SuppliedPlan::begin(table);
       while (plan && next_row(row))
           if (auto answer = plan->check_row(row); !answer)
               return answer.refusal().position;       // the tick, with 24 to 26 */

class SuppliedPlan {
public:
    enum class RowAnswer { taken, accepted };

    SuppliedPlan() : plan_() {}

    static Result<SuppliedPlan> begin(Words words)
    {
        SuppliedPlan plan;
        sivorandra_answer answer;
        int status = sivorandra_supplied_begin(&plan.plan_, words.data(), words.size(), &answer);
        return detail::result(status, answer, plan);
    }

    const std::uint32_t *words() const { return plan_.words; }

    /* The row of the present tick, a byte a core. A refusal leaves the plan as it was. */
    Result<RowAnswer> check_row(const std::uint8_t *row, std::size_t size)
    {
        sivorandra_answer answer;
        int status = sivorandra_supplied_row(&plan_, row, size, &answer);
        return detail::result(status, answer,
                              answer.kind == SIVORANDRA_IS_ACCEPTED ? RowAnswer::accepted
                                                                    : RowAnswer::taken);
    }

    template <class Row> Result<RowAnswer> check_row(const Row &row)
    {
        return check_row(row.data(), row.size());
    }

private:
    sivorandra_supplied plan_;
};

} // namespace sivorandra

#endif
