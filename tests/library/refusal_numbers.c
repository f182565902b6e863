/* Each number of the header from a call that it refuses, each limit from both sides, and the version. It is C, and C++ too.
   Prints each that differs; the last line is 'N numbers, M wrong'. */
#include <stdio.h>
#include <string.h>
#include "sivorandra.h"

enum { HEAD = SIVORANDRA_TABLE_HEAD_WORDS, RECORD = SIVORANDRA_TABLE_RECORD_WORDS, MOST = SIVORANDRA_MOST_TASKS + 1, RUN = SIVORANDRA_RUN_WORDS, PLAN = SIVORANDRA_PLAN_WORDS };
enum { CORES = 1, RULE = 2, FENCE = 3, NEXT = HEAD, O, V, C, D, T, W };
enum { PASSES = 0 };

static uint32_t table[HEAD + RECORD * MOST], run[PLAN], answer[SIVORANDRA_ANSWER_WORDS];
static uint8_t rows[SIVORANDRA_SENTENCE_BYTES];
static uint64_t shown[SIVORANDRA_SETS];
static size_t words;
static unsigned asked, wrong;

/* Tasks of one tick in five, on two cores. */
static void fresh(uint32_t tasks)
{
    static const uint32_t head[HEAD] = { 1, 2, SIVORANDRA_GREEDY, 0, 0 };
    memcpy(table, head, sizeof head);
    for (uint32_t i = 0; i < tasks; i++) {
        uint32_t record[RECORD] = { i + 1 < tasks ? i + 2 : 0, 0, 1, 1, 5, 5, 1 };
        memcpy(table + HEAD + i * RECORD, record, sizeof record);
    }
    words = HEAD + RECORD * tasks;
}

/* One task, with another word in its table. */
static void with(size_t at, uint32_t word) { fresh(1), table[at] = word; }

/* The call was answered, and refused by this number at this position; or, with no number, it was not refused. */
static void expect(const char *what, uint32_t value, uint32_t number, uint32_t position)
{
    asked++;
    int refused = answer[0] == SIVORANDRA_REFUSED || answer[0] == SIVORANDRA_ROW_REFUSED;
    if (value == SIVORANDRA_ANSWERED && (number == PASSES ? !refused : refused && answer[1] == number && answer[2] == position))
        return;
    wrong++;
    printf("%s: value %u, answer %u %u %u\n", what, (unsigned)value, (unsigned)answer[0], (unsigned)answer[1], (unsigned)answer[2]);
}

static uint32_t judge(void) { return sivorandra_judge(table, words, answer, SIVORANDRA_ANSWER_WORDS); }
static uint32_t plan(uint32_t a, uint32_t b, size_t len) { return sivorandra_plan(table, words, a, b, rows, len, answer, SIVORANDRA_ANSWER_WORDS); }
static uint32_t start(void) { return sivorandra_start(table, words, run, RUN, answer, SIVORANDRA_ANSWER_WORDS); }
static uint32_t row(uint32_t empties) { return sivorandra_row(run, RUN, empties, rows, SIVORANDRA_ROW_BYTES, answer, SIVORANDRA_ANSWER_WORDS); }
static uint32_t sets(uint32_t empties) { return sivorandra_sets(run, RUN, empties, shown, SIVORANDRA_SETS, answer, SIVORANDRA_ANSWER_WORDS); }
static uint32_t advance(uint32_t reports, uint32_t empties) { return sivorandra_advance(run, RUN, reports, empties, answer, SIVORANDRA_ANSWER_WORDS); }
static uint32_t withdraw(uint32_t position) { return sivorandra_withdraw(run, RUN, position, answer, SIVORANDRA_ANSWER_WORDS); }
static uint32_t withdraw_all(uint32_t set) { return sivorandra_withdraw_all(run, RUN, set, answer, SIVORANDRA_ANSWER_WORDS); }
static uint32_t sentence(size_t len) { return sivorandra_sentence(table, words, rows, len, answer, SIVORANDRA_ANSWER_WORDS); }
static uint32_t response_times(void) { return sivorandra_response_times(table, words, run, SIVORANDRA_MOST_TASKS, answer, SIVORANDRA_ANSWER_WORDS); }
static uint32_t slack(void) { return sivorandra_slack(table, words, run, SIVORANDRA_MOST_TASKS, answer, SIVORANDRA_ANSWER_WORDS); }
static uint32_t bounds(void) { return sivorandra_bounds(table, words, run, SIVORANDRA_MOST_TASKS, answer, SIVORANDRA_ANSWER_WORDS); }
static uint32_t begin(void) { return sivorandra_check_begin(table, words, run, PLAN, answer, SIVORANDRA_ANSWER_WORDS); }
static uint32_t take(uint8_t a, uint8_t b)
{
    uint8_t two[2] = { a, b };
    return sivorandra_check_row(run, PLAN, two, 2, answer, SIVORANDRA_ANSWER_WORDS);
}
static uint32_t idle(uint32_t ticks)
{
    while (--ticks)
        take(0, 0);
    return take(0, 0);
}
static uint32_t conflict(void) { return sivorandra_conflict(table, words, answer, SIVORANDRA_ANSWER_WORDS); }

static void numbers(void)
{
    fresh(1), words = HEAD - 1, expect("too few words", judge(), SIVORANDRA_NOT_A_TABLE, 0);
    with(CORES, 0), expect("no cores", judge(), SIVORANDRA_BAD_CORES, 0);
    with(RULE, 0), expect("no rule", judge(), SIVORANDRA_BAD_RULE, 0);
    with(FENCE, 3), expect("all cores fenced", judge(), SIVORANDRA_BAD_FENCE, 0);
    with(0, 0), expect("no head", judge(), SIVORANDRA_NO_HEAD, 0);
    with(0, 2), expect("no such record", judge(), SIVORANDRA_NO_RECORD, 0);
    with(NEXT, 1), expect("a record again", judge(), SIVORANDRA_RECORD_AGAIN, 0);
    with(V, 3), expect("too wide", judge(), SIVORANDRA_BAD_WIDTH, 1);
    with(W, 3), expect("too wide on even jobs", judge(), SIVORANDRA_BAD_WIDTH, 1);
    with(W, 0), expect("no core on even jobs", judge(), SIVORANDRA_BAD_WIDTH, 1);
    with(T, 4), expect("D above T", judge(), SIVORANDRA_BAD_TIME, 1);
    fresh(2), table[T] = 999999, table[RECORD + T] = 1009, expect("a long horizon", judge(), SIVORANDRA_LONG_HORIZON, 0);
    fresh(1), expect("a above b", plan(1, 0, sizeof rows), SIVORANDRA_BAD_RANGE, 0);
    fresh(1), expect("short rows", plan(0, 1, 1), SIVORANDRA_SHORT_ROWS, 0);
    with(C, 6), expect("b above the horizon", plan(0, 6, sizeof rows), SIVORANDRA_BAD_RANGE, 0);
    with(C, 3), table[D] = 2, expect("past the miss", plan(0, 3, sizeof rows), SIVORANDRA_PAST_MISS, 0);
    with(C, 6), expect("a miss is not started", start(), SIVORANDRA_TABLE_MISSES, 0);
    expect("the run of a refused start", row(0), SIVORANDRA_NOT_A_RUN, 0);
    expect("its sets", sets(0), SIVORANDRA_NOT_A_RUN, 0);
    fresh(1), start(), expect("a report past the count", advance(2, 0), SIVORANDRA_BAD_REPORT, 0);
    fresh(1), start(), expect("an empty job past the count", row(2), SIVORANDRA_BAD_EMPTY, 0);
    expect("the same to the sets", sets(2), SIVORANDRA_BAD_EMPTY, 0);
    expect("an empty job past the count, before a report past it", advance(2, 2), SIVORANDRA_BAD_EMPTY, 0);
    expect("a report on an empty job", advance(1, 1), SIVORANDRA_BAD_REPORT, 0);
    expect("an empty job in its release tick", row(1), PASSES, 0);
    expect("the same to the sets", sets(1), PASSES, 0);
    expect("the same to the advance", advance(0, 1), PASSES, 0);
    fresh(1), start(), advance(0, 0), expect("an empty job a tick after its release", row(1), SIVORANDRA_BAD_EMPTY, 0);
    expect("the same to the advance", advance(0, 1), SIVORANDRA_BAD_EMPTY, 0);
    fresh(2), start(), expect("position 0", withdraw(0), SIVORANDRA_NO_POSITION, 0);
    expect("a position past the count", withdraw(3), SIVORANDRA_NO_POSITION, 0);
    expect("the last position", withdraw(2), PASSES, 0);
    expect("the same again", withdraw(2), PASSES, 0);
    expect("an empty bit on a withdrawn task", row(2), PASSES, 0);
    expect("a report on a withdrawn task", advance(2, 0), SIVORANDRA_BAD_REPORT, 0);
    fresh(2), table[V] = 2, start(), expect("greedy and a width above the next", withdraw(1), SIVORANDRA_NOT_FIRM, 0);
    expect("not firm before no position", withdraw(0), SIVORANDRA_NOT_FIRM, 0);
    fresh(2), table[W] = 2, start(), expect("the same on even jobs", withdraw(1), SIVORANDRA_NOT_FIRM, 0);
    fresh(2), table[RECORD + W] = 2, start(), expect("greedy and no width above the next", withdraw(1), PASSES, 0);
    fresh(2), table[V] = 2, table[RULE] = SIVORANDRA_LIMITED, start(), expect("the same under limited", withdraw(1), PASSES, 0);
    fresh(2), table[V] = 2, table[RULE] = SIVORANDRA_IDLING, start(), expect("the same under idling", withdraw(1), PASSES, 0);
    fresh(2), table[V] = 2, table[RULE] = SIVORANDRA_LENDING, start(), expect("the same under lending", withdraw(1), PASSES, 0);
    expect("a report on the withdrawn task, which lends", advance(1, 0), SIVORANDRA_BAD_REPORT, 0);
    expect("a report on the task that borrows", advance(2, 0), PASSES, 0);
    with(C, 6), start(), expect("no run to withdraw from", withdraw(1), SIVORANDRA_NOT_A_RUN, 0);
    expect("no run to withdraw several from", withdraw_all(0), SIVORANDRA_NOT_A_RUN, 0);
    fresh(2), start(), expect("several, of which one is past the count", withdraw_all(7), SIVORANDRA_NO_POSITION, 0);
    expect("nobody", withdraw_all(0), PASSES, 0);
    expect("a report on one that is not withdrawn", advance(1, 0), PASSES, 0);
    expect("all", withdraw_all(3), PASSES, 0);
    expect("the same again", withdraw_all(3), PASSES, 0);
    expect("a report on one of them", advance(1, 0), SIVORANDRA_BAD_REPORT, 0);
    fresh(2), table[V] = 2, start(), expect("greedy and a width above the next, several", withdraw_all(3), SIVORANDRA_NOT_FIRM, 0);
    expect("nobody either", withdraw_all(0), SIVORANDRA_NOT_FIRM, 0);
    expect("not firm before one past the count", withdraw_all(4), SIVORANDRA_NOT_FIRM, 0);
    fresh(1), expect("no miss", sentence(sizeof rows), SIVORANDRA_NO_MISS, 0);
    with(C, 6), expect("a short buffer", sentence(1), SIVORANDRA_SHORT_BUFFER, 0);
    with(C, 6), expect("a miss has no response times", response_times(), SIVORANDRA_TABLE_MISSES, 0);
    fresh(1), expect("response times", response_times(), PASSES, 0);
    with(V, 3), expect("too wide, asked for the response times", response_times(), SIVORANDRA_BAD_WIDTH, 1);
    fresh(1), expect("no miss, no conflict", conflict(), SIVORANDRA_NO_MISS, 0);
    with(C, 6), expect("a conflict", conflict(), PASSES, 0);
    with(C, 6), table[V] = 3, expect("too wide, asked for the conflict", conflict(), SIVORANDRA_BAD_WIDTH, 1);
    fresh(2), expect("slack, greedy and no width above the next", slack(), PASSES, 0);
    fresh(2), table[V] = 2, expect("greedy and a width above the next", slack(), SIVORANDRA_SLACK_NOT_GIVEN, 0);
    table[RULE] = SIVORANDRA_LIMITED, expect("the same under limited", slack(), PASSES, 0);
    table[RULE] = SIVORANDRA_IDLING, expect("the same under idling", slack(), SIVORANDRA_SLACK_NOT_GIVEN, 0);
    table[RULE] = SIVORANDRA_LENDING, expect("the same under lending", slack(), SIVORANDRA_SLACK_NOT_GIVEN, 0);
    with(C, 6), table[RULE] = SIVORANDRA_LIMITED, expect("a miss under limited", slack(), SIVORANDRA_SLACK_NOT_GIVEN, 0);
    with(V, 3), table[RULE] = SIVORANDRA_IDLING, expect("too wide, asked for the slack", slack(), SIVORANDRA_BAD_WIDTH, 1);
    with(V, 3), expect("too wide, asked for the bounds", bounds(), SIVORANDRA_BAD_WIDTH, 1);
    fresh(2), expect("bounds", bounds(), PASSES, 0);
    expect("that are there", answer[1] != 1 || run[0] != 1 || run[1] != 1 || run[2] != 0, PASSES, 0);
    with(C, 6), expect("a miss has no bounds", bounds(), PASSES, 0);
    expect("none", answer[1] != 0 || run[0] != 0, PASSES, 0);

    /* supplied plans: a row without a task is idle */
    with(V, 3), expect("too wide for a plan by others", begin(), SIVORANDRA_BAD_WIDTH, 1);
    expect("the plan of a refused beginning", take(0, 0), SIVORANDRA_NOT_A_RUN, 0);
    with(C, 6), expect("a miss by our rule begins", begin(), PASSES, 0);
    fresh(1), expect("a plan by others", begin(), PASSES, 0);
    expect("no row", sivorandra_check_row(run, PLAN, NULL, 0, answer, SIVORANDRA_ANSWER_WORDS), SIVORANDRA_SHORT_ROWS, 0);
    expect("no such position in a row", take(2, 0), SIVORANDRA_BAD_ROW, 0);
    expect("another width", take(1, 1), SIVORANDRA_BAD_ROW, 0);
    expect("a row", take(0, 1), PASSES, 0);
    expect("nothing owed", take(1, 0), SIVORANDRA_BAD_ROW, 1);
    expect("idle rows", idle(4), PASSES, 0);
    expect("the last is accepted", answer[0] != SIVORANDRA_ACCEPTED, PASSES, 0);
    expect("past the horizon", take(0, 0), SIVORANDRA_BAD_RANGE, 0);
    fresh(1), begin(), expect("a deadline missed on the horizon", idle(5), SIVORANDRA_DEADLINE_MISSED, 5);
    expect("the last row again", take(1, 0), PASSES, 0);
    with(D, 2), begin(), expect("a deadline missed before it", idle(3), SIVORANDRA_DEADLINE_MISSED, 2);
    fresh(2), table[RECORD + O] = 1, begin(), take(1, 0), take(0, 2), expect("other phases than at the last S", idle(4), SIVORANDRA_PHASES_DIFFER, 6);
    expect("the last row again", take(0, 1), PASSES, 0);
    expect("it is accepted", answer[0] != SIVORANDRA_ACCEPTED, PASSES, 0);

    /* position 1 ends early, the wide task at position 2 goes first, and position 3 is late */
    static const uint32_t b[] = { 1, 2, 1, 0, 0, 2, 0, 1, 3, 3, 4, 1, 3, 0, 2, 1, 4, 4, 2, 0, 0, 1, 2, 2, 4, 1 };
    memcpy(table, b, sizeof b), words = sizeof b / sizeof b[0];
    start(), expect("an early end", advance(1, 0), PASSES, 0);
    expect("one more tick", advance(0, 0), PASSES, 0);
    expect("late", row(0), SIVORANDRA_LATE, 3);
    expect("late", sets(0), SIVORANDRA_LATE, 3);
    expect("late", advance(0, 0), SIVORANDRA_LATE, 3);
    expect("late before an empty job", row(7), SIVORANDRA_LATE, 3);
    expect("late before an empty job", sets(7), SIVORANDRA_LATE, 3);
    expect("late before an empty job", advance(8, 7), SIVORANDRA_LATE, 3);
}

static void limits(void)
{
    fresh(SIVORANDRA_MOST_TASKS), table[CORES] = SIVORANDRA_MOST_CORES, expect("the most tasks", judge(), PASSES, 0);
    fresh(SIVORANDRA_MOST_TASKS + 1), table[CORES] = SIVORANDRA_MOST_CORES, expect("a task more", judge(), SIVORANDRA_NOT_A_TABLE, 0);
    with(CORES, SIVORANDRA_MOST_CORES), expect("the most cores", judge(), PASSES, 0);
    with(CORES, SIVORANDRA_MOST_CORES + 1), expect("a core more", judge(), SIVORANDRA_BAD_CORES, 0);
    with(RULE, SIVORANDRA_LIMITED), expect("limited", judge(), PASSES, 0);
    with(RULE, SIVORANDRA_IDLING), expect("idling", judge(), PASSES, 0);
    with(RULE, SIVORANDRA_LENDING), expect("lending", judge(), PASSES, 0);
    with(RULE, SIVORANDRA_LENDING + 1), expect("a rule more", judge(), SIVORANDRA_BAD_RULE, 0);
    with(O, SIVORANDRA_MOST_OFFSET), expect("the largest O", judge(), PASSES, 0);
    with(O, SIVORANDRA_MOST_OFFSET + 1), expect("O", judge(), SIVORANDRA_BAD_TIME, 1);
    with(C, SIVORANDRA_MOST_LENGTH), expect("the largest C", judge(), PASSES, 0);
    with(C, SIVORANDRA_MOST_LENGTH + 1), expect("C", judge(), SIVORANDRA_BAD_TIME, 1);
    with(T, SIVORANDRA_MOST_PERIOD), expect("the largest T", judge(), PASSES, 0);
    with(T, SIVORANDRA_MOST_PERIOD + 1), expect("T", judge(), SIVORANDRA_BAD_TIME, 1);
    fresh(2), table[T] = 1000, table[RECORD + O] = 1000, table[RECORD + T] = 999999, expect("the largest horizon", judge(), PASSES, 0);
    expect("its horizon", answer[1] + answer[2] != SIVORANDRA_MOST_HORIZON, PASSES, 0);
    table[RECORD + O]++, expect("a tick more", judge(), SIVORANDRA_LONG_HORIZON, 0);
    table[RECORD + O] = 0, table[W] = 2, expect("2T where the widths differ", judge(), SIVORANDRA_LONG_HORIZON, 0);
    table[T] = 500, expect("half of it", judge(), PASSES, 0);
    expect("its P", answer[2] != 999999000u, PASSES, 0);
    fresh(SIVORANDRA_MOST_TASKS), table[CORES] = SIVORANDRA_MOST_CORES, table[words - RECORD + C - HEAD] = 6, expect("a conflict of the last position", conflict(), PASSES, 0);
    expect("its set", answer[0] != SIVORANDRA_KEPT || answer[1] != 0x80000000u || answer[2] != 0, PASSES, 0);
    fresh(1), table[C] = SIVORANDRA_MOST_LENGTH - 1, table[D] = table[T] = SIVORANDRA_MOST_PERIOD, expect("a tick below the largest C", slack(), PASSES, 0);
    expect("its slack", run[0] != 1, PASSES, 0);
    table[C]++, expect("the largest C", slack(), PASSES, 0);
    expect("no slack", run[0] != 0, PASSES, 0);
    fresh(SIVORANDRA_MOST_TASKS), table[CORES] = SIVORANDRA_MOST_CORES, start(), expect("all of the most tasks withdrawn", withdraw_all(0xffffffffu), PASSES, 0);
    expect("their set", run[SIVORANDRA_RUN_HEAD_WORDS - 1] != 0xffffffffu, PASSES, 0);
    fresh(SIVORANDRA_MOST_TASKS - 1), table[CORES] = SIVORANDRA_MOST_CORES, start(), expect("a task more", withdraw_all(0x80000000u), SIVORANDRA_NO_POSITION, 0);
    with(FENCE, 1), start(), expect("a fenced core", row(0), PASSES, 0);
    expect("its byte", rows[0] != SIVORANDRA_FENCED, PASSES, 0);
    expect("the sets beside it", sets(0), PASSES, 0);
    expect("core 1 for the one task", shown[0] != 2 || shown[1] != 0, PASSES, 0);
    with(CORES, SIVORANDRA_MOST_CORES), table[V] = table[W] = SIVORANDRA_MOST_CORES, start(), expect("a task on the most cores", sets(0), PASSES, 0);
    expect("its set", shown[0] != UINT64_MAX, PASSES, 0);
    fresh(SIVORANDRA_SETS), table[CORES] = SIVORANDRA_MOST_CORES, start(), expect("a set for the most tasks", sets(0), PASSES, 0);
    expect("the last", shown[SIVORANDRA_SETS - 1] != 1u << (SIVORANDRA_SETS - 1), PASSES, 0);
}

int main(void)
{
    char text[40];
    numbers(), limits();
    sprintf(text, "%d.%d.%d", SIVORANDRA_VERSION_MAJOR, SIVORANDRA_VERSION_MINOR, SIVORANDRA_VERSION_PATCH);
    expect("the version's text", strcmp(text, SIVORANDRA_VERSION_TEXT) != 0, PASSES, 0);
    expect("the library's version", sivorandra_version() != SIVORANDRA_VERSION, PASSES, 0);
    printf("%u numbers, %u wrong\n", asked, wrong);
    return wrong != 0;
}
