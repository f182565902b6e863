/* Hostile calls of the library from C, each compared with the header: NULL with length 0, lengths around every limit,
   counts and words of all ones, fences, odd and even jobs, empty jobs, lent cores, rows as sets of cores, who works, positions withdrawn one by one and together, lists that are none, anything past the count. Every slice lies between guards, which must stay.
   Prints each call that differs; the last line is 'N calls, M wrong'. */
#include <stdio.h>
#include <string.h>
#include "sivorandra.h"

enum { RUN = SIVORANDRA_RUN_WORDS, ROW = SIVORANDRA_ROW_BYTES, HEAD = SIVORANDRA_RUN_HEAD_WORDS, PLACE = SIVORANDRA_RUN_PLACE_WORDS, PLAN = SIVORANDRA_PLAN_WORDS, NOTES = RUN + 1 };
enum { GUARD = 8, MOST = 512, PARITY = HEAD + 6, KIND = PARITY + 1, TABLE = 26, USED = HEAD + PLACE * 3 };
static const uint32_t ONES = 0xffffffffu;

/* head, cores, rule, two words of fenced cores; then for each record: next, offset, width, length, deadline, period, width of even jobs */
static const uint32_t full[TABLE] = { 1, 3, 1, 0, 0, 2, 0, 2, 2, 5, 5, 2, 3, 0, 2, 3, 5, 5, 2, 0, 0, 1, 4, 5, 5, 1 };
static const uint32_t miss[TABLE] = { 1, 2, 2, 0, 0, 2, 0, 1, 3, 3, 4, 1, 3, 0, 2, 1, 4, 4, 2, 0, 0, 1, 2, 2, 4, 1 };
static const uint8_t rows[] = { 1, 1, 3, 1, 1, 3, 2, 2, 3, 2, 2, 3, 2, 2, 0 };

/* A slice to lend, and its expected contents after the call; NULL if `null` is set. */
typedef struct { uint32_t now[MOST], want[MOST]; size_t len; int null; } Words;
typedef struct { uint8_t now[MOST], want[MOST]; size_t len; int null; } Bytes;
typedef struct { uint64_t now[MOST], want[MOST]; size_t len; int null; } Longs;

static unsigned calls, wrong;

static uint32_t *words_at(Words *w) { return w->null ? NULL : w->now + GUARD; }
static uint8_t *bytes_at(Bytes *b) { return b->null ? NULL : b->now + GUARD; }
static uint64_t *longs_at(Longs *l) { return l->null ? NULL : l->now + GUARD; }

static void words(Words *w, size_t len, const uint32_t *first, size_t n)
{
    for (size_t i = 0; i < MOST; i++)
        w->now[i] = 0xa5a50000u + (uint32_t)i;
    if (n)
        memcpy(w->now + GUARD, first, n * sizeof *first);
    memcpy(w->want, w->now, sizeof w->now);
    w->len = len;
    w->null = 0;
}

static void bytes(Bytes *b, size_t len)
{
    memset(b->now, 0xa5, sizeof b->now);
    memcpy(b->want, b->now, sizeof b->now);
    b->len = len;
    b->null = 0;
}

static void longs(Longs *l, size_t len)
{
    for (size_t i = 0; i < MOST; i++)
        l->now[i] = l->want[i] = 0xa5a5a5a5a5a50000u + i;
    l->len = len;
    l->null = 0;
}

static Words run, answer, numbers;
static Bytes row;
static Longs sets;

/* Every lent slice anew: room for what a call writes, and a run of the table in `run`. */
static void fresh(void)
{
    static uint32_t started[RUN];
    uint32_t three[3];
    sivorandra_start(full, TABLE, started, RUN, three, 3);
    words(&run, RUN, started, RUN);
    words(&answer, 3, NULL, 0);
    words(&numbers, 2, NULL, 0);
    bytes(&row, ROW);
    longs(&sets, SIVORANDRA_SETS);
}

/* The expected first words of the answer. */
static void answered(uint32_t kind, uint32_t first, uint32_t second)
{
    uint32_t three[3] = { kind, first, second };
    memcpy(answer.want + GUARD, three, sizeof three);
}

static void refused(uint32_t number) { answered(SIVORANDRA_REFUSED, number, 0); }

/* The expected first words of the run, or first bytes of the row. */
static void run_words(const uint32_t *first, size_t n) { memcpy(run.want + GUARD, first, n * sizeof *first); }
static void row_bytes(const uint8_t *first, size_t n)
{
    memset(row.want + GUARD, 0, ROW);
    if (n)
        memcpy(row.want + GUARD, first, n);
}

/* The expected sets: these, and zeros past them. */
static void sets_given(const uint64_t *first, size_t n)
{
    memset(sets.want + GUARD, 0, SIVORANDRA_SETS * sizeof sets.want[0]);
    if (n)
        memcpy(sets.want + GUARD, first, n * sizeof *first);
}

/* Sets words of the lent run. */
static void set(size_t at, size_t n, uint32_t word)
{
    for (size_t i = GUARD + at; i < GUARD + at + n; i++)
        run.now[i] = run.want[i] = word;
}

/* The run of a refused start: all zeros, every phase Resting(0). */
static void no_run(void)
{
    uint32_t none[RUN] = { 0 };
    for (size_t at = KIND; at < RUN; at += PLACE)
        none[at] = 3;
    run_words(none, RUN);
}

/* The value must be this, and every lent slice as wanted. */
static void expect(const char *what, uint32_t value, uint32_t got)
{
    int same = value == got && !memcmp(run.now, run.want, sizeof run.now) && !memcmp(answer.now, answer.want, sizeof answer.now)
        && !memcmp(numbers.now, numbers.want, sizeof numbers.now) && !memcmp(row.now, row.want, sizeof row.now) && !memcmp(sets.now, sets.want, sizeof sets.now);
    calls++;
    if (same)
        return;
    wrong++;
    printf("%s: value %u, answer %u %u %u\n", what, (unsigned)got, (unsigned)answer.now[GUARD], (unsigned)answer.now[GUARD + 1], (unsigned)answer.now[GUARD + 2]);
}

#define ANSWER words_at(&answer), answer.len
static uint32_t judge(const uint32_t *table, size_t len) { return sivorandra_judge(table, len, ANSWER); }
static uint32_t ticks(const uint32_t *table, size_t len) { return sivorandra_judge_ticks(table, len, ANSWER); }
static uint32_t events(const uint32_t *table, size_t len) { return sivorandra_judge_events(table, len, ANSWER); }
static uint32_t plan(const uint32_t *table, size_t len, uint32_t a, uint32_t b) { return sivorandra_plan(table, len, a, b, bytes_at(&row), row.len, ANSWER); }
static uint32_t replay(const uint32_t *table, size_t len, const uint32_t *entries, size_t n)
{
    return sivorandra_replay(table, len, entries, n, words_at(&numbers), numbers.len, bytes_at(&row), row.len, ANSWER);
}
static uint32_t start(const uint32_t *table, size_t len) { return sivorandra_start(table, len, words_at(&run), run.len, ANSWER); }
static uint32_t shown_with(uint32_t empties) { return sivorandra_row(words_at(&run), run.len, empties, bytes_at(&row), row.len, ANSWER); }
static uint32_t shown(void) { return shown_with(0); }
static uint32_t sets_with(uint32_t empties) { return sivorandra_sets(words_at(&run), run.len, empties, longs_at(&sets), sets.len, ANSWER); }
static uint32_t working_with(uint32_t empties) { return sivorandra_working(words_at(&run), run.len, empties, words_at(&numbers), numbers.len, ANSWER); }
static uint32_t sentence(const uint32_t *table, size_t len) { return sivorandra_sentence(table, len, bytes_at(&row), row.len, ANSWER); }
static uint32_t advance_with(uint32_t reports, uint32_t empties) { return sivorandra_advance(words_at(&run), run.len, reports, empties, ANSWER); }
static uint32_t advance(uint32_t reports) { return advance_with(reports, 0); }
static uint32_t withdraw(uint32_t position) { return sivorandra_withdraw(words_at(&run), run.len, position, ANSWER); }
static uint32_t withdraw_all(uint32_t set) { return sivorandra_withdraw_all(words_at(&run), run.len, set, ANSWER); }
static uint32_t conflict(const uint32_t *table, size_t len) { return sivorandra_conflict(table, len, ANSWER); }
static uint32_t begin(const uint32_t *table, size_t len) { return sivorandra_check_begin(table, len, words_at(&run), run.len, ANSWER); }
static uint32_t take(const uint8_t *row_lent, size_t len) { return sivorandra_check_row(words_at(&run), run.len, row_lent, len, ANSWER); }
static uint32_t response_times(const uint32_t *table, size_t len) { return sivorandra_response_times(table, len, words_at(&numbers), numbers.len, ANSWER); }
static uint32_t slack(const uint32_t *table, size_t len) { return sivorandra_slack(table, len, words_at(&numbers), numbers.len, ANSWER); }

static uint32_t bounded(const uint32_t *table, size_t len) { return sivorandra_bounds(table, len, words_at(&numbers), numbers.len, ANSWER); }

/* A slice of length 0 whose pointer is NULL. */
#define NONE(slice) ((slice).len = 0, (slice).null = 1)

/* NULL for each slice of each function, and for all of them. */
static void nulls(void)
{
    static const uint32_t entries[6] = { 0 };
    fresh(), refused(1), expect("judge: no words", 0, judge(NULL, 0));
    fresh(), NONE(answer), expect("judge: no answer", 1, judge(full, TABLE));
    fresh(), NONE(answer), expect("judge: nothing", 1, judge(NULL, 0));
    fresh(), refused(1), expect("judge_ticks: no words", 0, ticks(NULL, 0));
    fresh(), refused(1), expect("judge_events: no words", 0, events(NULL, 0));
    fresh(), NONE(answer), expect("judge_ticks: no answer", 1, ticks(full, TABLE));
    fresh(), NONE(answer), expect("judge_events: no answer", 1, events(full, TABLE));
    fresh(), NONE(answer), expect("judge_ticks: nothing", 1, ticks(NULL, 0));
    fresh(), NONE(answer), expect("judge_events: nothing", 1, events(NULL, 0));
    fresh(), refused(1), expect("conflict: no words", 0, conflict(NULL, 0));
    fresh(), NONE(answer), expect("conflict: no answer", 1, conflict(miss, TABLE));
    fresh(), NONE(answer), expect("conflict: nothing", 1, conflict(NULL, 0));
    fresh(), refused(1), expect("plan: no words", 0, plan(NULL, 0, 0, 0));
    fresh(), NONE(row), answered(0, 0, 0), expect("plan: no rows, none asked", 0, plan(full, TABLE, 0, 0));
    fresh(), NONE(row), refused(11), expect("plan: no rows, one asked", 0, plan(full, TABLE, 0, 1));
    fresh(), NONE(answer), expect("plan: no answer", 1, plan(full, TABLE, 0, 5));
    fresh(), NONE(row), NONE(answer), expect("plan: nothing", 1, plan(NULL, 0, 0, 5));
    fresh(), refused(1), expect("replay: no words", 0, replay(NULL, 0, entries, 6));
    fresh(), answered(0, 0, 0), row_bytes(rows, 3), expect("replay: no entries", 0, replay(full, TABLE, NULL, 0));
    fresh(), NONE(numbers), answered(0, 0, 0), row_bytes(rows, 3), expect("replay: no entries, no numbers", 0, replay(full, TABLE, NULL, 0));
    fresh(), NONE(numbers), expect("replay: entries, no numbers", 1, replay(full, TABLE, entries, 6));
    fresh(), NONE(row), expect("replay: no row", 1, replay(full, TABLE, entries, 6));
    fresh(), NONE(answer), expect("replay: no answer", 1, replay(full, TABLE, entries, 6));
    fresh(), NONE(numbers), NONE(row), refused(1), expect("replay: nothing but an answer", 0, replay(NULL, 0, NULL, 0));
    fresh(), refused(1), no_run(), expect("start: no words", 0, start(NULL, 0));
    fresh(), NONE(run), expect("start: no run", 1, start(full, TABLE));
    fresh(), NONE(answer), expect("start: no answer", 1, start(full, TABLE));
    fresh(), NONE(run), refused(14), row_bytes(NULL, 0), expect("row: no run", 0, shown());
    fresh(), NONE(row), expect("row: no row", 1, shown());
    fresh(), NONE(answer), expect("row: no answer", 1, shown());
    fresh(), NONE(run), refused(14), sets_given(NULL, 0), expect("sets: no run", 0, sets_with(0));
    fresh(), NONE(sets), expect("sets: no sets", 1, sets_with(0));
    fresh(), NONE(answer), expect("sets: no answer", 1, sets_with(0));
    fresh(), NONE(run), NONE(sets), NONE(answer), expect("sets: nothing", 1, sets_with(ONES));
    fresh(), NONE(run), refused(14), numbers.want[GUARD] = 0, expect("working: no run", 0, working_with(0));
    fresh(), NONE(numbers), expect("working: no set", 1, working_with(0));
    fresh(), NONE(answer), expect("working: no answer", 1, working_with(0));
    fresh(), NONE(run), NONE(numbers), NONE(answer), expect("working: nothing", 1, working_with(ONES));
    fresh(), NONE(run), refused(14), expect("advance: no run", 0, advance(0));
    fresh(), NONE(answer), expect("advance: no answer", 1, advance(0));
    fresh(), NONE(run), NONE(answer), expect("advance: nothing", 1, advance(ONES));
    fresh(), NONE(run), refused(14), expect("withdraw: no run", 0, withdraw(1));
    fresh(), NONE(answer), expect("withdraw: no answer", 1, withdraw(1));
    fresh(), NONE(run), NONE(answer), expect("withdraw: nothing", 1, withdraw(ONES));
    fresh(), NONE(run), refused(14), expect("withdraw_all: no run", 0, withdraw_all(0));
    fresh(), NONE(answer), expect("withdraw_all: no answer", 1, withdraw_all(1));
    fresh(), NONE(run), NONE(answer), expect("withdraw_all: nothing", 1, withdraw_all(ONES));
}

/* The sentence and its facts: lengths around every limit, and NULL for each slice. `row` is the buffer. */
static void sentences(void)
{
    enum { LATE = 12 };
    static const uint32_t late[LATE] = { 1, 1, 1, 0, 0, 0, 0, 1, 2, 1, 1, 1 };
    static const char said[] = "task 1 misses at tick 1 with 1 of 2 ticks.";
    enum { LENGTH = sizeof said - 1, FACTS = SIVORANDRA_FACT_WORDS };
    static const uint64_t late_facts[4] = { 1, 1, 1, 2 };
    for (size_t len = 0; len <= LENGTH + 2; len++) {
        fresh(), row.len = len;
        if (len < LENGTH)
            refused(18);
        else
            answered(SIVORANDRA_LENGTH, LENGTH, 0), memcpy(row.want + GUARD, said, LENGTH);
        expect("sentence: a buffer of every length", 0, sentence(late, LATE));
    }
    fresh(), NONE(row), refused(18), expect("sentence: no buffer", 0, sentence(late, LATE));
    fresh(), NONE(row), refused(17), expect("sentence: no buffer, no miss", 0, sentence(full, TABLE));
    fresh(), refused(17), expect("sentence: no miss", 0, sentence(full, TABLE));
    fresh(), NONE(row), refused(1), expect("sentence: no words", 0, sentence(NULL, 0));
    fresh(), NONE(answer), expect("sentence: no answer", 1, sentence(late, LATE));
    fresh(), answer.len = 2, expect("sentence: a short answer", 1, sentence(late, LATE));

    static const size_t lens[] = { 0, FACTS - 1, FACTS, FACTS + 1 };
    for (size_t i = 0; i < 8; i++) {
        uint64_t facts[FACTS + 2], want[FACTS + 2];
        size_t len = lens[i / 2], length = i % 2 ? LENGTH : LENGTH - 1;
        for (size_t k = 0; k < FACTS + 2; k++)
            facts[k] = want[k] = 0xa5a5a5a5a5a5a5a5u + k;
        fresh();
        if (len >= FACTS) {
            memset(want, 0, FACTS * sizeof want[0]);
            if (length == LENGTH)
                memcpy(want, late_facts, sizeof late_facts);
            answered(length == LENGTH ? SIVORANDRA_DONE : SIVORANDRA_NO_SENTENCE, 0, 0);
        }
        uint32_t got = sivorandra_facts((const uint8_t *)said, length, len ? facts : NULL, len, ANSWER);
        expect("facts", len < FACTS, memcmp(facts, want, sizeof facts) ? 2 : got);
    }
    uint64_t none[FACTS] = { 0 };
    fresh(), answered(SIVORANDRA_NO_SENTENCE, 0, 0), expect("facts: no bytes", 0, sivorandra_facts(NULL, 0, none, FACTS, ANSWER));
    fresh(), NONE(answer), expect("facts: no answer", 1, sivorandra_facts(NULL, 0, none, FACTS, ANSWER));
}

/* The response times, the slacks and the bounds, of which 0 is no refusal: 32 words in front and no more, all zeros in a refusal, lengths around 32, and NULL for each slice. `numbers`
   has the figures. */
static void figures_given(uint32_t a, uint32_t b, uint32_t c)
{
    uint32_t three[3] = { a, b, c };
    memset(numbers.want + GUARD, 0, SIVORANDRA_MOST_TASKS * sizeof numbers.want[0]);
    memcpy(numbers.want + GUARD, three, sizeof three);
}

static void figures_by(uint32_t (*call)(const uint32_t *, size_t), const uint32_t *given, uint32_t beside, const uint32_t *three, const uint32_t *turned, uint32_t number)
{
    enum { FIGURES = SIVORANDRA_MOST_TASKS };
    static const size_t lens[] = { 1, FIGURES - 1, FIGURES, FIGURES + 1, 100 };
    for (size_t i = 0; i < sizeof lens / sizeof lens[0]; i++) {
        fresh(), numbers.len = lens[i];
        if (lens[i] >= FIGURES)
            answered(SIVORANDRA_DONE, beside, 0), figures_given(three[0], three[1], three[2]);
        expect("figures: every length", lens[i] < FIGURES, call(given, TABLE));
        fresh(), numbers.len = lens[i];
        if (lens[i] >= FIGURES)
            number ? refused(number) : answered(SIVORANDRA_TESTED, 0, 0), figures_given(0, 0, 0);
        expect("figures: a refusal", lens[i] < FIGURES, call(turned, TABLE));
    }
    fresh(), numbers.len = FIGURES, refused(1), figures_given(0, 0, 0), expect("figures: no words", 0, call(NULL, 0));
    fresh(), NONE(numbers), expect("figures: none lent", 1, call(given, TABLE));
    fresh(), numbers.len = FIGURES, NONE(answer), expect("figures: no answer", 1, call(given, TABLE));
    fresh(), numbers.len = FIGURES, answer.len = 2, expect("figures: a short answer", 1, call(given, TABLE));
    fresh(), NONE(numbers), NONE(answer), expect("figures: nothing", 1, call(NULL, 0));
}

static void figures(void)
{
    static const uint32_t limited[TABLE] = { 1, 1, 2, 0, 0, 2, 0, 1, 1, 6, 6, 1, 3, 0, 1, 1, 2, 6, 1, 0, 0, 1, 1, 6, 6, 1 };
    static const uint32_t response_times_of_full[3] = { 2, 5, 4 }, slack_of_limited[3] = { 0, 0, 3 }, bounds_of_limited[3] = { 1, 2, 3 };
    figures_by(response_times, full, 0, response_times_of_full, miss, 13);
    figures_by(slack, limited, 0, slack_of_limited, miss, 23);
    figures_by(slack, limited, 0, slack_of_limited, full, 23); /* rule 1 out of the width order */
    figures_by(bounded, limited, 1, bounds_of_limited, miss, 0);
    figures_by(bounded, limited, 1, bounds_of_limited, full, 0); /* accepted, and does not pass */
}

/* Every lent slice anew, and a plan of the table in `run`: the run at tick 0, and its phases noted, S being 0. */
static void fresh_plan(void)
{
    static uint32_t begun[PLAN];
    uint32_t three[3];
    fresh();
    sivorandra_check_begin(full, TABLE, begun, PLAN, three, 3);
    words(&run, PLAN, begun, PLAN);
}

/* The expected plan: the tick, and the phases of the three tasks. */
static void plan_words(uint32_t tick, const uint32_t phases[3][4])
{
    for (size_t i = 0; i < 3; i++)
        memcpy(run.want + GUARD + KIND + PLACE * i, phases[i], 4 * sizeof run.want[0]);
    run.want[GUARD + RUN] = tick;
}

/* Supplied plans: begun and refused, lengths around every limit, NULL for each slice, rows up to the last, anything past the count, notes that are no phase. */
static void supplied(void)
{
    static const uint32_t at_one[3][4] = { { 1, 1, 1, 1 }, { 1, 1, 0, 0 }, { 1, 1, 1, 1 } };
    static const uint32_t at_last[3][4] = { { 3, 4, 0, 0 }, { 1, 4, 2, 2 }, { 3, 4, 0, 0 } };
    static const uint32_t again[3][4] = { { 1, 0, 0, 0 }, { 1, 0, 0, 0 }, { 1, 0, 0, 0 } };
    static const uint8_t bad[3] = { 1, 1, 4 }, idle[3] = { 0 };
    uint32_t want[PLAN] = { 0 };
    for (size_t at = KIND; at < RUN; at += PLACE)
        want[at] = 3;
    for (size_t at = NOTES; at < PLAN; at += SIVORANDRA_NOTE_WORDS)
        want[at] = 3;
    fresh(), run.len = PLAN, refused(1), run_words(want, PLAN), expect("begin: no words", 0, begin(NULL, 0));
    fresh(), run.len = PLAN - 1, expect("begin: a short plan", 1, begin(full, TABLE));
    fresh(), NONE(run), expect("begin: no plan", 1, begin(full, TABLE));
    fresh(), run.len = PLAN, NONE(answer), expect("begin: no answer", 1, begin(full, TABLE));
    fresh(), run.len = PLAN, answer.len = 2, expect("begin: a short answer", 1, begin(full, TABLE));
    fresh(), memcpy(want, run.now + GUARD, RUN * sizeof want[0]);
    for (size_t i = 0; i < 3; i++)
        want[NOTES + SIVORANDRA_NOTE_WORDS * i] = 1;
    fresh(), run.len = PLAN, answered(0, 0, 0), run_words(want, PLAN), expect("begin: the run that start leaves, and its phases", 0, begin(full, TABLE));
    fresh(), run.len = PLAN + 3, answered(0, 0, 0), run_words(want, PLAN), expect("begin: a longer plan", 0, begin(full, TABLE));

    fresh_plan(), NONE(run), refused(14), expect("take: no plan", 0, take(rows, 3));
    fresh_plan(), run.len = PLAN - 1, refused(14), expect("take: a short plan", 0, take(rows, 3));
    fresh_plan(), run.len = RUN, refused(14), expect("take: a run is no plan", 0, take(rows, 3));
    fresh_plan(), NONE(answer), expect("take: no answer", 1, take(rows, 3));
    fresh_plan(), answer.len = 2, expect("take: a short answer", 1, take(rows, 3));
    fresh_plan(), refused(11), expect("take: no row", 0, take(NULL, 0));
    fresh_plan(), refused(11), expect("take: a short row", 0, take(rows, 2));
    fresh_plan(), refused(11), expect("take: a longer row", 0, take(rows, 4));
    fresh_plan(), refused(24), expect("take: no such position", 0, take(bad, 3));
    fresh_plan(), answered(0, 0, 0), plan_words(1, at_one), expect("take: a row", 0, take(rows, 3));
    fresh_plan(), run.len = PLAN + 3, answered(0, 0, 0), plan_words(1, at_one), expect("take: a longer plan", 0, take(rows, 3));
    fresh_plan(), set(USED, RUN - USED, ONES), set(NOTES + 12, PLAN - NOTES - 12, ONES), answered(0, 0, 0), plan_words(1, at_one), expect("take: anything past the count", 0, take(rows, 3));
    fresh_plan(), set(NOTES, 12, ONES), answered(0, 0, 0), plan_words(1, at_one), expect("take: notes that are no phase stay", 0, take(rows, 3));
    fresh_plan(), set(RUN, 1, ONES), refused(10), expect("take: far past the horizon", 0, take(rows, 3));
    fresh_plan(), set(0, PLAN, ONES), refused(14), expect("take: all ones", 0, take(rows, 3));
    fresh_plan(), set(0, PLAN, 0), refused(14), expect("take: all zeros", 0, take(rows, 3));
    fresh_plan(), set(2, 1, 33), refused(14), expect("take: a count above 32", 0, take(rows, 3));
    fresh_plan(), set(5, 1, 1), refused(14), expect("take: a withdrawn position", 0, take(rows, 3));
    fresh_plan(), set(KIND, 1, 4), refused(14), expect("take: no such phase", 0, take(rows, 3));
    fresh_plan(), set(KIND, 1, 2), refused(14), expect("take: a task that holds", 0, take(rows, 3));
    fresh_plan(), set(KIND + 3, 1, 1), refused(14), expect("take: unequal counts", 0, take(rows, 3));

    /* the rows of our own plan, each refused once before it is taken */
    fresh_plan();
    for (uint32_t tick = 0; tick < 5; tick++) {
        answered(SIVORANDRA_REFUSED, 24, tick), memcpy(run.want, run.now, sizeof run.now), expect("take: a bad row leaves the plan", 0, take(bad, 3));
        if (tick == 4) {
            answered(SIVORANDRA_REFUSED, 25, 5), expect("take: a deadline on the horizon", 0, take(idle, 3));
            set(NOTES, 1, 9), answered(SIVORANDRA_REFUSED, 26, 5), expect("take: a note that is no phase agrees with none", 0, take(rows + 12, 3));
            set(NOTES, 1, 3), answered(SIVORANDRA_REFUSED, 26, 5), expect("take: another note", 0, take(rows + 12, 3));
            set(NOTES, 1, 1), set(PARITY, 1, 1), answered(SIVORANDRA_ACCEPTED, 0, 0), plan_words(5, again);
            for (size_t i = 0; i < 3; i++)
                run.want[GUARD + PARITY + PLACE * i] = i != 0;
            expect("take: accepted, parity aside", 0, take(rows + 12, 3));
            continue;
        }
        answered(0, 0, 0);
        if (tick == 3)
            plan_words(4, at_last);
        uint32_t got = take(rows + 3 * tick, 3);
        if (tick != 3)
            memcpy(run.want, run.now, sizeof run.now);
        expect("take: a row of our own", 0, got);
    }
    refused(10), expect("take: past the horizon", 0, take(rows, 3));
}

/* A table of too few, too many or invalid words. */
static void tables(void)
{
    static const struct { size_t len; uint32_t number; } lens[] = {
        { 0, 1 }, { 1, 1 }, { 2, 1 }, { 3, 1 }, { 4, 1 }, { 5, 5 }, { 6, 1 }, { 11, 1 }, { 12, 5 }, { 17, 1 }, { 19, 5 }, { 23, 1 }, { 25, 1 },
    };
    static uint32_t ones[1 << 20];
    memset(ones, 0xff, sizeof ones);
    for (size_t i = 0; i < sizeof lens / sizeof lens[0]; i++) {
        fresh(), refused(lens[i].number), expect("judge: fewer words", 0, judge(full, lens[i].len));
        fresh(), refused(lens[i].number), expect("judge_ticks: fewer words", 0, ticks(full, lens[i].len));
        fresh(), refused(lens[i].number), expect("judge_events: fewer words", 0, events(full, lens[i].len));
        fresh(), refused(lens[i].number), expect("conflict: fewer words", 0, conflict(miss, lens[i].len));
        fresh(), refused(lens[i].number), expect("plan: fewer words", 0, plan(full, lens[i].len, ONES, 0));
        fresh(), refused(lens[i].number), no_run(), expect("start: fewer words", 0, start(full, lens[i].len));
    }
    static const struct { size_t len; uint32_t number; } many[] = { { 4, 1 }, { 5, 2 }, { 197, 1 }, { 228, 1 }, { 229, 2 }, { 230, 1 }, { 236, 1 }, { 1 << 20, 1 } };
    for (size_t i = 0; i < sizeof many / sizeof many[0]; i++) {
        fresh(), refused(many[i].number), expect("judge: all ones", 0, judge(ones, many[i].len));
        fresh(), refused(many[i].number), expect("judge_ticks: all ones", 0, ticks(ones, many[i].len));
        fresh(), refused(many[i].number), expect("judge_events: all ones", 0, events(ones, many[i].len));
        fresh(), refused(many[i].number), expect("conflict: all ones", 0, conflict(ones, many[i].len));
        fresh(), refused(many[i].number), no_run(), expect("start: all ones", 0, start(ones, many[i].len));
        fresh(), refused(many[i].number), expect("replay: all ones", 0, replay(ones, many[i].len, ones, 1 << 20));
    }
    fresh(), answered(SIVORANDRA_FULL, 0, 5), expect("judge", 0, judge(full, TABLE));
    fresh(), answered(SIVORANDRA_MISS, 2, 3), expect("judge: a miss", 0, judge(miss, TABLE));
    fresh(), answered(SIVORANDRA_FULL, 0, 5), expect("judge_ticks", 0, ticks(full, TABLE));
    fresh(), answered(SIVORANDRA_FULL, 0, 5), expect("judge_events", 0, events(full, TABLE));
    fresh(), answered(SIVORANDRA_MISS, 2, 3), expect("judge_ticks: a miss", 0, ticks(miss, TABLE));
    fresh(), answered(SIVORANDRA_MISS, 2, 3), expect("judge_events: a miss", 0, events(miss, TABLE));
    fresh(), answered(SIVORANDRA_KEPT, 6, 0), expect("conflict", 0, conflict(miss, TABLE));
    fresh(), refused(17), expect("conflict: no miss", 0, conflict(full, TABLE));
    fresh(), refused(13), no_run(), expect("start: a miss", 0, start(miss, TABLE));
    fresh(), refused(13), expect("replay: a miss", 0, replay(miss, TABLE, ones, 2));
}

/* A horizon of SIVORANDRA_MOST_HORIZON, and of one tick more. Where `late`, the first task misses at tick 1. */
static void horizons(void)
{
    enum { TWO = 19, MOST_HORIZON = SIVORANDRA_MOST_HORIZON };
    static const uint32_t two[TWO] = { 1, 64, 1, 0, 0, 2, 0, 1, 1, 1, 1000, 1, 0, 1000, 1, 1, 999999, 999999, 1 };
    for (uint32_t late = 0; late < 2; late++)
        for (uint32_t more = 0; more < 2; more++) {
            uint32_t table[TWO];
            memcpy(table, two, sizeof table), table[8] += late, table[13] += more;
            for (uint32_t i = 0; i < 2; i++) {
                if (i && !late && !more)
                    continue; /* so many ticks, one by one: tests/outside/judges */
                fresh();
                if (more)
                    refused(9);
                else if (late)
                    answered(SIVORANDRA_MISS, 1, 1);
                else
                    answered(SIVORANDRA_FIRM, 1000, MOST_HORIZON - 1000);
                expect("judge, judge_ticks: about the largest horizon", 0, (i ? ticks : judge)(table, TWO));
            }
            fresh(), refused(more ? 9 : 10), expect("plan: past the largest horizon", 0, plan(table, TWO, 0, MOST_HORIZON + 1));
            fresh(), refused(more ? 9 : 11), expect("plan: up to the largest horizon", 0, plan(table, TWO, 0, MOST_HORIZON));
            fresh(), late && !more ? answered(SIVORANDRA_KEPT, 1, 0) : refused(more ? 9 : 17), expect("conflict: about the largest horizon", 0, conflict(table, TWO));
            if (more || late)
                fresh(), refused(more ? 9 : 13), no_run(), expect("start: about the largest horizon", 0, start(table, TWO));
            if (more || !late)
                fresh(), refused(more ? 9 : 17), expect("sentence: about the largest horizon", 0, sentence(table, TWO));
        }
}

/* Bounds of a plan. */
static void bounds(void)
{
    static const struct { uint32_t a, b; size_t len; uint32_t number; } asked[] = {
        { 0, 5, 15, 0 }, { 0, 5, 16, 0 }, { 0, 5, 14, 11 }, { 5, 5, 0, 0 }, { 4, 5, 3, 0 }, { 4, 5, 2, 11 }, { 1, 0, 64, 10 }, { 0, 6, 64, 10 },
        { 6, 6, 64, 10 }, { 0, 0xffffffffu, 64, 10 }, { 0xffffffffu, 0xffffffffu, 64, 10 }, { 0xffffffffu, 0, 64, 10 }, { 6, 5, 0, 10 },
    };
    for (size_t i = 0; i < sizeof asked / sizeof asked[0]; i++) {
        uint32_t a = asked[i].a, b = asked[i].b;
        fresh(), row.len = asked[i].len;
        if (asked[i].number)
            refused(asked[i].number);
        else
            answered(0, 0, 0), memcpy(row.want + GUARD, rows + 3 * a, 3 * (b - a));
        expect("plan: bounds", 0, plan(full, TABLE, a, b));
    }
    fresh(), answered(0, 0, 0), memcpy(row.want + GUARD, "\1\0\1\0", 4), expect("plan: up to a miss", 0, plan(miss, TABLE, 0, 2));
    fresh(), refused(12), expect("plan: past a miss", 0, plan(miss, TABLE, 0, 3));
}

/* The lengths of the slices that a call writes to. */
static void lengths(void)
{
    static const size_t lens[] = { 0, 1, 2, 3, 4, 5, 63, 64, 65, 262, 326, 356, 357, 358, 359 };
    uint32_t first[RUN], next[RUN];
    uint32_t three[3];
    sivorandra_start(full, TABLE, first, RUN, three, 3);
    memcpy(next, first, sizeof first);
    sivorandra_advance(next, RUN, 0, 0, three, 3);
    for (size_t i = 0; i < sizeof lens / sizeof lens[0]; i++) {
        size_t len = lens[i];
        int holds = len >= RUN, shows = len >= ROW, says = len >= 3;
        fresh(), words(&run, len, NULL, 0);
        if (holds)
            answered(0, 0, 0), run_words(first, RUN);
        expect("start: words of the run", !holds, start(full, TABLE));
        fresh(), run.len = len, holds ? answered(0, 0, 0) : refused(14), row_bytes(rows, holds ? 3 : 0), expect("row: words of the run", 0, shown());
        fresh(), run.len = len, holds ? answered(0, 0, 0) : refused(14), run_words(holds ? next : first, RUN), expect("advance: words of the run", 0, advance(0));
        fresh(), run.len = len, refused(holds ? 21 : 14), expect("withdraw: words of the run", 0, withdraw(1));
        fresh(), run.len = len, refused(holds ? 21 : 14), expect("withdraw_all: words of the run", 0, withdraw_all(ONES));
        fresh(), row.len = len;
        if (shows)
            answered(0, 0, 0), row_bytes(rows, 3);
        expect("row: bytes of the row", !shows, shown());
        fresh(), answer.len = len;
        if (says)
            answered(0, 0, 0), run_words(next, RUN);
        expect("advance: words of the answer", !says, advance(0));
        for (uint32_t i = 0; i < 2; i++) {
            fresh(), answer.len = len;
            if (says)
                answered(SIVORANDRA_FULL, 0, 5);
            expect("judge, judge_ticks: words of the answer", !says, (i ? ticks : judge)(full, TABLE));
        }
    }
}

/* Runs built by hand: invalid heads and phases, and anything past the count. */
static void built(void)
{
    static const uint32_t faults[][2] = {
        { 0, 0 }, { 0, 5 }, { 0, 0xffffffffu }, { 1, 0 }, { 1, 65 }, { 1, 0xffffffffu }, { 2, 0 }, { 2, 4 }, { 2, 33 }, { 2, 0xffffffffu },
        { 3, 8 }, { 3, 7 }, { 3, 15 }, { 3, 6 }, { 3, 0xffffffffu }, { 4, 1 }, { 4, 0xffffffffu }, { 5, 8 }, { 5, 9 }, { 5, 0x80000000u }, { 5, 0xffffffffu },
        { PARITY - 1, 0 }, { PARITY - 1, 4 }, { PARITY - 1, 0xffffffffu }, { PARITY, 2 }, { PARITY, 3 }, { PARITY, 0xffffffffu }, { KIND, 2 }, { KIND, 4 }, { KIND, 0xffffffffu }, { KIND + 1, 0xffffffffu }, { KIND + 2, 0xffffffffu }, { KIND + 3, 1 }, { KIND + 3, 0xffffffffu },
    };
    for (size_t i = 0; i < sizeof faults / sizeof faults[0]; i++) {
        fresh(), set(faults[i][0], 1, faults[i][1]), refused(14), row_bytes(NULL, 0), expect("row: a fault", 0, shown());
        fresh(), set(faults[i][0], 1, faults[i][1]), refused(14), sets_given(NULL, 0), expect("sets: a fault", 0, sets_with(0));
        fresh(), set(faults[i][0], 1, faults[i][1]), refused(14), expect("advance: a fault", 0, advance(ONES));
        fresh(), set(faults[i][0], 1, faults[i][1]), refused(14), expect("withdraw: a fault", 0, withdraw(0));
        fresh(), set(faults[i][0], 1, faults[i][1]), refused(14), expect("withdraw_all: a fault", 0, withdraw_all(0));
    }
    fresh(), set(0, RUN, 0), refused(14), row_bytes(NULL, 0), expect("row: all zeros", 0, shown());
    fresh(), set(0, RUN, 0), refused(14), expect("advance: all zeros", 0, advance(0));
    fresh(), set(0, RUN, ONES), refused(14), row_bytes(NULL, 0), expect("row: all ones", 0, shown());
    fresh(), set(0, RUN, ONES), refused(14), expect("advance: all ones", 0, advance(0));
    uint32_t next[RUN], three[3];
    fresh(), memcpy(next, run.now + GUARD, sizeof next), sivorandra_advance(next, RUN, 1, 0, three, 3);
    for (size_t at = USED; at < RUN; at += PLACE - 1) {
        fresh(), set(at, 1, ONES), answered(0, 0, 0), row_bytes(rows, 3), expect("row: a word past the count", 0, shown());
        fresh(), set(at, 1, ONES), answered(0, 0, 0), run_words(next, USED), expect("advance: a word past the count", 0, advance(1));
    }
    fresh(), set(USED, RUN - USED, ONES), answered(0, 0, 0), row_bytes(rows, 3), expect("row: ones past the count", 0, shown());
    fresh(), set(USED, RUN - USED, ONES), answered(0, 0, 0), run_words(next, USED), expect("advance: ones past the count", 0, advance(1));
    fresh(), refused(16), expect("advance: every report", 0, advance(ONES));
    fresh(), refused(16), expect("advance: a report past the count", 0, advance(8));
    fresh(), refused(16), expect("advance: a report of one that waits", 0, advance(2));
}

/* The table `full` on five cores of which cores 1 and 3 are fenced; and fences that are refused. */
static void fences(void)
{
    static const uint8_t spread[] = { 1, 255, 1, 255, 3, 1, 255, 1, 255, 3, 2, 255, 2, 255, 3, 2, 255, 2, 255, 3, 2, 255, 2, 255, 0 };
    enum { FITS = 0, LATE = 1 }; /* the other answers are numbers; 7 comes with position 1 */
    static const struct { uint32_t cores, low, high, number; } others[] = {
        { 5, 10, 0, FITS }, { 5, 28, 0, LATE }, { 5, 30, 0, 7 }, { 5, 31, 0, 19 }, { 5, 63, 0, 19 }, { 5, 32, 0, 19 }, { 5, 0, 1, 19 }, { 5, 0, 0xffffffffu, 19 },
        { 3, 0, 0, FITS }, { 3, 1, 0, LATE }, { 3, 6, 0, 7 }, { 3, 7, 0, 19 }, { 3, 8, 0, 19 }, { 0, 7, 0, 2 }, { 65, 0xffffffffu, 0xffffffffu, 2 },
        { 64, 0, 0x80000000u, FITS }, { 64, 0xffffffffu, 0x1fffffffu, FITS }, { 64, 0xffffffffu, 0x3fffffffu, LATE }, { 64, 0xffffffffu, 0x7fffffffu, 7 },
        { 64, 0xffffffffu, 0xffffffffu, 19 }, { 33, 0x3fffffffu, 0, FITS }, { 33, 0, 2, 19 }, { 33, 0xffffffffu, 1, 19 }, { 32, 0xffffffffu, 0, 19 }, { 32, 0, 1, 19 },
    };
    uint32_t table[TABLE], first[RUN], next[RUN], three[3];
    for (size_t i = 0; i < sizeof others / sizeof others[0]; i++) {
        uint32_t number = others[i].number, position = number == 7;
        memcpy(table, full, sizeof table), table[1] = others[i].cores, table[3] = others[i].low, table[4] = others[i].high;
        for (uint32_t k = 0; k < 2; k++) {
            fresh();
            if (number == FITS)
                answered(SIVORANDRA_FULL, 0, 5);
            else if (number == LATE)
                answered(SIVORANDRA_MISS, 5, 3);
            else
                answered(SIVORANDRA_REFUSED, number, position);
            expect("judge, judge_ticks: a fence", 0, (k ? ticks : judge)(table, TABLE));
        }
        if (number <= LATE)
            continue;
        fresh(), answered(SIVORANDRA_REFUSED, number, position), no_run(), expect("start: a fence", 0, start(table, TABLE));
        fresh(), answered(SIVORANDRA_REFUSED, number, position), expect("plan: a fence", 0, plan(table, TABLE, 0, 1));
        fresh(), answered(SIVORANDRA_REFUSED, number, position), expect("sentence: a fence", 0, sentence(table, TABLE));
    }
    memcpy(table, full, sizeof table), table[1] = 5, table[3] = 10;
    fresh(), answered(0, 0, 0), memcpy(row.want + GUARD, spread, sizeof spread), expect("plan: fenced rows", 0, plan(table, TABLE, 0, 5));
    fresh(), row.len = 24, refused(11), expect("plan: fenced cores count for 11", 0, plan(table, TABLE, 0, 5));
    fresh(), row.len = 25, answered(0, 0, 0), memcpy(row.want + GUARD, spread, sizeof spread), expect("plan: just room", 0, plan(table, TABLE, 0, 5));

    static const uint32_t head[HEAD] = { 1, 5, 3, 10, 0, 0 }, high[HEAD] = { 1, 34, 3, 0xfffffff0u, 1, 0 };
    sivorandra_start(full, TABLE, first, RUN, three, 3);
    memcpy(first, head, sizeof head), memcpy(next, first, sizeof first);
    fresh(), answered(0, 0, 0), run_words(first, RUN), expect("start: the fence is in the run", 0, start(table, TABLE));
    sivorandra_advance(next, RUN, 1, 0, three, 3);
    fresh(), words(&run, RUN, first, RUN), answered(0, 0, 0), row_bytes(spread, 5), expect("row: 255 on fenced cores, 0 past the count", 0, shown());
    fresh(), words(&run, RUN, first, RUN), answered(0, 0, 0), run_words(next, RUN), run_words(head, HEAD), expect("advance: the fence stays", 0, advance(1));
    fresh(), words(&run, RUN, next, RUN), answered(0, 0, 0), row_bytes(spread + 10, 5), expect("row: the next one", 0, shown());
    fresh(), words(&run, RUN, first, RUN), refused(16), expect("advance: refused with a fence", 0, advance(2));
    fresh(), words(&run, RUN, first, RUN), set(KIND + 1, 1, 5), answered(SIVORANDRA_REFUSED, 15, 1), row_bytes(NULL, 0), expect("row: 15 is all zeros", 0, shown());
    for (uint32_t low = 0; low < 64; low++) {
        uint32_t unfenced = 5u - (low & 1) - (low >> 1 & 1) - (low >> 2 & 1) - (low >> 3 & 1) - (low >> 4 & 1);
        int out = low > 31 || unfenced < 2; /* the widest task has two cores */
        fresh(), words(&run, RUN, first, RUN), set(3, 1, low), out ? refused(14) : answered(0, 0, 0);
        uint32_t got = shown();
        uint8_t want[5] = { 0 };
        uint32_t free = 0;
        for (uint32_t core = 0; core < 5 && !out; core++)
            want[core] = low >> core & 1 ? 255 : ++free <= 2 ? 1 : free == 3 ? (unfenced >= 4 ? 2 : 3) : free == 4 ? 2 : 3;
        row_bytes(want, 5), expect("row: every fence of six cores on five", 0, got);
    }
    uint8_t both[34] = { 1, 1, 2, 2 };
    memset(both + 4, 255, 29), both[33] = 3;
    fresh(), words(&run, RUN, first, RUN), run_words(high, HEAD), memcpy(run.now, run.want, sizeof run.now), answered(0, 0, 0), row_bytes(both, 34), expect("row: a fence in both words", 0, shown());
    fresh(), words(&run, RUN, first, RUN), set(4, 1, 1), refused(14), row_bytes(NULL, 0), expect("row: 14 is all zeros", 0, shown());
    static const uint32_t entries[6] = { 0, 1, 0, 0, 8, 0 };
    fresh(), answered(0, 0, 0), numbers.want[GUARD] = 0, numbers.want[GUARD + 1] = 16 * 256, row_bytes(spread + 10, 5), expect("replay: fenced", 0, replay(table, TABLE, entries, 6));
}

/* A task that takes four cores on odd jobs and two on even ones: its row and its words in each of six ticks, the first of them Coming. */
static void parities(void)
{
    enum { ONE = 12, TICKS = 6 };
    static const uint32_t turning[ONE] = { 1, 4, 1, 0, 0, 0, 1, 4, 1, 1, 2, 2 };
    static const uint32_t stands[TICKS][4] = { { 0, 0, 1, 0 }, { 0, 1, 0, 0 }, { 0, 3, 1, 0 }, { 1, 1, 0, 0 }, { 1, 3, 1, 0 }, { 0, 1, 0, 0 } };
    static const uint8_t of[2][4] = { { 1, 1, 1, 1 }, { 1, 1, 0, 0 } };
    uint32_t at[TICKS][RUN], three[3];
    for (size_t tick = 0; tick < TICKS; tick++) {
        sivorandra_start(turning, ONE, at[tick], RUN, three, 3);
        memcpy(at[tick] + PARITY, stands[tick], sizeof stands[tick]);
    }
    fresh(), answered(0, 0, 0), run_words(at[0], RUN), expect("start: two widths", 0, start(turning, ONE));
    for (size_t tick = 0; tick < TICKS; tick++) {
        size_t works = stands[tick][1] == 1;
        fresh(), words(&run, RUN, at[tick], RUN), answered(0, 0, 0), row_bytes(of[stands[tick][0]], works ? 4 : 0), expect("row: odd and even jobs", 0, shown());
        if (tick + 1 < TICKS)
            fresh(), words(&run, RUN, at[tick], RUN), answered(0, 0, 0), run_words(at[tick + 1], RUN), expect("advance: odd and even jobs", 0, advance(works));
        for (uint32_t parity = 2; parity < 4; parity++)
            fresh(), words(&run, RUN, at[tick], RUN), set(PARITY, 1, parity), refused(14), expect("advance: no parity", 0, advance(0));
    }
    fresh(), words(&run, RUN, at[0], RUN), set(PARITY, 1, 1), refused(14), row_bytes(NULL, 0), expect("row: an even job of a task Coming", 0, shown());
    fresh(), words(&run, RUN, at[0], RUN), set(PARITY, 1, 1), refused(14), expect("advance: an even job of a task Coming", 0, advance(0));
    fresh(), words(&run, RUN, at[0], RUN), set(PARITY, 1, 1), refused(14), expect("withdraw: an even job of a task Coming", 0, withdraw(1));
}

/* Empty jobs: every set of the three positions in the tick in which all are released, bits past the count, and a tick later. */
static void empty_jobs(void)
{
    static const uint8_t of[8][3] = { { 1, 1, 3 }, { 2, 2, 3 }, { 1, 1, 3 }, { 3, 0, 0 }, { 1, 1, 0 }, { 2, 2, 0 }, { 1, 1, 0 }, { 0, 0, 0 } };
    static const uint32_t past[] = { 8, 9, 16, 0x80000000u, 0xffffffffu };
    uint32_t three[3], next[RUN];
    for (uint32_t set = 0; set < 8; set++) {
        fresh(), answered(0, 0, 0), row_bytes(of[set], 3), expect("row: every set of empty jobs", 0, shown_with(set));
        for (uint32_t p = 0; p < 3; p++)
            if (set >> p & 1)
                fresh(), refused(16), expect("advance: a report on an empty job", 0, advance_with(1u << p, set));
        fresh(), answered(0, 0, 0), memcpy(next, run.now + GUARD, sizeof next);
        for (uint32_t p = 0; p < 3; p++) {
            int in = of[set][0] == p + 1 || of[set][2] == p + 1, empty = set >> p & 1;
            uint32_t phase[4] = { empty ? 3 : 1, 1, in, in };
            memcpy(next + KIND + PLACE * p, phase, sizeof phase);
        }
        run_words(next, RUN), expect("advance: every set of empty jobs", 0, advance_with(0, set));
    }
    for (size_t i = 0; i < sizeof past / sizeof past[0]; i++) {
        fresh(), refused(20), row_bytes(NULL, 0), expect("row: empty past the count", 0, shown_with(past[i]));
        fresh(), refused(20), expect("advance: empty past the count", 0, advance_with(0, past[i]));
        fresh(), refused(20), expect("advance: 20 before 16", 0, advance_with(ONES, past[i]));
        fresh(), set(KIND + 1, 1, 5), answered(SIVORANDRA_REFUSED, 15, 1), row_bytes(NULL, 0), expect("row: 15 before 20", 0, shown_with(past[i]));
        fresh(), set(0, 1, 5), refused(14), expect("advance: 14 before 20", 0, advance_with(0, past[i]));
    }
    fresh(), memcpy(next, run.now + GUARD, sizeof next), sivorandra_advance(next, RUN, 0, 1, three, 3);
    for (uint32_t set = 1; set < 8; set++) {
        fresh(), words(&run, RUN, next, RUN), refused(20), row_bytes(NULL, 0), expect("row: released a tick ago", 0, shown_with(set));
        fresh(), words(&run, RUN, next, RUN), refused(20), expect("advance: released a tick ago", 0, advance_with(0, set));
    }
}

/* Under lending position 1, two cores wide, ends after tick 0: position 2 borrows a core in tick 1, has one of its own in tick 2, and holds it in tick 3. Its row and its words in
   each of five ticks, the reports that are refused there, and phases that are invalid. */
static void lending(void)
{
    enum { TWO = 19, TICKS = 5, SECOND = KIND + PLACE };
    static const uint32_t table[TWO] = { 1, 2, SIVORANDRA_LENDING, 0, 0, 2, 0, 2, 2, 4, 4, 2, 0, 0, 1, 2, 4, 4, 1 };
    static const struct { uint32_t first[5], second[5], reportable; uint8_t row[2]; } stands[TICKS] = { /* parity, kind, three numbers */
        { { 0, 1, 0, 0, 0 }, { 0, 1, 0, 0, 0 }, 1, { 1, 1 } }, { { 0, 2, 1, 1, 0 }, { 0, 1, 1, 0, 0 }, 2, { 2, 1 } }, { { 0, 3, 2, 0, 0 }, { 0, 1, 2, 1, 0 }, 2, { 2, 0 } },
        { { 0, 3, 3, 0, 0 }, { 0, 2, 3, 1, 0 }, 0, { 2, 0 } }, { { 1, 1, 0, 0, 0 }, { 1, 1, 0, 0, 0 }, 1, { 1, 1 } },
    };
    uint32_t at[TICKS][RUN], three[3];
    for (size_t tick = 0; tick < TICKS; tick++) {
        sivorandra_start(table, TWO, at[tick], RUN, three, 3);
        memcpy(at[tick] + PARITY, stands[tick].first, sizeof stands[tick].first), memcpy(at[tick] + PARITY + PLACE, stands[tick].second, sizeof stands[tick].second);
    }
    fresh(), answered(SIVORANDRA_FIRM, 0, 4), expect("judge: lending", 0, judge(table, TWO));
    fresh(), answered(0, 0, 0), run_words(at[0], RUN), expect("start: lending", 0, start(table, TWO));
    for (size_t tick = 0; tick < TICKS; tick++) {
        fresh(), words(&run, RUN, at[tick], RUN), answered(0, 0, 0), row_bytes(stands[tick].row, 2), expect("row: the borrower on a lent core", 0, shown());
        if (tick + 1 < TICKS)
            fresh(), words(&run, RUN, at[tick], RUN), answered(0, 0, 0), run_words(at[tick + 1], RUN), expect("advance: ticks had and reserved", 0, advance(tick == 0));
        for (uint32_t reports = 1; reports < 4; reports++)
            if (reports & ~stands[tick].reportable)
                fresh(), words(&run, RUN, at[tick], RUN), refused(16), expect("advance: a report of one that lends, holds, rests or waits", 0, advance(reports));
    }
    static const uint32_t ended[4] = { 2, 2, 0, 0 };
    uint32_t next[RUN];
    memcpy(next, at[2], sizeof next), memcpy(next + SECOND, ended, sizeof ended);
    fresh(), words(&run, RUN, at[1], RUN), answered(0, 0, 0), run_words(next, RUN), expect("advance: a report of the borrower", 0, advance(2));
    for (uint32_t rule = SIVORANDRA_GREEDY; rule < SIVORANDRA_LENDING; rule++)
        fresh(), words(&run, RUN, at[2], RUN), set(0, 1, rule), refused(14), row_bytes(NULL, 0), expect("row: more ticks had than reserved", 0, shown());
    fresh(), words(&run, RUN, at[2], RUN), set(SECOND + 3, 1, 1), answered(0, 0, 0), row_bytes(stands[2].row, 2), expect("row: as many ticks had as reserved", 0, shown());
    fresh(), words(&run, RUN, at[2], RUN), set(SECOND + 3, 1, 2), refused(14), row_bytes(NULL, 0), expect("row: fewer ticks had than reserved", 0, shown());
    for (size_t tick = 1; tick < 4; tick++) /* Holding, Resting and Resting */
        for (uint32_t word = 1; word < 4; word++) {
            fresh(), words(&run, RUN, at[tick], RUN), set(KIND + 3, 1, word == 3 ? ONES : word), refused(14), row_bytes(NULL, 0), expect("row: a third number of a phase without one", 0, shown());
            fresh(), words(&run, RUN, at[tick], RUN), set(KIND + 3, 1, word == 3 ? ONES : word), refused(14), expect("advance: a third number of a phase without one", 0, advance(0));
        }
    fresh(), words(&run, RUN, at[2], RUN), set(KIND + 2, 1, 1), refused(14), row_bytes(NULL, 0), expect("row: a second number of a phase without one", 0, shown());
    static const uint32_t entries[6] = { 0, 1, 0, 0, 2, 0 };
    fresh(), answered(0, 0, 0), row_bytes(stands[2].row, 2), numbers.want[GUARD] = numbers.want[GUARD + 1] = 0, expect("replay: lending", 0, replay(table, TWO, entries, 6));
}

/* The row as sets of cores: 32 words in front and no more, lengths around 32 and around every other limit; every set of empty jobs, every fence of five cores, one that lends; all zeros
   in a refusal; and beside the row, whose bytes are those of the sets. */
static void as_sets(void)
{
    static const uint64_t of[8][3] = { { 3, 0, 4 }, { 0, 3, 4 }, { 3, 0, 4 }, { 0, 0, 1 }, { 3, 0, 0 }, { 0, 3, 0 }, { 3, 0, 0 }, { 0, 0, 0 } };
    static const size_t lens[] = { 0, 1, 2, 3, 31, 32, 33, 34, 64, 356, 357, 358, 359 };
    static const uint32_t past[] = { 8, 9, 16, 0x80000000u, 0xffffffffu };
    for (size_t i = 0; i < sizeof lens / sizeof lens[0]; i++) {
        size_t len = lens[i];
        fresh(), sets.len = len;
        if (len >= SIVORANDRA_SETS)
            answered(0, 0, 0), sets_given(of[0], 3);
        expect("sets: every length", len < SIVORANDRA_SETS, sets_with(0));
        fresh(), sets.len = len;
        if (len >= SIVORANDRA_SETS)
            refused(20), sets_given(NULL, 0);
        expect("sets: every length, refused", len < SIVORANDRA_SETS, sets_with(8));
        fresh(), run.len = len, len >= RUN ? answered(0, 0, 0) : refused(14), sets_given(of[0], len >= RUN ? 3 : 0), expect("sets: words of the run", 0, sets_with(0));
        fresh(), answer.len = len;
        if (len >= 3)
            answered(0, 0, 0), sets_given(of[0], 3);
        expect("sets: words of the answer", len < 3, sets_with(0));
    }
    for (uint32_t empties = 0; empties < 8; empties++)
        fresh(), answered(0, 0, 0), sets_given(of[empties], 3), expect("sets: every set of empty jobs", 0, sets_with(empties));
    for (size_t i = 0; i < sizeof past / sizeof past[0]; i++) {
        fresh(), refused(20), sets_given(NULL, 0), expect("sets: empty past the count", 0, sets_with(past[i]));
        fresh(), set(KIND + 1, 1, 5), answered(SIVORANDRA_REFUSED, 15, 1), sets_given(NULL, 0), expect("sets: 15 before 20", 0, sets_with(past[i]));
        fresh(), set(KIND + 1, 1, 5), set(0, 1, 5), refused(14), sets_given(NULL, 0), expect("sets: 14 before 15 and 20", 0, sets_with(past[i]));
    }
    fresh(), set(KIND + 1 + PLACE, 1, 5), set(KIND + 1 + 2 * PLACE, 1, 5), answered(SIVORANDRA_REFUSED, 15, 2), sets_given(NULL, 0), expect("sets: the lowest late position", 0, sets_with(0));
    fresh(), set(KIND + 1, 1, 1), refused(20), sets_given(NULL, 0), expect("sets: released a tick ago", 0, sets_with(1));
    fresh(), set(USED, RUN - USED, ONES), answered(0, 0, 0), sets_given(of[0], 3), expect("sets: ones past the count", 0, sets_with(0));
    fresh(), set(0, RUN, ONES), refused(14), sets_given(NULL, 0), expect("sets: all ones", 0, sets_with(0));
    fresh(), set(0, RUN, 0), refused(14), sets_given(NULL, 0), expect("sets: all zeros", 0, sets_with(0));

    /* position 1 holds two cores and lends the lower one to position 2, as in `lending` */
    enum { TWO = 19 };
    static const uint32_t table[TWO] = { 1, 2, SIVORANDRA_LENDING, 0, 0, 2, 0, 2, 2, 4, 4, 2, 0, 0, 1, 2, 4, 4, 1 };
    static const uint64_t ticks[3][2] = { { 3, 0 }, { 2, 1 }, { 0, 1 } };
    uint32_t at[RUN], three[3];
    sivorandra_start(table, TWO, at, RUN, three, 3);
    for (uint32_t tick = 0; tick < 3; tick++) {
        fresh(), words(&run, RUN, at, RUN), answered(0, 0, 0), sets_given(ticks[tick], 2), expect("sets: one that lends", 0, sets_with(0));
        sivorandra_advance(at, RUN, tick == 0, 0, three, 3);
    }

    /* fences of five cores, in the low word and in both */
    for (uint32_t high = 0; high < 2; high++)
        for (uint32_t low = 0; low < 32; low++) {
            uint64_t fence = high ? (uint64_t)low << 59 | 0x07ffffffffffffffu : low, want[3] = { 0 }, seen = 0;
            uint32_t cores = high ? 64 : 5;
            fresh(), set(1, 1, cores), set(3, 1, (uint32_t)fence), set(4, 1, (uint32_t)(fence >> 32));
            sivorandra_row(run.now + GUARD, RUN, 0, row.now + GUARD, ROW, three, 3), memcpy(row.want, row.now, sizeof row.now);
            for (uint32_t core = 0; core < cores; core++)
                if (row.now[GUARD + core] && row.now[GUARD + core] <= 3)
                    want[row.now[GUARD + core] - 1] |= (uint64_t)1 << core, seen |= (uint64_t)1 << core;
            three[0] ? refused(14) : answered(0, 0, 0), sets_given(want, 3), expect("sets: every fence of five cores", 0, seen & fence ? 2 : sets_with(0));
        }
}

/* Who works: one word in front and no more, lengths around every limit; every set of empty jobs; one that lends; 0 in a refusal; and beside the advance, which takes these reports alone. */
static void who_works(void)
{
    static const uint32_t of[8] = { 5, 6, 5, 4, 1, 2, 1, 0 };
    static const size_t lens[] = { 0, 1, 2, 3, 31, 32, 356, 357, 358, 359 };
    static const uint32_t past[] = { 8, 9, 16, 0x80000000u, 0xffffffffu };
    for (size_t i = 0; i < sizeof lens / sizeof lens[0]; i++) {
        size_t len = lens[i];
        fresh(), numbers.len = len;
        if (len >= 1)
            answered(0, 0, 0), numbers.want[GUARD] = 5;
        expect("working: every length", len < 1, working_with(0));
        fresh(), run.len = len, len >= RUN ? answered(0, 0, 0) : refused(14), numbers.want[GUARD] = len >= RUN ? 5 : 0, expect("working: words of the run", 0, working_with(0));
        fresh(), answer.len = len;
        if (len >= 3)
            answered(0, 0, 0), numbers.want[GUARD] = 5;
        expect("working: words of the answer", len < 3, working_with(0));
    }
    for (uint32_t empties = 0; empties < 8; empties++) {
        fresh(), answered(0, 0, 0), numbers.want[GUARD] = of[empties], expect("working: every set of empty jobs", 0, working_with(empties));
        for (uint32_t reports = 0; reports < 16; reports++) {
            uint32_t at[RUN], three[3];
            fresh(), memcpy(at, run.now + GUARD, sizeof at), sivorandra_advance(at, RUN, reports, empties, three, 3);
            calls++, wrong += (three[0] == SIVORANDRA_DONE) != ((reports & of[empties]) == reports);
        }
    }
    for (size_t i = 0; i < sizeof past / sizeof past[0]; i++) {
        fresh(), refused(20), numbers.want[GUARD] = 0, expect("working: empty past the count", 0, working_with(past[i]));
        fresh(), set(KIND + 1, 1, 5), answered(SIVORANDRA_REFUSED, 15, 1), numbers.want[GUARD] = 0, expect("working: 15 before 20", 0, working_with(past[i]));
        fresh(), set(KIND + 1, 1, 5), set(0, 1, 5), refused(14), numbers.want[GUARD] = 0, expect("working: 14 before 15 and 20", 0, working_with(past[i]));
    }
    fresh(), set(USED, RUN - USED, ONES), answered(0, 0, 0), numbers.want[GUARD] = 5, expect("working: ones past the count", 0, working_with(0));
    fresh(), set(0, RUN, ONES), refused(14), numbers.want[GUARD] = 0, expect("working: all ones", 0, working_with(0));
    fresh(), set(0, RUN, 0), refused(14), numbers.want[GUARD] = 0, expect("working: all zeros", 0, working_with(0));

    /* position 1 holds two cores and lends one to position 2, which works; then position 2 has its own */
    enum { TWO = 19 };
    static const uint32_t table[TWO] = { 1, 2, SIVORANDRA_LENDING, 0, 0, 2, 0, 2, 2, 4, 4, 2, 0, 0, 1, 2, 4, 4, 1 };
    static const uint32_t ticks[3] = { 1, 2, 2 };
    uint32_t at[RUN], three[3];
    sivorandra_start(table, TWO, at, RUN, three, 3);
    for (uint32_t tick = 0; tick < 3; tick++) {
        fresh(), words(&run, RUN, at, RUN), answered(0, 0, 0), numbers.want[GUARD] = ticks[tick], expect("working: one that lends", 0, working_with(0));
        sivorandra_advance(at, RUN, tick == 0, 0, three, 3);
    }
}

/* Positions withdrawn from the run of `full` under idling, in its first tick and in its second; refusals; and the set built by hand. */
static void withdrawals(void)
{
    static const uint8_t second[3] = { 1, 1, 3 };
    uint32_t first[RUN], next[RUN], three[3];
    for (uint32_t tick = 0; tick < 2; tick++) {
        fresh(), memcpy(first, run.now + GUARD, sizeof first), first[0] = SIVORANDRA_IDLING;
        if (tick)
            sivorandra_advance(first, RUN, 0, 0, three, 3);
        for (uint32_t position = 0; position < 6; position++) {
            uint32_t at = position < 4 ? position : position == 4 ? 33 : ONES, known = at >= 1 && at <= 3;
            memcpy(next, first, sizeof first), next[5] = known ? 1u << (at - 1) : 0;
            fresh(), words(&run, RUN, first, RUN), known ? answered(0, 0, 0) : refused(22), run_words(next, RUN), expect("withdraw: a position", 0, withdraw(at));
            fresh(), words(&run, RUN, next, RUN), known ? answered(0, 0, 0) : refused(22), expect("withdraw: the same again", 0, withdraw(at));
            fresh(), words(&run, RUN, next, RUN), answered(0, 0, 0), row_bytes(second, 3), expect("row: a withdrawn one holds, or goes on", 0, shown());
            fresh(), words(&run, RUN, first, RUN), set(0, 1, SIVORANDRA_GREEDY), refused(21), expect("withdraw: 21 before 22", 0, withdraw(at));
        }
    }
    for (uint32_t withdrawn = 0; withdrawn < 8; withdrawn++) {
        fresh(), memcpy(next, run.now + GUARD, sizeof next), next[0] = SIVORANDRA_LIMITED;
        for (uint32_t p = 0; p < 3; p++)
            if (withdrawn >> p & 1)
                sivorandra_withdraw(next, RUN, p + 1, three, 3);
        fresh(), words(&run, RUN, next, RUN), answered(0, 0, 0);
        uint32_t got = shown();
        uint8_t want[3] = { 0 };
        uint32_t free = 0;
        for (uint32_t p = 0; p < 3; p++) {
            uint32_t width = p < 2 ? 2 : 1;
            if (withdrawn >> p & 1)
                continue;
            if (free + width > 3)
                break;
            for (uint32_t i = 0; i < width; i++)
                want[free++] = (uint8_t)(p + 1);
        }
        row_bytes(want, 3), expect("row: every set withdrawn", 0, got);
        fresh(), words(&run, RUN, next, RUN), answered(0, 0, 0), row_bytes(want, 3), expect("row: with their empty bits", 0, shown_with(withdrawn));
    }
    fresh(), set(KIND + 1, 1, 5), refused(21), expect("withdraw: 15 is not looked at", 0, withdraw(1));
    fresh(), set(KIND + 1, 1, 5), set(0, 1, SIVORANDRA_IDLING), answered(0, 0, 0), run.want[GUARD + 5] = 1, expect("withdraw: a late run", 0, withdraw(1));
    fresh(), set(0, 1, SIVORANDRA_IDLING), set(USED, RUN - USED, ONES), answered(0, 0, 0), run.want[GUARD + 5] = 4, expect("withdraw: ones past the count", 0, withdraw(3));
}

/* Several positions of the run of `full` withdrawn together under idling and limited, in its first tick and in its second, from every set that is withdrawn already: beside single
   withdrawals in falling order; sets with a bit past the count, which withdraw no task; and 21 under greedy for every set, the empty one too. */
static void together(void)
{
    static const uint32_t past[] = { 8, 9, 15, 16, 0x80000000u, 0x80000007u, 0xffffffffu };
    uint32_t first[RUN], next[RUN], three[3];
    for (uint32_t turn = 0; turn < 4; turn++)
        for (uint32_t withdrawn = 0; withdrawn < 8; withdrawn++) {
            fresh(), memcpy(first, run.now + GUARD, sizeof first), first[0] = turn % 2 ? SIVORANDRA_IDLING : SIVORANDRA_LIMITED;
            if (turn / 2)
                sivorandra_advance(first, RUN, 0, 0, three, 3);
            first[5] = withdrawn;
            for (uint32_t some = 0; some < 8; some++) {
                memcpy(next, first, sizeof first), next[5] |= some;
                fresh(), words(&run, RUN, first, RUN), answered(0, 0, 0), run_words(next, RUN), expect("withdraw_all: every set", 0, withdraw_all(some));
                memcpy(next, first, sizeof first);
                for (uint32_t p = 3; p > 0; p--)
                    if (some >> (p - 1) & 1)
                        sivorandra_withdraw(next, RUN, p, three, 3);
                fresh(), words(&run, RUN, first, RUN), answered(0, 0, 0), run_words(next, RUN), expect("withdraw_all: as single ones", 0, withdraw_all(some));
                fresh(), words(&run, RUN, next, RUN), answered(0, 0, 0), expect("withdraw_all: the same again", 0, withdraw_all(some));
                fresh(), words(&run, RUN, first, RUN), set(0, 1, SIVORANDRA_GREEDY), refused(21), expect("withdraw_all: 21 for every set", 0, withdraw_all(some));
            }
            for (size_t i = 0; i < sizeof past / sizeof past[0]; i++) {
                fresh(), words(&run, RUN, first, RUN), refused(22), expect("withdraw_all: a bit past the count", 0, withdraw_all(past[i]));
                fresh(), words(&run, RUN, first, RUN), set(0, 1, SIVORANDRA_GREEDY), refused(21), expect("withdraw_all: 21 before 22", 0, withdraw_all(past[i]));
                fresh(), words(&run, RUN, first, RUN), set(5, 1, withdrawn | 8), refused(14), expect("withdraw_all: 14 before 22", 0, withdraw_all(past[i]));
            }
        }
    fresh(), set(KIND + 1, 1, 5), refused(21), expect("withdraw_all: 15 is not looked at", 0, withdraw_all(0));
    fresh(), set(KIND + 1, 1, 5), set(0, 1, SIVORANDRA_IDLING), answered(0, 0, 0), run.want[GUARD + 5] = 5, expect("withdraw_all: a late run", 0, withdraw_all(5));
    fresh(), set(0, 1, SIVORANDRA_IDLING), set(USED, RUN - USED, ONES), answered(0, 0, 0), run.want[GUARD + 5] = 7, expect("withdraw_all: ones past the count", 0, withdraw_all(7));
}

/* Words that are a replay's list, and words that are none: not three an entry, another first word, or a last word of a withdrawal. */
static void lists(void)
{
    static const uint32_t two[6] = { 0, 1, 1, 0, 2, 1 };
    static const uint8_t rest[3] = { 3, 0, 0 };
    for (size_t len = 0; len <= 6; len++) {
        fresh();
        if (len % 3 == 0)
            answered(0, 0, 0), row_bytes(len == 6 ? rest : rows, 3);
        if (len % 3 == 0 && len)
            numbers.want[GUARD] = 16 * 256;
        if (len == 6)
            numbers.want[GUARD + 1] = 0;
        expect("replay: words of the list", len % 3 != 0, replay(full, TABLE, two, len));
    }
    for (size_t at = 0; at < 2; at++)
        for (uint32_t kind = 1; kind < 5; kind++) { /* 1 and 2 are withdrawals, whose last word is not 0 here */
            uint32_t entries[6];
            memcpy(entries, two, sizeof two), entries[3 * at] = kind == 4 ? ONES : kind;
            fresh(), expect("replay: no such entry", 1, replay(full, TABLE, entries, 6));
            fresh(), refused(13), expect("replay: no such entry, no start", 0, replay(miss, TABLE, entries, 6));
        }
    static const uint32_t out[6] = { 1, 1, 0, 1, 4, 0 };
    fresh(), answered(0, 0, 0), row_bytes(rows, 3), numbers.want[GUARD] = numbers.want[GUARD + 1] = 21 * 256, expect("replay: withdrawals from a full table", 0, replay(full, TABLE, out, 6));
    uint32_t idling[TABLE];
    memcpy(idling, full, sizeof idling), idling[2] = SIVORANDRA_IDLING;
    fresh(), answered(0, 0, 0), row_bytes(rows, 3), numbers.want[GUARD] = 0, numbers.want[GUARD + 1] = 22 * 256, expect("replay: withdrawals", 0, replay(idling, TABLE, out, 6));
    static const uint32_t sets[6] = { SIVORANDRA_ENTRY_WITHDRAW_ALL, 5, 0, SIVORANDRA_ENTRY_WITHDRAW_ALL, 10, 0 };
    static const uint32_t turns[TABLE] = { 1, 1, 2, 0, 0, 2, 0, 1, 1, 3, 3, 1, 3, 0, 1, 1, 3, 3, 1, 0, 0, 1, 1, 3, 3, 1 };
    static const uint8_t second = 2; /* the position that is left */
    fresh(), answered(0, 0, 0), row_bytes(rows, 3), numbers.want[GUARD] = numbers.want[GUARD + 1] = 21 * 256, expect("replay: sets from a full table", 0, replay(full, TABLE, sets, 6));
    fresh(), answered(0, 0, 0), row_bytes(&second, 1), numbers.want[GUARD] = 0, numbers.want[GUARD + 1] = 22 * 256, expect("replay: sets", 0, replay(turns, TABLE, sets, 6));
    fresh(), numbers.len = 1, expect("replay: a number too few", 1, replay(full, TABLE, two, 6));
}

int main(void)
{
    nulls(), sentences(), tables(), horizons(), bounds(), lengths(), built(), fences(), parities(), empty_jobs(), lending(), as_sets(), who_works(), withdrawals(), together(), lists(), figures(), supplied();
    printf("%u calls, %u wrong\n", calls, wrong);
    return wrong != 0;
}
