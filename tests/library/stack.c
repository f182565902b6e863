/* The stack that each call takes, found in a thread whose stack is filled with a pattern before the call: tables of 32 tasks under each rule, with short and long periods, with a miss
   and without, runs of them, and rows of supplied plans. Prints the most of each call, and fails if one takes more than the header allows. */
#define _POSIX_C_SOURCE 200809L
#include <pthread.h>
#include <stdio.h>
#include <stdlib.h>
#include <string.h>
#include "sivorandra.h"

enum { TASKS = SIVORANDRA_MOST_TASKS, TABLE = SIVORANDRA_TABLE_WORDS, RUN = SIVORANDRA_RUN_WORDS, FACTS = SIVORANDRA_FACT_WORDS };
enum { STACK = 1 << 18, FILL = 0xa5, TICKS = 200 };

static uint32_t table[TABLE], run[RUN], supplied[SIVORANDRA_PLAN_WORDS], answer[3], entries[TICKS * SIVORANDRA_ENTRY_WORDS], numbers[TICKS];
static uint8_t rows[TICKS * SIVORANDRA_MOST_CORES], sentence[SIVORANDRA_SENTENCE_BYTES], idle[SIVORANDRA_MOST_CORES];
static uint64_t facts[FACTS], sets[SIVORANDRA_SETS];
static size_t words, length;
static uint32_t end, last;

static void version(void) { sivorandra_version(); }
static void judge(void) { sivorandra_judge(table, words, answer, 3); }
static void judge_ticks(void) { sivorandra_judge_ticks(table, words, answer, 3); }
static void judge_events(void) { sivorandra_judge_events(table, words, answer, 3); }
static void plan(void) { sivorandra_plan(table, words, 0, end, rows, sizeof rows, answer, 3); }
static void replay(void) { sivorandra_replay(table, words, entries, TICKS * SIVORANDRA_ENTRY_WORDS, numbers, TICKS, rows, sizeof rows, answer, 3); }
static void start(void) { sivorandra_start(table, words, run, RUN, answer, 3); }
static void row(void) { sivorandra_row(run, RUN, 0, rows, sizeof rows, answer, 3); }
static void row_as_sets(void) { sivorandra_sets(run, RUN, 0, sets, SIVORANDRA_SETS, answer, 3); }
static void working(void) { sivorandra_working(run, RUN, 0, numbers, 1, answer, 3); }
static void advance(void) { sivorandra_advance(run, RUN, 0, 0, answer, 3); }
static void withdraw(void) { sivorandra_withdraw(run, RUN, TASKS, answer, 3); }
static void withdraw_all(void) { sivorandra_withdraw_all(run, RUN, 0xffffffffu, answer, 3); }
static void explain(void) { sivorandra_sentence(table, words, sentence, sizeof sentence, answer, 3); }
static void parse(void) { sivorandra_facts(sentence, length, facts, FACTS, answer, 3); }
static void response_times(void) { sivorandra_response_times(table, words, numbers, TASKS, answer, 3); }
static void slack(void) { sivorandra_slack(table, words, numbers, TASKS, answer, 3); }
static void conflict(void) { sivorandra_conflict(table, words, answer, 3); }
static void bounds(void) { sivorandra_bounds(table, words, numbers, TASKS, answer, 3); }
static void begin(void) { sivorandra_check_begin(table, words, supplied, SIVORANDRA_PLAN_WORDS, answer, 3); }
/* an idle row, at the beginning and as the last */
static void take(void)
{
    sivorandra_check_row(supplied, SIVORANDRA_PLAN_WORDS, idle, SIVORANDRA_MOST_CORES, answer, 3);
    supplied[RUN] = last, sivorandra_check_row(supplied, SIVORANDRA_PLAN_WORDS, idle, SIVORANDRA_MOST_CORES, answer, 3);
}

static struct { const char *name; void (*call)(void); size_t most; } calls[] = {
    { "version", version, 0 }, { "judge", judge, 0 }, { "judge_ticks", judge_ticks, 0 }, { "judge_events", judge_events, 0 }, { "plan", plan, 0 }, { "replay", replay, 0 },
    { "start", start, 0 }, { "row", row, 0 }, { "sets", row_as_sets, 0 }, { "working", working, 0 }, { "advance", advance, 0 }, { "withdraw", withdraw, 0 },
    { "withdraw_all", withdraw_all, 0 }, { "sentence", explain, 0 }, { "facts", parse, 0 }, { "response_times", response_times, 0 }, { "conflict", conflict, 0 }, { "slack", slack, 0 }, { "bounds", bounds, 0 },
    { "begin", begin, 0 }, { "take", take, 0 },
};
enum { CALLS = sizeof calls / sizeof calls[0] };

static unsigned char *stack;

/* Fills the stack below this frame, calls, and finds how far down the pattern is overwritten. */
static void *measured(void *given)
{
    size_t *used = given, call = *used;
    volatile unsigned char here = 0, *place = stack;
    size_t top = (size_t)((uintptr_t)&here - (uintptr_t)stack), below = top - 256; /* this frame is not filled */
    for (size_t at = 0; at < below; at++)
        place[at] = FILL;
    calls[call].call();
    size_t low = 0;
    while (low < below && place[low] == FILL)
        low++;
    *used = top - low;
    return NULL;
}

/* The bytes that a call takes; none if there is no thread. */
static size_t taken(size_t call)
{
    pthread_t thread;
    pthread_attr_t attr;
    size_t used = call;
    if (pthread_attr_init(&attr) || pthread_attr_setstack(&attr, stack, STACK) || pthread_create(&thread, &attr, measured, &used) || pthread_join(thread, NULL)) {
        printf("no thread\n");
        exit(1);
    }
    pthread_attr_destroy(&attr);
    return used;
}

/* 32 tasks with these lengths, deadlines and periods, their widths 1 and 2 by turns, and 2 and 1 on even jobs, on 64 cores with this first word of the fence. */
static void make(uint32_t rule, uint32_t c, uint32_t d, uint32_t t, uint32_t fence)
{
    uint32_t head[SIVORANDRA_TABLE_HEAD_WORDS] = { 1, SIVORANDRA_MOST_CORES, rule, fence, 0 };
    memcpy(table, head, sizeof head);
    for (uint32_t i = 0; i < TASKS; i++) {
        uint32_t record[SIVORANDRA_TABLE_RECORD_WORDS] = { (i + 2) % (TASKS + 1), i, 1 + i % 2, c, d, t, 2 - i % 2 };
        memcpy(table + SIVORANDRA_TABLE_HEAD_WORDS + i * SIVORANDRA_TABLE_RECORD_WORDS, record, sizeof record);
    }
    words = TABLE;
}

static void look(void)
{
    uint32_t begun[RUN];
    judge(), end = answer[0] == SIVORANDRA_MISS ? answer[1] : answer[1] + answer[2], last = end - 1;
    if (end > TICKS)
        end = TICKS;
    start(), memcpy(begun, run, sizeof begun), explain(), length = answer[0] == SIVORANDRA_LENGTH ? answer[1] : 0;
    for (uint32_t c = 0; c < 32; c++)
        idle[c] = table[3] >> c & 1 ? SIVORANDRA_FENCED : 0;
    for (size_t i = 0; i < CALLS; i++) {
        memcpy(run, begun, sizeof run);
        size_t used = taken(i);
        if (calls[i].most < used)
            calls[i].most = used;
    }
}

int main(void)
{
    entries[TICKS / 2 * SIVORANDRA_ENTRY_WORDS] = SIVORANDRA_ENTRY_WITHDRAW, entries[TICKS / 2 * SIVORANDRA_ENTRY_WORDS + 1] = 1;
    entries[TICKS / 3 * SIVORANDRA_ENTRY_WORDS] = SIVORANDRA_ENTRY_WITHDRAW_ALL, entries[TICKS / 3 * SIVORANDRA_ENTRY_WORDS + 1] = 1u << (TASKS - 1);
    static const struct { uint32_t c, d, t; } times[] = { { 1, 1, 1 }, { 1, 1, 2 }, { 2, 7, 8 }, { 3, 3, 3 }, { 2, 3, 5 }, { 300, 700, 1000 }, { 900, 901, 1000 }, { 5000, 9000, 10000 } };
    void *place;
    int wrong = posix_memalign(&place, 4096, STACK);
    if (wrong)
        return 1;
    stack = place;
    for (size_t i = 0; i < sizeof times / sizeof times[0]; i++)
        for (uint32_t rule = SIVORANDRA_GREEDY; rule <= SIVORANDRA_LENDING; rule++)
            for (uint32_t fence = 0; fence < 3; fence++)
                make(rule, times[i].c, times[i].d, times[i].t, fence ? 0xffffffffu >> (fence - 1) : 0), look();
    for (words = 0; words < TABLE; words += 7)
        look();
    for (size_t i = 0; i < CALLS; i++) {
        printf("%s %lu\n", calls[i].name, (unsigned long)calls[i].most);
        wrong |= calls[i].most >= SIVORANDRA_STACK_BYTES;
    }
    return wrong;
}
