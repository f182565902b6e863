/* The plain calls for tests/outside/layers: what each writes, its case by name, and the words of the run after each operation as one number. */
#include "plain_calls.h"
#include "sivorandra.h"
#include <string.h>

static uint32_t answer[3];

/* The case of an answer by name, where case 0 has this one. */
static void tell(uint32_t value, const char *done)
{
    static const char *const names[] = { "", "full", "miss", "refused", "row-refused", "none", "accepted" };
    if (value != 0)
        printf("short 0 0");
    else
        printf("%s %u %u", answer[0] == 0 ? done : names[answer[0]], (unsigned)answer[1], (unsigned)answer[2]);
    memset(answer, 0, sizeof answer);
}

static void list32(const uint32_t *numbers, size_t count)
{
    for (size_t i = 0; i < count; i++)
        printf(" %u", (unsigned)numbers[i]);
    printf("\n");
}

static void list8(const uint8_t *numbers, size_t count)
{
    for (size_t i = 0; i < count; i++)
        printf(" %d", numbers[i]);
    printf("\n");
}

/* All words of a run as one number: order counts. */
static void mix(const uint32_t *words, size_t count)
{
    uint32_t sum = 2166136261u;
    for (size_t i = 0; i < count; i++)
        sum = (sum ^ words[i]) * 16777619u;
    printf(" run %u\n", (unsigned)sum);
}

int main(void)
{
    static struct question asked;
    while (next_question(&asked)) {
        const uint32_t *words = asked.words;
        size_t len = asked.words_len;
        uint32_t figures[32], run[SIVORANDRA_RUN_WORDS], set;
        uint64_t sets[32];
        uint8_t row[64], text[SIVORANDRA_SENTENCE_BYTES + 1] = { 0 };
        uint32_t value;
        tell(sivorandra_judge(words, len, answer, 3), "firm");
        printf("\n");
        tell(sivorandra_judge_ticks(words, len, answer, 3), "firm");
        printf("\n");
        tell(sivorandra_judge_events(words, len, answer, 3), "firm");
        printf("\n");
        value = sivorandra_sentence(words, len, text, SIVORANDRA_SENTENCE_BYTES, answer, 3);
        text[value == 0 && answer[0] == 0 ? answer[1] : 0] = 0;
        tell(value, "done");
        printf(" '%s'\n", (const char *)text);
        tell(sivorandra_response_times(words, len, figures, 32, answer, 3), "done");
        list32(figures, 32);
        value = sivorandra_bounds(words, len, figures, 32, answer, 3);
        tell(value, answer[1] == 1 ? "done" : "not-passed");
        list32(figures, 32);
        value = sivorandra_conflict(words, len, answer, 3);
        set = value == 0 && answer[0] == 0 ? answer[1] : 0;
        tell(value, "done");
        printf(" %u\n", (unsigned)set);
        tell(sivorandra_slack(words, len, figures, 32, answer, 3), "done");
        list32(figures, 32);
        uint8_t rows[TICKS * 64] = { 0 };
        uint32_t plan[SIVORANDRA_PLAN_WORDS];
        tell(sivorandra_plan(words, len, 0, TICKS, rows, sizeof rows, answer, 3), "done");
        list8(rows, sizeof rows);
        tell(sivorandra_check_begin(words, len, plan, SIVORANDRA_PLAN_WORDS, answer, 3), "done");
        printf("\n");
        size_t cores = len > 1 && words[1] <= 64 ? words[1] : 0;
        for (int tick = 0; tick < TICKS; tick++) {
            tell(sivorandra_check_row(plan, SIVORANDRA_PLAN_WORDS, rows + tick * cores, cores, answer, 3), "done");
            printf("\n");
        }
        uint32_t entries[3 * MOST_OPERATIONS], numbers[MOST_OPERATIONS] = { 0 };
        size_t count = entries_of(&asked, entries);
        for (size_t c = 0; c < 64; c++)
            row[c] = 0;
        tell(sivorandra_replay(words, len, entries, 3 * count, numbers, count, row, 64, answer, 3), "done");
        list32(numbers, count);
        list8(row, 64);
        value = sivorandra_start(words, len, run, SIVORANDRA_RUN_WORDS, answer, 3);
        int started = answer[0] == 0;
        tell(value, "done");
        mix(run, SIVORANDRA_RUN_WORDS);
        for (size_t i = 0; started && i < asked.count; i++) {
            struct operation one = asked.operations[i];
            if (one.letter == 'q') {
                tell(sivorandra_row(run, SIVORANDRA_RUN_WORDS, one.first, row, 64, answer, 3), "done");
                for (size_t c = 0; c < 64; c++)
                    printf(" %d", row[c]);
                printf("\n");
                tell(sivorandra_sets(run, SIVORANDRA_RUN_WORDS, one.first, sets, 32, answer, 3), "done");
                for (size_t p = 0; p < 32; p++)
                    printf(" %llu", (unsigned long long)sets[p]);
                printf("\n");
                tell(sivorandra_working(run, SIVORANDRA_RUN_WORDS, one.first, &set, 1, answer, 3), "done");
                printf(" %u\n", (unsigned)set);
                continue;
            }
            if (one.letter == 'a')
                value = sivorandra_advance(run, SIVORANDRA_RUN_WORDS, one.first, one.second, answer, 3);
            else if (one.letter == 'w')
                value = sivorandra_withdraw(run, SIVORANDRA_RUN_WORDS, one.first, answer, 3);
            else if (one.letter == 'W')
                value = sivorandra_withdraw_all(run, SIVORANDRA_RUN_WORDS, one.first, answer, 3);
            else { /* a word of the run is spoilt */
                run[one.first % SIVORANDRA_RUN_WORDS] ^= 5;
                value = 0;
            }
            tell(value, "done");
            mix(run, SIVORANDRA_RUN_WORDS);
        }
        printf(".\n");
    }
    return 0;
}
