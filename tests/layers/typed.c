/* The typed calls of C for tests/outside/layers, printed as plain.c prints the plain ones; a call that returns 0 exactly where its kind is no success ends the program. */
#include "plain_calls.h"
#include "sivorandra.h"

static struct sivorandra_answer answer;

static void tell(int status)
{
    static const char *const names[] = { "nothing", "done", "firm", "full", "accepted", "miss", "not-passed", "refused", "row-refused", "none", "short" };
    if ((status == 0) != (answer.kind <= SIVORANDRA_IS_ACCEPTED) || (status != 0 && status != (int)answer.kind))
        exit(1);
    printf("%s %u %u", names[answer.kind], (unsigned)answer.first, (unsigned)answer.second);
}

static void list32(const uint32_t *numbers, size_t count)
{
    for (size_t i = 0; i < count; i++)
        printf(" %u", (unsigned)numbers[i]);
    printf("\n");
}

static void list8(const uint8_t *numbers, size_t count)
{
    for (size_t i = 0; i < count; i++)
        printf(" %d", numbers[i]);
    printf("\n");
}

static void mix(const struct sivorandra_run *run)
{
    uint32_t sum = 2166136261u;
    for (size_t i = 0; i < SIVORANDRA_RUN_WORDS; i++)
        sum = (sum ^ run->words[i]) * 16777619u;
    printf(" run %u\n", (unsigned)sum);
}

int main(void)
{
    static struct question asked;
    while (next_question(&asked)) {
        const uint32_t *words = asked.words;
        size_t len = asked.words_len;
        struct sivorandra_run run;
        uint32_t figures[32], set;
        uint64_t sets[32];
        uint8_t row[64];
        char text[SIVORANDRA_SENTENCE_BYTES + 1];
        tell(sivorandra_table_judge(words, len, &answer));
        printf("\n");
        tell(sivorandra_table_judge_ticks(words, len, &answer));
        printf("\n");
        tell(sivorandra_table_judge_events(words, len, &answer));
        printf("\n");
        tell(sivorandra_table_sentence(words, len, text, &answer));
        printf(" '%s'\n", text);
        tell(sivorandra_table_response_times(words, len, figures, &answer));
        list32(figures, 32);
        tell(sivorandra_table_bounds(words, len, figures, &answer));
        list32(figures, 32);
        tell(sivorandra_table_conflict(words, len, &set, &answer));
        printf(" %u\n", (unsigned)set);
        tell(sivorandra_table_slack(words, len, figures, &answer));
        list32(figures, 32);
        uint8_t rows[TICKS * 64] = { 0 };
        struct sivorandra_supplied plan;
        tell(sivorandra_table_plan(words, len, 0, TICKS, rows, sizeof rows, &answer));
        list8(rows, sizeof rows);
        tell(sivorandra_supplied_begin(&plan, words, len, &answer));
        printf("\n");
        size_t cores = len > 1 && words[1] <= 64 ? words[1] : 0;
        for (int tick = 0; tick < TICKS; tick++) {
            tell(sivorandra_supplied_row(&plan, rows + tick * cores, cores, &answer));
            printf("\n");
        }
        uint32_t entries[3 * MOST_OPERATIONS], numbers[MOST_OPERATIONS] = { 0 };
        struct sivorandra_entry listed[MOST_OPERATIONS];
        size_t count = entries_of(&asked, entries);
        for (size_t i = 0; i < count; i++)
            listed[i].kind = entries[3 * i], listed[i].first = entries[3 * i + 1], listed[i].second = entries[3 * i + 2];
        for (size_t c = 0; c < 64; c++)
            row[c] = 0;
        tell(sivorandra_table_replay(words, len, listed, count, numbers, row, &answer));
        list32(numbers, count);
        list8(row, 64);
        int status = sivorandra_run_start(&run, words, len, &answer);
        tell(status);
        mix(&run);
        for (size_t i = 0; status == 0 && i < asked.count; i++) {
            struct operation one = asked.operations[i];
            if (one.letter == 'q') {
                tell(sivorandra_run_row(&run, one.first, row, &answer));
                for (size_t c = 0; c < 64; c++)
                    printf(" %d", row[c]);
                printf("\n");
                tell(sivorandra_run_sets(&run, one.first, sets, &answer));
                for (size_t p = 0; p < 32; p++)
                    printf(" %llu", (unsigned long long)sets[p]);
                printf("\n");
                tell(sivorandra_run_working(&run, one.first, &set, &answer));
                printf(" %u\n", (unsigned)set);
                continue;
            }
            if (one.letter == 'a')
                tell(sivorandra_run_advance(&run, one.first, one.second, &answer));
            else if (one.letter == 'w')
                tell(sivorandra_run_withdraw(&run, one.first, &answer));
            else if (one.letter == 'W')
                tell(sivorandra_run_withdraw_all(&run, one.first, &answer));
            else {
                run.words[one.first % SIVORANDRA_RUN_WORDS] ^= 5;
                printf("done 0 0");
            }
            mix(&run);
        }
        printf(".\n");
    }
    return 0;
}
