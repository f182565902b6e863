/* Judges a table from C: judge FILE prints the verdict, why where it misses, and the first rows.
   The status is 0 where the table is accepted, 1 where it misses, 2 where it is refused.
   Here: tools/archive && gcc -Iinclude examples/judge.c -Ltarget/staticlib -lsivorandra -o judge
   Installed: gcc examples/judge.c $(pkg-config --cflags --libs sivorandra) -o judge */
#include <ctype.h>
#include <stdio.h>
#include <stdlib.h>
#include "sivorandra.h"

enum { ROWS = 10 }; /* at most so many rows are printed */

/* The numbers of a file, one a line; none, which is no table, where a line has something else. */
static size_t read_words(FILE *file, uint32_t *words, size_t most)
{
    char line[16];
    size_t count = 0;
    while (fgets(line, sizeof line, file)) {
        char *end;
        unsigned long long value = strtoull(line, &end, 10);
        if (!isdigit((unsigned char)line[0]) || (*end != '\n' && *end != '\0'))
            return 0;
        if (value > UINT32_MAX || count == most)
            return 0;
        words[count++] = (uint32_t)value;
    }
    return count;
}

static int refused(const struct sivorandra_answer *answer)
{
    printf("refused %u %u: %s\n", (unsigned)answer->first, (unsigned)answer->second,
           sivorandra_number_text(answer->first));
    return 2;
}

int main(int argc, char **argv)
{
    static uint32_t words[SIVORANDRA_TABLE_WORDS];
    static uint8_t rows[ROWS * SIVORANDRA_MOST_CORES];
    char why[SIVORANDRA_SENTENCE_BYTES + 1];
    struct sivorandra_answer verdict, answer;
    FILE *file = argc == 2 ? fopen(argv[1], "r") : NULL;
    if (!file) {
        fprintf(stderr, argc == 2 ? "judge: %s cannot be read\n" : "usage: %s FILE\n",
                argc == 2 ? argv[1] : argv[0]);
        return 3;
    }
    size_t count = read_words(file, words, SIVORANDRA_TABLE_WORDS);
    fclose(file);

    int status = sivorandra_table_judge(words, count, &verdict);
    if (status != 0 && verdict.kind != SIVORANDRA_IS_MISS)
        return refused(&verdict);
    int misses = verdict.kind == SIVORANDRA_IS_MISS;
    printf("%s %u %u\n", misses ? "miss" : verdict.kind == SIVORANDRA_IS_FIRM ? "firm" : "full",
           (unsigned)verdict.first, (unsigned)verdict.second);
    if (misses) {
        if (sivorandra_table_sentence(words, count, why, &answer))
            return refused(&answer);
        puts(why);
    }

    uint32_t cores = words[1], ticks = verdict.first + (misses ? 0 : verdict.second);
    uint32_t shown = ticks < ROWS ? ticks : ROWS;
    if (sivorandra_table_plan(words, count, 0, shown, rows, sizeof rows, &answer))
        return refused(&answer);
    for (uint32_t tick = 0; tick < shown; tick++) {
        printf("%u", (unsigned)tick);
        for (uint32_t core = 0; core < cores; core++)
            printf(" %d", rows[tick * cores + core]);
        printf("\n");
    }
    return misses;
}
