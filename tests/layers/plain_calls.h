/* For tests/outside/layers: the questions of a line, and each layer's answers as one text. A line has a table's words, a bar, and a list of operations: a REPORTS EMPTIES, w POSITION,
   W SET, q EMPTIES; all numbers. What is printed of the plain calls by plain.c is printed of the typed ones by typed.c, of C++ by typed.cpp and of Rust by typed.rs. */
#ifndef PLAIN_CALLS_H
#define PLAIN_CALLS_H
#include <stdint.h>
#include <stdio.h>
#include <stdlib.h>

enum { MOST_WORDS = 300, MOST_OPERATIONS = 200 };

struct operation {
    char letter;
    uint32_t first, second;
};

struct question {
    uint32_t words[MOST_WORDS];
    size_t words_len;
    struct operation operations[MOST_OPERATIONS];
    size_t count;
};

/* The rows that are asked of a plan. */
enum { TICKS = 4 };

/* The advances and withdrawals of a list in words, three each: how many there are. */
static inline size_t entries_of(const struct question *question, uint32_t *entries)
{
    size_t count = 0;
    for (size_t i = 0; i < question->count; i++) {
        const struct operation *one = &question->operations[i];
        if (one->letter != 'a' && one->letter != 'w' && one->letter != 'W')
            continue;
        entries[3 * count] = one->letter == 'a' ? 0 : one->letter == 'w' ? 1 : 2;
        entries[3 * count + 1] = one->first;
        entries[3 * count++ + 2] = one->second;
    }
    return count;
}

/* The next line of standard input, or 0 where there is none. */
static int next_question(struct question *question)
{
    static char line[1 << 16];
    if (!fgets(line, sizeof line, stdin))
        return 0;
    char *at = line;
    question->words_len = question->count = 0;
    for (;;) {
        while (*at == ' ')
            at++;
        if (*at == '|' || question->words_len == MOST_WORDS)
            break;
        question->words[question->words_len++] = (uint32_t)strtoul(at, &at, 10);
    }
    do
        at++;
    while (*at == ' ');
    while (*at != '\0' && *at != '\n' && question->count < MOST_OPERATIONS) {
        struct operation *one = &question->operations[question->count++];
        one->letter = *at++;
        one->first = (uint32_t)strtoul(at, &at, 10);
        one->second = one->letter == 'a' ? (uint32_t)strtoul(at, &at, 10) : 0;
        while (*at == ' ')
            at++;
    }
    return 1;
}
#endif
