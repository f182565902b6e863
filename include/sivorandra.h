/* Sivorandra, a proved timing judge for tables of gang tasks: link libsivorandra.a (-lsivorandra).

   THE RUN LOOP. A typed call returns 0 where it succeeds, and only there; `answer` says why not.

       struct sivorandra_run run;        // of the table in `words`, uint32_t each (see WORDS)
       struct sivorandra_answer answer;
       if (sivorandra_run_start(&run, words, words_len, &answer))
           return report(&answer);       // sivorandra_number_text(answer.first) says why
       for (;;) {                        // once in every tick
           uint32_t empties = ...;       // of the jobs that are released now: those with no work
           uint32_t working, ended;
           uint64_t sets[SIVORANDRA_SETS];
           if (sivorandra_run_sets(&run, empties, sets, &answer) ||
               sivorandra_run_working(&run, empties, &working, &answer))
               return report(&answer);   // 15: late, see below; 20: correct `empties`, ask again
           ended = dispatch(sets, working);   // the tick passes; which of `working` have ended?
           if (sivorandra_run_advance(&run, ended & working, empties, &answer))
               return report(&answer);   // 16: correct `ended`, advance again
       }

   - start takes a table that is firm or full (sivorandra_table_judge says which). In a firm one no
     job is ever late. In a full one a job that ends early or is empty can make another late. Then
     15 names it, answer.second, and the run stays in this tick for good.
   - A refused call leaves the run in its tick and writes zeros: overlooked, the cores stay idle.
   - A set of positions has bit 0 for position 1, the highest priority. A set of cores has bit 0 for
     core 0, and sets[0] is that of position 1. A `p` in the text of a number is answer.second.
   - `empties` is the same in all calls of a tick. A job may be empty only in the tick in which it
     is released, at O, O + T and so on: count the ticks; O and T are words 1 and 5 of a record.
   - `working` has the positions whose job is to run in this tick, on the cores of its set. Another
     position may have cores too: its job has ended, or is empty, and holds them (rules 3 and 4).
   - A job that has had its C ticks ends by itself. One that ends earlier is reported, by its bit,
     in the advance of its last tick; 16 refuses a report on a position that is not in `working`.
   - sivorandra_run_withdraw(&run, 2, &answer), between two ticks, withdraws position 2: a job that
     was released before goes on, and all later ones are empty. 21 and 22 leave the run as it was.
   - The run is a value: copy it, keep it, go back to it. examples/run_loop.c is the whole program,
     examples/judge.c judges a file, sivorandra.hpp is the same for C++. In this file come: costs,
     version and limits, words, answers and numbers, the plain calls, the typed calls.

   WHERE IT RUNS. x86-64 Linux today, since the toolchain writes no other archive. Nothing known in
   the sources stands against another machine, and it was not tried. */
#ifndef SIVORANDRA_H
#define SIVORANDRA_H

#include <stddef.h>
#include <stdint.h>

#ifdef __cplusplus
extern "C" {
#endif

/* ================================================================ WHAT A CALL COSTS

   - Memory: none from the heap. Of the stack less than SIVORANDRA_STACK_BYTES (measured:
     replay 18,600 bytes, check_row 17,100, advance 14,300, start 13,600, sentence 13,400,
     check_begin 13,000, conflict 12,700, withdraw and withdraw_all 12,600, plan 12,100, slack
     11,200, judge 8,900, row 7,600, response_times 7,400, judge_events 7,100, bounds 5,800,
     sets 5,800, judge_ticks 5,700, working 5,500, facts 1,200).
   - Threads: the library has no state and no data that is written to, so any number of
     threads may call at once, each with slices of its own to be written to; slices that are
     only read may be shared. Of the C library it calls memcpy and memset alone.
   - Time: row, sets, working, advance, the withdrawals and check_row take some microseconds
     at most, bounded by the 32 tasks and 64 cores. judge first tries the interference test,
     which takes some 100 microseconds at most and accepts most tables that are not nearly
     full. Else it simulates event by event (a release, an end or a deadline), or tick by tick
     where the periods are short: 10 to 100 ns each on x86-64, by the number of tasks that
     change. There are at most as many events as ticks up to the horizon or the first miss. A
     horizon of 10,000,000 takes a second at most; the largest, 1,000,000,000, milliseconds
     where the periods are long, and two minutes where all 32 tasks change in every tick. No
     call can be stopped from outside: where that is too long, judge in a process of its own.
     judge_ticks simulates every tick, judge_events every event; start takes as long as judge;
     sentence judges, and where there is a miss simulates every tick up to it; response_times
     always simulates, event by event, up to the horizon or the first miss; plan judges up to
     b, and simulates every tick up to b; replay takes a start, and an advance or a withdrawal
     for each entry; facts reads its bytes once; conflict judges the table and sub-tables of
     it, 529 times at most; slack judges the table, and at most 20 times for each task the
     table with it longer; check_begin judges nothing.

   A run in words, and a plan in words, belong to the version that wrote them: the words may
   change with the version. Keep SIVORANDRA_VERSION beside what is stored, and start or
   check_begin again where it differs; 14 detects words that are no run, not a run of another
   version. */

/* ================================================================ VERSION AND LIMITS */

/* The version of this header; sivorandra_version returns that of the library that is linked.
   One number, which grows with the version: major * 10000 + minor * 100 + patch. */
#define SIVORANDRA_VERSION_MAJOR 0
#define SIVORANDRA_VERSION_MINOR 27
#define SIVORANDRA_VERSION_PATCH 0
#define SIVORANDRA_VERSION \
    (SIVORANDRA_VERSION_MAJOR * 10000 + SIVORANDRA_VERSION_MINOR * 100 + SIVORANDRA_VERSION_PATCH)
#define SIVORANDRA_VERSION_TEXT "0.27.0"

/* No call uses more bytes of the stack. */
#define SIVORANDRA_STACK_BYTES 20480

/* The limits of a table. D is at least 1 and at most T. */
#define SIVORANDRA_MOST_TASKS 32            /* records of a table, tasks on a chain */
#define SIVORANDRA_MOST_CORES 64
#define SIVORANDRA_MOST_OFFSET 1000000u     /* O */
#define SIVORANDRA_MOST_LENGTH 1000000u     /* C, from 1 */
#define SIVORANDRA_MOST_PERIOD 1000000u     /* T, from 1 */
#define SIVORANDRA_MOST_HORIZON 1000000000u /* S + P; 9 refuses a larger one */

/* ================================================================ WORDS */

/* The rules. Lending (limited slack reclaiming) reserves cores as idling gives them. A task
   whose job has ended, early or empty, then lends those that are reserved for it: of the
   tasks below it, in order, each that works, has none reserved and has borrowed none in this
   tick takes the lowest of them that are not lent yet, if its width fits in these. Where no
   job ends early lending equals idling. */
#define SIVORANDRA_GREEDY 1u
#define SIVORANDRA_LIMITED 2u
#define SIVORANDRA_IDLING 3u
#define SIVORANDRA_LENDING 4u

/* The words of a table in front of its records: head, cores, rule, and the fence, the set of
   cores that no task may use, its low word first: bit c of the low word is core c, bit c of
   the high word core 32 + c. A record is next, O, v, C, D, T and w: odd jobs of the task, its
   first, third and so on, take v cores, even ones w; where the two differ the task counts
   with 2T in P. */
#define SIVORANDRA_TABLE_HEAD_WORDS 5
#define SIVORANDRA_TABLE_RECORD_WORDS 7
#define SIVORANDRA_TABLE_WORDS /* the most */ \
    (SIVORANDRA_TABLE_HEAD_WORDS + SIVORANDRA_TABLE_RECORD_WORDS * SIVORANDRA_MOST_TASKS)

/* The words that a run kept between calls takes: rule, cores, count, the fence, its low word
   first, and the set of withdrawn positions, bit 0 for position 1, then 32 places of which
   the first count are used; a place is O, v, C, D, T, w, the parity of its job (0 odd, 1
   even; it changes at each release but the first), the kind of its phase and three numbers, 0
   for one that it does not have:
   - 0 Coming: the ticks left to its first release.
   - 1 Working: the ticks since its release, the ticks that its job has had, and the ticks
     that cores were reserved for it. The last two are equal but under lending: a lent tick is
     had and not reserved.
   - 2 Holding, under idling and lending: the ticks since its release, and the ticks reserved.
   - 3 Resting: the ticks since its release. */
#define SIVORANDRA_RUN_HEAD_WORDS 6
#define SIVORANDRA_RUN_PLACE_WORDS 11
#define SIVORANDRA_RUN_WORDS \
    (SIVORANDRA_RUN_HEAD_WORDS + SIVORANDRA_RUN_PLACE_WORDS * SIVORANDRA_MOST_TASKS)

/* The words that a plan kept between calls takes: those of a run, its tick, and four words
   for each of its 32 places, the kind of the phase that is noted there and its three numbers,
   as a place of a run has them. */
#define SIVORANDRA_NOTE_WORDS 4
#define SIVORANDRA_PLAN_WORDS \
    (SIVORANDRA_RUN_WORDS + 1 + SIVORANDRA_NOTE_WORDS * SIVORANDRA_MOST_TASKS)

/* The bytes of a row: core 0 first, the position, which is the borrower's on a lent core, 0
   for idle, or 255 for a fenced core. */
#define SIVORANDRA_ROW_BYTES SIVORANDRA_MOST_CORES
#define SIVORANDRA_FENCED 255u

/* The sets of a row, one of each position, position 1 first, with core 0 the lowest bit. */
#define SIVORANDRA_SETS SIVORANDRA_MOST_TASKS

/* The words of an entry of a replay's list: 0, the reports and the empties of an advance; or
   1, the position of a withdrawal, and 0; or 2, the set of a withdrawal of several together,
   and 0. */
#define SIVORANDRA_ENTRY_WORDS 3
#define SIVORANDRA_ENTRY_ADVANCE 0u
#define SIVORANDRA_ENTRY_WITHDRAW 1u
#define SIVORANDRA_ENTRY_WITHDRAW_ALL 2u

/* No sentence is longer: a buffer of this size is never refused with 18. */
#define SIVORANDRA_SENTENCE_BYTES 700

/* The words of the facts of a miss: position, tick, ticks had, C, then for positions 1 to 32
   in how many of the late job's waiting ticks the task ran, 0 for one that the sentence does
   not name. */
#define SIVORANDRA_FACT_HEAD_WORDS 4
#define SIVORANDRA_FACT_WORDS (SIVORANDRA_FACT_HEAD_WORDS + SIVORANDRA_MOST_TASKS)

/* ================================================================ ANSWERS AND NUMBERS */

/* What every call but sivorandra_version returns: the call is answered, or a lent slice is
   too short and everything is as found, also where the words of a replay's `entries` are no
   entries. Short `rows` of a plan are 11 instead, and too few words for a run lent to row,
   sets, working, advance or a withdrawal, or for a plan lent to check_row, are no run: 14. */
#define SIVORANDRA_ANSWERED 0u
#define SIVORANDRA_SHORT 1u

/* The answer is written into the first three words of `answer`: one of these cases and its two
   numbers. Words behind them stay. */
#define SIVORANDRA_ANSWER_WORDS 3
#define SIVORANDRA_DONE 0u        /* rows written, last row shown, begun, or taken: 0 and 0 */
#define SIVORANDRA_FIRM 0u        /* from sivorandra_judge, judge_ticks, judge_events: S, P */
#define SIVORANDRA_FULL 1u        /* S and P */
#define SIVORANDRA_MISS 2u        /* tick and position */
#define SIVORANDRA_LENGTH 0u      /* from sivorandra_sentence: the sentence's length, and 0 */
#define SIVORANDRA_KEPT 0u        /* from sivorandra_conflict: the set of positions kept, and 0 */
#define SIVORANDRA_TESTED 0u      /* from sivorandra_bounds: 1 where it passes, else 0; and 0 */
#define SIVORANDRA_REFUSED 3u     /* number and position; from check_row number and tick */
#define SIVORANDRA_ROW_REFUSED 4u /* the last row of a replay: number and position */
#define SIVORANDRA_NO_SENTENCE 5u /* from sivorandra_facts: 0 and 0 */
#define SIVORANDRA_ACCEPTED 6u    /* from sivorandra_check_row: the plan is accepted: 0, 0 */

/* The number of a refusal: the first that applies, where 19 comes between 3 and 4, and 20
   between 15 and 16; check_row's order is 14, 9, 10, 11, 25, 24 and, after the last row, 25
   and 26. The position is 0 but with 7, 8 and 15; 24 to 26 come with a tick instead. Later
   versions may have more numbers. */
enum sivorandra_number {
    SIVORANDRA_NOT_A_TABLE = 1,
        /* fewer than 5 words, the rest no whole records of seven, or more than 32 records */
    SIVORANDRA_BAD_CORES = 2, /* the core count is not 1 to 64 */
    SIVORANDRA_BAD_RULE = 3, /* the rule is not 1 to 4 */
    SIVORANDRA_NO_HEAD = 4, /* the head is zero */
    SIVORANDRA_NO_RECORD = 5, /* the chain leads to a number past the last record */
    SIVORANDRA_RECORD_AGAIN = 6, /* the chain leads to a record for the second time */
    SIVORANDRA_BAD_WIDTH = 7,
        /* a width of the position is 0 or above the number of unfenced cores */
    SIVORANDRA_BAD_TIME = 8, /* O, C, T or D of the position is outside its limits */
    SIVORANDRA_LONG_HORIZON = 9, /* the horizon is above SIVORANDRA_MOST_HORIZON */
    SIVORANDRA_BAD_RANGE = 10,
        /* plan: a is above b, or b is above the horizon; check_row: the row is past the horizon */
    SIVORANDRA_SHORT_ROWS = 11,
        /* plan: `rows` has fewer than (b - a) * cores bytes; check_row: the row's length is not
           the core count */
    SIVORANDRA_PAST_MISS = 12, /* plan: b is above the tick of the first miss */
    SIVORANDRA_TABLE_MISSES = 13, /* start, replay, response_times: the verdict is a miss */
    SIVORANDRA_NOT_A_RUN = 14,
        /* row, sets, working, advance, withdraw, withdraw_all: the words are no run; check_row:
           they are no plan's */
    SIVORANDRA_LATE = 15,
        /* row, sets, working, advance: the position, the lowest that is late, has not ended its
           job at its deadline */
    SIVORANDRA_BAD_REPORT = 16,
        /* advance: for a position past the count, or a task that is not working or has no cores,
           its own or lent, in this tick */
    SIVORANDRA_NO_MISS = 17, /* sentence, conflict: the table has no miss */
    SIVORANDRA_SHORT_BUFFER = 18, /* sentence: `buffer` is shorter than the sentence */
    SIVORANDRA_BAD_FENCE = 19, /* the fence contains a core past the count, or all cores */
    SIVORANDRA_BAD_EMPTY = 20,
        /* row, sets, working, advance: for a position past the count, or a task whose job is not
           released in this tick */
    SIVORANDRA_NOT_FIRM = 21,
        /* withdraw, withdraw_all: the rule is greedy and a width of some task is above one of the
           next: without a task others could be late */
    SIVORANDRA_NO_POSITION = 22,
        /* withdraw: the position is 0 or past the count; withdraw_all: one is past the count */
    SIVORANDRA_SLACK_NOT_GIVEN = 23,
        /* slack: not accepted under limited, nor under greedy with no width of a task above one
           of the next */
    SIVORANDRA_BAD_ROW = 24,
        /* check_row: a byte of the row that is neither 0 nor a position, a fenced core without
           255, a task with another width than its job's, or one with no work owed: not released,
           done, or past its deadline; with the row's tick */
    SIVORANDRA_DEADLINE_MISSED = 25,
        /* check_row: some job is not done at its deadline; with that tick */
    SIVORANDRA_PHASES_DIFFER = 26
        /* check_row, after the last row: some task's phase is not the one noted at the last S,
           parity aside; with the horizon */
};

/* ================================================================ THE PLAIN CALLS

   These are the proved functions. A slice is a pointer and its length in elements; with length 0
   the pointer may be NULL. Slices lent for writing overlap no other. No call keeps a pointer, or
   writes anywhere but into the slices lent for writing. Each returns 0 also where it refuses: look
   at both the value and answer[0]. The typed calls do that.

       uint32_t answer[SIVORANDRA_ANSWER_WORDS];
       if (sivorandra_judge(words, words_len, answer, 3) == SIVORANDRA_ANSWERED &&
           (answer[0] == SIVORANDRA_FIRM || answer[0] == SIVORANDRA_FULL))
           accepted(); */

/* The version of the library that is linked, as SIVORANDRA_VERSION has that of the header. */
uint32_t sivorandra_version(void);

/* The verdict on the table in `words`: firm, full, miss or refused. It simulates event by
   event or tick by tick, whichever is faster for the table's periods. */
uint32_t sivorandra_judge(const uint32_t *words, size_t words_len, uint32_t *answer, size_t
                          answer_len);

/* The same verdict, always tick by tick, for comparison with the others. */
uint32_t sivorandra_judge_ticks(const uint32_t *words, size_t words_len, uint32_t *answer, size_t
                                answer_len);

/* The same verdict, always event by event, for comparison with the others. */
uint32_t sivorandra_judge_events(const uint32_t *words, size_t words_len, uint32_t *answer, size_t
                                 answer_len);

/* Writes rows a up to but not including b of the full-length run into `rows`, one byte a
   core, fenced ones too: done or refused. A refusal leaves `rows` as found; with 11 `rows` is
   too short. Bytes behind the last row stay. */
uint32_t sivorandra_plan(const uint32_t *words, size_t words_len, uint32_t a, uint32_t b, uint8_t
                         *rows, size_t rows_len, uint32_t *answer, size_t answer_len);

/* Starts a run, applies `entries` to it, and asks for its row with no empty job: done, row
   refused, or refused where the start is. An entry has SIVORANDRA_ENTRY_WORDS words:
   SIVORANDRA_ENTRY_ADVANCE, and the reports and the empties of sivorandra_advance; or
   SIVORANDRA_ENTRY_WITHDRAW, the position of sivorandra_withdraw, and 0; or
   SIVORANDRA_ENTRY_WITHDRAW_ALL, the set of sivorandra_withdraw_all, and 0. Its answer goes
   into `numbers`, 0 for taken or else number * 256 + position; the last row into 64 bytes of
   `row`. `numbers` needs a word for each entry; words behind them stay. A refused row is 64
   zeros; a refused start, which is answered even where `entries` are none and `numbers` or
   `row` is short, leaves both as found. */
uint32_t sivorandra_replay(const uint32_t *words, size_t words_len, const uint32_t *entries, size_t
                           entries_len, uint32_t *numbers, size_t numbers_len, uint8_t *row, size_t
                           row_len, uint32_t *answer, size_t answer_len);

/* Starts the run of the table in `words`: done or refused. Taken or refused, it writes all
   SIVORANDRA_RUN_WORDS words of the run that start returns: places past the count are zeros
   and Resting(0), and a refused start returns a run of all zeros with every phase Resting(0),
   which every later call refuses with 14. */
uint32_t sivorandra_start(const uint32_t *words, size_t words_len, uint32_t *run, size_t run_len,
                          uint32_t *answer, size_t answer_len);

/* The row of the present tick: done or refused. Taken or refused, it writes all 64 bytes of
   the row that is returned: bytes past the core count are 0, and a refused row is 64 zeros,
   on fenced cores too. Words that are no run are refused with 14: too few, a count above 32,
   or no parity or phase in a place below the count, such as an even job of a task Coming, or
   more ticks had than reserved under rules 1 to 3. Places past the count are not read. Bit p
   of `empties` is set if the job of position p + 1, released in this tick (its phase is
   Working with three zeros), is empty: it ends before cores are given out. The run stays as
   it is: the advance needs the same set. */
uint32_t sivorandra_row(const uint32_t *run, size_t run_len, uint32_t empties, uint8_t *row, size_t
                        row_len, uint32_t *answer, size_t answer_len);

/* The row of the present tick as sets of cores: done or refused, by row's numbers and with
   `empties` as for row. Taken or refused, it writes all SIVORANDRA_SETS sets: the cores that
   the row shows with the position, of which core c is bit c. Held cores are in the holder's
   set, lent ones in the borrower's, fenced ones in none. No two sets overlap, and each has as
   many cores as its job's width, or none; but a holder that lends has the cores that it has
   not lent. Sets past the count are 0, and a refused row has 32 zeros; words behind them
   stay. The row's bytes follow from the sets and the fence. */
uint32_t sivorandra_sets(const uint32_t *run, size_t run_len, uint32_t empties, uint64_t *sets,
                         size_t sets_len, uint32_t *answer, size_t answer_len);

/* The positions whose job works in the present tick: done or refused, by row's numbers and with
   `empties` as for row. Taken or refused, it writes one word of `set`, bit 0 for position 1: the
   positions whose job has cores, its own or lent ones, and has not ended. These are the ones that a
   report of sivorandra_advance may name. A position that holds cores or lends them is not in it. A
   refusal writes 0; words behind the first stay. */
uint32_t sivorandra_working(const uint32_t *run, size_t run_len, uint32_t empties, uint32_t *set,
                            size_t set_len, uint32_t *answer, size_t answer_len);

/* Moves the run by one tick: done, or refused and `run` as found. Words that are no run are
   refused with 14, as by row. A taken advance writes the head and the places below the count;
   places past it are neither read nor changed. Bit p of `reports` is set if the job of
   position p + 1, which works in this tick, on lent cores too, ends after it; bit p of
   `empties` if it is released in this tick and empty, as for row: a report on it is refused
   with 16. */
uint32_t sivorandra_advance(uint32_t *run, size_t run_len, uint32_t reports, uint32_t empties,
                            uint32_t *answer, size_t answer_len);

/* Withdraws the task of a position, from 1, from the run for good, at any time: done, or
   refused and `run` as found. A job of it that was released before this tick goes on; one
   released in this tick, and all later ones, are empty, with or without their bit.
   Withdrawing again changes nothing. Words that are no run are refused with 14, as by row; a
   late position (15) is not checked. */
uint32_t sivorandra_withdraw(uint32_t *run, size_t run_len, uint32_t position, uint32_t *answer,
                             size_t answer_len);

/* Withdraws the tasks of a set of positions from the run together, as sivorandra_withdraw
   does one, all or none: bit p of `set` is position p + 1. Done, or refused and `run` as
   found: 14, 21 and 22 in this order, for the empty set too, and 22 where a bit is past the
   count. Done, the run is what single withdrawals of these positions leave, in any order. */
uint32_t sivorandra_withdraw_all(uint32_t *run, size_t run_len, uint32_t set, uint32_t *answer,
                                 size_t answer_len);

/* Writes the miss of the table in `words` as a sentence at the front of `buffer`, with no
   newline and no NUL: its length, or refused. Bytes behind the sentence stay, and a refusal
   leaves `buffer` as found: with 17 the table has no miss, with 18 `buffer` is shorter than
   the sentence. `task 3 misses at tick 5 with 3 of 4 ticks; task 1 ran 2.`: the late task,
   the tick, the ticks that its job had out of C, and each task above that ran in waiting
   ticks of it, with their number. */
uint32_t sivorandra_sentence(const uint32_t *words, size_t words_len, uint8_t *buffer, size_t
                             buffer_len, uint32_t *answer, size_t answer_len);

/* Parses a sentence: done, or no sentence. It writes all SIVORANDRA_FACT_WORDS words, all
   zeros where the bytes are no sentence: position 1 to 32, fewer ticks had than C, the tasks
   named above the late one and in order, their counts above 0, every number below 2^64 and
   without leading zeros, and nothing before or behind. */
uint32_t sivorandra_facts(const uint8_t *bytes, size_t bytes_len, uint64_t *facts, size_t facts_len,
                          uint32_t *answer, size_t answer_len);

/* The worst-case response time of each task of the table in `words`, the most ticks from a
   job's release to its end, into the first SIVORANDRA_MOST_TASKS words of `figures`, position
   1 first: done, or refused by the table's numbers or with 13. No full-length job ever takes
   longer than its task's figure, and some full-length job takes exactly that; in a run of a
   firm table no job takes longer, however early jobs end. In a table that is full and not
   firm a job can take longer where others end early. Words past the last task are 0, and so
   are all 32 where it is refused; words behind them stay. It always simulates, event by
   event: at most twice the time that sivorandra_judge takes where that simulates.
   sivorandra_bounds gives bounds without simulation. It takes 7,400 bytes of the stack. */
uint32_t sivorandra_response_times(const uint32_t *words, size_t words_len, uint32_t *figures,
                                   size_t figures_len, uint32_t *answer, size_t answer_len);

/* A conflict of the table in `words`, which misses, a minimal set of tasks that misses: the
   set of the positions kept, or refused by the table's numbers or with 17. From the lowest
   priority upward each task is dropped if some task remains and the remaining tasks still
   miss; whole passes are repeated until one drops nothing. The tasks kept, as a table of
   their own, still miss, and without any one of them the rest never misses a deadline, or is
   empty. Positions are those of the whole table. A pass judges once for each task still kept:
   the remaining tasks, up to their first miss or else up to their horizon, which is no later
   than the whole table's. So it can take much longer than sivorandra_judge, which ends at the
   first miss: where all 32 tasks are kept, as long as 32 judgings without a miss. Every pass
   but the last drops a task: with the whole table it judges 529 times at most. It takes
   14,000 bytes of the stack. */
uint32_t sivorandra_conflict(const uint32_t *words, size_t words_len, uint32_t *answer, size_t
                             answer_len);

/* The slack of each task of the table in `words`, the largest number of ticks by which its C
   alone can grow with the table still accepted, into the first SIVORANDRA_MOST_TASKS words of
   `figures`, position 1 first: done, or refused by the table's numbers or with 23. Every
   smaller growth is accepted too, and one tick more misses a deadline, or takes C past
   SIVORANDRA_MOST_LENGTH. Words past the last task are 0, and so are all 32 where it is
   refused; words behind them stay. Slack is given for tables that are accepted under limited,
   or under greedy with no width of a task above one of the next: under idling and lending,
   and under greedy out of this order, a table can miss with a shorter job and be accepted
   with a longer one. It judges the table, and then for each task, by bisection between a
   growth that is accepted and one that misses, at most 20 times the table with this task
   longer, each up to the horizon or the first miss: 641 judgings at most. It takes 11,200
   bytes of the stack. */
uint32_t sivorandra_slack(const uint32_t *words, size_t words_len, uint32_t *figures, size_t
                          figures_len, uint32_t *answer, size_t answer_len);

/* The response-time bounds of the table in `words`, by the interference test, without
   simulation. Done and 1: the table passes, so it never misses a deadline, and at full length
   no job of a task takes more ticks from release to end than the task's word in the first
   SIVORANDRA_MOST_TASKS words of `figures`, position 1 first. Done and 0: the table does not
   pass, and may be accepted all the same; sivorandra_judge decides. Or refused by the table's
   numbers. A bound is at least the figure of sivorandra_response_times, and at most D. Words
   past the last task are 0, and so are all 32 where the table does not pass or is refused;
   words behind them stay. At most 41 windows are tried for each task. */
uint32_t sivorandra_bounds(const uint32_t *words, size_t words_len, uint32_t *figures, size_t
                           figures_len, uint32_t *answer, size_t answer_len);

/* Begins a plan that another planner makes for the table in `words`, whatever the table's
   verdict: done, or refused by the table's numbers, 1 to 9 and 19. Its rows are then lent to
   sivorandra_check_row, from tick 0 on, as many as the horizon, S + P. Begun or refused, it
   writes all SIVORANDRA_PLAN_WORDS words: places past the count are zeros and Resting(0), and
   nothing is noted, Resting(0), but where S is 0 the phases of the tasks; a refused beginning
   leaves a plan of all zeros with every phase and note Resting(0), which check_row refuses
   with 14. */
uint32_t sivorandra_check_begin(const uint32_t *words, size_t words_len, uint32_t *plan, size_t
                                plan_len, uint32_t *answer, size_t answer_len);

/* Takes the row of the plan's present tick, one byte a core as sivorandra_plan writes them:
   done, accepted as the last, or refused and `plan` as found, word for word, so that another
   row can be tried. A plan that is accepted, repeated from the last S on, meets every
   deadline at every tick. Each task in the row has its job's cores, in any order, and works
   for this tick; a job may stop and go on. Lengths of jobs are C; nothing is reserved or
   lent. A taken row writes the head and the places below the count, and the tick; at the last
   S it notes the phases of these places. Places and notes past the count are neither read nor
   changed. Notes are not read before the last row: words of one that are no phase stay as
   they are, and agree with no phase (26). Words whose run is no run are refused with 14, as
   by row; so are a withdrawn position, a task Holding and unequal counts. */
uint32_t sivorandra_check_row(uint32_t *plan, size_t plan_len, const uint8_t *row, size_t row_len,
                              uint32_t *answer, size_t answer_len);

/* ================================================================ THE TYPED CALLS

   They are inline over the plain calls, and decide nothing. Each returns 0 where it succeeds, and
   else the kind of its answer, which is never 0; a compiler that knows how warns where the value is
   not looked at. What they write in a refusal: zeros, an empty text, or the run as it was. `answer`
   may be NULL. */
#if defined(__GNUC__)
#define SIVORANDRA_TYPED static inline __attribute__((warn_unused_result))
#else
#define SIVORANDRA_TYPED static inline
#endif

/* ---------------------------------------------------------------- answers

       struct sivorandra_answer answer;
       if (sivorandra_table_judge(words, words_len, &answer)) {
           if (answer.kind == SIVORANDRA_IS_MISS)
               printf("position %u misses at tick %u\n", answer.second, answer.first);
           else
               printf("number %u: %s\n", answer.first, sivorandra_number_text(answer.first));
       } */

/* The kinds of an answer, with its two numbers. The first four are successes. */
enum sivorandra_kind {
    SIVORANDRA_IS_DONE = 1,        /* started, shown, taken, written: what is asked, or 0 */
    SIVORANDRA_IS_FIRM = 2,        /* accepted, also when jobs end early: S and P */
    SIVORANDRA_IS_FULL = 3,        /* accepted where each job takes its full length: S and P */
    SIVORANDRA_IS_ACCEPTED = 4,    /* the last row of a supplied plan: all of it is accepted */
    SIVORANDRA_IS_MISS = 5,        /* the first missed deadline: tick and position */
    SIVORANDRA_IS_NOT_PASSED = 6,  /* bounds: the interference test does not accept the table */
    SIVORANDRA_IS_REFUSED = 7,     /* enum sivorandra_number, and position; 24 to 26: tick */
    SIVORANDRA_IS_ROW_REFUSED = 8, /* the last row of a replay: the same */
    SIVORANDRA_IS_NO_SENTENCE = 9, /* facts: the bytes are no sentence */
    SIVORANDRA_IS_SHORT = 10       /* a lent slice is too short, or entries are none: 0 and 0 */
};

struct sivorandra_answer {
    enum sivorandra_kind kind;
    uint32_t first, second;
};

/* What a number means, by the table of docs/NUMBERS.md. */
static inline const char *sivorandra_number_text(uint32_t number)
{
    switch (number) {
    case 1:
        return "the words are no table: fewer than 5, the rest not whole records of seven, or "
               "more than 32 records. For the program also: a character that is no digit, an "
               "empty line, more than ten digits, a number above 4,294,967,295, more than 229 "
               "numbers";
    case 2:
        return "the core count is not 1 to 64";
    case 3:
        return "the rule is not 1 to 4";
    case 4:
        return "the head is zero";
    case 5:
        return "the chain leads to a record number past the last record";
    case 6:
        return "the chain leads to a record for the second time";
    case 7:
        return "a width of position p, v or w, is 0 or above the number of unfenced cores";
    case 8:
        return "O, C, T or D of position p is outside its limits";
    case 9:
        return "the horizon is above 1,000,000,000; check_row: that of the tasks in its state "
               "is";
    case 10:
        return "plan: a is above b, or b is above the horizon; check_row: the row is past the "
               "horizon";
    case 11:
        return "plan: the buffer has fewer bytes than (b - a) * cores, fenced ones included; "
               "check_row: the row's length is not the core count";
    case 12:
        return "b is above the tick of the first miss";
    case 13:
        return "the verdict is Miss";
    case 14:
        return "the value is no run: count, cores, rule, a task, its parity or its phase is "
               "out of range; under rules 1 to 3 the ticks had and reserved differ; 19 would "
               "refuse the fence; or a position past the count is withdrawn. For check_row "
               "also: a position is withdrawn, a task is Holding, or the two counts differ "
               "under any rule";
    case 15:
        return "position p has not ended its job at its deadline";
    case 16:
        return "a report for a position past the count, or for a task that is not working or "
               "has no cores in this tick, neither its own nor lent ones";
    case 17:
        return "the table has no miss";
    case 18:
        return "the buffer is shorter than the sentence";
    case 19:
        return "the fence contains a core past the count, or all cores";
    case 20:
        return "an empty job for a position past the count, or for a task whose job is not "
               "released in this tick";
    case 21:
        return "the rule is 1 and widths fall somewhere along the chain: the larger width of "
               "a task is above the smaller one of the next";
    case 22:
        return "there is no such position. Several together: one of them does not exist, and "
               "none is withdrawn";
    case 23:
        return "the table is not accepted under rule 2, nor under rule 1 with no width of a "
               "task above one of the next";
    case 24:
        return "the row is wrong: a fenced core without 255, a byte that is no position, a "
               "task with another width than its job's, or a task that owes no work at that "
               "tick";
    case 25:
        return "a job that is due at that tick has not had all its ticks";
    case 26:
        return "after the last row: a task's phase at the horizon is not the one at the last S";
    }
    return "no number of this version";
}

/* The answer in a plain call's words, of which case 0 is `done`; then what a typed call returns. */
static inline int sivorandra_told(uint32_t value, const uint32_t *words, enum sivorandra_kind done,
                                  struct sivorandra_answer *answer)
{
    struct sivorandra_answer told;
    told.kind = SIVORANDRA_IS_SHORT;
    told.first = value == SIVORANDRA_ANSWERED ? words[1] : 0;
    told.second = value == SIVORANDRA_ANSWERED ? words[2] : 0;
    if (value == SIVORANDRA_ANSWERED) {
        switch (words[0]) {
        case SIVORANDRA_DONE: told.kind = done; break;
        case SIVORANDRA_FULL: told.kind = SIVORANDRA_IS_FULL; break;
        case SIVORANDRA_MISS: told.kind = SIVORANDRA_IS_MISS; break;
        case SIVORANDRA_ROW_REFUSED: told.kind = SIVORANDRA_IS_ROW_REFUSED; break;
        case SIVORANDRA_NO_SENTENCE: told.kind = SIVORANDRA_IS_NO_SENTENCE; break;
        case SIVORANDRA_ACCEPTED: told.kind = SIVORANDRA_IS_ACCEPTED; break;
        default: told.kind = SIVORANDRA_IS_REFUSED; break;
        }
    }
    if (answer)
        *answer = told;
    return told.kind <= SIVORANDRA_IS_ACCEPTED ? 0 : (int)told.kind;
}

/* ---------------------------------------------------------------- tables

       static const struct sivorandra_record records[] = {
           // offset, width of odd jobs, length, deadline, period, width of even jobs
           { 0, 2, 2, 5, 5, 2 }, { 0, 2, 3, 5, 5, 2 }, { 0, 1, 4, 5, 5, 1 } };
       static const size_t order[] = { 2, 0, 1 };   // position 1 is records[2]; NULL: as they stand
       uint32_t words[SIVORANDRA_TABLE_WORDS];
       size_t words_len = sivorandra_link(3, SIVORANDRA_RULE_LIMITED, 0, records, 3, order,
                                          words, SIVORANDRA_TABLE_WORDS); */

enum sivorandra_rule {
    SIVORANDRA_RULE_GREEDY = 1,
    SIVORANDRA_RULE_LIMITED = 2,
    SIVORANDRA_RULE_IDLING = 3,
    SIVORANDRA_RULE_LENDING = 4
};

struct sivorandra_record {
    uint32_t offset, width, length, deadline, period, even_width;
};

/* The words of a table of these records, linked in this order, highest priority first: how many
   words it has; or 0, which every call refuses with 1, where `words` is too short, there are more
   than 32 records, or `order` does not have each index below `count` once. Bit c of `fence` is a
   core that no task may use. */
static inline size_t sivorandra_link(uint32_t cores, enum sivorandra_rule rule, uint64_t fence,
                                     const struct sivorandra_record *records, size_t count,
                                     const size_t *order, uint32_t *words, size_t words_len)
{
    size_t size = SIVORANDRA_TABLE_HEAD_WORDS + SIVORANDRA_TABLE_RECORD_WORDS * count, i;
    uint32_t seen = 0;
    if (count > SIVORANDRA_MOST_TASKS || words_len < size)
        return 0;
    for (i = 0; i < count; i++) {
        size_t at = order ? order[i] : i;
        if (at >= count || (seen >> at & 1))
            return 0;
        seen |= (uint32_t)1 << at;
    }
    words[0] = count == 0 ? 0 : (uint32_t)(order ? order[0] : 0) + 1;
    words[1] = cores;
    words[2] = (uint32_t)rule;
    words[3] = (uint32_t)(fence & 0xffffffffu);
    words[4] = (uint32_t)(fence >> 32);
    for (i = 0; i < count; i++) {
        size_t at = order ? order[i] : i;
        const struct sivorandra_record *from = &records[at];
        uint32_t *to = words + SIVORANDRA_TABLE_HEAD_WORDS + SIVORANDRA_TABLE_RECORD_WORDS * at;
        to[0] = i + 1 == count ? 0 : (uint32_t)(order ? order[i + 1] : i + 1) + 1;
        to[1] = from->offset;
        to[2] = from->width;
        to[3] = from->length;
        to[4] = from->deadline;
        to[5] = from->period;
        to[6] = from->even_width;
    }
    return size;
}

/* ---------------------------------------------------------------- questions about a table

       uint32_t ticks[SIVORANDRA_MOST_TASKS];
       char why[SIVORANDRA_SENTENCE_BYTES + 1];
       if (sivorandra_table_judge(words, words_len, &answer) == 0)    // firm or full
           if (sivorandra_table_response_times(words, words_len, ticks, &answer) == 0)
               printf("position 1 takes at most %u ticks\n", ticks[0]);
       if (sivorandra_table_sentence(words, words_len, why, &answer) == 0)
           puts(why);                                                 // why it misses */

/* Success: firm or full, with S and P. */
SIVORANDRA_TYPED int sivorandra_table_judge(const uint32_t *words, size_t words_len,
                                            struct sivorandra_answer *answer)
{
    uint32_t told[SIVORANDRA_ANSWER_WORDS] = { 0 };
    uint32_t value = sivorandra_judge(words, words_len, told, SIVORANDRA_ANSWER_WORDS);
    return sivorandra_told(value, told, SIVORANDRA_IS_FIRM, answer);
}

/* The same, always tick by tick. */
SIVORANDRA_TYPED int sivorandra_table_judge_ticks(const uint32_t *words, size_t words_len,
                                                  struct sivorandra_answer *answer)
{
    uint32_t told[SIVORANDRA_ANSWER_WORDS] = { 0 };
    uint32_t value = sivorandra_judge_ticks(words, words_len, told, SIVORANDRA_ANSWER_WORDS);
    return sivorandra_told(value, told, SIVORANDRA_IS_FIRM, answer);
}

/* The same, always event by event. */
SIVORANDRA_TYPED int sivorandra_table_judge_events(const uint32_t *words, size_t words_len,
                                                   struct sivorandra_answer *answer)
{
    uint32_t told[SIVORANDRA_ANSWER_WORDS] = { 0 };
    uint32_t value = sivorandra_judge_events(words, words_len, told, SIVORANDRA_ANSWER_WORDS);
    return sivorandra_told(value, told, SIVORANDRA_IS_FIRM, answer);
}

/* Rows a up to but not including b, a byte a core. */
SIVORANDRA_TYPED int sivorandra_table_plan(const uint32_t *words, size_t words_len, uint32_t a,
                                           uint32_t b, uint8_t *rows, size_t rows_len,
                                           struct sivorandra_answer *answer)
{
    uint32_t told[SIVORANDRA_ANSWER_WORDS] = { 0 };
    uint32_t value = sivorandra_plan(words, words_len, a, b, rows, rows_len, told,
                                     SIVORANDRA_ANSWER_WORDS);
    return sivorandra_told(value, told, SIVORANDRA_IS_DONE, answer);
}

/* Why the table misses, ended by a NUL; its length is answer->first. */
SIVORANDRA_TYPED int sivorandra_table_sentence(const uint32_t *words, size_t words_len,
                                               char text[SIVORANDRA_SENTENCE_BYTES + 1],
                                               struct sivorandra_answer *answer)
{
    uint32_t told[SIVORANDRA_ANSWER_WORDS] = { 0 };
    uint32_t value = sivorandra_sentence(words, words_len, (uint8_t *)text,
                                         SIVORANDRA_SENTENCE_BYTES, told,
                                         SIVORANDRA_ANSWER_WORDS);
    int status = sivorandra_told(value, told, SIVORANDRA_IS_DONE, answer);
    text[status == 0 ? told[1] : 0] = '\0';
    return status;
}

/* The worst-case response time of each position. */
SIVORANDRA_TYPED int sivorandra_table_response_times(const uint32_t *words, size_t words_len,
                                                     uint32_t figures[SIVORANDRA_MOST_TASKS],
                                                     struct sivorandra_answer *answer)
{
    uint32_t told[SIVORANDRA_ANSWER_WORDS] = { 0 };
    uint32_t value = sivorandra_response_times(words, words_len, figures, SIVORANDRA_MOST_TASKS,
                                               told, SIVORANDRA_ANSWER_WORDS);
    return sivorandra_told(value, told, SIVORANDRA_IS_DONE, answer);
}

/* By how many ticks each position alone may become longer. */
SIVORANDRA_TYPED int sivorandra_table_slack(const uint32_t *words, size_t words_len,
                                            uint32_t figures[SIVORANDRA_MOST_TASKS],
                                            struct sivorandra_answer *answer)
{
    uint32_t told[SIVORANDRA_ANSWER_WORDS] = { 0 };
    uint32_t value = sivorandra_slack(words, words_len, figures, SIVORANDRA_MOST_TASKS, told,
                                      SIVORANDRA_ANSWER_WORDS);
    return sivorandra_told(value, told, SIVORANDRA_IS_DONE, answer);
}

/* The response-time bounds. Success: the table passes the interference test, and so is accepted. */
SIVORANDRA_TYPED int sivorandra_table_bounds(const uint32_t *words, size_t words_len,
                                             uint32_t figures[SIVORANDRA_MOST_TASKS],
                                             struct sivorandra_answer *answer)
{
    uint32_t told[SIVORANDRA_ANSWER_WORDS] = { 0 };
    uint32_t value = sivorandra_bounds(words, words_len, figures, SIVORANDRA_MOST_TASKS, told,
                                       SIVORANDRA_ANSWER_WORDS);
    return sivorandra_told(value, told,
                           told[1] == 1 ? SIVORANDRA_IS_DONE : SIVORANDRA_IS_NOT_PASSED, answer);
}

/* A minimal set of positions that misses, into *kept; 0 in a refusal. */
SIVORANDRA_TYPED int sivorandra_table_conflict(const uint32_t *words, size_t words_len,
                                               uint32_t *kept, struct sivorandra_answer *answer)
{
    uint32_t told[SIVORANDRA_ANSWER_WORDS] = { 0 };
    uint32_t value = sivorandra_conflict(words, words_len, told, SIVORANDRA_ANSWER_WORDS);
    int status = sivorandra_told(value, told, SIVORANDRA_IS_DONE, answer);
    *kept = status == 0 ? told[1] : 0;
    return status;
}

/* The facts of a miss that a sentence has. */
struct sivorandra_miss {
    uint64_t position, tick, had, length, ran[SIVORANDRA_MOST_TASKS];
};

SIVORANDRA_TYPED int sivorandra_text_facts(const char *text, size_t text_len,
                                           struct sivorandra_miss *facts,
                                           struct sivorandra_answer *answer)
{
    uint32_t told[SIVORANDRA_ANSWER_WORDS] = { 0 };
    uint64_t found[SIVORANDRA_FACT_WORDS] = { 0 };
    uint32_t value = sivorandra_facts((const uint8_t *)text, text_len, found,
                                      SIVORANDRA_FACT_WORDS, told, SIVORANDRA_ANSWER_WORDS);
    size_t i;
    facts->position = found[0];
    facts->tick = found[1];
    facts->had = found[2];
    facts->length = found[3];
    for (i = 0; i < SIVORANDRA_MOST_TASKS; i++)
        facts->ran[i] = found[SIVORANDRA_FACT_HEAD_WORDS + i];
    return sivorandra_told(value, told, SIVORANDRA_IS_DONE, answer);
}

/* ---------------------------------------------------------------- a run

       if (sivorandra_run_withdraw(&run, 2, &answer))      // position 2, for good
           refused(&answer);                               // 21: not firm; 22: no such position
       if (sivorandra_run_row(&run, 0, row, &answer) == 0)
           light(row, sivorandra_run_cores(&run));         // row[c]: the position on core c */

struct sivorandra_run {
    uint32_t words[SIVORANDRA_RUN_WORDS];
};

/* The core count and the number of tasks of a run that was started. */
static inline uint32_t sivorandra_run_cores(const struct sivorandra_run *run)
{
    return run->words[1];
}

static inline uint32_t sivorandra_run_tasks(const struct sivorandra_run *run)
{
    return run->words[2];
}

/* A refused start leaves a run that every later call refuses with 14. */
SIVORANDRA_TYPED int sivorandra_run_start(struct sivorandra_run *run, const uint32_t *words,
                                          size_t words_len, struct sivorandra_answer *answer)
{
    uint32_t told[SIVORANDRA_ANSWER_WORDS] = { 0 };
    uint32_t value = sivorandra_start(words, words_len, run->words, SIVORANDRA_RUN_WORDS, told,
                                      SIVORANDRA_ANSWER_WORDS);
    return sivorandra_told(value, told, SIVORANDRA_IS_DONE, answer);
}

SIVORANDRA_TYPED int sivorandra_run_row(const struct sivorandra_run *run, uint32_t empties,
                                        uint8_t row[SIVORANDRA_ROW_BYTES],
                                        struct sivorandra_answer *answer)
{
    uint32_t told[SIVORANDRA_ANSWER_WORDS] = { 0 };
    uint32_t value = sivorandra_row(run->words, SIVORANDRA_RUN_WORDS, empties, row,
                                    SIVORANDRA_ROW_BYTES, told, SIVORANDRA_ANSWER_WORDS);
    return sivorandra_told(value, told, SIVORANDRA_IS_DONE, answer);
}

SIVORANDRA_TYPED int sivorandra_run_sets(const struct sivorandra_run *run, uint32_t empties,
                                         uint64_t sets[SIVORANDRA_SETS],
                                         struct sivorandra_answer *answer)
{
    uint32_t told[SIVORANDRA_ANSWER_WORDS] = { 0 };
    uint32_t value = sivorandra_sets(run->words, SIVORANDRA_RUN_WORDS, empties, sets,
                                     SIVORANDRA_SETS, told, SIVORANDRA_ANSWER_WORDS);
    return sivorandra_told(value, told, SIVORANDRA_IS_DONE, answer);
}

SIVORANDRA_TYPED int sivorandra_run_working(const struct sivorandra_run *run, uint32_t empties,
                                            uint32_t *set, struct sivorandra_answer *answer)
{
    uint32_t told[SIVORANDRA_ANSWER_WORDS] = { 0 };
    uint32_t value = sivorandra_working(run->words, SIVORANDRA_RUN_WORDS, empties, set, 1, told,
                                        SIVORANDRA_ANSWER_WORDS);
    return sivorandra_told(value, told, SIVORANDRA_IS_DONE, answer);
}

SIVORANDRA_TYPED int sivorandra_run_advance(struct sivorandra_run *run, uint32_t reports,
                                            uint32_t empties, struct sivorandra_answer *answer)
{
    uint32_t told[SIVORANDRA_ANSWER_WORDS] = { 0 };
    uint32_t value = sivorandra_advance(run->words, SIVORANDRA_RUN_WORDS, reports, empties, told,
                                        SIVORANDRA_ANSWER_WORDS);
    return sivorandra_told(value, told, SIVORANDRA_IS_DONE, answer);
}

SIVORANDRA_TYPED int sivorandra_run_withdraw(struct sivorandra_run *run, uint32_t position,
                                             struct sivorandra_answer *answer)
{
    uint32_t told[SIVORANDRA_ANSWER_WORDS] = { 0 };
    uint32_t value = sivorandra_withdraw(run->words, SIVORANDRA_RUN_WORDS, position, told,
                                         SIVORANDRA_ANSWER_WORDS);
    return sivorandra_told(value, told, SIVORANDRA_IS_DONE, answer);
}

/* All positions of a set, or none. */
SIVORANDRA_TYPED int sivorandra_run_withdraw_all(struct sivorandra_run *run, uint32_t set,
                                                 struct sivorandra_answer *answer)
{
    uint32_t told[SIVORANDRA_ANSWER_WORDS] = { 0 };
    uint32_t value = sivorandra_withdraw_all(run->words, SIVORANDRA_RUN_WORDS, set, told,
                                             SIVORANDRA_ANSWER_WORDS);
    return sivorandra_told(value, told, SIVORANDRA_IS_DONE, answer);
}

/* ---------------------------------------------------------------- a whole list

       static const struct sivorandra_entry list[] = {
           { SIVORANDRA_ENTRY_ADVANCE, 1, 0 },    // a tick; the job of position 1 ends after it
           { SIVORANDRA_ENTRY_WITHDRAW, 2, 0 } };
       uint32_t numbers[2];                       // 0 taken, or number * 256 + position
       if (sivorandra_table_replay(words, words_len, list, 2, numbers, row, &answer))
           refused(&answer); */

struct sivorandra_entry {
    uint32_t kind, first, second;
};

/* `numbers` has a word for each entry. */
SIVORANDRA_TYPED int sivorandra_table_replay(const uint32_t *words, size_t words_len,
                                             const struct sivorandra_entry *entries, size_t count,
                                             uint32_t *numbers, uint8_t row[SIVORANDRA_ROW_BYTES],
                                             struct sivorandra_answer *answer)
{
    uint32_t told[SIVORANDRA_ANSWER_WORDS] = { 0 };
    uint32_t value = sivorandra_replay(words, words_len, (const uint32_t *)entries,
                                       count * SIVORANDRA_ENTRY_WORDS, numbers, count, row,
                                       SIVORANDRA_ROW_BYTES, told, SIVORANDRA_ANSWER_WORDS);
    return sivorandra_told(value, told, SIVORANDRA_IS_DONE, answer);
}

/* ---------------------------------------------------------------- a plan by another planner

       struct sivorandra_supplied plan;
       if (sivorandra_supplied_begin(&plan, words, words_len, &answer))
           return refused(&answer);
       while (next_row(row))                                   // from tick 0 up to S + P
           if (sivorandra_supplied_row(&plan, row, cores, &answer))
               return refused(&answer);                  // 24 to 26: answer.second is the tick
       return answer.kind == SIVORANDRA_IS_ACCEPTED;           // else rows are missing */

struct sivorandra_supplied {
    uint32_t words[SIVORANDRA_PLAN_WORDS];
};

SIVORANDRA_TYPED int sivorandra_supplied_begin(struct sivorandra_supplied *plan,
                                               const uint32_t *words, size_t words_len,
                                               struct sivorandra_answer *answer)
{
    uint32_t told[SIVORANDRA_ANSWER_WORDS] = { 0 };
    uint32_t value = sivorandra_check_begin(words, words_len, plan->words, SIVORANDRA_PLAN_WORDS,
                                            told, SIVORANDRA_ANSWER_WORDS);
    return sivorandra_told(value, told, SIVORANDRA_IS_DONE, answer);
}

SIVORANDRA_TYPED int sivorandra_supplied_row(struct sivorandra_supplied *plan, const uint8_t *row,
                                             size_t row_len, struct sivorandra_answer *answer)
{
    uint32_t told[SIVORANDRA_ANSWER_WORDS] = { 0 };
    uint32_t value = sivorandra_check_row(plan->words, SIVORANDRA_PLAN_WORDS, row, row_len, told,
                                          SIVORANDRA_ANSWER_WORDS);
    return sivorandra_told(value, told, SIVORANDRA_IS_DONE, answer);
}

#ifdef __cplusplus
}
#endif

#endif
