/* A run in the cab from C: twelve ticks of three tasks on three cores under rule 4, lending.
   In tick 0 the job of position 1 ends early, in tick 5 that of position 2 has no work, and after
   tick 7 position 3 is withdrawn. Position 3 also reports when it may not, and is refused.
   Here: tools/archive && gcc -Iinclude examples/run_loop.c -Ltarget/staticlib -lsivorandra
   Installed: gcc examples/run_loop.c $(pkg-config --cflags --libs sivorandra) */
#include <stdio.h>
#include <stdlib.h>
#include "sivorandra.h"

enum { CORES = 3, TASKS = 3, TICKS = 12 };

static const struct sivorandra_record records[TASKS] = {
    /* offset, width of odd jobs, length, deadline, period, width of even jobs */
    { 0, 2, 2, 5, 5, 2 },
    { 0, 2, 3, 5, 5, 2 },
    { 0, 1, 4, 5, 5, 1 },
};

/* What happens in the cab; sets of positions, bit 0 for position 1. */
static uint32_t without_work(uint32_t tick) { return tick == 5 ? 2 : 0; }
static uint32_t ended_in(uint32_t tick) { return tick == 0 ? 1 : tick == 4 ? 4 : 0; }
static uint32_t switched_off_after(uint32_t tick) { return tick == 7 ? 3 : 0; }

/* What to do at a refusal: 0 where the loop can go on, else the status of the program. */
static int refused(uint32_t tick, const char *what, const struct sivorandra_answer *answer)
{
    printf("tick %u: %s is refused, number %u: %s\n", (unsigned)tick, what,
           (unsigned)answer->first, sivorandra_number_text(answer->first));
    if (answer->kind != SIVORANDRA_IS_REFUSED)
        return 3;
    switch (answer->first) {
    case SIVORANDRA_BAD_REPORT:  /* 16: advance with the reports that are in `working` */
    case SIVORANDRA_BAD_EMPTY:   /* 20: ask again without the jobs that are not released now */
    case SIVORANDRA_NOT_FIRM:    /* 21: this table loses no task while it runs */
    case SIVORANDRA_NO_POSITION: /* 22: there is no such task; the run is as it was */
        return 0;
    case SIVORANDRA_LATE:        /* 15: the position has missed its deadline: stop the machine */
        return 1;
    default:                     /* 14: this is no run, and 1 to 13, 19: this is no table to start */
        return 2;
    }
}

/* The tick passes: each position that works runs on its cores. Which jobs have ended? */
static uint32_t dispatch(uint32_t tick, const uint64_t *sets, uint32_t working)
{
    printf("tick %u:", (unsigned)tick);
    for (int p = 0; p < TASKS; p++)
        if (sets[p] != 0)
            printf(" position %d %s %u;", p + 1, working >> p & 1 ? "works on" : "holds",
                   (unsigned)sets[p]);
    printf("\n");
    return ended_in(tick);
}

int main(void)
{
    uint32_t words[SIVORANDRA_TABLE_WORDS];
    struct sivorandra_run run;
    struct sivorandra_answer answer;
    int status;
    size_t count = sivorandra_link(CORES, SIVORANDRA_RULE_LENDING, 0, records, TASKS, NULL, words,
                                   SIVORANDRA_TABLE_WORDS);
    if (sivorandra_run_start(&run, words, count, &answer))
        return refused(0, "the start", &answer);

    for (uint32_t tick = 0; tick < TICKS; tick++) {
        uint32_t empties = without_work(tick), working, reports, off;
        uint64_t sets[SIVORANDRA_SETS];
        if (sivorandra_run_sets(&run, empties, sets, &answer)) {
            if ((status = refused(tick, "the row", &answer)) != 0)
                return status;
            empties = 0;
            if (sivorandra_run_sets(&run, empties, sets, &answer))
                return refused(tick, "the row", &answer);
        }
        if (sivorandra_run_working(&run, empties, &working, &answer))
            return refused(tick, "who works", &answer);

        reports = dispatch(tick, sets, working);
        if (sivorandra_run_advance(&run, reports, empties, &answer)) {
            if ((status = refused(tick, "the advance", &answer)) != 0)
                return status;
            if (sivorandra_run_advance(&run, reports & working, empties, &answer))
                return refused(tick, "the advance", &answer);
        }
        off = switched_off_after(tick);
        if (off != 0 && sivorandra_run_withdraw(&run, off, &answer) &&
            (status = refused(tick, "the withdrawal", &answer)) != 0)
            return status;
    }
    return 0;
}
