/*
 * Times the event machine: `Core::run` on the events of 1024 records at sixteen ports, each with the policy of one table, and
 * a step of it beside a step of the machine alone, on a long program so that the steps and not the takings count. Prints a table
 * in markdown. Fails where the two make other numbers of steps.
 */
#include "bench.h"

#include <stdio.h>

enum { EVENT_REPEATS = 10, STEP_REPEATS = 200, STEP_ROUNDS = 100 };

/* The least time of a call, in nanoseconds. */
static double events_time(const char *text, size_t length, const uint8_t (*records)[16], bool run, size_t *events)
{
    double best = 1e30;
    for (int repeat = 0; repeat < EVENT_REPEATS; repeat++) {
        double start = now();
        *events = gw_bench_events(text, length, records, RECORDS, run);
        double time = now() - start;
        best = time < best ? time : best;
    }
    return best;
}

/* The least time of the rounds of a program. Each call reads the code first, which is less than a hundredth of it. */
static double steps_time(const struct program *p, const uint8_t (*record)[16], bool core, uint64_t *steps)
{
    double best = 1e30;
    for (int repeat = 0; repeat < STEP_REPEATS; repeat++) {
        double start = now();
        *steps = gw_bench_steps(p->code, p->length, record, 1, STEP_ROUNDS, core);
        double time = now() - start;
        best = time < best ? time : best;
    }
    return best;
}

bool time_events(const char *text, size_t length, const uint8_t (*records)[16])
{
    static struct program long_table;
    size_t written, events;
    uint64_t alone_steps, core_steps;
    double written_time = events_time(text, length, records, false, &written);
    double run_time = events_time(text, length, records, true, &events);
    write_long_table(&long_table);
    double alone = steps_time(&long_table, records, false, &alone_steps);
    double core = steps_time(&long_table, records, true, &core_steps);
    if (events == 0 || events != written || alone_steps == 0 || core_steps < alone_steps) {
        fprintf(stderr, "events: %zu and %zu events, %llu and %llu steps\n", written, events, (unsigned long long)alone_steps,
                (unsigned long long)core_steps);
        return false;
    }
    double each = (run_time - written_time) / (double)events;
    printf("\n| What | Count | ns each | Million a second |\n|---|---|---|---|\n");
    printf("| `Core::run`, 16 ports | %zu events | %.1f | %.1f |\n", events, each, 1e3 / each);
    double a = alone / (double)alone_steps, c = core / (double)core_steps;
    printf("| `State::step` | %llu steps | %.2f | %.1f |\n", (unsigned long long)alone_steps, a, 1e3 / a);
    printf("| `Core::event` with a Step | %llu steps | %.2f | %.1f |\n", (unsigned long long)core_steps, c, 1e3 / c);
    printf("\nA Step takes %.2f times a step of the machine.\n", c / a);
    return true;
}
