/*
 * Times `gw judge` on a log of a million lines, as `candump -L` writes them: the vehicle's records again and again, a tenth of a
 * millisecond apart, judged by a table. can-utils' log2asc, where it is there, reads the same file to /dev/null in turn. A time
 * is that of a program from its start to its end, by the clock. Prints a table in markdown. Fails where a program fails, or
 * where `gw judge` passes other frames than the table does.
 */
#include "bench.h"

#include <inttypes.h>
#include <stdio.h>
#include <stdlib.h>

enum { ROUNDS = 977, LINES = ROUNDS * RECORDS, LOG_REPEATS = 5 };

static const char *const peer = "command -v log2asc > out/said && exec log2asc -I out/drive.log can0 > /dev/null";

static bool write_log(const uint8_t (*records)[16])
{
    FILE *file = fopen("out/drive.log", "w");
    if (file == NULL)
        return false;
    for (int line = 0; line < LINES; line++) {
        const uint8_t *record = records[line % RECORDS];
        fprintf(file, "(%d.%06d) can0 ", 1769850000 + line / 10000, line % 10000 * 100);
        fprintf(file, "%02X%02X%02X%02X#", record[0] & 0x1F, record[1], record[2], record[3]);
        for (int i = 0; i < record[4]; i++)
            fprintf(file, "%02X", record[8 + i]);
        fputc('\n', file);
    }
    return fclose(file) == 0;
}

/* How many frames pass, as the last line of the counts says, or as there are lines. */
static uint64_t passed(bool counts)
{
    char line[512];
    uint64_t lines = 0, found = 0;
    FILE *file = fopen("out/judged", "r");
    if (file == NULL)
        return UINT64_MAX;
    for (; fgets(line, sizeof line, file) != NULL; lines++)
        if (counts)
            sscanf(line, "lines %*u passed %" SCNu64, &found);
    fclose(file);
    return counts ? found : lines;
}

/* The least time of a command, in turn with the peer's, which is infinite where it is not there. */
static bool time_judging(const char *words, const char *name, uint64_t wanted, double *their_best)
{
    char command[256];
    struct cost cost;
    double best = 1e30;
    snprintf(command, sizeof command, "exec ../crates/gw/out/gw judge %s --table %s < out/drive.log > out/judged", words, name);
    for (int repeat = 0; repeat < LOG_REPEATS; repeat++) {
        if (!run_command(command, &cost) || passed(words[2] != 'p') != wanted)
            return false;
        best = cost.clock < best ? cost.clock : best;
        if (run_command(peer, &cost))
            *their_best = cost.clock < *their_best ? cost.clock : *their_best;
    }
    printf("| `%s` | %.0f | %.2f | %.2f |\n", words, best / 1e6, LINES / best * 1e3, best / *their_best);
    fflush(stdout);
    return true;
}

bool time_logs(const char *name, const char *text, size_t length, const uint8_t (*records)[16])
{
    static bool verdicts[RECORDS];
    double their_best = 1e30;
    uint64_t wanted = 0;
    if (!write_log(records) || !gw_bench_judge(text, length, records, RECORDS, 1, verdicts, RECORDS)) {
        fprintf(stderr, "logs: no log, or no table\n");
        return false;
    }
    for (int i = 0; i < RECORDS; i++)
        wanted += ROUNDS * (uint64_t)verdicts[i];
    printf("\n| `gw judge` | milliseconds | million lines a second | `gw judge` / log2asc |\n|---|---|---|---|\n");
    bool is_done = time_judging("--by rule", name, wanted, &their_best) && time_judging("--by pgn", name, wanted, &their_best)
                   && time_judging("--passed", name, wanted, &their_best);
    if (!is_done)
        fprintf(stderr, "logs: gw judge failed, or passes other frames\n");
    if (their_best < 1e30)
        printf("log2asc takes %.0f milliseconds.\n", their_best / 1e6);
    remove("out/drive.log");
    return is_done;
}
