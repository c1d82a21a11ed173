/*
 * Times `gw replay` on a script of 200000 lines: sixteen ports, each with the table of a text, take the vehicle's records in
 * turn, step each frame to its end and send its copies. A time is that of the program from its start to its end, from a file to
 * a file. Prints a table in markdown. Fails where the program fails, or gives another number of answers.
 */
#include "bench.h"

#include <stdio.h>
#include <stdlib.h>

enum { PORTS = 16, LINES = 200000, SCRIPT_REPEATS = 10 };

static const char *const command = "exec ../crates/gw/out/gw replay < out/script > out/answers 2> out/said";

static void write_octets(FILE *file, const uint8_t *octets, size_t length)
{
    for (size_t i = 0; i < length; i++)
        fprintf(file, "%02x", octets[i]);
    fputc('\n', file);
}

/* The table for each port, and how many lines that took. */
static int write_policies(FILE *file, const char *text, size_t length)
{
    fprintf(file, "limits %d 1024 1 100000\n", PORTS);
    for (int port = 0; port < PORTS; port++) {
        fprintf(file, "table %d ", port);
        write_octets(file, (const uint8_t *)text, length);
    }
    fprintf(file, "publish\n");
    return PORTS + 2;
}

/*
 * A frame from its taking to the sending of its copies, in no more lines than there is room for, and how many these are. A frame
 * that no port passes needs no placings: the last steps are then refused, and so are those of a local frame.
 */
static int write_frame(FILE *file, int port, const uint8_t *record, int steps, int room)
{
    int lines = 0;
    if (room > lines && ++lines) {
        fprintf(file, "take %d ", port);
        write_octets(file, record, 16);
    }
    for (int step = 0; step < (PORTS - 1) * (steps + 1) && room > lines; step++, lines++)
        fprintf(file, "step %d\n", port);
    for (int to = 0; to < PORTS && room > lines; to++)
        if (to != port && ++lines)
            fprintf(file, "send %d %d\n", to, port);
    return lines;
}

static bool write_script(const char *text, size_t length, const uint8_t (*records)[16])
{
    static struct bpf_insn code[LONGEST];
    if (gw_bench_compile(text, length, code, LONGEST) == 0)
        return false;
    FILE *file = fopen("out/script", "w");
    if (file == NULL)
        return false;
    int lines = write_policies(file, text, length);
    for (int frame = 0; lines < LINES; frame++) {
        const uint8_t *record = records[frame % RECORDS];
        lines += write_frame(file, frame % PORTS, record, (int)steps_on(code, record), LINES - lines);
    }
    return fclose(file) == 0;
}

/* How many answers there are, and how many of them refuse. */
static int count_answers(int *refused)
{
    char line[256];
    int answers = 0;
    FILE *file = fopen("out/answers", "r");
    if (file == NULL)
        return 0;
    for (*refused = 0; fgets(line, sizeof line, file) != NULL; answers++)
        *refused += line[0] == 'r';
    fclose(file);
    return answers;
}

bool time_scripts(const char *text, size_t length, const uint8_t (*records)[16])
{
    double best = 1e30;
    int refused;
    if (!write_script(text, length, records)) {
        fprintf(stderr, "scripts: no script\n");
        return false;
    }
    for (int repeat = 0; repeat < SCRIPT_REPEATS; repeat++) {
        double start = now();
        int status = system(command);
        double time = now() - start;
        if (status != 0 || count_answers(&refused) != LINES) {
            fprintf(stderr, "scripts: gw replay gives other than %d answers\n", LINES);
            return false;
        }
        best = time < best ? time : best;
    }
    printf("\n| `gw replay` | refused lines | milliseconds | million lines a second |\n|---|---|---|---|\n");
    printf("| %d lines, %d ports | %d | %.0f | %.2f |\n", LINES, PORTS, refused, best / 1e6, LINES / best * 1e3);
    return true;
}
