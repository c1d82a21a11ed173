/*
 * Times the assembler on texts of 512 to 4096 instructions, of which about half have a label: what one instruction takes
 * stays much the same where the time is far from quadratic. Where Linux's `bpf_asm` is at hand, a run on the longest text is
 * timed too. Prints a table in markdown.
 */
#include "bench.h"

#include <stdio.h>
#include <stdlib.h>

enum { LONGEST_LINE = 64, TEXT_REPEATS = 50, PROGRAM_REPEATS = 5 };

/* How many labels a text of so many instructions has: 2000 of 4096. */
static size_t labels_of(size_t instructions)
{
    return instructions * 2000 / 4096;
}

/* A text of pairs of a load that has a label and a branch to the labels of the next pair and of one further on, and of returns
 * at the end. */
static size_t write_assembler_text(char *text, size_t instructions)
{
    size_t length = 0, labels = labels_of(instructions);
    for (size_t place = 0; place < instructions; place++) {
        size_t label = place / 2, next = label + 1, further = label + 51;
        const char *end = "\n";
        if (place % 2 == 0 && label < labels)
            length += (size_t)sprintf(text + length, "word_%zu: ldb [%zu]%s", label, place % 16, end);
        else if (further < labels)
            length += (size_t)sprintf(text + length, "\tjeq #0x%zx, word_%zu, word_%zu%s", place, next, further, end);
        else
            length += (size_t)sprintf(text + length, "\tret #%zu%s", place % 2, end);
    }
    return length;
}

/* The least time of the assembler, or 0 where it gives other than so many instructions. */
static double time_text(const char *text, size_t length, size_t instructions)
{
    double best = 1e30;
    for (int repeat = 0; repeat < TEXT_REPEATS; repeat++) {
        double start = now();
        size_t count = gw_bench_assemble(text, length);
        double time = now() - start;
        if (count != instructions)
            return 0;
        best = time < best ? time : best;
    }
    return best;
}

/* The least time of a run of bpf_asm on a text, its start among it, or 0 where it refuses the text. */
static double time_bpf_asm(const char *text, size_t length)
{
    double best = 1e30;
    for (int repeat = 0; repeat < PROGRAM_REPEATS; repeat++) {
        double start = now();
        FILE *program = popen("bpf_asm > /dev/null", "w");
        if (program == NULL)
            return 0;
        size_t written = fwrite(text, 1, length, program);
        if (pclose(program) != 0 || written != length)
            return 0;
        double time = now() - start;
        best = time < best ? time : best;
    }
    return best;
}

bool time_texts(void)
{
    static char text[LONGEST * LONGEST_LINE];
    printf("\n| instructions | labels | octets | `assemble`, microseconds | ns an instruction |\n|---|---|---|---|---|\n");
    size_t length = 0;
    for (size_t instructions = 512; instructions <= LONGEST; instructions *= 2) {
        length = write_assembler_text(text, instructions);
        double time = time_text(text, length, instructions);
        if (time == 0) {
            fprintf(stderr, "texts: %zu instructions were refused\n", instructions);
            return false;
        }
        printf("| %zu | %zu | %zu | %.0f | %.0f |\n", instructions, labels_of(instructions), length, time / 1e3,
               time / (double)instructions);
    }
    if (system("command -v bpf_asm >/dev/null") != 0)
        return true;
    double theirs = time_bpf_asm(text, length);
    if (theirs > 0)
        printf("\n`bpf_asm` takes %.0f microseconds for the longest, its start among them.\n", theirs / 1e3);
    return true;
}
