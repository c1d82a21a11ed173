/*
 * Times the gateway's machine beside libpcap's bpf_filter, and a table's rules beside its program: the same records, one
 * process, in turn; then the event machine, scripts, runs beside libpcap's reader and filter, the library for C, the assembler,
 * and traces beside libpcap's reader. Prints tables in markdown. Fails where two answers to the same question differ. With one
 * word more, `programs`, `tables`, `events`, `texts`, `traces`, `scripts`, `logs`, `runs` or `library`, it times that alone.
 */
#include "bench.h"

#include <stdio.h>
#include <stdlib.h>
#include <string.h>
#include <time.h>

enum { RULE_ROUNDS = 1000, RULE_REPEATS = 40, LONGEST_TEXT = 65536 };

static void run_libpcap(const struct bpf_insn *code, const uint8_t (*records)[16], uint32_t rounds, uint32_t *answers)
{
    for (uint32_t round = 0; round < rounds; round++)
        for (int i = 0; i < RECORDS; i++)
            answers[i] = bpf_filter(code, records[i], 16, 16);
}

double now(void)
{
    struct timespec t;
    clock_gettime(CLOCK_MONOTONIC, &t);
    return (double)t.tv_sec * 1e9 + (double)t.tv_nsec;
}

int by_size(const void *one, const void *other)
{
    double a = *(const double *)one, b = *(const double *)other;
    return (a > b) - (a < b);
}

static double least(double a, double b)
{
    return a < b ? a : b;
}

/* How many instructions libpcap's machine and ours run on a record: the places that a run stands at. */
uint64_t steps_on(const struct bpf_insn *code, const uint8_t *record)
{
    uint64_t steps = 0;
    uint32_t a = 0, m[16] = {0};
    for (size_t pc = 0;; pc++) {
        const struct bpf_insn *i = &code[pc];
        steps++;
        switch (i->code) {
        case 0x20: a = (uint32_t)record[i->k] << 24 | record[i->k + 1] << 16 | record[i->k + 2] << 8 | record[i->k + 3]; break;
        case 0x30: a = record[i->k]; break;
        case 0x00: a = i->k; break;
        case 0x60: a = m[i->k]; break;
        case 0x02: m[i->k] = a; break;
        case 0x54: a &= i->k; break;
        case 0x74: a >>= i->k; break;
        case 0x05: pc += i->k; break;
        case 0x15: pc += a == i->k ? i->jt : i->jf; break;
        case 0x25: pc += a > i->k ? i->jt : i->jf; break;
        case 0x35: pc += a >= i->k ? i->jt : i->jf; break;
        case 0x06: return steps;
        default: abort();
        }
    }
}

static uint64_t steps_on_all(const struct bpf_insn *code, const uint8_t (*records)[16])
{
    uint64_t steps = 0;
    for (int i = 0; i < RECORDS; i++)
        steps += steps_on(code, records[i]);
    return steps;
}

static bool is_refused(const char *name, const char *what)
{
    fprintf(stderr, "%s: %s\n", name, what);
    return false;
}

/* A line of the first table: a program by both machines. Adds the ratio of the two. */
static bool time_program(const struct program *p, const uint8_t (*records)[16], double *ratios)
{
    static uint32_t ours[RECORDS], theirs[RECORDS];
    uint64_t steps = steps_on_all(p->code, records);
    uint32_t rounds = (uint32_t)(4000000 / steps) + 1;
    double our_best = 1e30, their_best = 1e30;
    for (int repeat = 0; repeat < REPEATS; repeat++) {
        double start = now();
        if (!gw_bench_run(p->code, p->length, records, RECORDS, rounds, ours, RECORDS))
            return is_refused(p->name, "refused");
        double between = now();
        run_libpcap(p->code, records, rounds, theirs);
        double end = now();
        our_best = least(our_best, between - start);
        their_best = least(their_best, end - between);
    }
    if (memcmp(ours, theirs, sizeof ours) != 0)
        return is_refused(p->name, "the answers differ");
    double frames = (double)rounds * RECORDS, insns = (double)rounds * (double)steps;
    printf("| %s | %zu | %.1f | %.1f | %.2f | %.1f | %.2f | %.2f |\n", p->name, p->length, (double)steps / RECORDS,
           our_best / frames, our_best / insns, their_best / frames, their_best / insns, our_best / their_best);
    *ratios += our_best / their_best;
    return true;
}

static bool time_programs(const uint8_t (*records)[16])
{
    static struct program programs[] = {
        {.name = "one PGN of one source"}, {.name = "the empty table"}, {.name = "57 rules"}, {.name = "256 rules"}};
    double ratios = 0;
    write_filter(&programs[0]);
    write_empty_table(&programs[1]);
    write_rules(&programs[2]);
    write_long_table(&programs[3]);
    printf("| program | instructions | run per frame | gw_machine, ns a frame | an instruction "
           "| libpcap, ns a frame | an instruction | ratio |\n");
    printf("|---|---|---|---|---|---|---|---|\n");
    for (int n = 0; n < 4; n++)
        if (!time_program(&programs[n], records, &ratios))
            return false;
    printf("\nMean of the ratios: %.2f\n", ratios / 4);
    return true;
}

/* A file's octets, or 0 of them where there is no such file, or it is too long. */
static size_t read_text(const char *name, char *text)
{
    FILE *file = fopen(name, "rb");
    if (file == NULL)
        return 0;
    size_t length = fread(text, 1, LONGEST_TEXT, file);
    fclose(file);
    return length < LONGEST_TEXT ? length : 0;
}

/* How many records pass, or -1 where the rules and the two machines do not agree on one. */
static int passed_by_all(const bool *verdicts, const uint32_t *ours, const uint32_t *theirs)
{
    int passed = 0;
    for (int i = 0; i < RECORDS; i++) {
        if (verdicts[i] != (ours[i] != 0) || ours[i] != theirs[i])
            return -1;
        passed += verdicts[i];
    }
    return passed;
}

/*
 * The second table: a table judged rule by rule, by its program, and by libpcap on the same program. A call reads the
 * table or the code before its rounds; with so many rounds that is less than a hundredth of its time.
 */
static bool time_rules(const char *name, const uint8_t (*records)[16])
{
    static char text[LONGEST_TEXT];
    static struct bpf_insn code[LONGEST];
    static bool verdicts[RECORDS];
    static uint32_t ours[RECORDS], theirs[RECORDS];
    size_t text_length = read_text(name, text);
    if (text_length == 0)
        return is_refused(name, "no text");
    size_t length = gw_bench_compile(text, text_length, code, LONGEST);
    if (length == 0)
        return is_refused(name, "no table");
    uint64_t steps = steps_on_all(code, records);
    double rules_best = 1e30, our_best = 1e30, their_best = 1e30;
    for (int repeat = 0; repeat < RULE_REPEATS; repeat++) {
        double start = now();
        if (!gw_bench_judge(text, text_length, records, RECORDS, RULE_ROUNDS, verdicts, RECORDS))
            return is_refused(name, "refused");
        double judged = now();
        if (!gw_bench_run(code, length, records, RECORDS, RULE_ROUNDS, ours, RECORDS))
            return is_refused(name, "its program is refused");
        double ran = now();
        run_libpcap(code, records, RULE_ROUNDS, theirs);
        double end = now();
        rules_best = least(rules_best, judged - start);
        our_best = least(our_best, ran - judged);
        their_best = least(their_best, end - ran);
    }
    int passed = passed_by_all(verdicts, ours, theirs);
    if (passed < 0)
        return is_refused(name, "the answers differ");
    double frames = (double)RULE_ROUNDS * RECORDS;
    printf("\n| instructions | run per frame | frames passed | rule by rule, ns a frame | gw_machine, ns a frame "
           "| libpcap, ns a frame | gw_machine / rule by rule | gw_machine / libpcap |\n");
    printf("|---|---|---|---|---|---|---|---|\n");
    printf("| %zu | %.1f | %d of %d | %.1f | %.1f | %.1f | %.2f | %.2f |\n", length, (double)steps / RECORDS, passed, RECORDS,
           rules_best / frames, our_best / frames, their_best / frames, our_best / rules_best, our_best / their_best);
    return time_tables(text, text_length, records) && time_events(text, text_length, records)
           && time_scripts(text, text_length, records) && time_logs(name, text, text_length, records)
           && time_runs(name, text, text_length, records) && time_library(name, text, text_length, records);
}

/* One part alone, with the table of a file where it needs one. */
static bool time_part(const char *part, const char *name, const uint8_t (*records)[16])
{
    static char text[LONGEST_TEXT];
    if (strcmp(part, "programs") == 0)
        return time_programs(records);
    if (strcmp(part, "differences") == 0)
        return time_differences();
    size_t length = read_text(name, text);
    if (length == 0)
        return is_refused(name, "no text");
    if (strcmp(part, "tables") == 0)
        return time_tables(text, length, records);
    if (strcmp(part, "events") == 0)
        return time_events(text, length, records);
    if (strcmp(part, "texts") == 0)
        return time_texts();
    if (strcmp(part, "traces") == 0)
        return time_traces(records);
    if (strcmp(part, "scripts") == 0)
        return time_scripts(text, length, records);
    if (strcmp(part, "logs") == 0)
        return time_logs(name, text, length, records);
    if (strcmp(part, "runs") == 0)
        return time_runs(name, text, length, records);
    if (strcmp(part, "library") == 0)
        return time_library(name, text, length, records);
    return is_refused(part, "no such part");
}

int main(int argc, char **argv)
{
    static uint8_t records[RECORDS][16];
    if (argc != 2 && argc != 3) {
        fprintf(stderr, "usage: bench TABLE.toml [programs|tables|differences|events|texts|traces|scripts|logs|runs|library]\n");
        return 2;
    }
    write_records(records);
    if (argc == 3)
        return time_part(argv[2], argv[1], records) ? 0 : 1;
    return time_programs(records) && time_rules(argv[1], records) && time_differences() && time_texts() && time_traces(records)
               ? 0
               : 1;
}
