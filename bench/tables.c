/*
 * Times tables judged by their index, rule by rule, by their program, and by libpcap on the program: on the records of the
 * vehicle's bus, on records that no rule decides, and with the caches emptied; and what a load takes there. Prints four tables in
 * markdown. Fails where two ways do not agree.
 */
#include "bench.h"

#include <signal.h>
#include <stdio.h>
#include <stdlib.h>
#include <string.h>
#include <sys/mman.h>
#include <time.h>

enum { WAYS = 4, TABLE_REPEATS = 15, TABLE_ROUNDS = 200, COPIES = 512, COLD_ROUNDS = 101, COLD_REPEATS = 9 };

/* What is walked: so many words, and the size of a page. */
enum { WALK = 1048576, PAGE = 4096 };

/* Loads are timed from blocks as large as the rules of a table of 40 and as its index, of so many a row at most. */
enum { SMALL = 1536, LARGE = 12288, LINE = 64, LOADS = 4 };

/* What is walked to empty the caches. */
static uint64_t walk[WALK] __attribute__((aligned(PAGE)));

/* In this order: by the index, rule by rule, by the program, by libpcap. */
static const char *const ways[WAYS] = {"index", "rule by rule", "program", "libpcap"};

/* The processor time of this thread, which other work on the machine does not lengthen. */
static double thread_now(void)
{
    struct timespec t;
    clock_gettime(CLOCK_THREAD_CPUTIME_ID, &t);
    return (double)t.tv_sec * 1e9 + (double)t.tv_nsec;
}

static double least(double a, double b)
{
    return a < b ? a : b;
}

/*
 * Rules with ranges that overlap: no two that follow one another have the same range of groups, so the compiler shares no test
 * between them. The even ones hold for nearly all groups of most sources; the odd ones for six sources and a range of groups.
 */
size_t write_table(char *text, size_t room, int rules)
{
    int length = snprintf(text, room, "default = \"block\"\n");
    for (int rule = 0; rule < rules; rule++) {
        int at = rule % 2 ? snprintf(text + length, room - (size_t)length,
                                     "[[rule]]\naction = \"%s\"\npgn = [%d, %d]\nsource = [%d, %d]\n",
                                     rule % 3 ? "pass" : "block", 61184 + rule, 65500 - rule, rule % 64, rule % 64 + 5)
                          : snprintf(text + length, room - (size_t)length,
                                     "[[rule]]\naction = \"pass\"\npgn = [%d, %d]\nsource = [0, %d]\ndestination = [0, %d]\n",
                                     rule, 262143 - rule, 150 + rule % 50, 100 + rule % 100);
        length += at;
    }
    return (size_t)length;
}

/* PGN 61184 of sources 100 to 149 to destinations 220 to 227: no rule above decides them, nor one of rules.toml. */
static void write_undecided(uint8_t (*records)[16])
{
    for (int i = 0; i < RECORDS; i++) {
        const uint8_t record[16] = {0x98, 0xef, (uint8_t)(220 + i % 8), (uint8_t)(100 + i % 50), 8};
        memcpy(records[i], record, sizeof record);
    }
}

struct table {
    const char *text;
    size_t text_length;
    struct bpf_insn code[LONGEST];
    size_t length;
};

/* So many rounds in one way; their verdicts. */
static bool judge(const struct table *t, int way, const uint8_t (*records)[16], uint32_t rounds, bool *verdicts)
{
    static uint32_t answers[RECORDS];
    if (way == 0)
        return gw_bench_index(t->text, t->text_length, records, RECORDS, rounds, verdicts, RECORDS);
    if (way == 1)
        return gw_bench_judge(t->text, t->text_length, records, RECORDS, rounds, verdicts, RECORDS);
    if (way == 2 && !gw_bench_run(t->code, t->length, records, RECORDS, rounds, answers, RECORDS))
        return false;
    for (uint32_t round = 0; way == 3 && round < rounds; round++)
        for (int i = 0; i < RECORDS; i++)
            answers[i] = bpf_filter(t->code, records[i], 16, 16);
    for (int i = 0; i < RECORDS; i++)
        verdicts[i] = answers[i] != 0;
    return true;
}

/* The time of one verdict in each way: that of the rounds, without that of a call with no round. */
static bool time_ways(const struct table *t, const uint8_t (*records)[16], double *times)
{
    static bool verdicts[WAYS][RECORDS];
    for (int way = 0; way < WAYS; way++) {
        double with = 1e30, without = 1e30;
        for (int repeat = 0; repeat < TABLE_REPEATS; repeat++) {
            double start = thread_now();
            if (!judge(t, way, records, 0, verdicts[way]))
                return false;
            double between = thread_now();
            if (!judge(t, way, records, TABLE_ROUNDS, verdicts[way]))
                return false;
            without = least(without, between - start);
            with = least(with, thread_now() - between);
        }
        if (memcmp(verdicts[way], verdicts[0], sizeof verdicts[0]) != 0)
            return false;
        times[way] = (with - without) / ((double)TABLE_ROUNDS * RECORDS);
    }
    return true;
}

static uint64_t walked(void)
{
    uint64_t sum = 0;
    for (int i = 0; i < WALK; i++)
        sum += walk[i];
    return sum;
}

/* The time of each round's verdicts, and how many rounds there were. */
static double found[COLD_ROUNDS];
static int rounds_found;

static double median_found(void)
{
    qsort(found, (size_t)rounds_found, sizeof found[0], by_size);
    return found[rounds_found / 2] / COPIES;
}

static uint8_t *const first_page = (uint8_t *)walk, *const last_page = (uint8_t *)(walk + WALK) - PAGE;

/*
 * The library walks and judges in one call, so the walk's own pages tell when: the last is shut while a walk has not come to it,
 * and the first while verdicts are made. The fault at the last begins a round's verdicts, that at the first ends them.
 */
static void at_fault(int number, siginfo_t *fault, void *context)
{
    static double began;
    double time = thread_now();
    uint8_t *at = fault->si_addr;
    (void)context;
    if (at >= first_page && at < first_page + PAGE) {
        found[rounds_found++] = time - began;
        mprotect(first_page, PAGE, PROT_READ | PROT_WRITE);
        mprotect(last_page, PAGE, PROT_NONE);
    } else if (at >= last_page && at < last_page + PAGE) {
        mprotect(last_page, PAGE, PROT_READ | PROT_WRITE);
        mprotect(first_page, PAGE, PROT_NONE);
        began = thread_now();
    } else {
        signal(number, SIG_DFL);
    }
}

/* The time of one verdict by a way of gw_bench_cold. Sets how many frames passed. */
static double cold_time(const struct table *t, const uint8_t (*records)[16], uint32_t way, uint64_t *passed)
{
    struct sigaction watched = {.sa_sigaction = at_fault, .sa_flags = SA_SIGINFO}, before;
    rounds_found = 0;
    sigaction(SIGSEGV, &watched, &before);
    mprotect(last_page, PAGE, PROT_NONE);
    *passed = gw_bench_cold(t->text, t->text_length, records, COPIES, walk, WALK, COLD_ROUNDS, way);
    mprotect(first_page, PAGE, PROT_READ | PROT_WRITE);
    mprotect(last_page, PAGE, PROT_READ | PROT_WRITE);
    sigaction(SIGSEGV, &before, NULL);
    return median_found();
}

/* Before each round 8 MB are walked, and each record is judged by a copy of the code that is its own. */
static double cold_libpcap_time(const struct bpf_insn **copies, const uint8_t (*records)[16], uint64_t *passed)
{
    *passed = 0;
    for (rounds_found = 0; rounds_found < COLD_ROUNDS; rounds_found++) {
        *passed += walked();
        double start = thread_now();
        for (int i = 0; i < COPIES; i++)
            *passed += bpf_filter(copies[i], records[i], 16, 16) != 0;
        found[rounds_found] = thread_now() - start;
    }
    return median_found();
}

/*
 * The time of one verdict in each way with what it reads in no near cache: the rounds' median, and the least of the repeats. What
 * rounds without verdicts take, the faults above all, is taken off the first three. libpcap's are timed without faults.
 */
static bool time_cold(const struct table *t, const uint8_t (*records)[16], double *times)
{
    static const struct bpf_insn *copies[COPIES];
    /* The numbers that gw_bench_cold has for the first three ways, and for no verdict. */
    static const uint32_t numbers[] = {2, 1, 3}, no_verdict = 0;
    uint64_t passed[WAYS], walks;
    double without = 1e30;
    for (int i = 0; i < COPIES; i++) {
        struct bpf_insn *copy = malloc(t->length * sizeof *copy);
        copies[i] = memcpy(copy, t->code, t->length * sizeof *copy);
    }
    for (int way = 0; way < WAYS; way++)
        times[way] = 1e30;
    for (int repeat = 0; repeat < COLD_REPEATS; repeat++) {
        without = least(without, cold_time(t, records, no_verdict, &walks));
        for (int way = 0; way < 3; way++)
            times[way] = least(times[way], cold_time(t, records, numbers[way], &passed[way]));
        times[3] = least(times[3], cold_libpcap_time(copies, records, &passed[3]));
    }
    for (int way = 0; way < 3; way++)
        times[way] -= without;
    for (int i = 0; i < COPIES; i++)
        free((void *)copies[i]);
    /* Rounds without verdicts walk the same. */
    return passed[0] == passed[1] && passed[0] == passed[2] && passed[0] == passed[3]
        && passed[0] - walks <= (uint64_t)COPIES * COLD_ROUNDS;
}

/*
 * Makes so many loads from each block, of which each waits for the one before: the blocks hold zeros, which the compiler does not
 * know. With `apart` set those of the next block begin when they are done, as where a gateway has yet to take its next frame.
 */
static uint64_t load(const uint8_t *const *blocks, const uint32_t (*places)[LOADS], int loads, bool apart)
{
    uint64_t sum = 0;
    for (int i = 0; i < COPIES; i++) {
        uint64_t found = 0;
        for (int k = 0; k < loads; k++)
            found = blocks[i][places[i][k] + found];
        sum += found;
        if (apart)
            __builtin_ia32_lfence();
    }
    return sum;
}

/* The time of the loads from one block: the median of the rounds, and the least of the repeats. */
static double load_time(const uint8_t *const *blocks, const uint32_t (*places)[LOADS], int loads, bool apart, uint64_t *sum)
{
    double time = 1e30;
    for (int repeat = 0; repeat < COLD_REPEATS; repeat++) {
        for (rounds_found = 0; rounds_found < COLD_ROUNDS; rounds_found++) {
            *sum += walked();
            double start = thread_now();
            *sum += load(blocks, places, loads, apart);
            found[rounds_found] = thread_now() - start;
        }
        time = least(time, median_found());
    }
    return time;
}

/* Times loads from blocks of so many octets. False: they found something else than the zeros there. */
static bool time_blocks(uint32_t octets)
{
    static const uint8_t *blocks[COPIES];
    static uint32_t places[COPIES][LOADS];
    uint64_t sum = 0, walks = (uint64_t)LOADS * 2 * COLD_REPEATS * COLD_ROUNDS;
    srand(1);
    for (int i = 0; i < COPIES; i++) {
        /* Written, or all pages would be one. */
        blocks[i] = memset(malloc(octets), 0, octets);
        for (int k = 0; k < LOADS; k++)
            places[i][k] = (uint32_t)rand() % (octets / LINE) * LINE;
    }
    for (int loads = 1; loads <= LOADS; loads++) {
        double together = load_time(blocks, (const uint32_t (*)[LOADS])places, loads, false, &sum);
        double apart = load_time(blocks, (const uint32_t (*)[LOADS])places, loads, true, &sum);
        printf("| %u | %d | %.1f | %.1f |\n", octets, loads, together, apart);
    }
    for (int i = 0; i < COPIES; i++)
        free((void *)blocks[i]);
    return sum == walks * walked();
}

/* What no verdict can go below that makes so many loads in a row from memory of its table's own. */
static bool time_loads(void)
{
    printf("\nLoads that wait for one another, with the caches emptied:\n\n"
           "| octets | loads | beside those of the next frame, ns | before those of the next frame, ns |\n|---|---|---|---|\n");
    return time_blocks(SMALL) && time_blocks(LARGE);
}

static void print_line(int rules, const struct table *t, const double *times)
{
    printf("| %d | %zu |", rules, t->length);
    for (int way = 0; way < WAYS; way++)
        printf(" %.1f |", times[way]);
    printf(" %.2f | %.3f | %.2f |\n", times[0] / times[2], times[0] / times[3], times[0] / times[1]);
}

static bool time_kind(const char *kind, struct table *tables, const int *rules, int count, const uint8_t (*records)[16],
                      bool cold)
{
    printf("\n%s\n\n| rules | instructions |", kind);
    for (int way = 0; way < WAYS; way++)
        printf(" %s, ns a frame |", ways[way]);
    printf(" index / program | index / libpcap | index / rule by rule |\n|---|---|---|---|---|---|---|---|---|\n");
    for (int i = 0; i < count; i++) {
        double times[WAYS];
        if (!(cold ? time_cold : time_ways)(&tables[i], records, times)) {
            fprintf(stderr, "a table of %d rules is refused, or two ways differ\n", rules[i]);
            return false;
        }
        print_line(rules[i], &tables[i], times);
    }
    return true;
}

bool time_tables(const char *text, size_t length, const uint8_t (*records)[16])
{
    enum { TABLES = 4, ROOM = 65536 };
    static const int rules[TABLES] = {1, 8, 40, 256};
    static struct table tables[TABLES];
    static char texts[TABLES][ROOM];
    static uint8_t undecided[RECORDS][16];
    for (int i = 0; i < TABLES; i++) {
        struct table *t = &tables[i];
        t->text = rules[i] == 40 ? text : texts[i];
        t->text_length = rules[i] == 40 ? length : write_table(texts[i], ROOM, rules[i]);
        t->length = gw_bench_compile(t->text, t->text_length, t->code, LONGEST);
    }
    write_undecided(undecided);
    /* Pages that were never written would all be one. */
    memset(walk, 1, sizeof walk);
    return time_kind("The vehicle's records:", tables, rules, TABLES, records, false)
        && time_kind("Records that no rule decides:", tables, rules, TABLES, (const uint8_t (*)[16])undecided, false)
        && time_kind("The vehicle's records, with the caches emptied:", tables, rules, TABLES, records, true) && time_loads();
}
