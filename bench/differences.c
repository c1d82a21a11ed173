/*
 * Times what two tables differ in, no two of whose rules are alike: tables of 40 and of 256 rules of four families, and the
 * families whose search is the longest. Each row has a process of its own, whose greatest memory is told. Prints a table in
 * markdown. Fails where the tables in the other order do not differ in as many pairs.
 */
#include "bench.h"

#include <stdio.h>
#include <stdlib.h>
#include <string.h>
#include <sys/resource.h>
#include <sys/time.h>
#include <sys/wait.h>
#include <unistd.h>

enum { FIELDS = 4, GREATEST_TABLE = 65536, DIFFERENCE_REPEATS = 5 };

/* The numbers of each field: groups, sources, destinations and ports. */
static const uint32_t numbers[FIELDS] = {262144, 256, 256, 16};

/* The first and the last number of each field. */
struct box {
    uint32_t low[FIELDS], high[FIELDS];
};

static uint64_t state;

static uint32_t draw(uint32_t below)
{
    state ^= state << 13;
    state ^= state >> 7;
    state ^= state << 17;
    return (uint32_t)(state >> 16) % below;
}

static struct box whole(void)
{
    struct box b = {{0, 0, 0, 0}, {262143, 255, 255, 15}};
    return b;
}

static void narrow(struct box *b, int field, uint32_t low, uint32_t high)
{
    b->low[field] = low;
    b->high[field] = high;
}

/* Any range in each field. */
static struct box at_random(int rule, int rules, int side)
{
    (void)rule, (void)rules, (void)side;
    struct box b;
    for (int field = 0; field < FIELDS; field++) {
        uint32_t one = draw(numbers[field]), other = draw(numbers[field]);
        narrow(&b, field, one < other ? one : other, one < other ? other : one);
    }
    return b;
}

/* Each rule lies within the next one, and the rules of the two tables lie between one another. */
static struct box nested(int rule, int rules, int side)
{
    uint32_t inset = (uint32_t)(2 * (rules - 1 - rule) + side);
    struct box b = whole();
    narrow(&b, 0, inset, 262143 - inset);
    narrow(&b, 1, inset / 4, 255 - (inset + 1) / 4);
    narrow(&b, 2, (inset + 2) / 4, 255);
    return b;
}

/* Each rule begins later than the one before in two fields, and sooner in a third. */
static struct box stairs(int rule, int rules, int side)
{
    (void)rules;
    uint32_t step = (uint32_t)(2 * rule + side);
    struct box b = whole();
    narrow(&b, 0, step, 262143);
    narrow(&b, 1, step / 4, 255);
    narrow(&b, 2, (511 - step) / 4, 255);
    return b;
}

/* A few numbers of one field, drawn at random. */
static struct box slab(int fields)
{
    struct box b = whole();
    int field = (int)draw((uint32_t)fields);
    uint32_t more = field == 0 ? draw(500) : 0, low = draw(numbers[field] - more);
    narrow(&b, field, low, low + more);
    return b;
}

/* Slabs of the first three fields, and behind them two rules that each hold of half the ports. */
static struct box slabs_and_halves(int rule, int rules, int side)
{
    (void)side;
    struct box b = slab(3);
    if (rule >= rules - 2) {
        b = whole();
        narrow(&b, 3, rule == rules - 2 ? 0 : 8, rule == rules - 2 ? 7 : 15);
    }
    return b;
}

/* No two rules of a table share a frame. */
static struct box apart(int rule, int rules, int side)
{
    (void)rules;
    struct box b = whole();
    uint32_t source = (uint32_t)(rule % 16 * 16 + side), destination = (uint32_t)(rule / 16 * 16 + side);
    narrow(&b, 1, source, source + 14);
    narrow(&b, 2, destination, destination + 14);
    return b;
}

/* Slabs of any field. */
static struct box slabs(int rule, int rules, int side)
{
    (void)rule, (void)rules, (void)side;
    return slab(FIELDS);
}

struct family {
    const char *name;
    struct box (*rule)(int rule, int rules, int side);
};

static const struct family families[] = {
    {"ranges at random", at_random},
    {"nested ranges", nested},
    {"thin slabs, two halves behind", slabs_and_halves},
    {"no frame shared", apart},
    {"stairs", stairs},
    {"thin slabs", slabs},
};

/* The text of a table: the old one, side 0, blocks by default, and the new one passes. */
static size_t write_family(char *text, const struct family *family, int rules, int side)
{
    size_t length = (size_t)sprintf(text, "default = \"%s\"\n", side ? "pass" : "block");
    for (int rule = 0; rule < rules; rule++) {
        struct box b = family->rule(rule, rules, side);
        length += (size_t)sprintf(text + length,
                                  "[[rule]]\naction = \"%s\"\npgn = [%u, %u]\nsource = [%u, %u]\ndestination = [%u, %u]\n"
                                  "from = [%u, %u]\n",
                                  draw(2) ? "pass" : "block", b.low[0], b.high[0], b.low[1], b.high[1], b.low[2], b.high[2],
                                  b.low[3], b.high[3]);
    }
    return length;
}

/* Prints the row of a family except for its memory. */
static bool time_family(const struct family *family, int rules)
{
    static char old[GREATEST_TABLE], new[GREATEST_TABLE];
    state = 88172645463325252ull;
    size_t old_length = write_family(old, family, rules, 0), new_length = write_family(new, family, rules, 1);
    size_t count = gw_bench_differences(new, new_length, old, old_length);
    double best = 1e30;
    for (int repeat = 0; repeat < DIFFERENCE_REPEATS; repeat++) {
        double start = now();
        if (gw_bench_differences(old, old_length, new, new_length) != count || count == SIZE_MAX)
            return false;
        double time = now() - start;
        best = time < best ? time : best;
    }
    printf("| %s | %d | %zu | %.1f |", family->name, rules, count, best / 1e6);
    fflush(stdout);
    return true;
}

/* Times a family in a process of its own. */
static bool time_row(const struct family *family, int rules)
{
    fflush(stdout);
    pid_t child = fork();
    if (child < 0)
        return false;
    if (child == 0)
        _exit(time_family(family, rules) ? 0 : 1);
    int status;
    struct rusage usage;
    if (wait4(child, &status, 0, &usage) != child || status != 0)
        return false;
    printf(" %.1f |\n", (double)usage.ru_maxrss / 1024);
    return true;
}

bool time_differences(void)
{
    printf("\n| rules | each table | pairs | ms | MB |\n|---|---|---|---|---|\n");
    for (size_t i = 0; i < sizeof families / sizeof *families; i++)
        for (int rules = 40; rules <= 256; rules += 216)
            if (!time_row(&families[i], rules)) {
                fprintf(stderr, "differences: %s: refused, or the two orders differ\n", families[i].name);
                return false;
            }
    return true;
}
