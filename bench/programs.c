/* The four programs of the first table. */
#include "bench.h"

static void add(struct program *p, uint16_t code, uint8_t jt, uint8_t jf, uint32_t k)
{
    p->code[p->length++] = (struct bpf_insn){code, jt, jf, k};
}

/* Passes PGN 61444 from source 0. */
void write_filter(struct program *p)
{
    add(p, 0x20, 0, 0, 0);              /* ld [0] */
    add(p, 0x54, 0, 0, 0xe0000000);     /* and #0xe0000000 */
    add(p, 0x15, 0, 7, 0x80000000);     /* jne #0x80000000, block */
    add(p, 0x20, 0, 0, 0);              /* ld [0] */
    add(p, 0x74, 0, 0, 8);              /* rsh #8 */
    add(p, 0x54, 0, 0, 0x3ffff);        /* and #0x3ffff */
    add(p, 0x15, 0, 3, 61444);          /* jne #61444, block */
    add(p, 0x30, 0, 0, 3);              /* ldb [3] */
    add(p, 0x15, 0, 1, 0);              /* jne #0, block */
    add(p, 0x06, 0, 0, 1);              /* ret #1 */
    add(p, 0x06, 0, 0, 0);              /* block: ret #0 */
}

/* The prologue that each compiled table has: PGN, source and destination into M[0], M[1] and M[2]. */
static void write_prologue(struct program *p, uint32_t other)
{
    add(p, 0x20, 0, 0, 0);
    add(p, 0x54, 0, 0, 0xe0000000);
    add(p, 0x15, 1, 0, 0x80000000);
    add(p, 0x06, 0, 0, other);
    add(p, 0x30, 0, 0, 3);
    add(p, 0x02, 0, 0, 1);
    add(p, 0x30, 0, 0, 1);
    add(p, 0x35, 7, 0, 0xf0);
    add(p, 0x30, 0, 0, 2);
    add(p, 0x02, 0, 0, 2);
    add(p, 0x20, 0, 0, 0);
    add(p, 0x74, 0, 0, 8);
    add(p, 0x54, 0, 0, 0x3ff00);
    add(p, 0x02, 0, 0, 0);
    add(p, 0x05, 0, 0, 6);
    add(p, 0x00, 0, 0, 0xff);
    add(p, 0x02, 0, 0, 2);
    add(p, 0x20, 0, 0, 0);
    add(p, 0x74, 0, 0, 8);
    add(p, 0x54, 0, 0, 0x3ffff);
    add(p, 0x02, 0, 0, 0);
}

/* A rule with a PGN range of its own and nothing else. */
static void write_pgn_rule(struct program *p, uint32_t lo, uint32_t hi, uint32_t action)
{
    add(p, 0x60, 0, 0, 0);
    add(p, 0x35, 0, 2, lo);
    add(p, 0x25, 1, 0, hi);
    add(p, 0x06, 0, 0, action);
}

/* A rule with one source and nothing else. */
static void write_source_rule(struct program *p, uint32_t source, uint32_t action)
{
    add(p, 0x60, 0, 0, 1);
    add(p, 0x35, 0, 2, source);
    add(p, 0x25, 1, 0, source);
    add(p, 0x06, 0, 0, action);
}

/* The table without rules. */
void write_empty_table(struct program *p)
{
    write_prologue(p, 0);
    add(p, 0x06, 0, 0, 0);
}

/* 57 rules, each of one PGN, pass and block in turn. */
void write_rules(struct program *p)
{
    static const uint32_t known[] = {61444, 65265, 59904, 60416, 60160, 60928, 61184, 65226};
    write_prologue(p, 0);
    for (uint32_t rule = 0; rule < 57; rule++) {
        uint32_t pgn = rule % 7 == 6 ? known[rule / 7] : rule % 2 ? 65280 + rule : 65100 + rule;
        write_pgn_rule(p, pgn, pgn, rule % 3 != 0);
    }
    add(p, 0x06, 0, 0, 0);
}

/* 255 rules that block source 1, and one that passes PGN 61184 to 61458. */
void write_long_table(struct program *p)
{
    write_prologue(p, 1);
    for (int rule = 0; rule < 255; rule++)
        write_source_rule(p, 1, 0);
    write_pgn_rule(p, 61184, 61458, 1);
    add(p, 0x06, 0, 0, 0);
}
