/* What the files of the driver share. */
#ifndef BENCH_H
#define BENCH_H

#include <pcap/pcap.h>
#include <stdbool.h>
#include <stddef.h>
#include <stdint.h>
#include <sys/types.h>

enum { RECORDS = 1024, REPEATS = 100, LONGEST = 4096 };

/* The exports of bench_exports. A slice is passed as a pointer and a length. */
bool gw_bench_run(const struct bpf_insn *code, size_t length, const uint8_t (*records)[16], size_t count,
                  uint32_t rounds, uint32_t *answers, size_t room);
bool gw_bench_judge(const char *text, size_t length, const uint8_t (*records)[16], size_t count, uint32_t rounds,
                    bool *verdicts, size_t room);
bool gw_bench_index(const char *text, size_t length, const uint8_t (*records)[16], size_t count, uint32_t rounds,
                    bool *verdicts, size_t room);
uint64_t gw_bench_cold(const char *text, size_t length, const uint8_t (*records)[16], size_t count, const uint64_t *walk,
                       size_t words, uint32_t rounds, uint32_t way);
size_t gw_bench_compile(const char *text, size_t length, struct bpf_insn *code, size_t room);

/* How many pairs of parts of two tables decide some frame unlike, or SIZE_MAX. */
size_t gw_bench_differences(const char *old, size_t old_length, const char *new, size_t new_length);

/* How many instructions an assembler text has, or 0. */
size_t gw_bench_assemble(const char *text, size_t length);

size_t gw_bench_events(const char *text, size_t length, const uint8_t (*records)[16], size_t count, bool run);
uint64_t gw_bench_steps(const struct bpf_insn *code, size_t length, const uint8_t (*records)[16], size_t count,
                        uint32_t rounds, bool core);

/* Frames of a trace: how many, and the exclusive or of their identifier words. */
struct tally {
    uint64_t frames;
    uint32_t word;
};

bool gw_bench_shares(const uint8_t *octets, size_t length, size_t ports, struct tally *tally);
bool gw_bench_feed(const uint8_t *octets, size_t length, size_t piece, struct tally *tally);

/* The time by the clock, in nanoseconds. */
double now(void);

/* For `qsort`: compares two numbers, or two costs by their clock, which stands first in them. */
int by_size(const void *one, const void *other);

struct program {
    const char *name;
    size_t length;
    struct bpf_insn code[LONGEST];
};

/* The four programs. */
void write_filter(struct program *p);
void write_empty_table(struct program *p);
void write_rules(struct program *p);
void write_long_table(struct program *p);

/* Times the event machine, with the table of a text for sixteen ports. */
bool time_events(const char *text, size_t length, const uint8_t (*records)[16]);

/* How many instructions a run takes on a record. */
uint64_t steps_on(const struct bpf_insn *code, const uint8_t *record);

/* Times `gw replay`, with the table of a text for sixteen ports. */
bool time_scripts(const char *text, size_t length, const uint8_t (*records)[16]);

/* What a process took: on the clock, and of all its threads' processors. */
struct cost {
    double clock; /* the first, for `by_size` */
    double processors;
    double memory; /* the most octets that it had in memory */
};

/* Runs a shell's command, and tells what it cost. False where it fails. */
bool run_command(const char *command, struct cost *cost);

/* Times `gw judge` on a log of these records, by the table of a text, which a file of this name has. */
bool time_logs(const char *name, const char *text, size_t length, const uint8_t (*records)[16]);

/* Times the library for C, with the table of a text, which a file of this name has. */
bool time_library(const char *name, const char *text, size_t length, const uint8_t (*records)[16]);

/* Times `gw run`, with the table of a text, which a file of this name has, for each port. */
bool time_runs(const char *name, const char *text, size_t length, const uint8_t (*records)[16]);

/* Times the assembler. */
bool time_texts(void);

/* A trace of as many whole records as there is room for: these again and again, a tenth of a millisecond apart. */
enum { TRACE_HEADER = 24, TRACE_RECORD_HEADER = 16 };
size_t write_trace(uint8_t *trace, size_t room, const uint8_t (*records)[16]);

/* Times the reading of traces of these records. */
bool time_traces(const uint8_t (*records)[16]);

/*
 * Times tables of 1, 8 and 256 rules and the table of a text, of 40, by their index and in other ways; then loads with the caches
 * emptied.
 */
bool time_tables(const char *text, size_t length, const uint8_t (*records)[16]);

/* Times what two tables differ in. */
bool time_differences(void);

/* The first records of a vehicle's bus. */
void write_records(uint8_t (*records)[16]);

#endif
