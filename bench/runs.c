/*
 * Times `gw run` beside libpcap's reader and filter, both as whole processes on the same file: a trace of four million frames of
 * the vehicle's bus, on which libpcap runs `ret #1`, or the program of a table of 40 rules, on each frame and counts those that
 * pass. `gw run` forwards them between 2 ports, and with the table also between 4, 8 and 16: dealt to the ports in turn, or read
 * by port 0 as its own file (`--in`). Prints a table in markdown. Fails where a process fails, or `gw run` takes other than all
 * frames.
 */
#define _GNU_SOURCE
#include "bench.h"

#include <stdio.h>
#include <stdlib.h>
#include <sys/resource.h>
#include <sys/wait.h>
#include <unistd.h>

enum { FRAMES = 4000000, RUN_REPEATS = 11 };

static const char *const trace_name = "out/trace.pcap";

static double nanoseconds(struct timeval t)
{
    return (double)t.tv_sec * 1e9 + (double)t.tv_usec * 1e3;
}

static bool write_file(const uint8_t (*records)[16])
{
    size_t room = TRACE_HEADER + (size_t)FRAMES * (TRACE_RECORD_HEADER + 16);
    uint8_t *trace = malloc(room);
    FILE *file = fopen(trace_name, "wb");
    if (trace == NULL || file == NULL)
        return false;
    size_t length = write_trace(trace, room, records);
    bool is_written = fwrite(trace, 1, length, file) == length;
    free(trace);
    return fclose(file) == 0 && is_written;
}

/* libpcap's whole work, in a process of its own; its status tells whether it saw every frame. */
static int filter_by_libpcap(const struct bpf_insn *code)
{
    char error[PCAP_ERRBUF_SIZE];
    pcap_t *pcap = pcap_open_offline(trace_name, error);
    if (pcap == NULL)
        return 1;
    struct pcap_pkthdr *header;
    const u_char *octets;
    uint64_t frames = 0, passed = 0;
    while (pcap_next_ex(pcap, &header, &octets) == 1) {
        frames++;
        passed += bpf_filter(code, octets, header->len, header->caplen) != 0;
    }
    pcap_close(pcap);
    FILE *file = fopen("out/passed", "w");
    if (file == NULL || fprintf(file, "%llu\n", (unsigned long long)passed) < 0 || fclose(file) != 0)
        return 1;
    return frames == FRAMES ? 0 : 1;
}

/* Waits for a process that began then, and tells what it cost. */
static bool has_ended_well(pid_t process, double start, struct cost *cost)
{
    struct rusage usage;
    int status;
    if (process < 0 || wait4(process, &status, 0, &usage) != process)
        return false;
    double processors = nanoseconds(usage.ru_utime) + nanoseconds(usage.ru_stime);
    *cost = (struct cost){now() - start, processors, (double)usage.ru_maxrss * 1024};
    return WIFEXITED(status) && WEXITSTATUS(status) == 0;
}

bool run_command(const char *command, struct cost *cost)
{
    double start = now();
    pid_t process = fork();
    if (process == 0) {
        execl("/bin/sh", "sh", "-c", command, (char *)NULL);
        _exit(127);
    }
    return has_ended_well(process, start, cost);
}

static bool run_libpcap_on(const struct bpf_insn *code, struct cost *cost)
{
    double start = now();
    pid_t process = fork();
    if (process == 0)
        _exit(filter_by_libpcap(code));
    return has_ended_well(process, start, cost);
}

/* How many frames the ports took, as `gw run` says. */
static uint64_t taken(void)
{
    FILE *file = fopen("out/counts", "r");
    unsigned long long port, count, sum = 0;
    if (file == NULL)
        return 0;
    while (fscanf(file, "port %llu taken %llu local %*u allowed %*u\n", &port, &count) == 2)
        sum += count;
    fclose(file);
    return sum;
}

/* What a run finds in its environment: nothing, or that glibc asks the system for large pages. */
static const char *const plain = "";
static const char *const large_pages = "GLIBC_TUNABLES=glibc.malloc.hugetlb=1";

/* How a run comes by its trace: dealt to the ports in turn, or as port 0's own. */
static const char *const dealt = "<";
static const char *const own = "--in 0=";

/* Prints a row: of each side's repeats the one in the middle and the least, and of the pairs' ratios the one in the middle. */
static void print_row(const char *name, int ports, struct cost *ours, struct cost *theirs)
{
    double ratios[RUN_REPEATS], memory = 0;
    for (int repeat = 0; repeat < RUN_REPEATS; repeat++) {
        ratios[repeat] = ours[repeat].clock / theirs[repeat].clock;
        memory = ours[repeat].memory > memory ? ours[repeat].memory : memory;
    }
    qsort(ratios, RUN_REPEATS, sizeof *ratios, by_size);
    qsort(ours, RUN_REPEATS, sizeof *ours, by_size);
    qsort(theirs, RUN_REPEATS, sizeof *theirs, by_size);
    int middle = RUN_REPEATS / 2;
    printf("| %s | %d | %.1f | %.1f | %.1f | %.0f | %.1f | %.2f | %.1f, %.1f | %.2f |\n", name, ports,
           ours[middle].clock / FRAMES, ours[middle].processors / FRAMES, ours[middle].clock / FRAMES / (ports - 1), memory / 1e6,
           theirs[middle].clock / FRAMES, ratios[middle], ours[0].clock / FRAMES, theirs[0].clock / FRAMES,
           ours[0].clock / theirs[0].clock);
    fflush(stdout);
}

/* Both in turn, so that the two of a pair find the machine in one state: others may have a part of its processors at times. */
static bool time_pair(const char *settings, const char *input, int ports, const char *policies, const struct bpf_insn *code,
                      const char *name)
{
    char command[600];
    struct cost ours[RUN_REPEATS], theirs[RUN_REPEATS];
    snprintf(command, sizeof command, "exec env %s ../crates/gw/out/gw run --ports %d %s %s%s > out/counts 2> out/notes",
             settings, ports, policies, input, trace_name);
    for (int repeat = 0; repeat < RUN_REPEATS; repeat++)
        if (!run_command(command, &ours[repeat]) || taken() != FRAMES || !run_libpcap_on(code, &theirs[repeat]))
            return false;
    print_row(name, ports, ours, theirs);
    return true;
}

/* The table of a file for each port, as words of `gw run`. */
static void name_table(char *words, size_t room, const char *name, int ports)
{
    size_t at = 0;
    for (int port = 0; port < ports; port++)
        at += (size_t)snprintf(words + at, room - at, "--table %d=%s ", port, name);
}

bool time_runs(const char *name, const char *text, size_t length, const uint8_t (*records)[16])
{
    static struct bpf_insn code[LONGEST];
    static const struct bpf_insn pass[] = {{0x06, 0, 0, 1}};
    char words[400];
    if (gw_bench_compile(text, length, code, LONGEST) == 0 || !write_file(records)) {
        fprintf(stderr, "runs: no trace\n");
        return false;
    }
    printf("\n| policy | ports | `gw run`, ns a frame | its processors | ns a frame and other port | its memory, MB "
           "| libpcap, ns a frame | `gw run` / libpcap | the least of each, ns a frame | their ratio |\n"
           "|---|---|---|---|---|---|---|---|---|---|\n");
    const char *all = "--program '1,6 0 0 1,'";
    bool is_done = time_pair(plain, dealt, 2, all, pass, "`ret #1`")
        && time_pair(large_pages, dealt, 2, all, pass, "`ret #1`, large pages")
        && time_pair(plain, own, 2, all, pass, "`ret #1`, `--in`");
    for (int ports = 2; is_done && ports <= 16; ports *= 2) {
        name_table(words, sizeof words, name, ports);
        is_done = time_pair(plain, dealt, ports, words, code, "the table")
            && time_pair(plain, own, ports, words, code, "the table, `--in`");
    }
    if (!is_done)
        fprintf(stderr, "runs: a process failed, or frames are missing (what it said: bench/out/notes)\n");
    remove(trace_name);
    return is_done;
}
