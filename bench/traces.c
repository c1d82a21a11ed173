/*
 * Times gw_trace beside libpcap on the same octets in memory: a trace of 100 MB of the vehicle's bus. Each frame's identifier
 * word is looked at by both. Prints a table in markdown. Fails where the two see other frames.
 */
#define _GNU_SOURCE
#include "bench.h"

#include <stdio.h>
#include <stdlib.h>
#include <string.h>

enum { TRACE = 100000000, PIECE = 65536, PORTS = 2, TRACE_REPEATS = 12 };

static void put(uint8_t **to, uint32_t number, int octets)
{
    memcpy(*to, &number, (size_t)octets);
    *to += octets;
}

size_t write_trace(uint8_t *trace, size_t room, const uint8_t (*records)[16])
{
    uint8_t *to = trace;
    put(&to, 0xa1b2c3d4, 4);
    put(&to, 2, 2);
    put(&to, 4, 2);
    put(&to, 0, 4);
    put(&to, 0, 4);
    put(&to, 16, 4);
    put(&to, 227, 4);
    for (uint32_t number = 0; to + TRACE_RECORD_HEADER + 16 <= trace + room; number++) {
        put(&to, number / 10000, 4);
        put(&to, number % 10000 * 100, 4);
        put(&to, 16, 4);
        put(&to, 16, 4);
        memcpy(to, records[number % RECORDS], 16);
        to += 16;
    }
    return (size_t)(to - trace);
}

static bool read_by_libpcap(uint8_t *trace, size_t length, struct tally *tally)
{
    char error[PCAP_ERRBUF_SIZE];
    FILE *file = fmemopen(trace, length, "rb");
    if (file == NULL)
        return false;
    pcap_t *pcap = pcap_fopen_offline(file, error);
    if (pcap == NULL)
        return false;
    struct pcap_pkthdr *header;
    const u_char *octets;
    int result;
    while ((result = pcap_next_ex(pcap, &header, &octets)) == 1) {
        tally->frames++;
        tally->word ^= (uint32_t)octets[0] << 24 | octets[1] << 16 | octets[2] << 8 | octets[3];
    }
    pcap_close(pcap);
    return result == PCAP_ERROR_BREAK;
}

enum way { CHECKED, SHARES, FEED, LIBPCAP, WAYS };

static bool read_by(enum way way, uint8_t *trace, size_t length, struct tally *tally)
{
    switch (way) {
    case CHECKED: return gw_bench_shares(trace, length, 0, tally);
    case SHARES: return gw_bench_shares(trace, length, PORTS, tally);
    case FEED: return gw_bench_feed(trace, length, PIECE, tally);
    default: return read_by_libpcap(trace, length, tally);
    }
}

static void write_row(const char *name, double time, double theirs)
{
    printf("| %s | %.1f | %.2f |\n", name, time, time / theirs);
}

bool time_traces(const uint8_t (*records)[16])
{
    uint8_t *trace = malloc(TRACE);
    if (trace == NULL)
        return false;
    size_t length = write_trace(trace, TRACE, records);
    double best[WAYS] = {1e30, 1e30, 1e30, 1e30};
    struct tally tallies[WAYS];
    for (int repeat = 0; repeat < TRACE_REPEATS; repeat++)
        for (enum way way = 0; way < WAYS; way++) {
            tallies[way] = (struct tally){0, 0};
            double start = now();
            bool is_whole = read_by(way, trace, length, &tallies[way]);
            double time = now() - start;
            if (!is_whole) {
                fprintf(stderr, "traces: way %d found no whole trace\n", way);
                return false;
            }
            best[way] = time < best[way] ? time : best[way];
        }
    free(trace);
    struct tally theirs = tallies[LIBPCAP];
    for (enum way way = SHARES; way < LIBPCAP; way++)
        if (tallies[way].frames != theirs.frames || tallies[way].word != theirs.word) {
            fprintf(stderr, "traces: way %d found other frames\n", way);
            return false;
        }
    double frames = (double)theirs.frames, libpcap = best[LIBPCAP] / frames;
    printf("\n| %zu octets, %.0f frames | ns a frame | beside libpcap |\n|---|---|---|\n", length, frames);
    write_row("`Checked::new`", best[CHECKED] / frames, libpcap);
    write_row("`Checked::new`, and each share among 2 ports", best[SHARES] / frames, libpcap);
    write_row("`Trace::feed`, 64 KiB a piece", best[FEED] / frames, libpcap);
    write_row("libpcap's `pcap_next_ex`", libpcap, libpcap);
    return true;
}
