/*
 * Times libj1939gw, as a program in C calls it: verdicts of a table and of its program on frames, one a call and many, beside
 * libpcap's bpf_filter on the same program; offers to a gateway, a table for each port; and examples/c/relay.c between socket
 * pairs, beside a loop that copies every frame. Prints three tables in markdown. Fails where two answers differ.
 */
#define _GNU_SOURCE
#include "bench.h"

#define J1939GW_OWN_TYPES
#include "../include/j1939gw.h"

#include <poll.h>
#include <signal.h>
#include <stdio.h>
#include <stdlib.h>
#include <string.h>
#include <sys/socket.h>
#include <sys/wait.h>
#include <unistd.h>

enum { WAYS = 5, VERDICT_REPEATS = 40, VERDICT_ROUNDS = 200, OFFER_REPEATS = 200 };

/* So many frames cross a relay, of which so many are on their way at most. */
enum { CROSSING = 300000, ON_THEIR_WAY = 200, RELAY_REPEATS = 5, PATIENCE = 10000 };

static const char *const ways[WAYS] = {"table, one a call", "table, many a call", "program, one a call", "program, many a call",
                                       "libpcap"};

static double least(double a, double b)
{
    return a < b ? a : b;
}

static struct can_frame frame_of(const uint8_t *record)
{
    struct can_frame frame = {0};
    frame.can_id = (uint32_t)record[0] << 24 | (uint32_t)record[1] << 16 | (uint32_t)record[2] << 8 | record[3];
    frame.len = record[4];
    memcpy(frame.data, record + 8, 8);
    return frame;
}

/* The verdicts of all frames, so many rounds, in one way. */
static void judge(int way, struct jgw_handle *policy, const struct can_frame *frames, const struct bpf_insn *code,
                  const uint8_t (*records)[16], uint32_t *verdicts)
{
    for (int round = 0; round < VERDICT_ROUNDS; round++) {
        if (way % 2 == 1)
            jgw_verdicts(policy, frames, RECORDS, 0, verdicts, RECORDS);
        for (int i = 0; way % 2 == 0 && way < 4 && i < RECORDS; i++)
            verdicts[i] = jgw_verdict(policy, &frames[i], 0);
        for (int i = 0; way == 4 && i < RECORDS; i++)
            verdicts[i] = bpf_filter(code, records[i], 16, 16) != 0;
    }
}

static bool time_verdicts(const char *text, size_t length, const uint8_t (*records)[16], const struct can_frame *frames)
{
    static uint32_t verdicts[WAYS][RECORDS];
    static struct bpf_insn code[LONGEST];
    struct jgw_handle policies[2] = {JGW_NOTHING, JGW_NOTHING};
    double best[WAYS] = {1e30, 1e30, 1e30, 1e30, 1e30};
    size_t instructions = gw_bench_compile(text, length, code, LONGEST);
    if (jgw_policy_from_table(text, length, &policies[0], NULL) != JGW_OK
        || jgw_policy_from_code((const struct sock_filter *)code, instructions, &policies[1], NULL) != JGW_OK)
        return false;
    for (int turn = 0; turn < VERDICT_REPEATS * WAYS; turn++) {
        int way = turn % WAYS;
        double start = now();
        judge(way, &policies[way / 2 % 2], frames, code, records, verdicts[way]);
        best[way] = least(best[way], now() - start);
    }
    printf("\n| libj1939gw, a verdict | ns | / libpcap |\n|---|---|---|\n");
    for (int way = 0; way < WAYS; way++) {
        if (memcmp(verdicts[way], verdicts[4], sizeof verdicts[4]) != 0)
            return false;
        printf("| %s | %.1f | %.2f |\n", ways[way], best[way] / VERDICT_ROUNDS / RECORDS, best[way] / best[4]);
    }
    jgw_free(&policies[0]);
    jgw_free(&policies[1]);
    return true;
}

/* A gateway with a table for each port. */
static bool open_gateway(unsigned ports, struct jgw_handle *policy, struct jgw_handle *gateway)
{
    struct jgw_handle batch = JGW_NOTHING;
    bool added = jgw_gateway_open(ports, 1024, UINT32_MAX, 1, gateway) == JGW_OK && jgw_batch_new(&batch) == JGW_OK;
    for (unsigned p = 0; added && p < ports; p++)
        added = jgw_batch_add(&batch, (uint8_t)p, policy) == JGW_OK;
    return added && jgw_gateway_publish(gateway, &batch, NULL) == JGW_OK;
}

/* The time of an offer at port 0: all frames, and then the lanes are emptied, which is not timed. */
static double time_offers(struct jgw_handle *gateway, unsigned ports, const struct can_frame *frames, uint64_t *copies)
{
    struct jgw_copy copy;
    double best = 1e30;
    for (int repeat = 0; repeat < OFFER_REPEATS; repeat++) {
        double start = now();
        for (int i = 0; i < RECORDS; i++)
            jgw_offer(gateway, 0, &frames[i], NULL);
        best = least(best, now() - start);
        for (unsigned to = 1; to < ports;)
            if (jgw_next(gateway, (uint8_t)to, &copy) == JGW_OK)
                *copies += 1;
            else
                to++;
    }
    return best / RECORDS;
}

static bool time_gateways(const char *text, size_t length, const struct can_frame *frames)
{
    struct jgw_handle policy = JGW_NOTHING, gateway = JGW_NOTHING;
    double first = 0;
    uint64_t each = 0;
    if (jgw_policy_from_table(text, length, &policy, NULL) != JGW_OK)
        return false;
    printf("\n| jgw_offer | ns | a further port |\n|---|---|---|\n");
    for (unsigned ports = 2; ports <= 16; ports *= 2) {
        uint64_t copies = 0;
        if (!open_gateway(ports, &policy, &gateway))
            return false;
        double time = time_offers(&gateway, ports, frames, &copies);
        first = ports == 2 ? time : first;
        each = ports == 2 ? copies : each;
        if (copies != each * (ports - 1))
            return false;
        printf("| %u ports | %.1f | %.1f |\n", ports, time, ports == 2 ? 0 : (time - first) / (ports - 2));
    }
    jgw_free(&policy);
    jgw_free(&gateway);
    return true;
}

/* Copies every frame that comes at one socket to the other, many a call in and one a call out, as the relay does. */
static void copy_all(const int *fds)
{
    struct can_frame in[64];
    struct iovec parts[64];
    struct mmsghdr messages[64];
    struct pollfd found = {.fd = fds[0], .events = POLLIN};
    memset(messages, 0, sizeof messages);
    for (int i = 0; i < 64; i++) {
        parts[i] = (struct iovec){&in[i], sizeof in[i]};
        messages[i].msg_hdr.msg_iov = &parts[i];
        messages[i].msg_hdr.msg_iovlen = 1;
    }
    while (poll(&found, 1, -1) > 0) {
        int came = recvmmsg(fds[0], messages, 64, MSG_DONTWAIT, NULL);
        for (int i = 0; i < came; i++)
            if (messages[i].msg_len == 0 || send(fds[1], &in[i], sizeof in[i], 0) < 0)
                _exit(0);
    }
}

/* A relay by a table, or without one a loop that copies, between two socket pairs, of which these are the near ends. */
static pid_t start(const char *table, int *near)
{
    int pair[2], far[2];
    char words[2][256];
    for (int p = 0; p < 2; p++) {
        if (socketpair(AF_UNIX, SOCK_SEQPACKET | SOCK_CLOEXEC, 0, pair) != 0)
            return -1;
        near[p] = pair[0];
        far[p] = dup(pair[1]);
        close(pair[1]);
        snprintf(words[p], sizeof words[p], "fd:%d=%s", far[p], table != NULL ? table : "");
    }
    pid_t child = fork();
    if (child == 0) {
        close(2);
        if (table != NULL)
            execl("out/relay", "relay", words[0], words[1], (char *)NULL);
        else
            copy_all(far);
        _exit(1);
    }
    close(far[0]);
    close(far[1]);
    return child;
}

/* How long frames take to cross, or 0 where one does not. */
static double time_crossing(const char *table, const struct can_frame *frame)
{
    int near[2];
    pid_t child = start(table, near);
    struct pollfd it = {.fd = near[1], .events = POLLIN};
    struct can_frame found;
    uint32_t sent = 0, came = 0;
    double begin = now();
    while (child > 0 && came < CROSSING) {
        for (; sent < CROSSING && sent - came < ON_THEIR_WAY; sent++)
            if (send(near[0], frame, sizeof *frame, 0) < 0)
                return 0;
        if (poll(&it, 1, PATIENCE) != 1)
            return 0;
        while (recv(near[1], &found, sizeof found, MSG_DONTWAIT) == (ssize_t)sizeof found)
            came += found.can_id == frame->can_id;
    }
    double time = now() - begin;
    kill(child, SIGTERM);
    close(near[0]);
    close(near[1]);
    waitpid(child, NULL, 0);
    return time;
}

static bool time_relay(const char *table, const struct can_frame *frame)
{
    double best[2] = {1e30, 1e30};
    for (int turn = 0; turn < 2 * RELAY_REPEATS; turn++) {
        double time = time_crossing(turn % 2 == 0 ? table : NULL, frame);
        if (time == 0)
            return false;
        best[turn % 2] = least(best[turn % 2], time);
    }
    printf("\n| between two socket pairs | frames a second | of the copying loop's |\n|---|---|---|\n");
    printf("| examples/c/relay.c, the table | %.0f | %.2f |\n", CROSSING / best[0] * 1e9, best[1] / best[0]);
    printf("| a loop that copies every frame | %.0f | 1.00 |\n", CROSSING / best[1] * 1e9);
    return true;
}

bool time_library(const char *name, const char *text, size_t length, const uint8_t (*records)[16])
{
    static struct can_frame frames[RECORDS];
    struct jgw_handle policy = JGW_NOTHING;
    int passing = 0;
    for (int i = 0; i < RECORDS; i++)
        frames[i] = frame_of(records[i]);
    if (jgw_policy_from_table(text, length, &policy, NULL) != JGW_OK)
        return false;
    while (passing + 1 < RECORDS && !jgw_passes(&policy, &frames[passing], 0))
        passing++;
    jgw_free(&policy);
    return time_verdicts(text, length, records, frames) && time_gateways(text, length, frames)
           && time_relay(name, &frames[passing]);
}
