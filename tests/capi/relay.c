/*
 * Tries examples/c/relay.c over socket pairs in place of buses:
 *
 *     relay RELAY FOLDER
 *
 * A million frames cross it in order while its tables are read again 300 times and it begins anew many times. What is no
 * classic frame is counted and stays. Refused tables leave what is in force. A claim that was heard is kept. What waits at the
 * end leaves.
 */
#define _GNU_SOURCE
#include "j1939gw.h"

#include <errno.h>
#include <fcntl.h>
#include <poll.h>
#include <signal.h>
#include <stdio.h>
#include <stdlib.h>
#include <string.h>
#include <sys/socket.h>
#include <sys/wait.h>
#include <unistd.h>

enum { FRAMES = 1000000, RELOADS = 300, ON_THEIR_WAY = 200, PATIENCE = 10000 };

static const char *relay, *folder;
static pid_t child;
static int near[2], told;
static unsigned passed, failed;
static char heard[4096];

static void check(const char *what, bool holds)
{
    passed += holds;
    failed += !holds;
    if (!holds)
        printf("%s: FAULT\n%s\n", what, heard);
}

static bool ends_with(const char *text)
{
    return strlen(heard) >= strlen(text) && strcmp(heard + strlen(heard) - strlen(text), text) == 0;
}

/* Puts a table in a port's place at once, as whoever replaces one should. */
static void write_table(unsigned p, const char *text)
{
    char path[512], beside[520];
    snprintf(path, sizeof path, "%s/%u.toml", folder, p);
    snprintf(beside, sizeof beside, "%s.new", path);
    FILE *file = fopen(beside, "w");
    if (file == NULL || fputs(text, file) < 0 || fclose(file) != 0 || rename(beside, path) != 0)
        exit(1);
}

/* Starts the relay between two pairs of sockets, with a table a port. */
static void start(const char *frames)
{
    int far[2], pair[2], out[2];
    char words[2][560];
    for (int p = 0; p < 2; p++) {
        if (socketpair(AF_UNIX, SOCK_SEQPACKET, 0, pair) != 0)
            exit(1);
        near[p] = pair[0];
        far[p] = pair[1];
        fcntl(near[p], F_SETFD, FD_CLOEXEC);
        snprintf(words[p], sizeof words[p], "fd:%d=%s/%d.toml", far[p], folder, p);
    }
    if (pipe(out) != 0 || (child = fork()) < 0)
        exit(1);
    if (child == 0) {
        dup2(out[1], 2);
        close(out[0]);
        execl(relay, relay, "-f", frames, "-v", "100", words[0], words[1], (char *)NULL);
        _exit(9);
    }
    close(out[1]);
    close(far[0]);
    close(far[1]);
    told = out[0];
}

/* What the relay says up to the line that ends its counters, or up to its end. */
static void listen_to_counters(void)
{
    size_t length = 0;
    heard[0] = '\0';
    while (length + 1 < sizeof heard && (strstr(heard, "\nfront ") == NULL || heard[length - 1] != '\n')) {
        ssize_t more = read(told, heard + length, 1);
        if (more <= 0)
            break;
        heard[length += (size_t)more] = '\0';
    }
}

/* Has the relay do what a signal asks, and then tell its counters: signals and frames are handled one after another. */
static void signal_and_listen(int signal)
{
    if (signal != 0)
        kill(child, signal);
    kill(child, SIGUSR1);
    listen_to_counters();
}

static struct can_frame frame_of(uint32_t id, uint64_t number)
{
    struct can_frame frame = {.can_id = CAN_EFF_FLAG | id, .len = 8};
    memcpy(frame.data, &number, sizeof number);
    return frame;
}

static void put(int p, const struct can_frame *frame)
{
    while (send(near[p], frame, sizeof *frame, 0) < 0 && errno == EINTR) {
    }
}

/* The next frame that the relay sends at a port, if one comes in time. */
static bool get(int p, int patience, struct can_frame *frame)
{
    struct pollfd it = {.fd = near[p], .events = POLLIN};
    return poll(&it, 1, patience) == 1 && recv(near[p], frame, sizeof *frame, 0) == (ssize_t)sizeof *frame;
}

/* Whether a frame that is sent at one port comes out at the other. */
static bool crosses(int from, uint32_t id)
{
    struct can_frame frame = frame_of(id, id), last = frame_of(0x18FEF100, UINT64_MAX), found;
    put(from, &frame);
    put(from, &last); /* passes, so that nothing is waited for in vain */
    bool comes = get(1 - from, PATIENCE, &found);
    bool is_it = comes && found.can_id == frame.can_id && memcmp(found.data, frame.data, 8) == 0;
    if (is_it)
        get(1 - from, PATIENCE, &found);
    return is_it;
}

/* Many frames in order, of which every hundredth is blocked, while the tables are read again. */
static void try_many(void)
{
    struct can_frame found, blocked = frame_of(0x18FEF200, 0);
    uint64_t sent = 0, came = 0;
    bool in_order = true;
    while (in_order && came < FRAMES) {
        for (; sent < FRAMES && sent - came < ON_THEIR_WAY; sent++) {
            struct can_frame frame = frame_of(0x18FEF100, sent);
            put(0, &frame);
            if (sent % 100 == 0)
                put(0, &blocked);
            if (sent % (FRAMES / RELOADS) == 0)
                kill(child, SIGHUP);
        }
        in_order = get(1, PATIENCE, &found) && memcmp(found.data, &came, 8) == 0;
        came++;
    }
    check("a million frames in order", in_order && came == FRAMES);
    signal_and_listen(0);
    check("no frame lost or refused", strstr(heard, " lost 0 ") != NULL && strstr(heard, " cut 0 refused 0\nport 1") != NULL);
    check("begun anew", strstr(heard, "begun 1 ") == NULL);
    check("no table refused", ends_with(" refused 3\n"));
}

/* A NAME that claims an address keeps frames to it on its segment, also once the gateway has begun anew. */
static void try_claims(void)
{
    check("a claim crosses", crosses(0, 0x18EEFF80));
    check("a frame to the claimed address stays", !crosses(0, 0x18EF8003));
    check("one from the other segment crosses", crosses(1, 0x18EF8003));
}

static void try_other_messages(void)
{
    struct can_frame error = frame_of(CAN_ERR_FLAG | 0x4, 0);
    struct canfd_frame fd = {.can_id = CAN_EFF_FLAG | 0x18FEF100, .len = 64};
    put(0, &error);
    send(near[0], &fd, sizeof fd, 0);
    send(near[0], &error, 5, 0);
    check("a frame behind them crosses", crosses(0, 0x18FEF100));
    signal_and_listen(0);
    check("they are counted", strstr(heard, " errors 1 fd 1 cut 1 refused 0\nport 1") != NULL);
}

static const char engine[] = "[[rule]]\naction = \"block\"\npgn = 65266\n[[rule]]\naction = \"pass\"\n";

static void try_tables(void)
{
    check("a frame is blocked", !crosses(0, 0x18FEF200));
    write_table(1, "[[rule]]\naction = \"pass\"\npgn = 70000000\n");
    signal_and_listen(SIGHUP);
    check("a refused table is told", strstr(heard, "1.toml:3:1: refused 53: `pgn` of rule 0 ") != NULL);
    write_table(1, "rule = [\n");
    signal_and_listen(SIGHUP);
    check("a text that is no TOML is told", strstr(heard, ": refused 50: the table is no TOML document: ") != NULL);
    write_table(1, "");
    signal_and_listen(SIGHUP);
    check("an empty file is told", strstr(heard, "1.toml: the file is empty\n") != NULL);
    check("they are counted", ends_with(" refused 3\n"));
    check("what is in force stays", !crosses(0, 0x18FEF200) && crosses(0, 0x18FEE500));
    write_table(1, "[[rule]]\naction = \"pass\"\n");
    signal_and_listen(SIGHUP);
    check("a new table is in force", crosses(0, 0x18FEF200));
    write_table(1, engine);
    signal_and_listen(SIGHUP);
    check("the old one is again", !crosses(0, 0x18FEF200));
}

/* How many frames the relay has taken at port 0. */
static uint64_t taken(void)
{
    signal_and_listen(0);
    const char *found = strstr(heard, " taken ");
    return found != NULL ? strtoull(found + strlen(" taken "), NULL, 10) : 0;
}

/* Copies that no one took yet leave before the relay ends. It takes no frame once it is to end, so it is told to when it has
 * taken all: where others have the processor, frames still wait for it behind the signal of the counters. */
static void try_end(void)
{
    struct can_frame found;
    unsigned came = 0;
    int status;
    uint64_t before = taken();
    for (unsigned i = 0; i < 500; i++) {
        struct can_frame frame = frame_of(0x18FEF100, i);
        put(0, &frame);
    }
    for (int waited = 0; waited < PATIENCE && taken() < before + 500; waited++)
        usleep(1000);
    kill(child, SIGTERM);
    while (came < 500 && get(1, PATIENCE, &found))
        came++;
    listen_to_counters();
    check("what waits leaves", came == 500);
    check("the relay ends", waitpid(child, &status, 0) == child && WIFEXITED(status) && WEXITSTATUS(status) == 0);
}

int main(int count, char **words)
{
    if (count != 3)
        return 2;
    relay = words[1];
    folder = words[2];
    signal(SIGPIPE, SIG_IGN);
    write_table(0, "[[rule]]\naction = \"pass\"\n");
    write_table(1, engine);
    start("100000");
    try_claims();
    try_tables();
    try_many();
    try_claims();
    try_other_messages();
    try_end();
    printf("%u passed, %u failed\n", passed, failed);
    return failed != 0;
}
