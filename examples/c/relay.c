/*
 * Joins two to sixteen CAN interfaces by a gateway. The first one named is port 0. What may leave at a port is what its table
 * passes; where none is named, nothing leaves.
 *
 *     relay [-l LANE] [-f FRAMES] [-v VERSIONS] can0[=TABLE] can1[=TABLE] ..
 *
 * SIGHUP reads the tables again: all come into force together, or none where one is refused. Write a new table beside the old
 * one and rename it. SIGUSR1 tells the counters on stderr. SIGTERM and SIGINT send what waits, for a second at most, and end.
 *
 * `fd:N` in place of an interface is an open socket that gives and takes `struct can_frame`, a message a frame. So it was
 * tried, not on a bus. Two gateways between the same buses send the same frames round, and neither can know.
 */
#define _GNU_SOURCE
#include "j1939gw.h"

#include <errno.h>
#include <inttypes.h>
#include <linux/can/error.h>
#include <linux/can/raw.h>
#include <net/if.h>
#include <signal.h>
#include <stdio.h>
#include <stdlib.h>
#include <string.h>
#include <sys/epoll.h>
#include <sys/signalfd.h>
#include <sys/socket.h>
#include <time.h>
#include <unistd.h>

enum { PORTS = 16, ROOM = 64, RETRY = 1, DRAIN = 1000 };

struct port {
    const char *name, *table;
    int fd;
    uint32_t asked;                             /* the events of epoll that are asked for */
    bool full;                                  /* the interface's queue is full, which EPOLLOUT does not tell */
    struct jgw_counters_in before;              /* what was counted before the gateway began anew */
    uint64_t sent, unsent;                      /* copies that were written, and that the interface refused */
    uint64_t errors, fd_frames, cut, not_taken; /* messages that were not offered, and frames that were refused */
};

static struct port ports[PORTS];
static unsigned count;
static struct jgw_handle gateway;
static uint32_t lane = 1024, frames = UINT32_MAX, versions = 1000, front;
static uint64_t begun = 1, refused_tables;
static uint64_t deadline; /* of the copies that wait once the relay is to end, else 0 */
static bool is_spent;     /* the gateway nears its limits, and is to begin anew once no copy waits */
static char text[1 << 20];
static int poll_set;

/* ---- Tables ---- */

/* The length of a file's text, or 0 where there is none to be used. An empty table blocks all: mostly a file half written. */
static size_t read_text(const char *path)
{
    FILE *file = fopen(path, "rb");
    size_t length = file != NULL ? fread(text, 1, sizeof text, file) : 0;
    if (file == NULL || fclose(file) != 0)
        fprintf(stderr, "relay: %s: %s\n", path, strerror(errno));
    else if (length == 0 || length == sizeof text)
        fprintf(stderr, "relay: %s: %s\n", path, length == 0 ? "the file is empty" : "the file is too long");
    else
        return length;
    return 0;
}

static bool read_table(const char *path, struct jgw_handle *policy)
{
    struct jgw_error error;
    size_t length = read_text(path);
    if (length == 0)
        return false;
    if (jgw_policy_from_table(text, length, policy, &error) == JGW_OK)
        return true;
    fprintf(stderr, "relay: %s", path);
    if (error.line != JGW_NONE)
        fprintf(stderr, ":%" PRIu32 ":%" PRIu32, error.line, error.column);
    fprintf(stderr, ": refused %" PRIu32 ": %s\n", error.number, error.message);
    return false;
}

/* Joins the policy of each port's table to a batch. */
static bool join_tables(struct jgw_handle *batch)
{
    struct jgw_handle policy = JGW_NOTHING;
    bool joined = true;
    for (unsigned p = 0; joined && p < count; p++)
        joined = ports[p].table == NULL
                 || (read_table(ports[p].table, &policy) && jgw_batch_add(batch, (uint8_t)p, &policy) == JGW_OK);
    jgw_free(&policy);
    return joined;
}

/* Reads the tables, and brings all into force. What is in force stays where one is refused. */
static bool load(void)
{
    struct jgw_handle batch = JGW_NOTHING;
    bool loaded = jgw_batch_new(&batch) == JGW_OK && join_tables(&batch)
                  && jgw_gateway_publish(&gateway, &batch, &front) == JGW_OK;
    jgw_free(&batch);
    is_spent = is_spent || front == versions;
    return loaded;
}

/* ---- A gateway takes so many frames a port and so many batches, and begins anew before ---- */

static void keep_counts(unsigned p, const struct jgw_counters_in *counted)
{
    struct jgw_counters_in *before = &ports[p].before;
    before->taken += counted->taken;
    before->local += counted->local;
    before->allowed += counted->allowed;
    before->placed += counted->placed;
    before->lost += counted->lost;
}

/* The policies in force and the address claims stay. It is refused while a copy waits, and tried again. */
static void begin_anew(void)
{
    struct jgw_counters_in counted[PORTS];
    for (unsigned p = 0; p < count; p++)
        jgw_gateway_counters_in(&gateway, (uint8_t)p, &counted[p]);
    if (jgw_gateway_renew(&gateway) != JGW_OK)
        return;
    for (unsigned p = 0; p < count; p++)
        keep_counts(p, &counted[p]);
    front = 1;
    is_spent = false;
    begun++;
}

/* ---- Frames ---- */

/* Asks for other events of a port. */
static void ask(unsigned p, uint32_t events)
{
    struct epoll_event event = {.events = events, .data.u32 = p};
    if (events != ports[p].asked)
        epoll_ctl(poll_set, EPOLL_CTL_MOD, ports[p].fd, &event);
    ports[p].asked = events;
}

/* Writes the copies that wait for a port, until it takes no more. A copy is taken off its lane once it was written. */
static void flush(unsigned p)
{
    struct port *port = &ports[p];
    struct jgw_copy copy;
    bool is_stuck = false;
    while (!is_stuck && jgw_peek(&gateway, (uint8_t)p, &copy) == JGW_OK) {
        bool is_sent = send(port->fd, &copy.frame, sizeof copy.frame, MSG_DONTWAIT | MSG_NOSIGNAL) >= 0;
        is_stuck = !is_sent && (errno == EAGAIN || errno == ENOBUFS);
        if (is_stuck || (!is_sent && errno == EINTR))
            continue;
        port->sent += is_sent;
        port->unsent += !is_sent;
        jgw_next(&gateway, (uint8_t)p, &copy);
    }
    port->full = is_stuck && errno == ENOBUFS;
    ask(p, (port->asked & ~(uint32_t)EPOLLOUT) | (is_stuck && !port->full ? EPOLLOUT : 0));
}

/* Offers the frame of a message. The ports for which a copy waits now are answered. */
static uint32_t offer(unsigned p, const struct can_frame *frame, unsigned length)
{
    struct port *port = &ports[p];
    struct jgw_outcome outcome;
    if (length != CAN_MTU) {
        port->fd_frames += length == CANFD_MTU;
        port->cut += length != 0 && length != CANFD_MTU; /* of no octets: the other end is closed */
        return 0;
    }
    if ((frame->can_id & CAN_ERR_FLAG) != 0) {
        port->errors++; /* tells of its own bus alone */
        return 0;
    }
    if (jgw_offer(&gateway, (uint8_t)p, frame, &outcome) != JGW_OK) {
        port->not_taken++;
        return 0;
    }
    is_spent = is_spent || outcome.number >= frames - 1 - frames / 16;
    return outcome.placed;
}

/* Takes what came in at a port, and sends what may leave elsewhere. */
static void take(unsigned p)
{
    struct canfd_frame in[ROOM];
    struct iovec parts[ROOM];
    struct mmsghdr messages[ROOM];
    uint32_t placed = 0;
    memset(messages, 0, sizeof messages);
    for (unsigned i = 0; i < ROOM; i++) {
        parts[i] = (struct iovec){&in[i], sizeof in[i]};
        messages[i].msg_hdr.msg_iov = &parts[i];
        messages[i].msg_hdr.msg_iovlen = 1;
    }
    int found = recvmmsg(ports[p].fd, messages, ROOM, MSG_DONTWAIT, NULL);
    for (int i = 0; i < found; i++)
        placed |= offer(p, (const struct can_frame *)&in[i], messages[i].msg_len);
    for (unsigned to = 0; to < count; to++)
        if ((placed >> to & 1) != 0 && (ports[to].asked & EPOLLOUT) == 0)
            flush(to);
}

/* Goes on without a port whose other end is closed. */
static void leave(unsigned p)
{
    fprintf(stderr, "relay: %s is gone\n", ports[p].name);
    epoll_ctl(poll_set, EPOLL_CTL_DEL, ports[p].fd, NULL);
}

/* ---- Signals ---- */

static void tell(const char *what, uint64_t number)
{
    fprintf(stderr, " %s %" PRIu64, what, number);
}

/* What each port counted; how many batches are published, how often the gateway began, and how often a table was refused. */
static void tell_counters(void)
{
    for (unsigned p = 0; p < count; p++) {
        const struct port *port = &ports[p];
        struct jgw_counters_in now;
        jgw_gateway_counters_in(&gateway, (uint8_t)p, &now);
        fprintf(stderr, "port %u %s", p, port->name);
        tell("taken", port->before.taken + now.taken);
        tell("local", port->before.local + now.local);
        tell("allowed", port->before.allowed + now.allowed);
        tell("placed", port->before.placed + now.placed);
        tell("lost", port->before.lost + now.lost);
        tell("sent", port->sent);
        tell("unsent", port->unsent);
        tell("errors", port->errors);
        tell("fd", port->fd_frames);
        tell("cut", port->cut);
        tell("refused", port->not_taken);
        fputc('\n', stderr);
    }
    fprintf(stderr, "front %" PRIu32, front);
    tell("begun", begun);
    tell("refused", refused_tables);
    fputc('\n', stderr);
}

static uint64_t milliseconds(void)
{
    struct timespec now;
    clock_gettime(CLOCK_MONOTONIC, &now);
    return (uint64_t)now.tv_sec * 1000 + (uint64_t)now.tv_nsec / 1000000;
}

/* Takes no more frames, and gives the copies that wait some time to leave. */
static void stop(void)
{
    deadline = milliseconds() + DRAIN;
    for (unsigned p = 0; p < count; p++)
        ask(p, ports[p].asked & ~(uint32_t)EPOLLIN);
}

static void obey(int signals)
{
    struct signalfd_siginfo info;
    while (read(signals, &info, sizeof info) == (ssize_t)sizeof info) {
        if (info.ssi_signo == SIGHUP)
            refused_tables += !load();
        else if (info.ssi_signo == SIGUSR1)
            tell_counters();
        else if (deadline == 0)
            stop();
    }
}

/* The signals as a descriptor. */
static int open_signals(void)
{
    struct epoll_event event = {.events = EPOLLIN, .data.u32 = PORTS};
    sigset_t set;
    sigemptyset(&set);
    sigaddset(&set, SIGHUP);
    sigaddset(&set, SIGUSR1);
    sigaddset(&set, SIGTERM);
    sigaddset(&set, SIGINT);
    sigprocmask(SIG_BLOCK, &set, NULL);
    int signals = signalfd(-1, &set, SFD_CLOEXEC | SFD_NONBLOCK);
    return signals >= 0 && epoll_ctl(poll_set, EPOLL_CTL_ADD, signals, &event) == 0 ? signals : -1;
}

/* ---- The relay ---- */

/* A socket of an interface. It gives no frame that it sent itself; it gives error and FD frames, which are counted. */
static int open_interface(const char *name)
{
    struct sockaddr_can address = {.can_family = AF_CAN, .can_ifindex = (int)if_nametoindex(name)};
    can_err_mask_t errors = CAN_ERR_MASK;
    int on = 1, off = 0, fd = socket(AF_CAN, SOCK_RAW | SOCK_CLOEXEC | SOCK_NONBLOCK, CAN_RAW);
    if (fd < 0)
        return -1;
    setsockopt(fd, SOL_CAN_RAW, CAN_RAW_RECV_OWN_MSGS, &off, sizeof off);
    setsockopt(fd, SOL_CAN_RAW, CAN_RAW_ERR_FILTER, &errors, sizeof errors);
    setsockopt(fd, SOL_CAN_RAW, CAN_RAW_FD_FRAMES, &on, sizeof on);
    if (address.can_ifindex != 0 && bind(fd, (struct sockaddr *)&address, sizeof address) == 0)
        return fd;
    close(fd);
    return -1;
}

/* Opens the port of a word: `can0`, `can0=TABLE`, `fd:3`, `fd:3=TABLE`. */
static bool open_port(char *word)
{
    struct port *port = &ports[count];
    char *equals = strchr(word, '=');
    if (equals != NULL) {
        *equals = '\0';
        port->table = equals + 1;
    }
    port->name = word;
    port->fd = strncmp(word, "fd:", 3) == 0 ? atoi(word + 3) : open_interface(word);
    port->asked = EPOLLIN;
    struct epoll_event event = {.events = EPOLLIN, .data.u32 = count};
    if (port->fd < 0 || epoll_ctl(poll_set, EPOLL_CTL_ADD, port->fd, &event) != 0) {
        fprintf(stderr, "relay: %s: %s\n", word, strerror(errno));
        return false;
    }
    count++;
    return true;
}

static bool is_waiting(void)
{
    struct jgw_copy copy;
    for (unsigned p = 0; p < count; p++)
        if (jgw_peek(&gateway, (uint8_t)p, &copy) == JGW_OK)
            return true;
    return false;
}

/* Writes again where the queue of an interface was full, and tells how long to wait: for ever, or a millisecond. */
static int retry(void)
{
    int wait = deadline != 0 ? RETRY : -1;
    for (unsigned p = 0; p < count; p++) {
        if (ports[p].full)
            flush(p);
        wait = ports[p].full ? RETRY : wait;
    }
    return wait;
}

static void handle(const struct epoll_event *event, int signals)
{
    unsigned p = event->data.u32;
    if (p == PORTS) {
        obey(signals);
        return;
    }
    if ((event->events & EPOLLOUT) != 0)
        flush(p);
    if ((event->events & EPOLLIN) != 0)
        take(p);
    if ((event->events & (EPOLLHUP | EPOLLERR)) != 0)
        leave(p);
}

static void run(int signals)
{
    struct epoll_event events[PORTS + 1];
    while (deadline == 0 || (is_waiting() && milliseconds() < deadline)) {
        int found = epoll_wait(poll_set, events, PORTS + 1, retry());
        for (int i = 0; i < found; i++)
            handle(&events[i], signals);
        if (is_spent)
            begin_anew();
    }
}

/* The options, and the index of the first port's word, or 0. */
static int options(int words, char **word)
{
    int option;
    while ((option = getopt(words, word, "l:f:v:")) != -1) {
        uint32_t value = optarg != NULL ? (uint32_t)strtoul(optarg, NULL, 10) : 0;
        if (option == '?')
            return 0;
        *(option == 'l' ? &lane : option == 'f' ? &frames : &versions) = value;
    }
    return words - optind >= 2 && words - optind <= PORTS ? optind : 0;
}

int main(int words, char **word)
{
    int first = options(words, word);
    if (first == 0) {
        fprintf(stderr, "relay [-l LANE] [-f FRAMES] [-v VERSIONS] INTERFACE[=TABLE] INTERFACE[=TABLE] ..\n");
        return 2;
    }
    poll_set = epoll_create1(EPOLL_CLOEXEC);
    for (int i = first; i < words; i++)
        if (!open_port(word[i]))
            return 1;
    uint32_t refused = jgw_gateway_open(count, lane, frames, versions, &gateway);
    if (refused != JGW_OK) {
        fprintf(stderr, "relay: refused %" PRIu32 "\n", refused);
        return 1;
    }
    int signals = open_signals();
    if (signals < 0 || !load())
        return 1;
    run(signals);
    tell_counters();
    jgw_free(&gateway);
    return 0;
}
