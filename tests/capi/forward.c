/*
 * A million frames through a gateway of three ports, whose lanes are emptied now and then: the outcome of each must be what the
 * same policies say of it by jgw_passes, and what claims say by jgw_claims_local. Each copy must come once, in the order of its
 * ingress port, and none may be lost. The last line is `N passed, M failed`, counting rounds and the counters of ports.
 */
#include "j1939gw.h"

#include <stdio.h>
#include <string.h>

enum { PORTS = 3, LANE = 64, ROUNDS = 1000, FRAMES = 1000 };

static const char *const tables[PORTS] = {
    "default = \"pass\"\nother = \"block\"\n[[rule]]\naction = \"block\"\npgn = 61440\n"
    "[[rule]]\naction = \"block\"\nsource = [1, 9]\n",
    "[[rule]]\naction = \"pass\"\nfrom = 2\n[[rule]]\naction = \"pass\"\npgn = [61184, 61444]\n",
    "default = \"pass\"\nother = \"pass\"\n[[rule]]\naction = \"block\"\npgn = 61443\nfrom = 0\n",
};

static struct jgw_handle gateway = JGW_NOTHING, policies[PORTS], claims[PORTS];
static struct jgw_copy waiting[PORTS][PORTS][LANE]; /* by ingress and egress port */
static unsigned first[PORTS][PORTS], last[PORTS][PORTS];
static uint64_t taken[PORTS], local[PORTS], allowed[PORTS], sent[PORTS][PORTS];

static uint32_t random_number(void)
{
    static uint32_t state = 2463534242u;
    state ^= state << 13;
    state ^= state >> 17;
    state ^= state << 5;
    return state;
}

/* Groups that the tables name, proprietary A to some addresses, claims of these, and frames of 11 bits. */
static struct can_frame next_frame(void)
{
    uint32_t kind = random_number() % 8, source = random_number() % 16, octets = random_number();
    struct can_frame frame;
    memset(&frame, 0, sizeof frame);
    frame.len = 8;
    memcpy(frame.data, &octets, sizeof octets);
    if (kind == 0)
        frame.can_id = random_number() % 0x800;
    else if (kind == 1)
        frame.can_id = 0x98EEFF00 | source;
    else if (kind < 4)
        frame.can_id = 0x98EF0000 | (random_number() % 16) << 8 | source;
    else
        frame.can_id = 0x98F00000 | (kind - 4) << 8 | source;
    return frame;
}

static bool open_gateway(void)
{
    struct jgw_handle batch = JGW_NOTHING;
    if (jgw_gateway_open(PORTS, LANE, ROUNDS * FRAMES, 1, &gateway) != JGW_OK || jgw_batch_new(&batch) != JGW_OK)
        return false;
    for (uint8_t port = 0; port < PORTS; port++)
        if (jgw_policy_from_table(tables[port], strlen(tables[port]), &policies[port], NULL) != JGW_OK
            || jgw_claims_new(&claims[port]) != JGW_OK || jgw_batch_add(&batch, port, &policies[port]) != JGW_OK)
            return false;
    return jgw_gateway_publish(&gateway, &batch, NULL) == JGW_OK;
}

/* Whether a frame that is offered has the outcome that policies and claims say. */
static bool offer(uint8_t port, const struct can_frame *frame)
{
    struct jgw_outcome outcome;
    uint32_t is_local = jgw_claims_local(&claims[port], frame), mask = 0;
    for (uint8_t to = 0; to < PORTS; to++)
        if (to != port && is_local == 0 && jgw_passes(&policies[to], frame, port)) {
            waiting[port][to][last[port][to]++ % LANE] = (struct jgw_copy){*frame, (uint32_t)taken[port], port};
            mask |= 1u << to;
            allowed[port]++;
        }
    local[port] += is_local;
    return jgw_offer(&gateway, port, frame, &outcome) == JGW_OK && outcome.number == taken[port]++ && outcome.front == 1
           && outcome.local == is_local && outcome.allowed == mask && outcome.placed == mask
           && jgw_claims_hear(&claims[port], frame) == JGW_OK;
}

/* Whether each copy that a port sends is the oldest that must wait there of its ingress port, and none is left. */
static bool empty_lanes(uint8_t to)
{
    struct jgw_copy copy;
    uint32_t refused;
    while ((refused = jgw_next(&gateway, to, &copy)) == JGW_OK) {
        const struct jgw_copy *due = &waiting[copy.from][to][first[copy.from][to] % LANE];
        if (first[copy.from][to]++ == last[copy.from][to] || copy.number != due->number
            || memcmp(&copy.frame, &due->frame, sizeof copy.frame) != 0)
            return false;
        sent[copy.from][to]++;
    }
    for (uint8_t from = 0; from < PORTS; from++)
        if (first[from][to] != last[from][to])
            return false;
    return refused == JGW_NO_COPY;
}

/* Whether the counters of a port are what was counted here. */
static bool counts(uint8_t port)
{
    struct jgw_counters_in in;
    struct jgw_counters_out out;
    if (jgw_gateway_counters_in(&gateway, port, &in) != JGW_OK || jgw_gateway_counters_out(&gateway, port, &out) != JGW_OK)
        return false;
    for (uint8_t from = 0; from < PORTS; from++)
        if (out.sent[from] != sent[from][port])
            return false;
    return in.taken == taken[port] && in.local == local[port] && in.allowed == allowed[port] && in.placed == in.allowed
           && in.lost == 0 && in.local > 0 && in.allowed > 0;
}

/* Whether all is as it must be of so many frames, whose copies are taken out at the latest when a lane may be full. */
static bool forward(unsigned frames)
{
    bool as_said = true;
    for (unsigned i = 0; i < frames; i++) {
        struct can_frame frame = next_frame();
        as_said = offer((uint8_t)(random_number() % PORTS), &frame) && as_said;
        if (i % LANE == LANE - 1 || i + 1 == frames)
            for (uint8_t to = 0; to < PORTS; to++)
                as_said = empty_lanes(to) && as_said;
    }
    return as_said;
}

int main(void)
{
    unsigned passed = 0, failed = 0;
    if (!open_gateway())
        return 1;
    for (unsigned round = 0; round < ROUNDS; round++) {
        bool as_said = forward(FRAMES);
        passed += as_said;
        failed += !as_said;
    }
    for (uint8_t port = 0; port < PORTS; port++) {
        passed += counts(port);
        failed += !counts(port);
        jgw_free(&policies[port]);
        jgw_free(&claims[port]);
    }
    jgw_free(&gateway);
    printf("%u passed, %u failed\n", passed, failed);
    return failed != 0;
}
