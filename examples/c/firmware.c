/*
 * Joins two buses in a firmware without Linux and without files: a table for what leaves onto bus 1, and code for bus 0. Arrays
 * stand for what the drivers took in, and a printed line for what they send. At its end stand the counters.
 */
#define J1939GW_OWN_TYPES
#include "j1939gw.h"

#include <stdio.h>

enum { PORTS = 2, LANE = 8, VERSIONS = 4, ROOM = 4 };

/* Onto bus 1: the engine's speed (EEC1, PGN 61444) from the engine, and proprietary B of bus 0. */
static const char table[] = "[[rule]]\naction = \"pass\"\npgn = 61444\nsource = 0\n"
                            "[[rule]]\naction = \"pass\"\npgn = [65280, 65535]\nfrom = 0\n";

/* Onto bus 0: requests alone (PGN 59904): an extended data frame of data page 0 whose PDU format is EA. */
static const struct sock_filter code[] = {
    {0x20, 0, 0, 0},          /* ld [0]: the identifier word */
    {0x54, 0, 0, 0xE3FF0000}, /* and #0xE3FF0000: the flags, the pages and the PDU format */
    {0x15, 0, 1, 0x80EA0000}, /* jeq #0x80EA0000, pass, block */
    {0x06, 0, 0, 1},          /* pass: ret #1 */
    {0x06, 0, 0, 0},          /* block: ret #0 */
};

/* What the drivers took in: engine speed, vehicle speed and proprietary B at bus 0; a request and a DM1 at bus 1. */
static const struct can_frame taken[PORTS][3] = {
    {{.can_id = 0x0CF00400 | CAN_EFF_FLAG, .len = 8},
     {.can_id = 0x18FEF100 | CAN_EFF_FLAG, .len = 8},
     {.can_id = 0x18FF2000 | CAN_EFF_FLAG, .len = 8}},
    {{.can_id = 0x18EA00F9 | CAN_EFF_FLAG, .len = 3, .data = {0xE5, 0xFE, 0x00}},
     {.can_id = 0x18FECAF9 | CAN_EFF_FLAG, .len = 8},
     {.can_id = 0x7DF, .len = 8}},
};

static struct jgw_handle gateway = JGW_NOTHING;

/* Opens the gateway, and brings both policies into force. `error` says why a policy is refused. */
static uint32_t begin(struct jgw_error *error)
{
    struct jgw_handle policies[PORTS] = {JGW_NOTHING, JGW_NOTHING}, batch = JGW_NOTHING;
    uint32_t refused = jgw_policy_from_code(code, sizeof code / sizeof *code, &policies[0], error);
    if (refused == JGW_OK)
        refused = jgw_policy_from_table(table, sizeof table - 1, &policies[1], error);
    if (refused == JGW_OK)
        refused = jgw_batch_new(&batch);
    for (uint8_t port = 0; refused == JGW_OK && port < PORTS; port++)
        refused = jgw_batch_add(&batch, port, &policies[port]);
    if (refused == JGW_OK)
        refused = jgw_gateway_open(PORTS, LANE, UINT32_MAX, VERSIONS, &gateway);
    if (refused == JGW_OK)
        refused = jgw_gateway_publish(&gateway, &batch, NULL);
    for (uint8_t port = 0; port < PORTS; port++)
        jgw_free(&policies[port]);
    jgw_free(&batch);
    return refused;
}

/* Has a driver send what waits for it, as many copies at once as it has room for. */
static void send(uint8_t port)
{
    struct jgw_copy copies[ROOM];
    uint32_t count = 0;
    do {
        jgw_next_many(&gateway, port, copies, ROOM, &count);
        for (uint32_t i = 0; i < count; i++)
            printf("bus %u: %08X\n", (unsigned)port, (unsigned)(copies[i].frame.can_id & ~CAN_EFF_FLAG));
    } while (count == ROOM);
}

int main(void)
{
    struct jgw_error error = {.message = "memory was refused"};
    struct jgw_counters_in in;
    if (begin(&error) != JGW_OK) {
        fprintf(stderr, "table:%u:%u: %s\n", (unsigned)error.line, (unsigned)error.column, error.message);
        return 1;
    }
    for (size_t i = 0; i < sizeof taken[0] / sizeof *taken[0]; i++) {
        for (uint8_t port = 0; port < PORTS; port++)
            jgw_offer(&gateway, port, &taken[port][i], NULL);
        for (uint8_t port = 0; port < PORTS; port++)
            send(port);
    }
    for (uint8_t port = 0; port < PORTS && jgw_gateway_counters_in(&gateway, port, &in) == JGW_OK; port++)
        printf("bus %u: taken %u allowed %u lost %u\n", (unsigned)port, (unsigned)in.taken, (unsigned)in.allowed,
               (unsigned)in.lost);
    jgw_free(&gateway);
    return 0;
}
