/* The records that every program is run on. */
#include "bench.h"

static uint32_t next_random(void)
{
    static uint64_t state = 1;
    state = state * 6364136223846793005u + 1442695040888963407u;
    return (uint32_t)(state >> 33);
}

/*
 * A vehicle's bus: what each node sends, with its priority, PGN, destination (of a PDU1 group), source and period in
 * milliseconds. Periods are those of SAE J1939-71 where it has the group, as 10 ms for EEC1 and 1 s for DM1.
 */
static const struct message {
    uint32_t priority, pgn, destination, source, period;
} schedule[] = {
    {3, 61444, 0, 0x00, 10},      /* EEC1, engine */
    {3, 61442, 0, 0x03, 10},      /* ETC1, transmission */
    {3, 61443, 0, 0x00, 50},      /* EEC2, engine */
    {6, 61441, 0, 0x0b, 100},     /* EBC1, brakes */
    {6, 65265, 0, 0x00, 100},     /* CCVS, engine */
    {6, 65266, 0, 0x00, 100},     /* LFE, engine */
    {6, 65280, 0, 0x21, 20},      /* proprietary B, body controller */
    {6, 65313, 0, 0x27, 50},      /* proprietary B, management computer */
    {6, 61184, 0x17, 0x21, 100},  /* proprietary A, body controller to instruments */
    {7, 60160, 0xff, 0x00, 50},   /* transport data, engine to all */
    {7, 60416, 0xff, 0x00, 400},  /* transport connection management, engine to all */
    {6, 59904, 0x00, 0x17, 500},  /* request, instruments to engine */
    {6, 65226, 0, 0x00, 1000},    /* DM1, engine */
    {6, 65226, 0, 0x03, 1000},    /* DM1, transmission */
    {6, 65226, 0, 0x0b, 1000},    /* DM1, brakes */
    {6, 65262, 0, 0x00, 1000},    /* ET1, engine */
    {6, 60928, 0xff, 0x27, 2000}, /* address claimed, management computer */
};

enum { MESSAGES = sizeof schedule / sizeof schedule[0] };

static uint32_t identifier(const struct message *m)
{
    uint32_t is_pdu1 = m->pgn % 65536 < 240 * 256;
    return 0x80000000u | m->priority << 26 | (m->pgn + (is_pdu1 ? m->destination : 0)) << 8 | m->source;
}

static void write_record(uint8_t *record, uint32_t word)
{
    for (int o = 0; o < 16; o++)
        record[o] = (uint8_t)next_random();
    for (int o = 0; o < 4; o++)
        record[o] = (uint8_t)(word >> (24 - 8 * o));
    record[4] = 8;
    record[5] = record[6] = record[7] = 0;
}

/* The first records of the bus, millisecond by millisecond; each message begins at a time of its own. */
void write_records(uint8_t (*records)[16])
{
    int written = 0;
    for (uint32_t now = 0; written < RECORDS; now++)
        for (int m = 0; m < MESSAGES && written < RECORDS; m++)
            if ((now + 3 * m) % schedule[m].period == 0)
                write_record(records[written++], identifier(&schedule[m]));
}
