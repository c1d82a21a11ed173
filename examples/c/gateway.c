/*
 * Joins two buses, over a log of candump. What comes in at can0 leaves at can1 where the second table passes it, and what comes
 * in at can1 leaves at can0 where the first does:
 *
 *     gateway TABLE0 TABLE1 < LOG
 *
 * Each copy is written as a line of its egress interface. On live buses a socket is read in place of the log, and another is
 * written: a copy is shown first, and taken off its lane once it was written.
 */
#include "j1939gw.h"

#include <stdio.h>
#include <stdlib.h>
#include <string.h>

static char text[1 << 20];

/* Joins the table of a file to a batch, as the policy of an egress port. */
static bool join(struct jgw_handle *batch, uint8_t port, const char *path)
{
    FILE *file = fopen(path, "rb");
    size_t length = file != NULL ? fread(text, 1, sizeof text, file) : 0;
    struct jgw_handle policy = JGW_NOTHING;
    bool joined = file != NULL && fclose(file) == 0 && length < sizeof text
                  && jgw_policy_from_table(text, length, &policy, NULL) == JGW_OK
                  && jgw_batch_add(batch, port, &policy) == JGW_OK;
    jgw_free(&policy);
    return joined;
}

/* Reads `(time) canPORT IDENTIFIER#DATA`: 3 digits of identifier, or 8. Remote and error frames are left out. */
static bool read_line(const char *line, char *time, uint8_t *port, struct can_frame *frame)
{
    char identifier[9], data[17] = "";
    unsigned octet;
    memset(frame, 0, sizeof *frame);
    if (sscanf(line, "%31s can%2hhu %8[0-9A-F]#%16[0-9A-F]", time, port, identifier, data) < 3 || strchr(line, 'R') != NULL)
        return false;
    frame->can_id = (uint32_t)strtoul(identifier, NULL, 16) | (strlen(identifier) == 8 ? CAN_EFF_FLAG : 0);
    while (frame->len < 8 && sscanf(data + 2 * frame->len, "%2x", &octet) == 1)
        frame->data[frame->len++] = (uint8_t)octet;
    return *port < 2 && (frame->can_id & CAN_ERR_FLAG) == 0;
}

static void write_line(const char *time, uint8_t port, const struct can_frame *frame)
{
    bool extended = (frame->can_id & CAN_EFF_FLAG) != 0;
    printf("%s can%u %0*X#", time, (unsigned)port, extended ? 8 : 3, (unsigned)(frame->can_id & CAN_EFF_MASK));
    for (unsigned i = 0; i < frame->len; i++)
        printf("%02X", (unsigned)frame->data[i]);
    putchar('\n');
}

int main(int count, char **words)
{
    struct jgw_handle batch = JGW_NOTHING, gateway = JGW_NOTHING;
    struct can_frame frame;
    struct jgw_copy copy;
    char line[256], time[32];
    uint8_t port;
    if (count != 3 || jgw_batch_new(&batch) != JGW_OK || !join(&batch, 0, words[1]) || !join(&batch, 1, words[2])
        || jgw_gateway_open(2, 64, UINT32_MAX, 2, &gateway) != JGW_OK || jgw_gateway_publish(&gateway, &batch, NULL) != JGW_OK)
        return 2;
    while (fgets(line, sizeof line, stdin) != NULL) {
        if (!read_line(line, time, &port, &frame) || jgw_offer(&gateway, port, &frame, NULL) != JGW_OK)
            continue;
        for (uint8_t to = port == 0; jgw_peek(&gateway, to, &copy) == JGW_OK; jgw_next(&gateway, to, &copy))
            write_line(time, to, &copy.frame);
    }
    jgw_free(&gateway);
    return 0;
}
