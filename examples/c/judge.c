/*
 * Judges a log of candump by a table, as `gw judge` does:
 *
 *     judge TABLE PORT < LOG
 *
 * The lines whose frames pass are written, and then how many passed, were blocked and could not be read.
 */
#include "j1939gw.h"

#include <stdio.h>
#include <stdlib.h>
#include <string.h>

static char text[1 << 20];

/* Reads the table of a file as a policy. Write a table beside the old one and rename it: half a file may be a table too. */
static bool read_policy(const char *path, struct jgw_handle *policy)
{
    FILE *file = fopen(path, "rb");
    size_t length = file != NULL ? fread(text, 1, sizeof text, file) : 0;
    struct jgw_error error;
    if (file == NULL || fclose(file) != 0 || length == sizeof text)
        return false;
    if (jgw_policy_from_table(text, length, policy, &error) == JGW_OK)
        return true;
    fprintf(stderr, "%s: refused %u: %s\n", path, (unsigned)error.number, error.message);
    return false;
}

/* Reads `(time) interface IDENTIFIER#DATA` or `#R`: 3 digits of identifier, or 8. */
static bool read_frame(const char *line, struct can_frame *frame)
{
    char identifier[9], data[17] = "";
    unsigned octet;
    memset(frame, 0, sizeof *frame);
    if (sscanf(line, "%*s %*s %8[0-9A-F]#%16[0-9A-FR]", identifier, data) < 1)
        return false;
    frame->can_id = (uint32_t)strtoul(identifier, NULL, 16);
    if (strlen(identifier) == 8 && frame->can_id < CAN_ERR_FLAG)
        frame->can_id |= CAN_EFF_FLAG;
    if (data[0] == 'R')
        frame->can_id |= CAN_RTR_FLAG;
    while (frame->len < 8 && sscanf(data + 2 * frame->len, "%2x", &octet) == 1)
        frame->data[frame->len++] = (uint8_t)octet;
    return true;
}

int main(int count, char **words)
{
    struct jgw_handle policy = JGW_NOTHING;
    struct can_frame frame;
    char line[256];
    unsigned passed = 0, blocked = 0, unread = 0;
    if (count != 3 || !read_policy(words[1], &policy))
        return 2;
    while (fgets(line, sizeof line, stdin) != NULL) {
        if (!read_frame(line, &frame)) {
            unread++;
        } else if (jgw_passes(&policy, &frame, (uint8_t)atoi(words[2]))) {
            fputs(line, stdout);
            passed++;
        } else {
            blocked++;
        }
    }
    printf("passed %u blocked %u unread %u\n", passed, blocked, unread);
    jgw_free(&policy);
    return 0;
}
