/*
 * Judges frames by a policy of examples/, a table or a program in assembler text, and counts those whose verdict is the stated
 * one:
 *
 *     examples POLICY < FRAMES
 *
 * A line of FRAMES is `pass` or `block`, the ingress port, the record in hexadecimal digits, and a comment. The last line is
 * `N passed, M failed`.
 */
#include "j1939gw.h"

#include <stdio.h>
#include <stdlib.h>
#include <string.h>

static char text[1 << 20];

/* The octets of hexadecimal digits, as many as there are. */
static size_t read_octets(const char *digits, uint8_t *octets, size_t room)
{
    size_t length = 0;
    unsigned octet;
    while (length < room && sscanf(digits + 2 * length, "%2x", &octet) == 1)
        octets[length++] = (uint8_t)octet;
    return length;
}

/* The frame of a record: its identifier word is big-endian there. */
static bool read_frame(const char *digits, struct can_frame *frame)
{
    uint8_t octets[16] = {0};
    if (read_octets(digits, octets, sizeof octets) < 8 || octets[4] > 8)
        return false;
    memset(frame, 0, sizeof *frame);
    frame->can_id = (uint32_t)octets[0] << 24 | (uint32_t)octets[1] << 16 | (uint32_t)octets[2] << 8 | octets[3];
    frame->len = octets[4];
    memcpy(frame->data, octets + 8, frame->len);
    return true;
}

static bool read_policy(const char *name, struct jgw_handle *policy)
{
    FILE *file = fopen(name, "rb");
    size_t length = file != NULL ? fread(text, 1, sizeof text, file) : 0;
    if (file == NULL || fclose(file) != 0)
        return false;
    const char *kind = strrchr(name, '.');
    return (kind != NULL && strcmp(kind, ".toml") == 0 ? jgw_policy_from_table(text, length, policy, NULL)
                                                       : jgw_policy_from_assembler(text, length, policy, NULL))
           == JGW_OK;
}

int main(int count, char **words)
{
    struct jgw_handle policy = JGW_NOTHING;
    struct can_frame frame;
    char line[512], stated[6], digits[64];
    unsigned port, passed = 0, failed = 0;
    if (count != 2 || !read_policy(words[1], &policy))
        return 2;
    while (fgets(line, sizeof line, stdin) != NULL) {
        if (line[0] == '#' || sscanf(line, "%5s %u %63s", stated, &port, digits) != 3)
            continue;
        uint32_t wanted = strcmp(stated, "pass") == 0 ? JGW_PASS : JGW_BLOCK;
        bool is_so = read_frame(digits, &frame) && jgw_verdict(&policy, &frame, (uint8_t)port) == wanted;
        passed += is_so;
        failed += !is_so;
        if (!is_so)
            fputs(line, stdout);
    }
    jgw_free(&policy);
    printf("%u passed, %u failed\n", passed, failed);
    return failed != 0;
}
