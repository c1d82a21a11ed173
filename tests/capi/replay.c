/*
 * Answers a script of docs/FORMATS.md on standard input by the calls of a gateway, as `gw replay` does. The library sends copies
 * in a circle alone: `send` is answered where the next copy is of the ingress port that it names. A copy to its own port is
 * refused here. Records have 16 octets.
 */
#include "j1939gw.h"

#include <stdio.h>
#include <string.h>

static struct jgw_handle gateway = JGW_NOTHING, batch = JGW_NOTHING;

/* Reads pairs of hexadecimal digits, and answers how many there are. */
static size_t read_octets(const char *digits, uint8_t *octets)
{
    size_t count = 0;
    for (unsigned octet; sscanf(digits + 2 * count, "%2x", &octet) == 1; count++)
        octets[count] = (uint8_t)octet;
    return count;
}

static struct can_frame read_record(const char *digits)
{
    uint8_t octets[4096];
    struct can_frame frame;
    read_octets(digits, octets);
    memcpy(&frame, octets, sizeof frame);
    frame.can_id = (uint32_t)octets[0] << 24 | (uint32_t)octets[1] << 16 | (uint32_t)octets[2] << 8 | octets[3];
    return frame;
}

static void write_record(const struct can_frame *frame)
{
    uint8_t octets[sizeof *frame];
    memcpy(octets, frame, sizeof octets);
    printf("%08x", (unsigned)frame->can_id);
    for (size_t i = 4; i < sizeof octets; i++)
        printf("%02x", octets[i]);
}

static void write_ports(uint32_t mask)
{
    const char *between = " ";
    for (unsigned port = 0; port < 16; port++)
        if (mask >> port & 1) {
            printf("%s%u", between, port);
            between = ",";
        }
    if (mask == 0)
        fputs(" -", stdout);
}

static uint32_t join(unsigned port, const char *word, const char *text)
{
    struct jgw_handle policy = JGW_NOTHING;
    uint8_t octets[4096];
    uint32_t refused = word[0] == 'p' ? jgw_policy_from_listing(text, strlen(text), &policy, NULL)
                                      : jgw_policy_from_table((char *)octets, read_octets(text, octets), &policy, NULL);
    if (refused == JGW_OK && !batch.there)
        refused = jgw_batch_new(&batch);
    if (refused == JGW_OK)
        refused = jgw_batch_add(&batch, (uint8_t)port, &policy);
    jgw_free(&policy);
    if (refused == JGW_OK)
        printf("%s %u\n", word, port);
    return refused;
}

static uint32_t publish(void)
{
    uint32_t front, refused = batch.there ? (uint32_t)JGW_OK : jgw_batch_new(&batch);
    if (refused == JGW_OK)
        refused = jgw_gateway_publish(&gateway, &batch, &front);
    if (refused == JGW_OK)
        printf("published %u\n", (unsigned)front);
    return refused;
}

static uint32_t take(unsigned port, const char *digits)
{
    struct can_frame frame = read_record(digits);
    struct jgw_taken taken;
    uint32_t refused = jgw_gateway_take(&gateway, (uint8_t)port, &frame, &taken);
    if (refused == JGW_OK)
        printf("taken %u %u%s\n", (unsigned)taken.number, (unsigned)taken.front, taken.local ? " local" : "");
    return refused;
}

static uint32_t make_step(unsigned port)
{
    static const char *const words[] = {"stepped", "placed", "lost", "finished"};
    struct jgw_step step;
    uint32_t refused = jgw_gateway_step(&gateway, (uint8_t)port, &step);
    if (refused != JGW_OK)
        return refused;
    fputs(words[step.what], stdout);
    if (step.to != JGW_NONE)
        printf(" %u", (unsigned)step.to);
    if (step.what == JGW_FINISHED) {
        printf(" %u %u", (unsigned)step.outcome.number, (unsigned)step.outcome.front);
        write_ports(step.outcome.allowed);
        write_ports(step.outcome.placed);
    }
    putchar('\n');
    return JGW_OK;
}

static uint32_t send_copy(unsigned to, unsigned from)
{
    struct jgw_copy copy;
    uint32_t refused = to == from ? (uint32_t)JGW_NO_SUCH_PORT : jgw_next(&gateway, (uint8_t)to, &copy);
    if (refused == JGW_OK && copy.from == from) {
        printf("sent %u %u ", from, (unsigned)copy.number);
        write_record(&copy.frame);
        putchar('\n');
    } else if (refused == JGW_NO_COPY) {
        puts("empty");
        refused = JGW_OK;
    }
    return refused;
}

static uint32_t write_counters(unsigned port)
{
    struct jgw_counters_in counters;
    uint32_t refused = jgw_gateway_counters_in(&gateway, (uint8_t)port, &counters);
    if (refused == JGW_OK)
        printf("ledger %u %u %u %u %u\n", (unsigned)counters.taken, (unsigned)counters.local, (unsigned)counters.allowed,
               (unsigned)counters.placed, (unsigned)counters.lost);
    return refused;
}

/* Answers one line, or refuses it. */
static uint32_t answer(const char *line)
{
    char word[16] = "", text[4096] = "";
    unsigned numbers[4];
    uint32_t refused;
    if (sscanf(line, "limits %u %u %u %u", &numbers[0], &numbers[1], &numbers[2], &numbers[3]) == 4) {
        refused = jgw_gateway_open(numbers[0], numbers[1], numbers[3], numbers[2], &gateway);
        if (refused == JGW_OK)
            puts("limits");
        return refused;
    }
    if (!gateway.there || sscanf(line, "%15s %u %4095[^\n]", word, &numbers[0], text) < 1)
        return 98;
    if (strcmp(word, "program") == 0 || strcmp(word, "table") == 0)
        return join(numbers[0], word, text);
    if (strcmp(word, "publish") == 0)
        return publish();
    if (strcmp(word, "take") == 0)
        return take(numbers[0], text);
    if (strcmp(word, "step") == 0)
        return make_step(numbers[0]);
    if (strcmp(word, "ledger") == 0)
        return write_counters(numbers[0]);
    if (sscanf(line, "send %u %u", &numbers[0], &numbers[1]) == 2)
        return send_copy(numbers[0], numbers[1]);
    return 98;
}

int main(void)
{
    char line[8192];
    while (fgets(line, sizeof line, stdin) != NULL) {
        uint32_t refused = line[0] == '#' || line[0] == '\n' ? (uint32_t)JGW_OK : answer(line);
        if (refused != JGW_OK)
            printf("refused %u\n", (unsigned)refused);
    }
    jgw_free(&batch);
    jgw_free(&gateway);
    return 0;
}
