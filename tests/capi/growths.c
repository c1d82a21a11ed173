/*
 * Makes each thing that takes memory, and writes what each call answered, and what its policy then says of a frame. It takes no
 * memory itself: tests/run-capi refuses each growth of it in turn. Then comes code with a word that is unset, and how many
 * instructions its path has. Last comes a gateway, at which the policy of a table is published and a frame is offered, and where
 * copies of this wait.
 */
#include "j1939gw.h"

#include <string.h>
#include <unistd.h>

static char line[256];
static size_t at;

static void say(uint32_t number)
{
    char digits[10];
    size_t count = 0;
    do
        digits[count++] = (char)('0' + number % 10);
    while (number /= 10);
    while (count)
        line[at++] = digits[--count];
    line[at++] = ' ';
}

static struct can_frame a_frame(void)
{
    struct can_frame frame;
    memset(&frame, 0, sizeof frame);
    frame.can_id = 0x8CF00400;
    frame.len = 8;
    return frame;
}

static void say_both(uint32_t made, struct jgw_handle *policy)
{
    struct can_frame frame = a_frame();
    say(made);
    say(jgw_verdict(policy, &frame, 0));
}

static void say_path(void)
{
    static const char unset[] = "4,21 0 1 0,2 0 0 3,96 0 0 3,22 0 0 0,";
    struct jgw_handle policy = JGW_NOTHING;
    struct jgw_error error;
    say(jgw_policy_from_listing(unset, sizeof unset - 1, &policy, &error));
    say(error.steps);
}

static void say_gateway(struct jgw_handle *policy)
{
    struct jgw_handle gateway = JGW_NOTHING, batch = JGW_NOTHING;
    struct can_frame frame = a_frame();
    struct jgw_outcome outcome = {0, 0, 0, 0, 0};
    say(jgw_gateway_open(2, 4, 9, 2, &gateway));
    say(jgw_batch_new(&batch));
    say(jgw_batch_add(&batch, 1, policy));
    say(jgw_gateway_publish(&gateway, &batch, NULL));
    say(jgw_offer(&gateway, 0, &frame, &outcome));
    say(outcome.placed);
    jgw_free(&batch);
    jgw_free(&gateway);
}

int main(void)
{
    static const struct sock_filter code[] = {{0x30, 0, 0, 1}, {0x16, 0, 0, 0}};
    static const char listing[] = "2,48 0 0 1,22 0 0 0,", assembler[] = "ldb [1]\nret a\n";
    static const char table[] = "default = \"pass\"\n[[rule]]\naction = \"block\"\npgn = 1\n";
    struct jgw_handle policies[5] = {JGW_NOTHING, JGW_NOTHING, JGW_NOTHING, JGW_NOTHING, JGW_NOTHING}, claims = JGW_NOTHING;
    say_both(jgw_policy_from_code(code, 2, &policies[0], NULL), &policies[0]);
    say_both(jgw_policy_from_listing(listing, sizeof listing - 1, &policies[1], NULL), &policies[1]);
    say_both(jgw_policy_from_assembler(assembler, sizeof assembler - 1, &policies[2], NULL), &policies[2]);
    say_both(jgw_policy_from_table(table, sizeof table - 1, &policies[3], NULL), &policies[3]);
    say_both(jgw_policy_share(&policies[3], &policies[4]), &policies[4]);
    say(jgw_claims_new(&claims));
    say_path();
    say_gateway(&policies[3]);
    for (int i = 0; i < 5; i++)
        jgw_free(&policies[i]);
    jgw_free(&claims);
    line[at - 1] = '\n';
    return write(1, line, at) < 0;
}
