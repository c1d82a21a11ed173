/*
 * Each call of a gateway by libj1939gw, right and wrong. What a call must answer is worked by hand from docs/FORMATS.md: which
 * ports a frame is offered to, and what the commands of scripts answer. The last line is `N passed, M failed`.
 */
#include "expect.h"
#include "j1939gw.h"

#include <stdio.h>
#include <string.h>

/* A frame of eight octets with this identifier word, the first octets of which are a number. */
static struct can_frame frame_of(uint32_t word, uint32_t number)
{
    struct can_frame frame;
    memset(&frame, 0xFF, sizeof frame);
    frame.can_id = word;
    frame.len = 8;
    memcpy(frame.data, &number, sizeof number);
    return frame;
}

static bool is_frame(const struct jgw_copy *copy, const struct can_frame *frame)
{
    return copy->frame.can_id == frame->can_id && copy->frame.len == frame->len && memcmp(copy->frame.data, frame->data, 8) == 0;
}

static bool says(const struct jgw_outcome *outcome, uint32_t number, uint32_t front, uint32_t local, uint32_t allowed,
                 uint32_t placed)
{
    return outcome->number == number && outcome->front == front && outcome->local == local && outcome->allowed == allowed
           && outcome->placed == placed;
}

static bool is_untouched(const struct jgw_outcome *outcome)
{
    return says(outcome, 7, 7, 7, 7, 7);
}

static uint32_t make_table(struct jgw_handle *policy, const char *text)
{
    return jgw_policy_from_table(text, strlen(text), policy, NULL);
}

static void test_limits(void)
{
    struct jgw_handle gateway = JGW_NOTHING;
    struct can_frame frame = frame_of(0x8CF00400, 1);
    EXPECT(jgw_gateway_open(1, 8, 8, 8, &gateway) == JGW_BAD_LIMIT && jgw_gateway_open(17, 8, 8, 8, &gateway) == JGW_BAD_LIMIT);
    EXPECT(jgw_gateway_open(3, 0, 8, 8, &gateway) == JGW_BAD_LIMIT && jgw_gateway_open(3, 1025, 8, 8, &gateway) == JGW_BAD_LIMIT);
    EXPECT(jgw_gateway_open(3, 8, 0, 8, &gateway) == JGW_BAD_LIMIT && jgw_gateway_open(3, 8, 8, 0, &gateway) == JGW_BAD_LIMIT);
    EXPECT(jgw_gateway_open(3, 8, 8, 65536, &gateway) == JGW_BAD_LIMIT && !gateway.there);
    EXPECT(jgw_gateway_open(2, 1, 1, 1, &gateway) == JGW_OK && jgw_offer(&gateway, 1, &frame, NULL) == JGW_OK);
    /* Refused, the handle keeps the gateway: its only frame was taken. */
    EXPECT(jgw_gateway_open(1, 1, 1, 1, &gateway) == JGW_BAD_LIMIT && jgw_offer(&gateway, 1, &frame, NULL) == JGW_FRAMES_SPENT);
    EXPECT(jgw_gateway_open(16, 1024, UINT32_MAX, 65535, &gateway) == JGW_OK && jgw_offer(&gateway, 15, &frame, NULL) == JGW_OK);
    EXPECT(jgw_offer(&gateway, 16, &frame, NULL) == JGW_NO_SUCH_PORT && jgw_gateway_open(2, 1, 1, 1, NULL) == JGW_NULL);
    jgw_free(&gateway);
    jgw_free(&gateway);
    EXPECT(jgw_offer(&gateway, 0, &frame, NULL) == JGW_WRONG_HANDLE);
}

static void test_batches(void)
{
    struct jgw_handle batch = JGW_NOTHING, policy = JGW_NOTHING, empty = JGW_NOTHING;
    struct can_frame frame = frame_of(0x8CF00400, 1);
    EXPECT(make_table(&policy, "default = \"pass\"") == JGW_OK && jgw_batch_add(&batch, 0, &policy) == JGW_WRONG_HANDLE);
    EXPECT(jgw_batch_new(&batch) == JGW_OK && jgw_batch_add(&batch, 3, &policy) == JGW_OK);
    EXPECT(jgw_batch_add(&batch, 3, &policy) == JGW_SAME_PORT_TWICE && jgw_passes(&policy, &frame, 0));
    EXPECT(jgw_batch_add(&batch, 4, &empty) == JGW_WRONG_HANDLE && jgw_batch_add(&policy, 4, &policy) == JGW_WRONG_HANDLE);
    EXPECT(jgw_batch_add(&policy, 4, &batch) == JGW_WRONG_HANDLE && jgw_passes(&policy, &frame, 0));
    EXPECT(jgw_batch_add(NULL, 4, &policy) == JGW_NULL && jgw_batch_add(&batch, 4, NULL) == JGW_NULL);
    EXPECT(jgw_batch_new(NULL) == JGW_NULL && jgw_verdict(&batch, &frame, 0) == JGW_WRONG_HANDLE);
    for (unsigned port = 100; port < 115; port++)
        EXPECT(jgw_batch_add(&batch, (uint8_t)port, &policy) == JGW_OK);
    EXPECT(jgw_batch_add(&batch, 115, &policy) == JGW_BATCH_FULL && jgw_batch_add(&batch, 3, &policy) == JGW_SAME_PORT_TWICE);
    jgw_free(&policy);
    EXPECT(jgw_batch_new(&batch) == JGW_OK && jgw_batch_add(&batch, 3, &policy) == JGW_WRONG_HANDLE);
    jgw_free(&batch);
}

/* A refused batch may be published elsewhere, and one that was published is gone. */
static void test_publishing(void)
{
    struct jgw_handle gateway = JGW_NOTHING, other = JGW_NOTHING, batch = JGW_NOTHING, policy = JGW_NOTHING;
    struct can_frame frame = frame_of(0x8CF00400, 1);
    struct jgw_outcome outcome;
    uint32_t front = 7;
    EXPECT(make_table(&policy, "default = \"pass\"") == JGW_OK && jgw_batch_new(&batch) == JGW_OK);
    EXPECT(jgw_batch_add(&batch, 2, &policy) == JGW_OK && jgw_gateway_publish(&gateway, &batch, &front) == JGW_WRONG_HANDLE);
    EXPECT(jgw_gateway_open(2, 4, 9, 1, &gateway) == JGW_OK && jgw_gateway_open(3, 4, 9, 1, &other) == JGW_OK);
    EXPECT(jgw_gateway_publish(&gateway, &batch, &front) == JGW_NO_SUCH_PORT && front == 7);
    EXPECT(jgw_offer(&gateway, 0, &frame, &outcome) == JGW_OK && says(&outcome, 0, 0, 0, 0, 0));
    EXPECT(jgw_gateway_publish(&gateway, &policy, &front) == JGW_WRONG_HANDLE && front == 7);
    EXPECT(jgw_gateway_publish(&policy, &batch, &front) == JGW_WRONG_HANDLE && front == 7);
    EXPECT(jgw_gateway_publish(&batch, &batch, &front) == JGW_WRONG_HANDLE && front == 7);
    EXPECT(jgw_gateway_publish(&other, &batch, &front) == JGW_OK && front == 1 && !batch.there);
    EXPECT(jgw_offer(&other, 1, &frame, &outcome) == JGW_OK && says(&outcome, 0, 1, 0, 1u << 2, 1u << 2));
    EXPECT(jgw_gateway_publish(&other, &batch, &front) == JGW_WRONG_HANDLE);
    /* The second of one version is refused, and the port that is not there comes first. */
    EXPECT(jgw_batch_new(&batch) == JGW_OK && jgw_batch_add(&batch, 0, &policy) == JGW_OK);
    EXPECT(jgw_gateway_publish(&other, &batch, &front) == JGW_VERSIONS_SPENT && front == 1 && batch.there);
    EXPECT(jgw_batch_add(&batch, 9, &policy) == JGW_OK && jgw_gateway_publish(&other, &batch, NULL) == JGW_NO_SUCH_PORT);
    EXPECT(jgw_batch_new(&batch) == JGW_OK && jgw_gateway_publish(&gateway, &batch, NULL) == JGW_OK && !batch.there);
    EXPECT(jgw_gateway_publish(NULL, &batch, &front) == JGW_NULL && jgw_gateway_publish(&gateway, NULL, &front) == JGW_NULL);
    jgw_free(&policy);
    EXPECT(jgw_offer(&other, 1, &frame, &outcome) == JGW_OK && says(&outcome, 1, 1, 0, 1u << 2, 1u << 2));
    jgw_free(&gateway);
    jgw_free(&other);
}

/* Three ports, room for one copy on each lane, and everything passes to port 1: examples/replay/full-lane.script. */
static void open_full_lane(struct jgw_handle *gateway)
{
    struct jgw_handle batch = JGW_NOTHING, policy = JGW_NOTHING;
    EXPECT(jgw_policy_from_listing("1,6 0 0 1,", 10, &policy, NULL) == JGW_OK && jgw_batch_new(&batch) == JGW_OK);
    EXPECT(jgw_batch_add(&batch, 1, &policy) == JGW_OK && jgw_gateway_open(3, 1, 10, 4, gateway) == JGW_OK);
    EXPECT(jgw_gateway_publish(gateway, &batch, NULL) == JGW_OK);
    jgw_free(&policy);
}

static void test_offers(void)
{
    struct jgw_handle gateway = JGW_NOTHING;
    struct can_frame frame = frame_of(0x8CF00400, 1), broken = frame;
    struct jgw_outcome outcome = {7, 7, 7, 7, 7};
    struct jgw_copy copy = {frame, 7, 7};
    struct jgw_counters_in ingress = {7, 7, 7, 7, 7};
    struct jgw_counters_out egress;
    uint64_t count = 7;
    broken.len = 9;
    open_full_lane(&gateway);
    EXPECT(jgw_offer(&gateway, 0, &broken, &outcome) == JGW_BAD_LENGTH && is_untouched(&outcome));
    EXPECT(jgw_offer(&gateway, 3, &frame, &outcome) == JGW_NO_SUCH_PORT && is_untouched(&outcome));
    EXPECT(jgw_offer(&gateway, 255, &frame, &outcome) == JGW_NO_SUCH_PORT && jgw_offer(NULL, 0, &frame, NULL) == JGW_NULL);
    EXPECT(jgw_offer(&gateway, 0, NULL, &outcome) == JGW_NULL && is_untouched(&outcome));
    EXPECT(jgw_next(&gateway, 1, &copy) == JGW_NO_COPY && copy.number == 7 && jgw_peek(&gateway, 1, &copy) == JGW_NO_COPY);
    EXPECT(jgw_offer(&gateway, 0, &frame, &outcome) == JGW_OK && says(&outcome, 0, 1, 0, 2, 2));
    EXPECT(jgw_offer(&gateway, 0, &frame, &outcome) == JGW_OK && says(&outcome, 1, 1, 0, 2, 0));
    EXPECT(jgw_gateway_waiting(&gateway, 0, 1, &count) == JGW_OK && count == 1);
    EXPECT(jgw_gateway_waiting(&gateway, 1, 0, &count) == JGW_OK && count == 0);
    EXPECT(jgw_peek(&gateway, 1, &copy) == JGW_OK && copy.number == 0 && copy.from == 0 && is_frame(&copy, &frame));
    EXPECT(jgw_next(&gateway, 1, &copy) == JGW_OK && copy.number == 0 && copy.from == 0 && is_frame(&copy, &frame));
    EXPECT(jgw_next(&gateway, 1, &copy) == JGW_NO_COPY && jgw_next(&gateway, 0, &copy) == JGW_NO_COPY);
    EXPECT(jgw_offer(&gateway, 0, &frame, &outcome) == JGW_OK && says(&outcome, 2, 1, 0, 2, 2));
    EXPECT(jgw_gateway_counters_in(&gateway, 0, &ingress) == JGW_OK && ingress.taken == 3 && ingress.local == 0);
    EXPECT(ingress.allowed == 3 && ingress.placed == 2 && ingress.lost == 1);
    EXPECT(jgw_next(&gateway, 1, &copy) == JGW_OK && copy.number == 2);
    EXPECT(jgw_gateway_counters_out(&gateway, 1, &egress) == JGW_OK && egress.sent[0] == 2 && egress.sent[2] == 0);
    EXPECT(jgw_gateway_counters_out(&gateway, 0, &egress) == JGW_OK && egress.sent[0] == 0 && egress.sent[15] == 0);
    /* What port 1 takes is offered to ports 0 and 2, which have no policy. */
    EXPECT(jgw_offer(&gateway, 1, &frame, &outcome) == JGW_OK && says(&outcome, 0, 1, 0, 0, 0));
    /* Ports that are not there, and NULL. */
    EXPECT(jgw_next(&gateway, 3, &copy) == JGW_NO_SUCH_PORT && jgw_peek(&gateway, 3, &copy) == JGW_NO_SUCH_PORT);
    count = 7;
    EXPECT(jgw_gateway_waiting(&gateway, 3, 1, &count) == JGW_NO_SUCH_PORT && count == 7);
    EXPECT(jgw_gateway_waiting(&gateway, 1, 3, &count) == JGW_NO_SUCH_PORT && count == 7);
    EXPECT(jgw_gateway_counters_in(&gateway, 3, &ingress) == JGW_NO_SUCH_PORT && ingress.taken == 3);
    EXPECT(jgw_gateway_counters_out(&gateway, 3, &egress) == JGW_NO_SUCH_PORT);
    EXPECT(jgw_next(NULL, 1, &copy) == JGW_NULL && jgw_next(&gateway, 1, NULL) == JGW_NULL);
    EXPECT(jgw_peek(NULL, 1, &copy) == JGW_NULL && jgw_peek(&gateway, 1, NULL) == JGW_NULL);
    EXPECT(jgw_gateway_waiting(NULL, 0, 1, &count) == JGW_NULL && jgw_gateway_waiting(&gateway, 0, 1, NULL) == JGW_NULL);
    EXPECT(jgw_gateway_counters_in(NULL, 0, &ingress) == JGW_NULL && jgw_gateway_counters_in(&gateway, 0, NULL) == JGW_NULL);
    EXPECT(jgw_gateway_counters_out(NULL, 0, &egress) == JGW_NULL && jgw_gateway_counters_out(&gateway, 0, NULL) == JGW_NULL);
    for (unsigned number = 3; number < 10; number++)
        EXPECT(jgw_offer(&gateway, 0, &frame, &outcome) == JGW_OK && outcome.number == number);
    EXPECT(jgw_offer(&gateway, 0, &frame, &outcome) == JGW_FRAMES_SPENT && outcome.number == 9);
    jgw_free(&gateway);
}

/* The steps of examples/replay/full-lane.script, by hand. */
static void test_steps(void)
{
    struct jgw_handle gateway = JGW_NOTHING;
    struct can_frame frame = frame_of(0x8CF00400, 1), broken = frame;
    struct can_frame claim = frame_of(0x98EEFF80, 5), to_128 = frame_of(0x98EF8034, 1);
    struct jgw_taken taken = {7, 7, 7};
    struct jgw_step step = {7, 7, {7, 7, 7, 7, 7}};
    broken.len = 9;
    open_full_lane(&gateway);
    EXPECT(jgw_gateway_step(&gateway, 0, &step) == JGW_IDLE && step.what == 7 && is_untouched(&step.outcome));
    EXPECT(jgw_gateway_take(&gateway, 0, &broken, &taken) == JGW_BAD_LENGTH && taken.number == 7);
    EXPECT(jgw_gateway_take(&gateway, 3, &frame, &taken) == JGW_NO_SUCH_PORT && taken.front == 7);
    EXPECT(jgw_gateway_take(&gateway, 0, &frame, &taken) == JGW_OK && taken.number == 0 && taken.front == 1 && taken.local == 0);
    EXPECT(jgw_gateway_take(&gateway, 0, &frame, &taken) == JGW_BUSY && jgw_offer(&gateway, 0, &frame, NULL) == JGW_BUSY);
    EXPECT(jgw_gateway_step(&gateway, 0, &step) == JGW_OK && step.what == JGW_STEPPED && step.to == JGW_NONE);
    EXPECT(says(&step.outcome, 0, 0, 0, 0, 0));
    EXPECT(jgw_gateway_step(&gateway, 0, &step) == JGW_OK && step.what == JGW_PLACED && step.to == 1);
    EXPECT(jgw_gateway_step(&gateway, 0, &step) == JGW_OK && step.what == JGW_FINISHED && step.to == JGW_NONE);
    EXPECT(says(&step.outcome, 0, 1, 0, 2, 2) && jgw_gateway_step(&gateway, 0, &step) == JGW_IDLE);
    EXPECT(jgw_gateway_take(&gateway, 0, &frame, NULL) == JGW_OK && jgw_gateway_step(&gateway, 0, &step) == JGW_OK);
    EXPECT(jgw_gateway_step(&gateway, 0, &step) == JGW_OK && step.what == JGW_LOST && step.to == 1);
    EXPECT(jgw_gateway_step(&gateway, 0, &step) == JGW_OK && says(&step.outcome, 1, 1, 0, 2, 0));
    EXPECT(jgw_gateway_step(&gateway, 3, &step) == JGW_NO_SUCH_PORT && step.what == JGW_FINISHED);
    /* The address 128 is claimed at port 2: a frame to it from there is local, and finished at once. */
    EXPECT(jgw_offer(&gateway, 2, &claim, NULL) == JGW_OK && jgw_gateway_take(&gateway, 2, &to_128, &taken) == JGW_OK);
    EXPECT(taken.number == 1 && taken.local == 1 && jgw_gateway_step(&gateway, 2, &step) == JGW_IDLE);
    EXPECT(jgw_gateway_take(NULL, 0, &frame, &taken) == JGW_NULL && jgw_gateway_take(&gateway, 0, NULL, &taken) == JGW_NULL);
    EXPECT(jgw_gateway_step(NULL, 0, &step) == JGW_NULL && jgw_gateway_step(&gateway, 0, NULL) == JGW_NULL);
    jgw_free(&gateway);
}

/* A frame to an address that is held on its own segment is local: examples/replay/local.script says the same. */
static void test_local(void)
{
    struct jgw_handle gateway = JGW_NOTHING;
    struct can_frame claim = frame_of(0x98EEFF80, 5), to_128 = frame_of(0x98EF8034, 1);
    struct jgw_outcome outcome;
    struct jgw_counters_in ingress;
    open_full_lane(&gateway);
    EXPECT(jgw_offer(&gateway, 0, &to_128, &outcome) == JGW_OK && says(&outcome, 0, 1, 0, 2, 2));
    EXPECT(jgw_offer(&gateway, 0, &claim, &outcome) == JGW_OK && says(&outcome, 1, 1, 0, 2, 0));
    EXPECT(jgw_offer(&gateway, 0, &to_128, &outcome) == JGW_OK && says(&outcome, 2, 1, 1, 0, 0));
    EXPECT(jgw_offer(&gateway, 2, &to_128, &outcome) == JGW_OK && says(&outcome, 0, 1, 0, 2, 2));
    EXPECT(jgw_gateway_counters_in(&gateway, 0, &ingress) == JGW_OK && ingress.taken == 3 && ingress.local == 1);
    jgw_free(&gateway);
}

/* Copies of three ingress ports wait for port 3. Its circle begins at port 0, and goes on behind the port served last. */
static void test_circle(void)
{
    static const uint8_t turns[] = {0, 1, 2, 0, 2};
    struct jgw_handle gateway = JGW_NOTHING, batch = JGW_NOTHING, policy = JGW_NOTHING;
    struct jgw_copy copy, shown;
    struct can_frame frame = frame_of(0x8CF00400, 0);
    EXPECT(make_table(&policy, "default = \"pass\"") == JGW_OK && jgw_batch_new(&batch) == JGW_OK);
    EXPECT(jgw_batch_add(&batch, 3, &policy) == JGW_OK && jgw_gateway_open(4, 8, 100, 1, &gateway) == JGW_OK);
    EXPECT(jgw_gateway_publish(&gateway, &batch, NULL) == JGW_OK);
    for (unsigned i = 0; i < 2; i++) {
        EXPECT(jgw_offer(&gateway, 2, &frame, NULL) == JGW_OK && jgw_offer(&gateway, 0, &frame, NULL) == JGW_OK);
        EXPECT(i > 0 || jgw_offer(&gateway, 1, &frame, NULL) == JGW_OK);
    }
    for (unsigned i = 0; i < 5; i++) {
        EXPECT(jgw_peek(&gateway, 3, &shown) == JGW_OK && jgw_next(&gateway, 3, &copy) == JGW_OK && copy.from == turns[i]);
        EXPECT(copy.number == (i < 3 ? 0u : 1u) && shown.from == copy.from && shown.number == copy.number);
    }
    EXPECT(jgw_next(&gateway, 3, &copy) == JGW_NO_COPY);
    jgw_free(&policy);
    jgw_free(&gateway);
}

/* The same copies, as many as there is room for, and the room behind them is left. */
static void test_many(void)
{
    static const uint8_t turns[] = {0, 1, 2, 0, 2};
    struct jgw_handle gateway = JGW_NOTHING, batch = JGW_NOTHING, policy = JGW_NOTHING;
    struct can_frame frame = frame_of(0x8CF00400, 9);
    struct jgw_copy untouched = {frame, 7, 7}, copies[6], copy;
    uint32_t count = 7;
    for (unsigned i = 0; i < 6; i++)
        copies[i] = untouched;
    EXPECT(jgw_next_many(&gateway, 3, copies, 6, &count) == JGW_WRONG_HANDLE && count == 7 && copies[0].number == 7);
    EXPECT(make_table(&policy, "default = \"pass\"") == JGW_OK && jgw_batch_new(&batch) == JGW_OK);
    EXPECT(jgw_next_many(&policy, 3, copies, 6, &count) == JGW_WRONG_HANDLE && count == 7 && copies[0].number == 7);
    EXPECT(jgw_batch_add(&batch, 3, &policy) == JGW_OK && jgw_gateway_open(4, 8, 100, 1, &gateway) == JGW_OK);
    EXPECT(jgw_gateway_publish(&gateway, &batch, NULL) == JGW_OK);
    EXPECT(jgw_next_many(&gateway, 4, copies, 6, &count) == JGW_NO_SUCH_PORT && count == 7 && copies[0].number == 7);
    EXPECT(jgw_next_many(&gateway, 3, copies, 6, &count) == JGW_OK && count == 0 && copies[0].number == 7);
    for (unsigned i = 0; i < 2; i++) {
        EXPECT(jgw_offer(&gateway, 2, &frame, NULL) == JGW_OK && jgw_offer(&gateway, 0, &frame, NULL) == JGW_OK);
        EXPECT(i > 0 || jgw_offer(&gateway, 1, &frame, NULL) == JGW_OK);
    }
    count = 7;
    EXPECT(jgw_next_many(&gateway, 3, NULL, 0, &count) == JGW_OK && count == 0);
    EXPECT(jgw_next_many(&gateway, 3, copies, 2, &count) == JGW_OK && count == 2 && copies[2].number == 7);
    EXPECT(jgw_next_many(&gateway, 3, copies + 2, 4, &count) == JGW_OK && count == 3 && copies[5].number == 7);
    for (unsigned i = 0; i < 5; i++)
        EXPECT(copies[i].from == turns[i] && copies[i].number == (i < 3 ? 0u : 1u) && is_frame(&copies[i], &frame));
    EXPECT(jgw_next(&gateway, 3, &copy) == JGW_NO_COPY && jgw_gateway_renew(&gateway) == JGW_OK);
    EXPECT(jgw_next_many(NULL, 3, copies, 6, &count) == JGW_NULL && jgw_next_many(&gateway, 3, NULL, 1, &count) == JGW_NULL);
    EXPECT(jgw_next_many(&gateway, 3, copies, 6, NULL) == JGW_NULL && count == 3);
    jgw_free(&policy);
    jgw_free(&gateway);
}

/* A gateway of one version and three frames begins anew: its policies and claims stay, and it counts from 0. */
static void test_renewal(void)
{
    struct jgw_handle gateway = JGW_NOTHING, batch = JGW_NOTHING, policy = JGW_NOTHING;
    struct can_frame claim = frame_of(0x98EEFF80, 5), to_128 = frame_of(0x98EF8034, 1), frame = frame_of(0x8CF00400, 1);
    struct jgw_outcome outcome;
    struct jgw_step step;
    struct jgw_copy copy;
    struct jgw_counters_in ingress;
    struct jgw_counters_out egress;
    uint32_t front = 7;
    EXPECT(jgw_gateway_renew(NULL) == JGW_NULL && jgw_gateway_renew(&gateway) == JGW_WRONG_HANDLE);
    EXPECT(jgw_policy_from_listing("1,6 0 0 1,", 10, &policy, NULL) == JGW_OK && jgw_batch_new(&batch) == JGW_OK);
    EXPECT(jgw_gateway_renew(&policy) == JGW_WRONG_HANDLE && jgw_passes(&policy, &frame, 0));
    EXPECT(jgw_batch_add(&batch, 1, &policy) == JGW_OK && jgw_gateway_open(3, 4, 3, 1, &gateway) == JGW_OK);
    EXPECT(jgw_gateway_publish(&gateway, &batch, NULL) == JGW_OK);
    jgw_free(&policy);
    for (unsigned round = 0; round < 3; round++) {
        /* The claim of the first round is heard ever after. */
        EXPECT(jgw_offer(&gateway, 0, round == 0 ? &claim : &to_128, &outcome) == JGW_OK && outcome.number == 0);
        EXPECT(round == 0 ? says(&outcome, 0, 1, 0, 2, 2) : says(&outcome, 0, 1, 1, 0, 0));
        EXPECT(jgw_offer(&gateway, 2, &to_128, &outcome) == JGW_OK && says(&outcome, 0, 1, 0, 2, 2));
        EXPECT(jgw_gateway_renew(&gateway) == JGW_COPIES_WAIT && jgw_gateway_take(&gateway, 0, &frame, NULL) == JGW_OK);
        /* An unfinished frame is told first, and nothing has changed. */
        EXPECT(jgw_gateway_renew(&gateway) == JGW_BUSY && jgw_gateway_take(&gateway, 0, &frame, NULL) == JGW_BUSY);
        do
            EXPECT(jgw_gateway_step(&gateway, 0, &step) == JGW_OK);
        while (step.what != JGW_FINISHED);
        EXPECT(says(&step.outcome, 1, 1, 0, 2, 2) && jgw_gateway_renew(&gateway) == JGW_COPIES_WAIT);
        EXPECT(jgw_offer(&gateway, 0, &frame, &outcome) == JGW_OK && says(&outcome, 2, 1, 0, 2, 2));
        EXPECT(jgw_offer(&gateway, 0, &frame, &outcome) == JGW_FRAMES_SPENT);
        for (unsigned sent = round == 0 ? 4 : 3; sent > 0; sent--)
            EXPECT(jgw_gateway_renew(&gateway) == JGW_COPIES_WAIT && jgw_next(&gateway, 1, &copy) == JGW_OK);
        EXPECT(jgw_next(&gateway, 1, &copy) == JGW_NO_COPY && jgw_gateway_renew(&gateway) == JGW_OK);
        EXPECT(jgw_gateway_counters_in(&gateway, 0, &ingress) == JGW_OK && ingress.taken == 0 && ingress.placed == 0);
        EXPECT(jgw_gateway_counters_out(&gateway, 1, &egress) == JGW_OK && egress.sent[0] == 0 && egress.sent[2] == 0);
        EXPECT(jgw_batch_new(&batch) == JGW_OK && jgw_gateway_publish(&gateway, &batch, &front) == JGW_VERSIONS_SPENT);
        EXPECT(jgw_gateway_renew(&gateway) == JGW_OK && front == 7);
    }
    jgw_free(&batch);
    jgw_free(&gateway);
}

static void test_handles(void)
{
    struct jgw_handle claims = JGW_NOTHING, gateway = JGW_NOTHING, moved;
    struct can_frame frame = frame_of(0x8CF00400, 1);
    struct jgw_outcome outcome = {7, 7, 7, 7, 7};
    struct jgw_copy copy = {frame, 7, 7};
    struct jgw_counters_in ingress = {7, 7, 7, 7, 7};
    struct jgw_counters_out egress = {{7}};
    struct jgw_taken taken = {7, 7, 7};
    struct jgw_step step = {7, 7, {7, 7, 7, 7, 7}};
    uint64_t count = 7;
    for (unsigned i = 0; i < 2; i++) {
        EXPECT(jgw_offer(&claims, 0, &frame, &outcome) == JGW_WRONG_HANDLE && is_untouched(&outcome));
        EXPECT(jgw_next(&claims, 0, &copy) == JGW_WRONG_HANDLE && jgw_peek(&claims, 0, &copy) == JGW_WRONG_HANDLE);
        EXPECT(jgw_gateway_waiting(&claims, 0, 1, &count) == JGW_WRONG_HANDLE && count == 7 && copy.number == 7);
        EXPECT(jgw_gateway_counters_in(&claims, 0, &ingress) == JGW_WRONG_HANDLE && ingress.taken == 7);
        EXPECT(jgw_gateway_counters_out(&claims, 0, &egress) == JGW_WRONG_HANDLE && egress.sent[0] == 7);
        EXPECT(jgw_gateway_take(&claims, 0, &frame, &taken) == JGW_WRONG_HANDLE && taken.number == 7);
        EXPECT(jgw_gateway_step(&claims, 0, &step) == JGW_WRONG_HANDLE && step.what == 7);
        EXPECT(jgw_gateway_renew(&claims) == JGW_WRONG_HANDLE);
        EXPECT(i > 0 || jgw_claims_new(&claims) == JGW_OK);
    }
    EXPECT(jgw_gateway_open(2, 1, 9, 1, &gateway) == JGW_OK && jgw_verdict(&gateway, &frame, 0) == JGW_WRONG_HANDLE);
    EXPECT(jgw_claims_hear(&gateway, &frame) == JGW_WRONG_HANDLE && jgw_policy_share(&gateway, &claims) == JGW_WRONG_HANDLE);
    moved = gateway;
    EXPECT(jgw_offer(&moved, 0, &frame, &outcome) == JGW_OK && says(&outcome, 0, 0, 0, 0, 0));
    EXPECT(jgw_claims_new(&moved) == JGW_OK && jgw_gateway_open(2, 1, 9, 1, &claims) == JGW_OK);
    EXPECT(jgw_offer(&claims, 0, &frame, &outcome) == JGW_OK && jgw_claims_hear(&moved, &frame) == JGW_OK);
    jgw_free(&moved);
    jgw_free(&claims);
}

int main(void)
{
    test_limits();
    test_batches();
    test_publishing();
    test_offers();
    test_steps();
    test_local();
    test_circle();
    test_many();
    test_renewal();
    test_handles();
    printf("%u passed, %u failed\n", passed, failed);
    return failed != 0;
}
