/*
 * Four threads judge by shares of one policy, and share and free it meanwhile. Four more use one gateway, each behind the end of
 * the one before. The last line is `N passed, M failed`, counting threads.
 */
#include "j1939gw.h"

#include <pthread.h>
#include <stdio.h>
#include <string.h>

enum { THREADS = 4, ROUNDS = 2000 };

/* Whether each round gave the verdicts that the table states. */
static void *judge(void *handle)
{
    struct jgw_handle other = JGW_NOTHING;
    struct can_frame frames[2];
    memset(frames, 0, sizeof frames);
    frames[0].can_id = 0x8CF00400; /* parameter group 61444 */
    frames[1].can_id = 0x8CF00300; /* 61443 */
    for (int round = 0; round < ROUNDS; round++) {
        if (jgw_policy_share(handle, &other) != JGW_OK || !jgw_passes(&other, &frames[0], 0) || jgw_passes(handle, &frames[1], 0))
            return NULL;
        jgw_free(&other);
    }
    return handle;
}

/* Whether each round forwards a frame. */
static void *forward(void *gateway)
{
    struct can_frame frame;
    struct jgw_copy copy;
    memset(&frame, 0, sizeof frame);
    frame.can_id = 0x8CF00400;
    for (int round = 0; round < ROUNDS; round++)
        if (jgw_offer(gateway, 0, &frame, NULL) != JGW_OK || jgw_next(gateway, 1, &copy) != JGW_OK
            || copy.frame.can_id != frame.can_id)
            return NULL;
    return gateway;
}

/* How many threads forwarded, one after another. */
static unsigned forward_in_turn(struct jgw_handle *policy)
{
    struct jgw_handle gateway = JGW_NOTHING, batch = JGW_NOTHING;
    pthread_t thread;
    unsigned passed = 0;
    if (jgw_gateway_open(2, 1, THREADS * ROUNDS, 1, &gateway) != JGW_OK || jgw_batch_new(&batch) != JGW_OK
        || jgw_batch_add(&batch, 1, policy) != JGW_OK || jgw_gateway_publish(&gateway, &batch, NULL) != JGW_OK)
        return 0;
    for (int i = 0; i < THREADS; i++) {
        void *found;
        passed += pthread_create(&thread, NULL, forward, &gateway) == 0 && pthread_join(thread, &found) == 0
                  && found == &gateway;
    }
    jgw_free(&gateway);
    return passed;
}

int main(void)
{
    static const char table[] = "[[rule]]\naction = \"pass\"\npgn = 61444\n";
    struct jgw_handle policies[THREADS] = {JGW_NOTHING, JGW_NOTHING, JGW_NOTHING, JGW_NOTHING};
    pthread_t threads[THREADS];
    unsigned passed;
    if (jgw_policy_from_table(table, sizeof table - 1, &policies[0], NULL) != JGW_OK)
        return 1;
    passed = forward_in_turn(&policies[0]);
    for (int i = 1; i < THREADS; i++)
        if (jgw_policy_share(&policies[0], &policies[i]) != JGW_OK)
            return 1;
    for (int i = 0; i < THREADS; i++)
        if (pthread_create(&threads[i], NULL, judge, &policies[i]) != 0)
            return 1;
    for (int i = 0; i < THREADS; i++) {
        void *found;
        passed += pthread_join(threads[i], &found) == 0 && found == &policies[i];
        jgw_free(&policies[i]);
    }
    printf("%u passed, %u failed\n", passed, 2 * THREADS - passed);
    return passed != 2 * THREADS;
}
