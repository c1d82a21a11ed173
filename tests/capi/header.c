/* The header by itself, in C and in C++, with Linux's headers and without. */
#include "j1939gw.h"

#include <string.h>

int main(void)
{
    struct jgw_handle handle = JGW_NOTHING;
    struct can_frame frame;
    int failed;
    memset(&frame, 0, sizeof frame);
    failed = (int)jgw_verdict(&handle, NULL, 0) != JGW_NULL || jgw_claims_hear(NULL, &frame) != JGW_NULL
           || jgw_gateway_open(2, 1, 1, 1, &handle) != JGW_OK || jgw_offer(&handle, 2, &frame, NULL) != JGW_NO_SUCH_PORT
           || jgw_gateway_open(2, 1, 1, 1, NULL) != JGW_NULL;
    jgw_free(&handle);
    return failed;
}
