/*
 * j1939gw: decides which J1939 frames may cross a gateway, by tables and by programs of classic BPF, and forwards them. The calls
 * of proved crates.
 *
 *     cc program.c $(pkg-config --cflags --libs j1939gw)
 *
 * FRAMES are `struct can_frame` and instructions `struct sock_filter`, as Linux has them. On another system, or where
 * J1939GW_OWN_TYPES is defined, this header declares both. The identifier word is in the machine's byte order, with the flags
 * CAN_EFF_FLAG, CAN_RTR_FLAG and CAN_ERR_FLAG. A program sees the frame's 16 octets, with that word big-endian in 0 to 3.
 *
 * RESULTS. A call answers 0, or the number of a refusal (below). A refused call has changed nothing but its error.
 * jgw_verdict and jgw_claims_local answer 0 or 1, or the number of a refusal, which is neither.
 *
 * MEMORY. A handle is 16 octets that the caller keeps, and may move but not copy. All octets 0, as JGW_NOTHING, it holds nothing.
 * What it holds is freed by jgw_free, or where another thing is put in. No call keeps a pointer to a text, to code or to frames.
 * A gateway takes all its memory when it is opened, except for its policies.
 * Calls marked FIXED take no memory. The others call malloc, realloc and free; want of memory is a refusal, never an abort.
 *
 * THREADS. The library starts no thread, takes no lock and keeps no state of its own. One call at a time may use a handle, a
 * verdict too. Another thread may use it next, behind a lock, a thread's start or its join. Give each thread a handle of its
 * own: jgw_policy_share. No call belongs in a signal handler.
 *
 * CHECKED: NULL, the kind of a handle, the length of a frame, room for verdicts, UTF-8, limits, ports, rules.
 * NOT CHECKED, and C's to keep: a pointer leads to as many elements as the count says. No two pointers of a call overlap.
 * A handle is not used by two calls at once, nor through a copy, nor written by C. A text is at most PTRDIFF_MAX octets long.
 */
#ifndef J1939GW_H
#define J1939GW_H

#include <stdbool.h>
#include <stddef.h>
#include <stdint.h>

#if defined(__linux__) && !defined(J1939GW_OWN_TYPES)
#include <linux/can.h>
#include <linux/filter.h>
#else
/* The flags of an identifier word. */
#define CAN_EFF_FLAG 0x80000000U /* extended: an identifier of 29 bits, as all of SAE J1939 */
#define CAN_RTR_FLAG 0x40000000U /* a remote frame */
#define CAN_ERR_FLAG 0x20000000U /* an error message */

struct can_frame {
    uint32_t can_id;
    uint8_t len;
    uint8_t pad;
    uint8_t res0;
    uint8_t len8_dlc;
    uint8_t data[8];
};
struct sock_filter {
    uint16_t code;
    uint8_t jt;
    uint8_t jf;
    uint32_t k;
};
#endif

#ifdef __cplusplus
extern "C" {
#endif

#define JGW_VERSION "0.1.0"

/* What jgw_verdict answers beside a refusal. */
enum { JGW_BLOCK = 0, JGW_PASS = 1 };

/* Refusals. docs/REFUSALS.md says what to do about each. */
enum jgw_refusal {
    JGW_OK = 0,
    JGW_BAD_LENGTH = 3, /* a frame's len is above 8 */

    JGW_LISTING_COUNT = 10,
    JGW_LISTING_INSTRUCTION = 11, /* error.place */
    JGW_LISTING_TRAILING = 12,
    JGW_LISTING_MEMORY = 13,

    /* Code, and the code of a listing or an assembler text: error.place is the instruction. */
    JGW_CODE_EMPTY = 20,
    JGW_CODE_TOO_LONG = 21,
    JGW_CODE_UNKNOWN = 22,
    JGW_CODE_DIVIDES_BY_ZERO = 23,
    JGW_CODE_SHIFTS_TOO_FAR = 24,
    JGW_CODE_NO_SUCH_WORD = 25,
    JGW_CODE_JUMPS_OUT = 26,
    JGW_CODE_ANCILLARY = 27,
    JGW_CODE_NO_RETURN = 28,
    JGW_CODE_UNSET_WORD = 29, /* error.word and error.path too */
    JGW_CODE_MEMORY = 30,

    /* Assembler texts: error.line is the line. */
    JGW_ASSEMBLER_TOKEN = 40,
    JGW_ASSEMBLER_WORD = 41,
    JGW_ASSEMBLER_OPERAND = 42,
    JGW_ASSEMBLER_NUMBER = 43,
    JGW_ASSEMBLER_LABEL_TWICE = 44,
    JGW_ASSEMBLER_NO_LABEL = 45,
    JGW_ASSEMBLER_BACKWARD = 46,
    JGW_ASSEMBLER_TOO_FAR = 47,
    JGW_ASSEMBLER_TOO_LONG = 48,
    JGW_ASSEMBLER_MEMORY = 49,

    /* Tables: error.line and error.column say where. Of 51 to 53 error.rule is the rule, where a rule is wrong. */
    JGW_TABLE_TOML = 50,
    JGW_TABLE_KEY = 51,
    JGW_TABLE_ACTION = 52,
    JGW_TABLE_RANGE = 53,
    JGW_TABLE_TOO_MANY_RULES = 54,
    JGW_TABLE_MEMORY = 55,

    /* Batches and gateways. */
    JGW_SAME_PORT_TWICE = 60, /* the batch has a policy for the port */
    JGW_BATCH_FULL = 61,
    JGW_BAD_LIMIT = 70,
    JGW_GATEWAY_MEMORY = 71,
    JGW_NO_SUCH_PORT = 72,
    JGW_BUSY = 73, /* a frame that was taken at the port is unfinished: step it to its end */
    JGW_IDLE = 74, /* the port has no unfinished frame */
    JGW_VERSIONS_SPENT = 75,
    JGW_FRAMES_SPENT = 76,

    JGW_MEMORY = 100,

    /* Of this library alone. */
    JGW_NOT_UTF8 = 120,
    JGW_WRONG_HANDLE = 121, /* a handle of another kind, or one that holds nothing */
    JGW_NULL = 122,
    JGW_NO_ROOM = 123,    /* fewer verdicts than frames, or room for fewer instructions */
    JGW_NOBODY = 124,     /* no NAME holds the address, or the NAME no address */
    JGW_NO_COPY = 125,    /* no copy waits for the port */
    JGW_COPIES_WAIT = 126, /* a copy waits: take the copies of all ports first */
    JGW_NO_TABLE = 127,    /* the policy is a program, and has no rules */
    JGW_NO_RULE = 128      /* the table has no rule of this number */
};

/* Stands for a line, column, place, word or rule that a refusal does not name. */
#define JGW_NONE UINT32_MAX

/* How many places of a path, and octets of a message, there is room for. */
#define JGW_PATH 32
#define JGW_MESSAGE 256

/* Why a call was refused. It is written on a refusal alone. */
struct jgw_error {
    uint32_t number;           /* enum jgw_refusal */
    uint32_t line;             /* of a text, from 1 */
    uint32_t column;           /* of a table's text, in octets of the line, from 1 */
    uint32_t place;            /* an instruction, from 0 */
    uint32_t word;             /* a scratch word */
    uint32_t rule;             /* of a table, from 0 */
    uint32_t steps;            /* how many instructions a path has that leaves the word unset, to the place. 0: none is told */
    uint32_t path[JGW_PATH];   /* the first of them, from 0, and 0 behind the last */
    char message[JGW_MESSAGE]; /* what is wrong, as `gw` says it: UTF-8, cut where it is long, and ended by an octet 0 */
};

/* Why a rule of a table can never decide, whatever the frame and the port. JGW_MAY_DECIDE: no such cause is known. */
enum jgw_never {
    JGW_MAY_DECIDE = 0,
    JGW_NO_GROUP = 1,       /* no identifier's parameter group lies in its range */
    JGW_NO_PORT = 2,        /* no port does */
    JGW_NO_DESTINATION = 3, /* no group of its range has a destination in its range */
    JGW_COVERED = 4         /* an earlier rule holds of every frame of which it holds */
};

/* What a program loads the ingress port from: `ld ifidx` of the assembler. */
#define JGW_INGRESS 0xFFFFF008U

/* The parts of a table that are no rules. */
#define JGW_DEFAULT 0xFFFFFFFEU /* `default`: no rule holds of the frame */
#define JGW_OTHER 0xFFFFFFFDU   /* `other`: the frame is no extended data frame */

/* What became of a frame that was offered. Bit p of a mask is port p. */
struct jgw_outcome {
    uint32_t number;  /* of the frame at its port, from 0 */
    uint32_t front;   /* how many batches were published before it was taken */
    uint32_t local;   /* 1: it stays on its segment, and was offered to no port. Else 0 */
    uint32_t allowed; /* the ports whose policies pass it */
    uint32_t placed;  /* those of them for which a copy waits now: the lanes to the others were full */
};

/* A copy of a frame on its way to another port. */
struct jgw_copy {
    struct can_frame frame;
    uint32_t number; /* of the frame at its ingress port, from 0 */
    uint8_t from;    /* the ingress port */
};

/* What a port counts of the frames taken there that are finished: allowed are placed and lost ones together. */
struct jgw_counters_in {
    uint64_t taken, local, allowed, placed, lost;
};

/* What a port counts of the copies sent there, by the ingress ports of their frames. */
struct jgw_counters_out {
    uint64_t sent[16];
};

/* How a frame that was taken is judged: by the first `front` batches. A local one is finished. */
struct jgw_taken {
    uint32_t number, front, local;
};

/* What a step did. `to` is JGW_NONE where it names no port, and `outcome` is that of JGW_FINISHED, else all 0. */
enum { JGW_STEPPED = 0, JGW_PLACED = 1, JGW_LOST = 2, JGW_FINISHED = 3 };
struct jgw_step {
    uint32_t what, to;
    struct jgw_outcome outcome;
};

/* Holds a policy, claims, a batch or a gateway, or nothing. C reads no field and writes none. A handle begins as JGW_NOTHING, its
 * initializer, or is static. */
struct jgw_handle {
    bool there;
    void *at;
};
#define JGW_NOTHING {0, 0}

#ifdef __cplusplus
static_assert(sizeof(struct can_frame) == 16 && sizeof(struct sock_filter) == 8, "as Linux lays them out");
static_assert(sizeof(struct jgw_copy) == 24 && sizeof(struct jgw_outcome) == 20, "as the library lays them out");
static_assert(sizeof(struct jgw_error) == 28 + 4 * JGW_PATH + JGW_MESSAGE, "as the library lays it out");
#else
_Static_assert(sizeof(struct can_frame) == 16 && sizeof(struct sock_filter) == 8, "as Linux lays them out");
_Static_assert(sizeof(struct jgw_copy) == 24 && sizeof(struct jgw_outcome) == 20, "as the library lays them out");
_Static_assert(sizeof(struct jgw_error) == 28 + 4 * JGW_PATH + JGW_MESSAGE, "as the library lays it out");
#endif

/* What the library exports. No pointer here may be NULL. Call the functions below. */
void jgw_call_free(struct jgw_handle *handle);
uint32_t jgw_call_policy_from_code(const struct sock_filter *code, size_t length, struct jgw_handle *policy,
                                   struct jgw_error *error);
uint32_t jgw_call_policy_from_listing(const char *text, size_t length, struct jgw_handle *policy, struct jgw_error *error);
uint32_t jgw_call_policy_from_assembler(const char *text, size_t length, struct jgw_handle *policy, struct jgw_error *error);
uint32_t jgw_call_policy_from_table(const char *text, size_t length, struct jgw_handle *policy, struct jgw_error *error);
uint32_t jgw_call_policy_share(struct jgw_handle *policy, struct jgw_handle *other);
uint32_t jgw_call_verdict(struct jgw_handle *policy, const struct can_frame *frame, uint8_t port);
uint32_t jgw_call_verdicts(struct jgw_handle *policy, const struct can_frame *frames, size_t count, uint8_t port,
                           uint32_t *verdicts, size_t room);
uint32_t jgw_call_answer(struct jgw_handle *policy, const struct can_frame *frame, uint8_t port, uint32_t *answer);
uint32_t jgw_call_policy_code(struct jgw_handle *policy, struct sock_filter *code, size_t room, uint32_t *count);
uint32_t jgw_call_policy_rules(struct jgw_handle *policy, uint32_t *count);
uint32_t jgw_call_policy_rule_never(struct jgw_handle *policy, uint32_t rule, uint32_t *why, uint32_t *by);
uint32_t jgw_call_decides(struct jgw_handle *policy, const struct can_frame *frame, uint8_t port, uint32_t *part);
uint32_t jgw_call_claims_new(struct jgw_handle *claims);
uint32_t jgw_call_claims_hear(struct jgw_handle *claims, const struct can_frame *frame);
uint32_t jgw_call_claims_holder(struct jgw_handle *claims, uint8_t address, uint64_t *name);
uint32_t jgw_call_claims_address(struct jgw_handle *claims, uint64_t name, uint8_t *address);
uint32_t jgw_call_claims_local(struct jgw_handle *claims, const struct can_frame *frame);
uint32_t jgw_call_batch_new(struct jgw_handle *batch);
uint32_t jgw_call_batch_add(struct jgw_handle *batch, uint8_t port, struct jgw_handle *policy);
uint32_t jgw_call_gateway_open(uint32_t ports, uint32_t lane, uint32_t frames, uint32_t versions, struct jgw_handle *gateway);
uint32_t jgw_call_gateway_publish(struct jgw_handle *gateway, struct jgw_handle *batch, uint32_t *front);
uint32_t jgw_call_gateway_offer(struct jgw_handle *gateway, uint8_t port, const struct can_frame *frame,
                                struct jgw_outcome *outcome);
uint32_t jgw_call_gateway_next(struct jgw_handle *gateway, uint8_t to, struct jgw_copy *copy);
uint32_t jgw_call_gateway_next_many(struct jgw_handle *gateway, uint8_t to, struct jgw_copy *copies, size_t room,
                                    uint32_t *count);
uint32_t jgw_call_gateway_peek(struct jgw_handle *gateway, uint8_t to, struct jgw_copy *copy);
uint32_t jgw_call_gateway_waiting(struct jgw_handle *gateway, uint8_t from, uint8_t to, uint64_t *count);
uint32_t jgw_call_gateway_counters_in(struct jgw_handle *gateway, uint8_t port, struct jgw_counters_in *counters);
uint32_t jgw_call_gateway_counters_out(struct jgw_handle *gateway, uint8_t port, struct jgw_counters_out *counters);
uint32_t jgw_call_gateway_renew(struct jgw_handle *gateway);
uint32_t jgw_call_gateway_take(struct jgw_handle *gateway, uint8_t port, const struct can_frame *frame, struct jgw_taken *taken);
uint32_t jgw_call_gateway_step(struct jgw_handle *gateway, uint8_t port, struct jgw_step *step);

#ifdef __cplusplus
}
#endif

/* Of NULL. */
static inline uint32_t jgw_null(struct jgw_error *error)
{
    static const struct jgw_error said = {JGW_NULL, JGW_NONE, JGW_NONE, JGW_NONE, JGW_NONE,
                                          JGW_NONE, 0,        {0},      "a pointer is NULL"};
    if (error != NULL)
        *error = said;
    return JGW_NULL;
}

/* FIXED. Frees what a handle holds. It holds nothing afterwards, and may be used again. */
static inline void jgw_free(struct jgw_handle *handle)
{
    if (handle != NULL)
        jgw_call_free(handle);
}

/* ---- Policies: what may leave at a port. What `policy` held is freed once the new policy is made. `error` may be NULL. The
 * length of a text counts no 0 at its end. ---- */

/* The policy of code that is accepted. It passes the frames on which the program does not answer 0. */
static inline uint32_t jgw_policy_from_code(const struct sock_filter *code, size_t length, struct jgw_handle *policy,
                                            struct jgw_error *error)
{
    struct jgw_error unread;
    if ((code == NULL && length != 0) || policy == NULL)
        return jgw_null(error);
    if (code == NULL)
        code = (const struct sock_filter *)(const void *)policy; /* of no instructions */
    return jgw_call_policy_from_code(code, length, policy, error != NULL ? error : &unread);
}

/* Of a listing: `tcpdump -ddd` with commas for its line ends, `bpf_asm`, `gw asm`, `gw table`. */
static inline uint32_t jgw_policy_from_listing(const char *text, size_t length, struct jgw_handle *policy,
                                               struct jgw_error *error)
{
    struct jgw_error unread;
    if ((text == NULL && length != 0) || policy == NULL)
        return jgw_null(error);
    return jgw_call_policy_from_listing(text != NULL ? text : "", length, policy, error != NULL ? error : &unread);
}

/* Of an assembler text, in the language of `bpf_asm`. */
static inline uint32_t jgw_policy_from_assembler(const char *text, size_t length, struct jgw_handle *policy,
                                                 struct jgw_error *error)
{
    struct jgw_error unread;
    if ((text == NULL && length != 0) || policy == NULL)
        return jgw_null(error);
    return jgw_call_policy_from_assembler(text != NULL ? text : "", length, policy, error != NULL ? error : &unread);
}

/* Of a table in TOML: pass and block rules, of which the first that holds decides. An empty text is a table: it blocks all. */
static inline uint32_t jgw_policy_from_table(const char *text, size_t length, struct jgw_handle *policy,
                                             struct jgw_error *error)
{
    struct jgw_error unread;
    if ((text == NULL && length != 0) || policy == NULL)
        return jgw_null(error);
    return jgw_call_policy_from_table(text != NULL ? text : "", length, policy, error != NULL ? error : &unread);
}

/* A second owner of a policy, for another thread. The program is not copied. The same handle twice is JGW_WRONG_HANDLE. */
static inline uint32_t jgw_policy_share(struct jgw_handle *policy, struct jgw_handle *other)
{
    if (policy == NULL || other == NULL)
        return JGW_NULL;
    return policy == other ? (uint32_t)JGW_WRONG_HANDLE : jgw_call_policy_share(policy, other);
}

/* FIXED. Whether a policy passes a frame that was taken at a port: JGW_PASS, JGW_BLOCK, or the number of a refusal. */
static inline uint32_t jgw_verdict(struct jgw_handle *policy, const struct can_frame *frame, uint8_t port)
{
    return policy == NULL || frame == NULL ? (uint32_t)JGW_NULL : jgw_call_verdict(policy, frame, port);
}

/* FIXED. The same for an `if`: a refusal does not pass. */
static inline bool jgw_passes(struct jgw_handle *policy, const struct can_frame *frame, uint8_t port)
{
    return jgw_verdict(policy, frame, port) == JGW_PASS;
}

/* FIXED. The verdicts of `count` frames that were taken at a port, where there is room for them. Room behind them is left. */
static inline uint32_t jgw_verdicts(struct jgw_handle *policy, const struct can_frame *frames, size_t count, uint8_t port,
                                    uint32_t *verdicts, size_t room)
{
    if (policy == NULL || (frames == NULL && count != 0) || (verdicts == NULL && room != 0))
        return JGW_NULL;
    if (frames == NULL)
        frames = (const struct can_frame *)(const void *)policy; /* of no frames */
    if (verdicts == NULL)
        verdicts = (uint32_t *)(void *)policy; /* of no room */
    return jgw_call_verdicts(policy, frames, count, port, verdicts, room);
}

/* FIXED. What the policy's program answers on a frame, as libpcap's bpf_filter does on its record: 0 blocks. A table has the
 * program that it was compiled to. */
static inline uint32_t jgw_answer(struct jgw_handle *policy, const struct can_frame *frame, uint8_t port, uint32_t *answer)
{
    return policy == NULL || frame == NULL || answer == NULL ? (uint32_t)JGW_NULL
                                                             : jgw_call_answer(policy, frame, port, answer);
}

/* FIXED. The code of the policy's program, where there is room for it, and how many instructions it has. After JGW_NO_ROOM
 * `count` says how many there must be room for. It is what jgw_policy_from_code takes, and a table's too. */
static inline uint32_t jgw_policy_code(struct jgw_handle *policy, struct sock_filter *code, size_t room, uint32_t *count)
{
    if (policy == NULL || (code == NULL && room != 0) || count == NULL)
        return JGW_NULL;
    if (code == NULL)
        code = (struct sock_filter *)(void *)policy; /* of no room */
    return jgw_call_policy_code(policy, code, room, count);
}

/* FIXED. How many rules the policy's table has. A program is JGW_NO_TABLE. */
static inline uint32_t jgw_policy_rules(struct jgw_handle *policy, uint32_t *count)
{
    return policy == NULL || count == NULL ? (uint32_t)JGW_NULL : jgw_call_policy_rules(policy, count);
}

/* FIXED. Why a rule, by its number from 0, can never decide: enum jgw_never, the first cause in its order. Of JGW_COVERED `by` is
 * the first earlier rule that covers it, else JGW_NONE. `by` may be NULL. */
static inline uint32_t jgw_policy_rule_never(struct jgw_handle *policy, uint32_t rule, uint32_t *why, uint32_t *by)
{
    uint32_t unread;
    if (policy == NULL || why == NULL)
        return JGW_NULL;
    return jgw_call_policy_rule_never(policy, rule, why, by != NULL ? by : &unread);
}

/* FIXED. Which part of the policy's table decides a frame that was taken at a port: the number of a rule, from 0, JGW_DEFAULT or
 * JGW_OTHER. */
static inline uint32_t jgw_decides(struct jgw_handle *policy, const struct can_frame *frame, uint8_t port, uint32_t *part)
{
    return policy == NULL || frame == NULL || part == NULL ? (uint32_t)JGW_NULL : jgw_call_decides(policy, frame, port, part);
}

/* ---- Address claims: which NAME holds which address of a segment, by the Address Claimed frames that were heard there ---- */

/* Nothing was heard yet. What `claims` held is freed. */
static inline uint32_t jgw_claims_new(struct jgw_handle *claims)
{
    return claims == NULL ? (uint32_t)JGW_NULL : jgw_call_claims_new(claims);
}

/* FIXED. Hears a frame of the segment. */
static inline uint32_t jgw_claims_hear(struct jgw_handle *claims, const struct can_frame *frame)
{
    return claims == NULL || frame == NULL ? (uint32_t)JGW_NULL : jgw_call_claims_hear(claims, frame);
}

/* FIXED. The NAME that holds an address, else JGW_NOBODY. */
static inline uint32_t jgw_claims_holder(struct jgw_handle *claims, uint8_t address, uint64_t *name)
{
    return claims == NULL || name == NULL ? (uint32_t)JGW_NULL : jgw_call_claims_holder(claims, address, name);
}

/* FIXED. The address that a NAME holds, else JGW_NOBODY. */
static inline uint32_t jgw_claims_address(struct jgw_handle *claims, uint64_t name, uint8_t *address)
{
    return claims == NULL || address == NULL ? (uint32_t)JGW_NULL : jgw_call_claims_address(claims, name, address);
}

/* FIXED. 1: the frame is for an address that is held on its own segment, and no other segment needs it. Else 0, or the number
 * of a refusal. Ask before the frame is heard. */
static inline uint32_t jgw_claims_local(struct jgw_handle *claims, const struct can_frame *frame)
{
    return claims == NULL || frame == NULL ? (uint32_t)JGW_NULL : jgw_call_claims_local(claims, frame);
}

/* ---- A gateway in one thread: frames are offered at ports, and copies of those that may leave wait at other ports ---- */

/* Opens a gateway of 2 to 16 ports, on whose lanes 1 to 1024 copies may wait, for 1 to 4294967295 frames a port and 1 to 65535
 * published batches. Until a batch names a port, nothing leaves there. What `gateway` held is freed. */
static inline uint32_t jgw_gateway_open(uint32_t ports, uint32_t lane, uint32_t frames, uint32_t versions,
                                        struct jgw_handle *gateway)
{
    return gateway == NULL ? (uint32_t)JGW_NULL : jgw_call_gateway_open(ports, lane, frames, versions, gateway);
}

/* Begins a batch of policies, which come into force together. What `batch` held is freed. */
static inline uint32_t jgw_batch_new(struct jgw_handle *batch)
{
    return batch == NULL ? (uint32_t)JGW_NULL : jgw_call_batch_new(batch);
}

/* FIXED. Joins a policy for an egress port. Its handle goes on holding it, and may be freed or judge frames by it. */
static inline uint32_t jgw_batch_add(struct jgw_handle *batch, uint8_t port, struct jgw_handle *policy)
{
    if (batch == NULL || policy == NULL)
        return JGW_NULL;
    return batch == policy ? (uint32_t)JGW_WRONG_HANDLE : jgw_call_batch_add(batch, port, policy);
}

/* FIXED. Brings a batch into force for frames that are taken from now on. `batch` holds nothing then; refused, it holds what it
 * held. `front` tells how many batches were published so far, and may be NULL. */
static inline uint32_t jgw_gateway_publish(struct jgw_handle *gateway, struct jgw_handle *batch, uint32_t *front)
{
    uint32_t unread;
    if (gateway == NULL || batch == NULL)
        return JGW_NULL;
    return gateway == batch ? (uint32_t)JGW_WRONG_HANDLE
                            : jgw_call_gateway_publish(gateway, batch, front != NULL ? front : &unread);
}

/* FIXED. Takes a frame at a port, judges it by the policy of each other port, and has its copies wait there. `outcome` may be
 * NULL. */
static inline uint32_t jgw_offer(struct jgw_handle *gateway, uint8_t port, const struct can_frame *frame,
                                 struct jgw_outcome *outcome)
{
    struct jgw_outcome unread;
    if (gateway == NULL || frame == NULL)
        return JGW_NULL;
    return jgw_call_gateway_offer(gateway, port, frame, outcome != NULL ? outcome : &unread);
}

/* FIXED. Takes the next copy that waits for a port off its lane, else JGW_NO_COPY. The ingress ports have their turns in a
 * circle, and the copies of each come in the order of its frames. */
static inline uint32_t jgw_next(struct jgw_handle *gateway, uint8_t to, struct jgw_copy *copy)
{
    return gateway == NULL || copy == NULL ? (uint32_t)JGW_NULL : jgw_call_gateway_next(gateway, to, copy);
}

/* FIXED. Takes copies off the lanes of a port, as jgw_next does one by one, until none waits or there is no room for more.
 * `count` says how many, and is 0 where none waited. The room behind them is left. What was taken is the caller's to send: give
 * as much room as the driver has. */
static inline uint32_t jgw_next_many(struct jgw_handle *gateway, uint8_t to, struct jgw_copy *copies, size_t room,
                                     uint32_t *count)
{
    if (gateway == NULL || (copies == NULL && room != 0) || count == NULL)
        return JGW_NULL;
    if (copies == NULL)
        copies = (struct jgw_copy *)(void *)gateway; /* of no room */
    return jgw_call_gateway_next_many(gateway, to, copies, room, count);
}

/* FIXED. The copy that jgw_next would take, which goes on waiting: write it to the bus, and take it once that has succeeded. */
static inline uint32_t jgw_peek(struct jgw_handle *gateway, uint8_t to, struct jgw_copy *copy)
{
    return gateway == NULL || copy == NULL ? (uint32_t)JGW_NULL : jgw_call_gateway_peek(gateway, to, copy);
}

/* FIXED. Begins anew, so that frames and counters count from 0 again. The policies in force are the first of the batches, so open
 * it for two or more. The address claims stay. JGW_BUSY: a frame that was taken is unfinished. JGW_COPIES_WAIT: take the copies
 * of all ports first. */
static inline uint32_t jgw_gateway_renew(struct jgw_handle *gateway)
{
    return gateway == NULL ? (uint32_t)JGW_NULL : jgw_call_gateway_renew(gateway);
}

/* FIXED. How many copies wait at one port for another. */
static inline uint32_t jgw_gateway_waiting(struct jgw_handle *gateway, uint8_t from, uint8_t to, uint64_t *count)
{
    return gateway == NULL || count == NULL ? (uint32_t)JGW_NULL : jgw_call_gateway_waiting(gateway, from, to, count);
}

/* FIXED. What a port counts of the frames that were taken there. */
static inline uint32_t jgw_gateway_counters_in(struct jgw_handle *gateway, uint8_t port, struct jgw_counters_in *counters)
{
    return gateway == NULL || counters == NULL ? (uint32_t)JGW_NULL : jgw_call_gateway_counters_in(gateway, port, counters);
}

/* FIXED. What a port counts of the copies that were sent there. */
static inline uint32_t jgw_gateway_counters_out(struct jgw_handle *gateway, uint8_t port, struct jgw_counters_out *counters)
{
    return gateway == NULL || counters == NULL ? (uint32_t)JGW_NULL : jgw_call_gateway_counters_out(gateway, port, counters);
}

/* FIXED. Takes a frame at a port, as the first part of jgw_offer: for a loop whose calls have a bound on their time. */
static inline uint32_t jgw_gateway_take(struct jgw_handle *gateway, uint8_t port, const struct can_frame *frame,
                                        struct jgw_taken *taken)
{
    struct jgw_taken unread;
    if (gateway == NULL || frame == NULL)
        return JGW_NULL;
    return jgw_call_gateway_take(gateway, port, frame, taken != NULL ? taken : &unread);
}

/* FIXED. Makes one step of the frame that was taken last at a port: an instruction of a policy, or the placing of a copy. */
static inline uint32_t jgw_gateway_step(struct jgw_handle *gateway, uint8_t port, struct jgw_step *step)
{
    return gateway == NULL || step == NULL ? (uint32_t)JGW_NULL : jgw_call_gateway_step(gateway, port, step);
}

#endif
