/*
 * Each call of libj1939gw, right and wrong. What a call must answer comes from the definitions of the formats, worked by hand:
 * a record's word is big-endian, the first rule that holds decides, and a program passes what it does not answer 0 to.
 * The last line is `N passed, M failed`.
 */
#include "expect.h"
#include "j1939gw.h"

#include <stdio.h>
#include <string.h>

/* A frame with this identifier word, and eight octets of data. */
static struct can_frame frame_of(uint32_t word, const char *octets)
{
    struct can_frame frame;
    memset(&frame, 0, sizeof frame);
    frame.can_id = word;
    frame.len = 8;
    memcpy(frame.data, octets, 8);
    return frame;
}

static const char ONES[] = "\xFF\xFF\xFF\xFF\xFF\xFF\xFF\xFF";

static uint32_t listing(struct jgw_handle *policy, const char *text, struct jgw_error *error)
{
    return jgw_policy_from_listing(text, strlen(text), policy, error);
}

static uint32_t assembler(struct jgw_handle *policy, const char *text, struct jgw_error *error)
{
    return jgw_policy_from_assembler(text, strlen(text), policy, error);
}

static uint32_t table(struct jgw_handle *policy, const char *text, struct jgw_error *error)
{
    return jgw_policy_from_table(text, strlen(text), policy, error);
}

static bool says(const struct jgw_error *error, uint32_t number, uint32_t line, uint32_t column, uint32_t place, uint32_t word,
                 uint32_t rule)
{
    return error->number == number && error->line == line && error->column == column && error->place == place
           && error->word == word && error->rule == rule;
}

/* What a listing answers to a frame of port 0. */
static uint32_t verdict_by(const char *text, struct can_frame frame)
{
    struct jgw_handle policy = JGW_NOTHING;
    uint32_t verdict = listing(&policy, text, NULL);
    if (verdict == JGW_OK)
        verdict = jgw_verdict(&policy, &frame, 0);
    jgw_free(&policy);
    return verdict;
}

static void test_listings(void)
{
    struct jgw_handle policy = JGW_NOTHING;
    struct jgw_error error;
    struct can_frame eec1 = frame_of(0x8CF00400, ONES), pdu1 = frame_of(0x8CEF0400, ONES);
    struct can_frame counted = frame_of(0x8CF00400, "\x01\x02\x03\x04\x05\x06\x07\x08");
    /* Octet 1 of the record is the PDU format: the word is big-endian there, whatever the machine's order. */
    EXPECT(listing(&policy, "4,48 0 0 1,21 0 1 240,6 0 0 1,6 0 0 0,", &error) == JGW_OK);
    EXPECT(jgw_verdict(&policy, &eec1, 0) == JGW_PASS);
    EXPECT(jgw_verdict(&policy, &pdu1, 0) == JGW_BLOCK);
    EXPECT(jgw_passes(&policy, &eec1, 0) && !jgw_passes(&policy, &pdu1, 0));
    /* The record's last octet, and a load that reaches behind it. */
    EXPECT(verdict_by("2,48 0 0 15,22 0 0 0,", counted) == JGW_PASS);
    EXPECT(verdict_by("4,48 0 0 15,21 0 1 8,6 0 0 1,6 0 0 0,", counted) == JGW_PASS);
    EXPECT(verdict_by("4,40 0 0 14,21 0 1 1800,6 0 0 1,6 0 0 0,", counted) == JGW_PASS);
    EXPECT(verdict_by("2,40 0 0 15,6 0 0 1,", counted) == JGW_BLOCK);
    /* Octet 4 of the record is the length. */
    EXPECT(verdict_by("4,48 0 0 4,21 0 1 8,6 0 0 1,6 0 0 0,", counted) == JGW_PASS);
    /* Each refusal leaves the policy that was there. */
    EXPECT(listing(&policy, "", &error) == 10 && says(&error, 10, JGW_NONE, JGW_NONE, JGW_NONE, JGW_NONE, JGW_NONE));
    EXPECT(listing(&policy, "2,6 0 0 1,6 0 0,", &error) == 11 && says(&error, 11, JGW_NONE, JGW_NONE, 1, JGW_NONE, JGW_NONE));
    EXPECT(listing(&policy, "1,6 0 0 1,x", &error) == 12 && says(&error, 12, JGW_NONE, JGW_NONE, JGW_NONE, JGW_NONE, JGW_NONE));
    EXPECT(listing(&policy, "0,", &error) == 20 && says(&error, 20, JGW_NONE, JGW_NONE, 0, JGW_NONE, JGW_NONE));
    EXPECT(listing(&policy, "1,14 0 0 0,", &error) == 22 && says(&error, 22, JGW_NONE, JGW_NONE, 0, JGW_NONE, JGW_NONE));
    EXPECT(listing(&policy, "2,52 0 0 0,6 0 0 0,", &error) == 23);
    EXPECT(listing(&policy, "2,100 0 0 32,6 0 0 0,", &error) == 24);
    EXPECT(listing(&policy, "2,2 0 0 16,6 0 0 0,", &error) == 25);
    EXPECT(listing(&policy, "2,5 0 0 1,6 0 0 0,", &error) == 26);
    EXPECT(listing(&policy, "2,32 0 0 4294963200,6 0 0 0,", &error) == 27);
    EXPECT(listing(&policy, "1,7 0 0 0,", &error) == 28);
    EXPECT(listing(&policy, "4,21 0 1 0,2 0 0 3,96 0 0 3,22 0 0 0,", &error) == 29);
    EXPECT(says(&error, 29, JGW_NONE, JGW_NONE, 2, 3, JGW_NONE));
    EXPECT(listing(&policy, "3,96 0 0 3,52 0 0 0,6 0 0 0,", &error) == 23);
    EXPECT(says(&error, 23, JGW_NONE, JGW_NONE, 1, JGW_NONE, JGW_NONE));
    EXPECT(jgw_verdict(&policy, &eec1, 0) == JGW_PASS);
    EXPECT(jgw_policy_from_listing(NULL, 1, &policy, &error) == JGW_NULL && error.number == JGW_NULL);
    EXPECT(jgw_policy_from_listing(NULL, 0, &policy, NULL) == 10);
    EXPECT(jgw_policy_from_listing("1,6 0 0 1,", 10, NULL, NULL) == JGW_NULL);
    jgw_free(&policy);
}

static void test_code(void)
{
    static struct sock_filter long_code[4097];
    struct sock_filter second[] = {{0x30, 0, 0, 1}, {0x15, 0, 1, 240}, {0x06, 0, 0, 1}, {0x06, 0, 0, 0}};
    struct sock_filter unset[] = {{0x60, 0, 0, 15}, {0x16, 0, 0, 0}}, port[] = {{0x20, 0, 0, 0xFFFFF008}, {0x16, 0, 0, 0}};
    struct jgw_handle policy = JGW_NOTHING;
    struct jgw_error error = {7, 7, 7, 7, 7, 7, 7, {7}, "7"};
    struct can_frame eec1 = frame_of(0x8CF00400, ONES), pdu1 = frame_of(0x8CEF0400, ONES);
    EXPECT(jgw_policy_from_code(second, 4, &policy, &error) == JGW_OK && says(&error, 7, 7, 7, 7, 7, 7));
    EXPECT(jgw_verdict(&policy, &eec1, 0) == JGW_PASS && jgw_verdict(&policy, &pdu1, 0) == JGW_BLOCK);
    EXPECT(jgw_policy_from_code(unset, 2, &policy, &error) == 29 && says(&error, 29, JGW_NONE, JGW_NONE, 0, 15, JGW_NONE));
    EXPECT(jgw_policy_from_code(NULL, 0, &policy, &error) == 20 && says(&error, 20, JGW_NONE, JGW_NONE, 0, JGW_NONE, JGW_NONE));
    long_code[4096].code = 6;
    EXPECT(jgw_policy_from_code(long_code, 4097, &policy, &error) == 21 && error.place == 4096);
    EXPECT(jgw_verdict(&policy, &eec1, 0) == JGW_PASS);
    long_code[4095].code = 6;
    long_code[4095].k = 1;
    EXPECT(jgw_policy_from_code(long_code, 4096, &policy, &error) == JGW_OK && jgw_verdict(&policy, &pdu1, 0) == JGW_PASS);
    /* The program that answers the ingress port: it blocks what was taken at port 0. */
    EXPECT(jgw_policy_from_code(port, 2, &policy, NULL) == JGW_OK);
    EXPECT(jgw_verdict(&policy, &eec1, 3) == JGW_PASS && jgw_verdict(&policy, &eec1, 255) == JGW_PASS);
    EXPECT(jgw_verdict(&policy, &eec1, 0) == JGW_BLOCK);
    EXPECT(jgw_policy_from_code(NULL, 1, &policy, &error) == JGW_NULL);
    EXPECT(says(&error, 122, JGW_NONE, JGW_NONE, JGW_NONE, JGW_NONE, JGW_NONE));
    EXPECT(jgw_policy_from_code(second, 4, NULL, NULL) == JGW_NULL);
    jgw_free(&policy);
}

static void test_assembler(void)
{
    struct jgw_handle policy = JGW_NOTHING;
    struct jgw_error error;
    struct can_frame arp = frame_of(0x8CF00400, "\0\0\0\0\x08\x06\0\0"), other = frame_of(0x8CF00400, ONES);
    EXPECT(assembler(&policy, "ldh [12]\njne #0x806, drop\nret #-1\ndrop: ret #0\n", &error) == JGW_OK);
    EXPECT(jgw_verdict(&policy, &arp, 0) == JGW_PASS && jgw_verdict(&policy, &other, 0) == JGW_BLOCK);
    EXPECT(assembler(&policy, "ld $4", &error) == 40 && says(&error, 40, 1, JGW_NONE, JGW_NONE, JGW_NONE, JGW_NONE));
    EXPECT(assembler(&policy, "\nfoo", &error) == 41 && says(&error, 41, 2, JGW_NONE, JGW_NONE, JGW_NONE, JGW_NONE));
    EXPECT(assembler(&policy, "ret x", &error) == 42 && error.line == 1);
    EXPECT(assembler(&policy, "a: ret #0\na: ret #0\n\n\nld #08\n", &error) == 43 && error.line == 5);
    EXPECT(assembler(&policy, "drop: ret #0\nld #1\ndrop: ret #1\n", &error) == 44 && error.line == 3);
    EXPECT(assembler(&policy, "jmp done", &error) == 45 && error.line == 1);
    EXPECT(assembler(&policy, "b: jmp b", &error) == 46 && error.line == 1);
    EXPECT(assembler(&policy, "\xFF", &error) == JGW_NOT_UTF8);
    EXPECT(says(&error, 120, JGW_NONE, JGW_NONE, JGW_NONE, JGW_NONE, JGW_NONE));
    /* The text is right, and its code is refused. */
    EXPECT(assembler(&policy, "ld #1", &error) == 28 && says(&error, 28, JGW_NONE, JGW_NONE, 0, JGW_NONE, JGW_NONE));
    EXPECT(assembler(&policy, "ld M[3]\nret a", &error) == 29 && says(&error, 29, JGW_NONE, JGW_NONE, 0, 3, JGW_NONE));
    EXPECT(assembler(&policy, "", &error) == 20 && error.place == 0);
    EXPECT(jgw_verdict(&policy, &arp, 0) == JGW_PASS);
    EXPECT(jgw_policy_from_assembler(NULL, 1, &policy, NULL) == JGW_NULL);
    EXPECT(jgw_policy_from_assembler("", 0, NULL, NULL) == JGW_NULL);
    jgw_free(&policy);
}

static void test_tables(void)
{
    static const char RULE[] = "default = \"block\"\nother = \"pass\"\n"
                               "[[rule]]\naction = \"pass\"\npgn = [61184, 61458]\nfrom = 1\n";
    struct jgw_handle policy = JGW_NOTHING;
    struct jgw_error error;
    struct can_frame first = frame_of(0x98EF1234, ONES), last = frame_of(0x98F01234, ONES), behind = frame_of(0x98F01334, ONES);
    struct can_frame standard = frame_of(0x00000123, ONES), remote = frame_of(CAN_EFF_FLAG | CAN_RTR_FLAG | 0x18EF1234, ONES);
    struct can_frame fault = frame_of(CAN_EFF_FLAG | CAN_ERR_FLAG | 0x18EF1234, ONES);
    EXPECT(table(&policy, RULE, &error) == JGW_OK);
    EXPECT(jgw_verdict(&policy, &first, 1) == JGW_PASS && jgw_verdict(&policy, &last, 1) == JGW_PASS);
    EXPECT(jgw_verdict(&policy, &behind, 1) == JGW_BLOCK && jgw_verdict(&policy, &first, 0) == JGW_BLOCK);
    /* 11-bit, remote and error frames are `other`. */
    EXPECT(jgw_verdict(&policy, &standard, 0) == JGW_PASS && jgw_verdict(&policy, &remote, 0) == JGW_PASS);
    EXPECT(jgw_verdict(&policy, &fault, 0) == JGW_PASS);
    EXPECT(table(&policy, "default =", &error) == 50 && says(&error, 50, 1, 10, JGW_NONE, JGW_NONE, JGW_NONE));
    EXPECT(table(&policy, "default = \"pass\"\n\n[[rule]\naction = \"pass\"\n", &error) == 50);
    EXPECT(says(&error, 50, 3, 8, JGW_NONE, JGW_NONE, JGW_NONE));
    EXPECT(table(&policy, "[[rule]]\naction = \"pass\"\npgn = 1 2\n", &error) == 50 && error.line == 3);
    EXPECT(table(&policy, "defualt = \"pass\"", &error) == 51 && says(&error, 51, 1, 1, JGW_NONE, JGW_NONE, JGW_NONE));
    EXPECT(table(&policy, "rule = 1", &error) == 51 && error.rule == JGW_NONE);
    EXPECT(table(&policy, "[[rule]]\naction = \"pass\"\n[[rule]]\nactoin = \"pass\"", &error) == 51 && error.rule == 1);
    EXPECT(table(&policy, "default = \"drop\"", &error) == 52 && error.rule == JGW_NONE);
    EXPECT(table(&policy, "[[rule]]\naction = \"pass\"\n[[rule]]\npgn = 1", &error) == 52 && error.rule == 1);
    EXPECT(table(&policy, "[[rule]]\naction = \"pass\"\nfrom = 256", &error) == 53);
    EXPECT(says(&error, 53, 3, 1, JGW_NONE, JGW_NONE, 0));
    EXPECT(jgw_policy_from_table("\xC3(", 2, &policy, &error) == JGW_NOT_UTF8 && error.number == 120);
    EXPECT(jgw_verdict(&policy, &first, 1) == JGW_PASS);
    /* An empty text is a table, which blocks all. */
    EXPECT(jgw_policy_from_table(NULL, 0, &policy, NULL) == JGW_OK && jgw_verdict(&policy, &first, 1) == JGW_BLOCK);
    EXPECT(jgw_policy_from_table(NULL, 1, &policy, NULL) == JGW_NULL);
    EXPECT(jgw_policy_from_table("", 0, NULL, NULL) == JGW_NULL);
    jgw_free(&policy);
}

/* 255 rules that block source 1, and one that passes two groups; one rule more is too many. */
/* Arrays in arrays, as deep as a text may have them and deeper: an unknown key, or no TOML. */
static void test_nesting(void)
{
    static char text[1024] = "a=";
    struct jgw_handle policy = JGW_NOTHING;
    struct jgw_error error;
    bool told = true;
    for (size_t depth = 1; depth <= 500; depth++) {
        memset(text + 2, '[', depth);
        memset(text + 2 + depth, ']', depth);
        uint32_t refused = jgw_policy_from_table(text, 2 + 2 * depth, &policy, &error);
        told = told && (refused == 50 || refused == 51) && error.number == refused;
    }
    EXPECT(told);
}

static void test_many_rules(void)
{
    static char text[32768];
    struct jgw_handle policy = JGW_NOTHING;
    struct jgw_error error;
    struct can_frame blocked = frame_of(0x98EF1201, ONES), passes = frame_of(0x98EF1234, ONES);
    size_t at = (size_t)sprintf(text, "other = \"pass\"\n");
    for (int rule = 0; rule < 255; rule++)
        at += (size_t)sprintf(text + at, "[[rule]]\naction = \"block\"\nsource = 1\n");
    at += (size_t)sprintf(text + at, "[[rule]]\naction = \"pass\"\npgn = [61184, 61458]\n");
    EXPECT(table(&policy, text, &error) == JGW_OK);
    EXPECT(jgw_verdict(&policy, &blocked, 0) == JGW_BLOCK && jgw_verdict(&policy, &passes, 0) == JGW_PASS);
    sprintf(text + at, "[[rule]]\naction = \"pass\"\n");
    EXPECT(table(&policy, text, &error) == 54 && error.rule == JGW_NONE && jgw_verdict(&policy, &passes, 0) == JGW_PASS);
    jgw_free(&policy);
}

static void test_verdicts(void)
{
    struct jgw_handle policy = JGW_NOTHING;
    struct can_frame frames[3] = {frame_of(0x8CF00400, ONES), frame_of(0x8CEF0400, ONES), frame_of(0x8CF00400, ONES)};
    uint32_t verdicts[5] = {7, 7, 7, 7, 7};
    frames[2].len = 9;
    EXPECT(jgw_verdicts(&policy, frames, 3, 0, verdicts, 5) == JGW_WRONG_HANDLE && verdicts[0] == 7);
    EXPECT(listing(&policy, "4,48 0 0 1,21 0 1 240,6 0 0 1,6 0 0 0,", NULL) == JGW_OK);
    EXPECT(jgw_verdicts(&policy, frames, 3, 0, verdicts, 2) == JGW_NO_ROOM && verdicts[0] == 7 && verdicts[1] == 7);
    EXPECT(jgw_verdicts(&policy, frames, 3, 0, verdicts, 4) == JGW_OK);
    EXPECT(verdicts[0] == JGW_PASS && verdicts[1] == JGW_BLOCK && verdicts[2] == JGW_BAD_LENGTH);
    EXPECT(verdicts[3] == 7 && verdicts[4] == 7);
    EXPECT(jgw_verdicts(&policy, frames, 2, 0, verdicts + 3, 2) == JGW_OK && verdicts[3] == JGW_PASS && verdicts[4] == JGW_BLOCK);
    EXPECT(jgw_verdicts(&policy, NULL, 0, 0, NULL, 0) == JGW_OK && jgw_verdicts(&policy, frames, 1, 0, NULL, 0) == JGW_NO_ROOM);
    EXPECT(jgw_verdicts(&policy, NULL, 1, 0, verdicts, 5) == JGW_NULL);
    EXPECT(jgw_verdicts(&policy, frames, 1, 0, NULL, 1) == JGW_NULL);
    EXPECT(jgw_verdicts(NULL, frames, 1, 0, verdicts, 5) == JGW_NULL);
    EXPECT(jgw_verdict(&policy, &frames[2], 0) == JGW_BAD_LENGTH && !jgw_passes(&policy, &frames[2], 0));
    frames[0].len = 255;
    EXPECT(jgw_verdict(&policy, &frames[0], 0) == JGW_BAD_LENGTH);
    EXPECT(jgw_verdict(NULL, frames, 0) == JGW_NULL && jgw_verdict(&policy, NULL, 0) == JGW_NULL);
    jgw_free(&policy);
    EXPECT(jgw_verdict(&policy, frames, 0) == JGW_WRONG_HANDLE && !jgw_passes(&policy, frames, 0));
}

/* What stands in code is given back, and its answers are those of libpcap's bpf_filter: by hand, the second octet plus 1. */
static void test_programs(void)
{
    struct jgw_handle policy = JGW_NOTHING;
    struct sock_filter code[] = {{0x30, 0, 0, 1}, {0x15, 0, 1, 0xEF}, {0x06, 0, 0, 0}, {0x04, 0, 0, 1}, {0x16, 0, 0, 0}};
    struct sock_filter back[6], empty = {7, 7, 7, 7};
    struct can_frame passes = frame_of(0x8CF00400, ONES), blocked = frame_of(0x8CEF0400, ONES);
    uint32_t answer = 7, count = 7;
    for (int i = 0; i < 6; i++)
        back[i] = empty;
    EXPECT(jgw_answer(&policy, &passes, 0, &answer) == JGW_WRONG_HANDLE && answer == 7);
    EXPECT(jgw_policy_code(&policy, back, 6, &count) == JGW_WRONG_HANDLE && count == 7);
    EXPECT(jgw_policy_from_code(code, 5, &policy, NULL) == JGW_OK);
    EXPECT(jgw_answer(&policy, &passes, 0, &answer) == JGW_OK && answer == 0xF1);
    EXPECT(jgw_answer(&policy, &blocked, 0, &answer) == JGW_OK && answer == 0);
    passes.len = 9;
    answer = 7;
    EXPECT(jgw_answer(&policy, &passes, 0, &answer) == JGW_BAD_LENGTH && answer == 7);
    EXPECT(jgw_answer(NULL, &blocked, 0, &answer) == JGW_NULL && jgw_answer(&policy, NULL, 0, &answer) == JGW_NULL);
    EXPECT(jgw_answer(&policy, &blocked, 0, NULL) == JGW_NULL);
    EXPECT(jgw_policy_code(&policy, back, 4, &count) == JGW_NO_ROOM && count == 5 && back[0].code == 7);
    EXPECT(jgw_policy_code(&policy, NULL, 0, &count) == JGW_NO_ROOM && count == 5);
    EXPECT(jgw_policy_code(&policy, back, 6, &count) == JGW_OK && count == 5 && back[5].code == 7);
    EXPECT(memcmp(back, code, sizeof code) == 0);
    EXPECT(jgw_policy_code(NULL, back, 6, &count) == JGW_NULL && jgw_policy_code(&policy, NULL, 1, &count) == JGW_NULL);
    EXPECT(jgw_policy_code(&policy, back, 6, NULL) == JGW_NULL);
    jgw_free(&policy);
}

/* The program of a table, taken as code, passes what the table passes. */
static void test_compiled(void)
{
    static struct sock_filter code[64];
    struct jgw_handle policy = JGW_NOTHING, compiled = JGW_NOTHING;
    struct can_frame engine = frame_of(0x8CF00400, ONES), tool = frame_of(0x98EA00F9, ONES);
    uint32_t count = 0, answer = 7;
    EXPECT(table(&policy, "[[rule]]\naction = \"pass\"\npgn = 61444\n", NULL) == JGW_OK);
    EXPECT(jgw_policy_code(&policy, code, 64, &count) == JGW_OK && count > 0);
    EXPECT(jgw_policy_from_code(code, count, &compiled, NULL) == JGW_OK);
    EXPECT(jgw_verdict(&compiled, &engine, 0) == JGW_PASS && jgw_verdict(&compiled, &tool, 0) == JGW_BLOCK);
    EXPECT(jgw_answer(&policy, &engine, 0, &answer) == JGW_OK && answer != 0);
    EXPECT(jgw_answer(&policy, &tool, 0, &answer) == JGW_OK && answer == 0);
    jgw_free(&policy);
    jgw_free(&compiled);
}

/* Rules that never decide, worked by hand: below PDU format 240 the last octet of a PGN is 0, ports are 0 to 15, a PDU2 group
 * goes to 255, and rule 3 holds of all that was taken at port 15. */
static const char NEVER[] = "[[rule]]\naction = \"pass\"\npgn = [61185, 61439]\n"
                            "[[rule]]\naction = \"pass\"\npgn = [61185, 61440]\n"
                            "[[rule]]\naction = \"pass\"\nfrom = 16\n"
                            "[[rule]]\naction = \"pass\"\nfrom = [15, 255]\n"
                            "[[rule]]\naction = \"pass\"\npgn = [65280, 65535]\ndestination = [0, 254]\n"
                            "[[rule]]\naction = \"block\"\nfrom = 15\npgn = 65260\n";

static bool tells(struct jgw_handle *policy, uint32_t rule, uint32_t refusal, uint32_t cause, uint32_t earlier)
{
    uint32_t why = 7, by = 7;
    return jgw_policy_rule_never(policy, rule, &why, &by) == refusal && why == cause && by == earlier;
}

static void test_rules(void)
{
    struct jgw_handle policy = JGW_NOTHING, program = JGW_NOTHING;
    uint32_t count = 7, why = 7, by = 7;
    EXPECT(jgw_policy_rules(&policy, &count) == JGW_WRONG_HANDLE && count == 7 && tells(&policy, 0, JGW_WRONG_HANDLE, 7, 7));
    EXPECT(listing(&program, "1,6 0 0 1,", NULL) == JGW_OK && jgw_policy_rules(&program, &count) == JGW_NO_TABLE && count == 7);
    EXPECT(tells(&program, 0, JGW_NO_TABLE, 7, 7));
    EXPECT(table(&policy, "", NULL) == JGW_OK && jgw_policy_rules(&policy, &count) == JGW_OK && count == 0);
    EXPECT(tells(&policy, 0, JGW_NO_RULE, 7, 7) && tells(&policy, UINT32_MAX, JGW_NO_RULE, 7, 7));
    EXPECT(table(&policy, NEVER, NULL) == JGW_OK && jgw_policy_rules(&policy, &count) == JGW_OK && count == 6);
    EXPECT(tells(&policy, 0, JGW_OK, JGW_NO_GROUP, JGW_NONE) && tells(&policy, 1, JGW_OK, JGW_MAY_DECIDE, JGW_NONE));
    EXPECT(tells(&policy, 2, JGW_OK, JGW_NO_PORT, JGW_NONE) && tells(&policy, 3, JGW_OK, JGW_MAY_DECIDE, JGW_NONE));
    EXPECT(tells(&policy, 4, JGW_OK, JGW_NO_DESTINATION, JGW_NONE) && tells(&policy, 5, JGW_OK, JGW_COVERED, 3));
    EXPECT(tells(&policy, 6, JGW_NO_RULE, 7, 7));
    EXPECT(jgw_policy_rule_never(&policy, 5, &why, NULL) == JGW_OK && why == JGW_COVERED);
    EXPECT(jgw_policy_rules(NULL, &count) == JGW_NULL && jgw_policy_rules(&policy, NULL) == JGW_NULL);
    EXPECT(jgw_policy_rule_never(NULL, 0, &why, &by) == JGW_NULL && jgw_policy_rule_never(&policy, 0, NULL, &by) == JGW_NULL);
    jgw_free(&policy);
    jgw_free(&program);
}

/* The first rule that holds decides: the group 61184 from source 1, and from any other. */
static void test_decides(void)
{
    static const char RULES[] = "[[rule]]\naction = \"pass\"\npgn = 61184\nsource = 1\n"
                                "[[rule]]\naction = \"block\"\npgn = 61184\nfrom = 2\n";
    struct jgw_handle policy = JGW_NOTHING, program = JGW_NOTHING;
    struct can_frame one = frame_of(0x98EF1201, ONES), two = frame_of(0x98EF1202, ONES), standard = frame_of(0x123, ONES);
    uint32_t part = 7;
    EXPECT(jgw_decides(&policy, &one, 0, &part) == JGW_WRONG_HANDLE && part == 7);
    EXPECT(listing(&program, "1,6 0 0 1,", NULL) == JGW_OK && jgw_decides(&program, &one, 0, &part) == JGW_NO_TABLE && part == 7);
    EXPECT(table(&policy, RULES, NULL) == JGW_OK);
    EXPECT(jgw_decides(&policy, &one, 2, &part) == JGW_OK && part == 0);
    EXPECT(jgw_decides(&policy, &two, 2, &part) == JGW_OK && part == 1);
    EXPECT(jgw_decides(&policy, &two, 3, &part) == JGW_OK && part == JGW_DEFAULT);
    EXPECT(jgw_decides(&policy, &standard, 2, &part) == JGW_OK && part == JGW_OTHER);
    part = 7;
    one.len = 9;
    EXPECT(jgw_decides(&policy, &one, 2, &part) == JGW_BAD_LENGTH && part == 7);
    EXPECT(jgw_decides(NULL, &two, 2, &part) == JGW_NULL && jgw_decides(&policy, NULL, 2, &part) == JGW_NULL);
    EXPECT(jgw_decides(&policy, &two, 2, NULL) == JGW_NULL && part == 7);
    jgw_free(&policy);
    jgw_free(&program);
}

static void test_handles(void)
{
    struct jgw_handle policy = JGW_NOTHING, other = JGW_NOTHING, claims = JGW_NOTHING, moved;
    struct can_frame frame = frame_of(0x8CF00400, ONES);
    uint32_t verdict;
    EXPECT(jgw_policy_share(&policy, &other) == JGW_WRONG_HANDLE && !other.there);
    EXPECT(table(&policy, "default = \"pass\"", NULL) == JGW_OK && jgw_policy_share(&policy, &other) == JGW_OK);
    EXPECT(jgw_verdict(&policy, &frame, 0) == JGW_PASS && jgw_verdict(&other, &frame, 0) == JGW_PASS);
    jgw_free(&policy);
    EXPECT(!policy.there && jgw_verdict(&other, &frame, 0) == JGW_PASS);
    jgw_free(&policy); /* twice, and NULL */
    jgw_free(NULL);
    EXPECT(table(&policy, "", NULL) == JGW_OK && jgw_verdict(&policy, &frame, 0) == JGW_BLOCK);
    EXPECT(jgw_policy_share(&other, &policy) == JGW_OK && jgw_verdict(&policy, &frame, 0) == JGW_PASS);
    EXPECT(jgw_policy_share(&policy, &policy) == JGW_WRONG_HANDLE && jgw_verdict(&policy, &frame, 0) == JGW_PASS);
    EXPECT(jgw_policy_share(NULL, &policy) == JGW_NULL && jgw_policy_share(&policy, NULL) == JGW_NULL);
    /* A handle of the other kind. */
    EXPECT(jgw_claims_new(&claims) == JGW_OK && jgw_verdict(&claims, &frame, 0) == JGW_WRONG_HANDLE);
    EXPECT(jgw_verdicts(&claims, &frame, 1, 0, &verdict, 1) == JGW_WRONG_HANDLE);
    EXPECT(jgw_policy_share(&claims, &other) == JGW_WRONG_HANDLE && jgw_verdict(&other, &frame, 0) == JGW_PASS);
    EXPECT(jgw_claims_hear(&policy, &frame) == JGW_WRONG_HANDLE && jgw_verdict(&policy, &frame, 0) == JGW_PASS);
    /* A handle may move, and may come to hold another kind. */
    moved = claims;
    EXPECT(table(&moved, "default = \"pass\"", NULL) == JGW_OK && jgw_verdict(&moved, &frame, 0) == JGW_PASS);
    jgw_free(&moved);
    jgw_free(&other);
    jgw_free(&policy);
}

static void test_claims(void)
{
    struct jgw_handle claims = JGW_NOTHING, policy = JGW_NOTHING;
    struct can_frame five = frame_of(0x98EEFF80, "\x05\0\0\0\0\0\0"), seven = frame_of(0x98EEFF80, "\x07\0\0\0\0\0\0");
    struct can_frame gives_up = frame_of(0x98EEFFFE, "\x05\0\0\0\0\0\0"), to_128 = frame_of(0x98EF8034, ONES), broken = five;
    struct can_frame moves = frame_of(0x98EEFF81, "\x05\0\0\0\0\0\0"), to_all = frame_of(0x98F08034, ONES);
    uint64_t name = 1;
    uint8_t address = 1;
    broken.len = 9;
    EXPECT(jgw_claims_hear(&claims, &five) == JGW_WRONG_HANDLE && jgw_claims_local(&claims, &five) == JGW_WRONG_HANDLE);
    EXPECT(jgw_claims_holder(&claims, 128, &name) == JGW_WRONG_HANDLE && name == 1);
    EXPECT(jgw_claims_address(&claims, 5, &address) == JGW_WRONG_HANDLE && address == 1);
    EXPECT(jgw_claims_new(&claims) == JGW_OK && jgw_claims_holder(&claims, 128, &name) == JGW_NOBODY && name == 1);
    EXPECT(jgw_claims_address(&claims, 5, &address) == JGW_NOBODY && address == 1 && jgw_claims_local(&claims, &to_128) == 0);
    /* The lower NAME holds the address, whoever claims first. */
    EXPECT(jgw_claims_hear(&claims, &five) == JGW_OK && jgw_claims_holder(&claims, 128, &name) == JGW_OK && name == 5);
    EXPECT(jgw_claims_hear(&claims, &seven) == JGW_OK && jgw_claims_holder(&claims, 128, &name) == JGW_OK && name == 5);
    EXPECT(jgw_claims_address(&claims, 5, &address) == JGW_OK && address == 128);
    EXPECT(jgw_claims_address(&claims, 7, &address) == JGW_NOBODY && jgw_claims_holder(&claims, 254, &name) == JGW_NOBODY);
    EXPECT(jgw_claims_local(&claims, &to_128) == 1 && jgw_claims_local(&claims, &to_all) == 0);
    EXPECT(jgw_claims_hear(&claims, &moves) == JGW_OK && jgw_claims_holder(&claims, 128, &name) == JGW_NOBODY);
    EXPECT(jgw_claims_holder(&claims, 129, &name) == JGW_OK && name == 5 && jgw_claims_local(&claims, &to_128) == 0);
    EXPECT(jgw_claims_hear(&claims, &gives_up) == JGW_OK && jgw_claims_holder(&claims, 129, &name) == JGW_NOBODY);
    EXPECT(jgw_claims_hear(&claims, &broken) == JGW_BAD_LENGTH && jgw_claims_local(&claims, &broken) == JGW_BAD_LENGTH);
    EXPECT(table(&policy, "", NULL) == JGW_OK && jgw_claims_holder(&policy, 128, &name) == JGW_WRONG_HANDLE);
    EXPECT(jgw_claims_address(&policy, 5, &address) == JGW_WRONG_HANDLE && jgw_claims_local(&policy, &five) == JGW_WRONG_HANDLE);
    EXPECT(jgw_claims_new(NULL) == JGW_NULL);
    EXPECT(jgw_claims_hear(NULL, &five) == JGW_NULL && jgw_claims_hear(&claims, NULL) == JGW_NULL);
    EXPECT(jgw_claims_holder(NULL, 1, &name) == JGW_NULL && jgw_claims_holder(&claims, 1, NULL) == JGW_NULL);
    EXPECT(jgw_claims_address(NULL, 1, &address) == JGW_NULL && jgw_claims_address(&claims, 1, NULL) == JGW_NULL);
    EXPECT(jgw_claims_local(NULL, &five) == JGW_NULL && jgw_claims_local(&claims, NULL) == JGW_NULL);
    EXPECT(jgw_claims_new(&policy) == JGW_OK && jgw_claims_holder(&policy, 128, &name) == JGW_NOBODY);
    jgw_free(&policy);
    jgw_free(&claims);
}

int main(void)
{
    test_listings();
    test_code();
    test_assembler();
    test_tables();
    test_nesting();
    test_many_rules();
    test_verdicts();
    test_programs();
    test_compiled();
    test_rules();
    test_decides();
    test_handles();
    test_claims();
    printf("%u passed, %u failed\n", passed, failed);
    return failed != 0;
}
