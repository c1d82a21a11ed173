/*
 * Why libj1939gw makes no policy: what each refusal names, where it is, the path that leaves a scratch word unset, and the words.
 * These are what `gw` says of the same texts, as the rows of tests have it. The last line is `N passed, M failed`.
 */
#include "expect.h"
#include "j1939gw.h"

#include <stdio.h>
#include <string.h>

typedef uint32_t make(const char *text, size_t length, struct jgw_handle *policy, struct jgw_error *error);

/* The refusal of a text. What stood in the error before is written over, and the policy is left. */
static struct jgw_error refused(make *from, const char *text)
{
    struct jgw_handle policy = JGW_NOTHING;
    struct jgw_error error;
    memset(&error, 0xA5, sizeof error);
    EXPECT(from(text, strlen(text), &policy, &error) == error.number && error.number != JGW_OK && !policy.there);
    return error;
}

static bool names(const struct jgw_error *error, uint32_t number, uint32_t line, uint32_t column, uint32_t place, uint32_t word,
                  uint32_t rule)
{
    return error->number == number && error->line == line && error->column == column && error->place == place
           && error->word == word && error->rule == rule;
}

/* The words, with 0 in all octets behind them. */
static bool says(const struct jgw_error *error, const char *words)
{
    char message[JGW_MESSAGE] = {0};
    memcpy(message, words, strlen(words));
    return memcmp(error->message, message, sizeof message) == 0;
}

/* A path of so many instructions, of which the first are these, with 0 behind the last. */
static bool leads(const struct jgw_error *error, uint32_t steps, const uint32_t *places, size_t count)
{
    uint32_t path[JGW_PATH] = {0};
    if (count != 0)
        memcpy(path, places, count * sizeof *places);
    return error->steps == steps && memcmp(error->path, path, sizeof path) == 0;
}

static bool has_no_path(const struct jgw_error *error)
{
    return leads(error, 0, NULL, 0);
}

static void test_listings(void)
{
    struct jgw_error error = refused(jgw_policy_from_listing, "6 0 0 1");
    EXPECT(names(&error, 10, JGW_NONE, JGW_NONE, JGW_NONE, JGW_NONE, JGW_NONE) && has_no_path(&error));
    EXPECT(says(&error, "the listing does not begin with the number of its instructions, at most 65535, and a comma, as "
                        "`1,6 0 0 1,` does (for `tcpdump -ddd`, make each line end a comma)"));
    error = refused(jgw_policy_from_listing, "1,6 0 0 1,6 0 0 1,");
    EXPECT(names(&error, 12, JGW_NONE, JGW_NONE, JGW_NONE, JGW_NONE, JGW_NONE));
    EXPECT(says(&error, "something other than white space follows the last of the instructions that the count tells"));
    error = refused(jgw_policy_from_listing, "2,100 0 0 32,6 0 0 0,");
    EXPECT(names(&error, 24, JGW_NONE, JGW_NONE, 0, JGW_NONE, JGW_NONE) && has_no_path(&error));
    EXPECT(says(&error, "instruction 0 shifts by 32, and at most 31 is meant"));
    error = refused(jgw_policy_from_listing, "0,");
    EXPECT(says(&error, "the code has no instructions, and at least a return is needed"));
}

static void test_paths(void)
{
    static const uint32_t two[] = {0, 2}, one[] = {0};
    static struct sock_filter code[4096];
    uint32_t first[JGW_PATH];
    struct jgw_handle policy = JGW_NOTHING;
    struct jgw_error error = refused(jgw_policy_from_listing, "4,21 0 1 0,2 0 0 3,96 0 0 3,22 0 0 0,");
    EXPECT(names(&error, 29, JGW_NONE, JGW_NONE, 2, 3, JGW_NONE) && leads(&error, 2, two, 2));
    EXPECT(says(&error, "instruction 2 loads M[3], which the path 0 2 leaves unset"));
    error = refused(jgw_policy_from_assembler, "ld M[15]\nret a\n");
    EXPECT(names(&error, 29, JGW_NONE, JGW_NONE, 0, 15, JGW_NONE) && leads(&error, 1, one, 1));
    EXPECT(says(&error, "instruction 0 loads M[15], which the path 0 leaves unset"));
    /* 4094 instructions before the load, of which the first are told: of the words those that fit. */
    for (uint32_t place = 0; place < JGW_PATH; place++)
        first[place] = place;
    code[4094].code = 0x60;
    code[4094].k = 3;
    code[4095].code = 0x06;
    EXPECT(jgw_policy_from_code(code, 4096, &policy, &error) == 29);
    EXPECT(names(&error, 29, JGW_NONE, JGW_NONE, 4094, 3, JGW_NONE) && leads(&error, 4095, first, JGW_PATH));
    EXPECT(strncmp(error.message, "instruction 4094 loads M[3], which the path 0 1 2 3 ", 52) == 0);
    EXPECT(strlen(error.message) == JGW_MESSAGE - 1);
    /* 32 and 33 instructions. */
    for (uint32_t load = JGW_PATH - 1; load <= JGW_PATH; load++) {
        memset(code, 0, sizeof code);
        code[load].code = 0x60;
        code[load + 1].code = 0x06;
        EXPECT(jgw_policy_from_code(code, load + 2, &policy, &error) == 29 && leads(&error, load + 1, first, JGW_PATH));
    }
    EXPECT(!policy.there);
}

static void test_assembler(void)
{
    struct jgw_error error = refused(jgw_policy_from_assembler, "ret #0\n/* open\n");
    EXPECT(names(&error, 40, 2, JGW_NONE, JGW_NONE, JGW_NONE, JGW_NONE) && has_no_path(&error));
    EXPECT(says(&error, "line 2: the comment that \"/*\" begins is never closed; \"*/\" closes it"));
    error = refused(jgw_policy_from_assembler, "ret x");
    EXPECT(names(&error, 42, 1, JGW_NONE, JGW_NONE, JGW_NONE, JGW_NONE));
    EXPECT(says(&error, "line 1: \"ret\" does not take \"x\"; it takes #k or a"));
    error = refused(jgw_policy_from_assembler, "drop: ret #0\nld #1\ndrop: ret #1\n");
    EXPECT(names(&error, 44, 3, JGW_NONE, JGW_NONE, JGW_NONE, JGW_NONE));
    EXPECT(says(&error, "line 3: label \"drop\" is defined on line 1 already"));
    error = refused(jgw_policy_from_assembler, "ld #1");
    EXPECT(names(&error, 28, JGW_NONE, JGW_NONE, 0, JGW_NONE, JGW_NONE));
    EXPECT(says(&error, "instruction 0, the last, is no return, as `6 0 0 1` is"));
    error = refused(jgw_policy_from_assembler, "\xFF");
    EXPECT(names(&error, JGW_NOT_UTF8, JGW_NONE, JGW_NONE, JGW_NONE, JGW_NONE, JGW_NONE) && has_no_path(&error));
    EXPECT(says(&error, "the input is no text: it is not UTF-8"));
}

static void test_tables(void)
{
    struct jgw_error error = refused(jgw_policy_from_table, "default =");
    EXPECT(names(&error, 50, 1, 10, JGW_NONE, JGW_NONE, JGW_NONE) && has_no_path(&error));
    EXPECT(says(&error, "the table is no TOML document: TOML parse error at line 1, column 10: invalid value, "
                        "expected a string, number, boolean, date-time, array or inline table"));
    error = refused(jgw_policy_from_table, "defualt = \"pass\"");
    EXPECT(names(&error, 51, 1, 1, JGW_NONE, JGW_NONE, JGW_NONE));
    EXPECT(says(&error, "the key \"defualt\" is unknown (`default`?); a table has `default`, `other` and `[[rule]]`"));
    error = refused(jgw_policy_from_table, "# Rules.\n\n  [[rule]] # the first\naction = \"allow\"");
    EXPECT(names(&error, 52, 4, 1, JGW_NONE, JGW_NONE, 0));
    EXPECT(says(&error, "the `action` of rule 0 is neither \"pass\" nor \"block\""));
    error = refused(jgw_policy_from_table, "  [[rule]]\n  pgn = 1");
    EXPECT(names(&error, 52, 1, 3, JGW_NONE, JGW_NONE, 0));
    EXPECT(says(&error, "rule 0 has no `action`; write `action = \"pass\"` or `action = \"block\"`"));
    error = refused(jgw_policy_from_table, "[[rule]]\naction = \"pass\"\n[[rule]]\naction = \"pass\"\n\tdestination = -1\n");
    EXPECT(names(&error, 53, 5, 2, JGW_NONE, JGW_NONE, 1));
    EXPECT(says(&error, "`destination` of rule 1 has a number that is not from 0 to 255"));
    /* Where no line begins the rule, none is told. */
    error = refused(jgw_policy_from_table, "rule = [{ action = \"allow\" }]");
    EXPECT(names(&error, 52, JGW_NONE, JGW_NONE, JGW_NONE, JGW_NONE, 0));
    error = refused(jgw_policy_from_table, "#\xFF");
    EXPECT(names(&error, JGW_NOT_UTF8, JGW_NONE, JGW_NONE, JGW_NONE, JGW_NONE, JGW_NONE));
    EXPECT(says(&error, "the input is no text: it is not UTF-8"));
}

/* A key of three octets a character, behind one to three others. The message ends before the character that does not fit. */
static void test_cuts(void)
{
    static const char euro[] = "\xE2\x82\xAC";
    for (size_t others = 1; others <= 3; others++) {
        char text[512] = "\"xxx";
        struct jgw_error error;
        size_t length = 1 + others;
        for (int more = 0; more < 120; more++, length += 3)
            memcpy(text + length, euro, 3);
        memcpy(text + length, "\" = 1", 6);
        error = refused(jgw_policy_from_table, text);
        EXPECT(error.number == 51 && memchr(error.message, 0, JGW_MESSAGE) != NULL);
        length = strlen(error.message);
        EXPECT(length > JGW_MESSAGE - 4 && memcmp(error.message + length - 3, euro, 3) == 0);
    }
}

static void test_null(void)
{
    struct jgw_handle policy = JGW_NOTHING;
    struct jgw_error error;
    memset(&error, 0xA5, sizeof error);
    EXPECT(jgw_policy_from_table(NULL, 1, &policy, &error) == JGW_NULL);
    EXPECT(names(&error, JGW_NULL, JGW_NONE, JGW_NONE, JGW_NONE, JGW_NONE, JGW_NONE) && has_no_path(&error));
    EXPECT(says(&error, "a pointer is NULL"));
    /* A call that is not refused leaves the error. */
    EXPECT(jgw_policy_from_table("", 0, &policy, &error) == JGW_OK && says(&error, "a pointer is NULL"));
    jgw_free(&policy);
}

int main(void)
{
    test_listings();
    test_paths();
    test_assembler();
    test_tables();
    test_cuts();
    test_null();
    printf("%u passed, %u failed\n", passed, failed);
    return failed != 0;
}
