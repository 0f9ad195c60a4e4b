/* A C program over the header and the archive. It checks every answer, and says which one is wrong. */
#include "../stew.h"

#include <stdio.h>
#include <string.h>

static int wrong = 0;

static void check(int is_right, const char *what)
{
    if (!is_right) {
        printf("wrong: %s\n", what);
        wrong = 1;
    }
}

static const uint8_t empty_book[2] = {0, 0};

struct listed {
    uint8_t literals[64];
    uint8_t entries[64 * STEW_ENTRY];
    uint8_t answer[STEW_RUN_ANSWER];
};

static uint32_t run(const char *script, size_t literals, size_t entries, struct listed *to)
{
    memset(to, 0xee, sizeof *to);
    return stew_run((const uint8_t *)script, strlen(script), empty_book, sizeof empty_book, 0, to->literals, literals,
                    to->entries, entries * STEW_ENTRY, to->answer, sizeof to->answer);
}

static int has(const uint8_t *numbers, const uint32_t *right, size_t count)
{
    size_t at;
    for (at = 0; at < count; at++)
        if (stew_number(numbers, at) != right[at])
            return 0;
    return 1;
}

static void check_whole(void)
{
    static const uint32_t answer[7] = {STEW_OK, 2, 0, 5, 3, 0, 0};
    static const uint32_t entries[5][5] = {
        {STEW_KEYWORD, 1, 1, 0, 3}, {STEW_NAME, 1, 5, 4, 1},    {STEW_SYMBOL, 1, 7, 6, 1},
        {STEW_RAW, 1, 9, 0, 3},     {STEW_SYMBOL, 1, 16, 15, 1},
    };
    struct listed to;
    size_t at;
    check(run("let d = #\"a\"b\"#;\n", 64, 64, &to) == STEW_OK, "a whole script ends");
    check(has(to.answer, answer, 7), "the answer to a whole script");
    check(memcmp(to.literals, "a\"b\xee", 4) == 0, "the literal bytes, and none behind them");
    for (at = 0; at < 5; at++)
        check(has(to.entries + at * STEW_ENTRY, entries[at], 5), "an entry of a whole script");
    check(to.entries[5 * STEW_ENTRY] == 0xee, "no entry behind the last");
}

static void check_stops(void)
{
    static const uint32_t unexpected[7] = {STEW_UNEXPECTED_INPUT, 1, 5, 1, 1, 4, 1};
    static const uint32_t open[7] = {STEW_OPEN_AT_END, 1, 4, 1, 0, 0, 0};
    struct listed to;
    check(run("'a' ~", 64, 64, &to) == STEW_UNEXPECTED_INPUT, "a character that begins no token");
    check(has(to.answer, unexpected, 7), "the answer to it, with its part");
    check(run("a /*", 64, 64, &to) == STEW_OPEN_AT_END, "a comment that is open at the end");
    check(has(to.answer, open, 7), "the answer to it, with the token before it");
    check(run("'a'", 0, 64, &to) == STEW_NO_LITERAL_ROOM, "too few literal bytes");
    check(run("'a'", 64, 0, &to) == STEW_NO_TOKEN_ROOM, "too few entries");
    check(to.literals[0] == 0xee, "a token that is refused writes nothing");
    check(stew_run((const uint8_t *)"", 0, empty_book, 1, 0, to.literals, 0, to.entries, 0, to.answer, STEW_RUN_ANSWER) ==
              STEW_BAD_BOOK,
          "a bad book");
    check(stew_run((const uint8_t *)"\"abc\"", 5, empty_book, 2, 2, to.literals, 64, to.entries, 64, to.answer,
                   STEW_RUN_ANSWER) == STEW_STRING_TOO_LONG,
          "a limit");
}

static void check_writer(void)
{
    const uint8_t *body = (const uint8_t *)"\"##";
    uint8_t out[16], answer[STEW_RAW_WRITE_ANSWER];
    memset(out, 0xee, sizeof out);
    check(stew_raw_write(body, 3, out, 10, answer, sizeof answer) == STEW_NO_LITERAL_ROOM, "too little room to write");
    check(stew_number(answer, 0) == 0 && out[0] == 0xee, "a refused write writes nothing");
    check(stew_raw_write(body, 3, out, sizeof out, answer, sizeof answer) == STEW_OK, "a raw literal is written");
    check(stew_number(answer, 0) == 11 && memcmp(out, "###\"\"##\"###\xee", 12) == 0, "the literal, and nothing behind it");
    check(stew_raw_write((const uint8_t *)"\x80", 1, out, sizeof out, answer, sizeof answer) == STEW_NOT_UTF8,
          "a body that is not UTF-8");
    check(stew_raw_write(body, 3, out, sizeof out, answer, 3) == STEW_NO_LITERAL_ROOM, "too short an answer");
}

int main(void)
{
    check_whole();
    check_stops();
    check_writer();
    if (!wrong)
        puts("every answer is right");
    return wrong;
}
