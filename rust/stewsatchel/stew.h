/* The two C names of the proved tokenizer, for C and C++ programs. They are in the archive libstew.a (x86-64).
 *
 * Both answer on every input, keep nothing of what they are lent, and write only to it. What is lent to one call as memory to write
 * shares no byte with anything else that is lent to it. No pointer is NULL, not even one whose length is 0.
 */
#ifndef STEW_H
#define STEW_H

#include <stddef.h>
#include <stdint.h>

#ifdef __cplusplus
extern "C" {
#endif

enum {
    /* the most bytes of a script, and of a raw literal's body */
    STEW_LONGEST = 16777216,
    /* the bytes of an entry: five numbers (kind, line, position, offset, length) */
    STEW_ENTRY = 20,
    /* the bytes of a run's answer: seven numbers (see stew_run) */
    STEW_RUN_ANSWER = 28,
    /* the bytes of the writer's answer: one number */
    STEW_RAW_WRITE_ANSWER = 4
};

/* The kinds of token. A literal's bytes (STEW_STRING to STEW_CHAR) are in `literals`, those of any other token in the script. */
enum stew_kind {
    STEW_NAME = 1,
    STEW_KEYWORD = 2,
    STEW_SYMBOL = 3,
    STEW_NUMBER = 4,
    STEW_STRING = 5,
    /* a piece of text that ${ ends */
    STEW_INTERPOLATED = 6,
    /* a piece of text that its backtick ends */
    STEW_TEXT = 7,
    STEW_RAW = 8,
    STEW_CHAR = 9,
    STEW_COMMENT = 10,
    /* a word of the book */
    STEW_RESERVED = 11
};

/* What is answered: 0, or why it is refused. 3 and 15 belong to entries that have no C name here. */
enum stew_refusal {
    STEW_OK = 0,
    STEW_NOT_UTF8 = 1,
    STEW_TOO_LONG = 2,
    STEW_BAD_START = 3,
    STEW_UNTERMINATED_STRING = 4,
    STEW_UNEXPECTED_INPUT = 5,
    STEW_MALFORMED_ESCAPE_SEQUENCE = 6,
    STEW_STRING_TOO_LONG = 7,
    STEW_MALFORMED_IDENTIFIER = 8,
    /* `literals` or `out` is too short: lend more, and ask again */
    STEW_NO_LITERAL_ROOM = 9,
    /* `entries` is too short: lend more, and ask again */
    STEW_NO_TOKEN_ROOM = 10,
    STEW_OPEN_AT_END = 11,
    STEW_NOT_ONE_CHARACTER = 12,
    STEW_TOO_DEEP = 13,
    STEW_BAD_BOOK = 14,
    STEW_BAD_SUM = 15
};

/* Lists the tokens of a script, and returns 0 if it was read to its end. Any other number means that the script is NOT whole: what
 * is listed are the tokens before the stop.
 *
 * book      a word book; the empty one is two zero bytes.
 * limit     the most bytes of a literal; 0 is no limit.
 * literals  takes the bytes of the literals, one behind the other. Four times the script's length is enough for every script.
 * entries   takes STEW_ENTRY bytes for each token. As many entries as the script has bytes are enough for every script.
 * answer    takes seven numbers: what is returned, line, position (of the end, or of the stop), entries listed, literal bytes used,
 *           offset and length of the script's part that the stop is about (0 and 0 if none). Where it is shorter than
 *           STEW_RUN_ANSWER, nothing is written anywhere, and 2, 1 or 14 is returned where one applies, else 9.
 *
 * Numbers are little endian, four bytes each: stew_number reads one. */
uint32_t stew_run(const uint8_t *script, size_t script_length, const uint8_t *book, size_t book_length, uint64_t limit,
                  uint8_t *literals, size_t literals_room, uint8_t *entries, size_t entries_room, uint8_t *answer,
                  size_t answer_room);

/* Writes the raw literal of a body, with the least number of hashes that does not close it early. Returns 0, or 2, 1 or 9.
 *
 * out     takes the literal; three times the body's length and 4 is enough for every body.
 * answer  takes one number, the literal's length, 0 where it is refused. Where it is shorter than STEW_RAW_WRITE_ANSWER, nothing
 *         is written anywhere, and 2 or 1 is returned where one applies, else 9. */
uint32_t stew_raw_write(const uint8_t *body, size_t body_length, uint8_t *out, size_t out_room, uint8_t *answer,
                        size_t answer_room);

/* The number at an index of an answer, or of an entry. */
static inline uint32_t stew_number(const uint8_t *numbers, size_t index)
{
    const uint8_t *at = numbers + 4 * index;
    return (uint32_t)at[0] | (uint32_t)at[1] << 8 | (uint32_t)at[2] << 16 | (uint32_t)at[3] << 24;
}

#ifdef __cplusplus
}
#endif

#endif
