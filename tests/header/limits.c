/* Each limit and each size that is always enough: exactly there, and one past it. */

#include <string.h>

#include "lent.h"

/* The header and first row of a table. */
static void make(uint64_t rows, uint64_t outermost, uint64_t words, uint64_t kind, uint64_t a, uint64_t b)
{
    const uint64_t front[] = {
        rows, outermost, MSDTP_HEADER_WORDS + MSDTP_ROW_WORDS * rows, words, kind, a, b
    };

    memcpy(made, front, sizeof front);
}

/* The table of one BITS, all its bits 1. */
static size_t make_bits(uint64_t bits)
{
    const uint64_t words = (bits + 63) / 64;
    uint64_t *data = made + MSDTP_HEADER_WORDS + MSDTP_ROW_WORDS;

    make(1, 1, words, MSDTP_BITS, bits, 0);
    memset(data, 0xFF, words * sizeof *data);
    if (bits % 64 > 0) {
        data[words - 1] <<= 64 - bits % 64;
    }
    return MSDTP_HEADER_WORDS + MSDTP_ROW_WORDS + words;
}

/* The table of one string, of so many As. */
static size_t make_string(uint64_t count)
{
    const uint64_t words = (count + 7) / 8;
    uint64_t *data = made + MSDTP_HEADER_WORDS + MSDTP_ROW_WORDS;

    make(1, 1, words, MSDTP_STRING, count, 0);
    memset(data, 'A', words * sizeof *data);
    if (count % 8 > 0) {
        data[words - 1] <<= 64 - 8 * (count % 8);
    }
    return MSDTP_HEADER_WORDS + MSDTP_ROW_WORDS + words;
}

/* The table of so many EMPTYs. */
static size_t make_empties(uint64_t rows)
{
    uint64_t row;

    make(rows, rows, 0, MSDTP_EMPTY, 0, 0);
    for (row = 1; row < rows; row++) {
        memcpy(made + MSDTP_HEADER_WORDS + MSDTP_ROW_WORDS * row, made + MSDTP_HEADER_WORDS,
               MSDTP_ROW_WORDS * sizeof *made);
    }
    return MSDTP_HEADER_WORDS + MSDTP_ROW_WORDS * rows;
}

/* The table of so many STRUCs, each inside the one before; the last is "". */
static size_t make_nest(uint64_t depth)
{
    uint64_t row;

    make(depth, 1, 0, MSDTP_STRUC, 1, depth - 1);
    for (row = 1; row < depth; row++) {
        uint64_t *at = made + MSDTP_HEADER_WORDS + MSDTP_ROW_WORDS * row;
        uint64_t beneath = depth - 1 - row;

        at[0] = beneath > 0 ? MSDTP_STRUC : MSDTP_STRING;
        at[1] = beneath > 0;
        at[2] = beneath;
    }
    return MSDTP_HEADER_WORDS + MSDTP_ROW_WORDS * depth;
}

/* The message of so many STRUCs, each inside the one before; the last holds EMPTY. */
static size_t send_nest(size_t depth)
{
    size_t i;

    for (i = 0; i < depth; i++) {
        message[2 * i] = 0xC2;
        message[2 * i + 1] = (uint8_t)(2 * (depth - i) - 1);
    }
    message[2 * depth] = 0xFE;
    return 2 * depth + 1;
}

static size_t send_bytes(const uint8_t *bytes, size_t length)
{
    memcpy(message, bytes, length);
    return length;
}

static void check_bytes(void)
{
    memset(message, 0xFF, sizeof message); /* padding */
    check("a message at the limit",
          accepted_read(MSDTP_BYTE_LIMIT, MSDTP_TABLE_WORDS, MSDTP_HEADER_WORDS));
    check("a message past the limit",
          refused_read(MSDTP_BYTE_LIMIT + 1, MSDTP_TABLE_WORDS, MSDTP_TOO_LONG, 0, 0));
}

/*
 * A STRUC of one bit 16,382 times and of 65 bits: 16,384 rows and as many data
 * words. With 129 bits it has a data word more, with EMPTY for the bits and a
 * count of 16,384 a row more.
 */
static void check_words_of_tables(void)
{
    static const uint8_t most[] = {
        0xC2, 0x14, 0xC4, 0x05, 0xE2, 0x3F, 0xFE, 0xF1, 0x03,
        0xC1, 0x0B, 0xE1, 0x41, 0x55, 0x55, 0x55, 0x55, 0x55, 0x55, 0x55, 0x55, 0x80
    };
    static const uint8_t a_word_more[] = {
        0xC2, 0x1D, 0xC4, 0x05, 0xE2, 0x3F, 0xFE, 0xF1, 0x03,
        0xC1, 0x14, 0xE2, 0x00, 0x81, 0x55, 0x55, 0x55, 0x55, 0x55, 0x55, 0x55, 0x55,
        0x55, 0x55, 0x55, 0x55, 0x55, 0x55, 0x55, 0x55, 0x80
    };
    static const uint8_t a_row_more[] = { 0xC2, 0x06, 0xC4, 0x04, 0xE2, 0x40, 0x00, 0xFE };
    size_t length = send_bytes(most, sizeof most);

    check("rows and data words at their limits, in a table of always enough",
          accepted_read(length, MSDTP_TABLE_WORDS, MSDTP_TABLE_WORDS)
          && table[0] == MSDTP_ROW_LIMIT && table[3] == MSDTP_WORD_LIMIT);
    check("a table one word too short", refused_read(length, MSDTP_TABLE_WORDS - 1,
                                                     MSDTP_TABLE_SHORT, 0, MSDTP_TABLE_WORDS));
    length = send_bytes(a_word_more, sizeof a_word_more);
    check("a data word more", refused_read(length, MSDTP_TABLE_WORDS, MSDTP_TOO_MANY, 0, 0));
    length = send_bytes(a_row_more, sizeof a_row_more);
    check("a row more", refused_read(length, MSDTP_TABLE_WORDS, MSDTP_TOO_MANY, 0, 0));
}

/* The message of a string of so many As, in a repeat. */
static size_t send_string(uint64_t count)
{
    const uint8_t bytes[] = {
        0xC2, 0x07, 0xC4, 0x05,
        0xE3, (uint8_t)(count >> 16), (uint8_t)(count >> 8), (uint8_t)count, 'A'
    };

    return send_bytes(bytes, sizeof bytes);
}

/*
 * A string is one row and eight characters to a word: 131,072 characters fill
 * the data words of a table, and 65,532 a normal form.
 */
static void check_long_strings(void)
{
    const uint64_t most = 131072, longest = 65532;

    check("a string of all data words",
          accepted_read(send_string(most), MSDTP_TABLE_WORDS, 7 + MSDTP_WORD_LIMIT)
          && made_is_read(make_string(most)));
    check("a string of a character more",
          refused_read(send_string(most + 1), MSDTP_TABLE_WORDS, MSDTP_TOO_MANY, 0, 0));
    check("a string of all data words, to write",
          refused_write(make_string(most), MSDTP_OUTPUT_BYTES, MSDTP_NORMAL_LONG, 0));
    check("a string of a character more, to write",
          refused_write(make_string(most + 1), MSDTP_OUTPUT_BYTES, MSDTP_NOT_A_TABLE, 0));
    check("the longest string of a normal form",
          accepted_write(make_string(longest), MSDTP_OUTPUT_BYTES, MSDTP_OUTPUT_BYTES)
          && memcmp(output, "\xC5\x82\xFF\xFC" "A", 5) == 0);
    check("the longest string of a normal form and a character more",
          refused_write(make_string(longest + 1), MSDTP_OUTPUT_BYTES, MSDTP_NORMAL_LONG, 0));
}

/*
 * Strings and BITS share the data words: beside 65 bits 8,192 times, which take
 * all, there may stand a string of none and no other.
 */
static void check_shared_words(void)
{
    static const uint8_t bytes[] = {
        0xC2, 0x15, 0xC4, 0x10, 0xE2, 0x20, 0x00,
        0xC1, 0x0B, 0xE1, 0x41, 0x55, 0x55, 0x55, 0x55, 0x55, 0x55, 0x55, 0x55, 0x80
    };
    const size_t length = send_bytes(bytes, sizeof bytes) + 3;

    memcpy(message + sizeof bytes, "\xC5\x81\x00", 3);
    check("a string of none beside all data words",
          accepted_read(length, MSDTP_TABLE_WORDS, 4 + 3 * 8194 + MSDTP_WORD_LIMIT));
    memcpy(message + sizeof bytes, "\xC5\x01" "A", 3);
    check("a string of one beside all data words",
          refused_read(length, MSDTP_TABLE_WORDS, MSDTP_TOO_MANY, 0, 0));
}

/* 8,191 full data words have a normal form of 65,536 bytes. */
static void check_bytes_of_outputs(void)
{
    const uint64_t bits = 8191 * 64;
    size_t words = make_bits(bits);

    check("a normal form at the limit, in an output of always enough",
          accepted_write(words, MSDTP_OUTPUT_BYTES, MSDTP_OUTPUT_BYTES));
    check("an output one byte too short", refused_write(words, MSDTP_OUTPUT_BYTES - 1,
                                                        MSDTP_OUTPUT_SHORT, MSDTP_OUTPUT_BYTES));
    check("a normal form past the limit",
          refused_write(make_bits(bits + 1), MSDTP_OUTPUT_BYTES, MSDTP_NORMAL_LONG, 0));
}

static void check_tables_to_write(void)
{
    const uint64_t bits = (uint64_t)MSDTP_WORD_LIMIT * 64;

    check("data words to write at the limit",
          refused_write(make_bits(bits), MSDTP_OUTPUT_BYTES, MSDTP_NORMAL_LONG, 0));
    check("data words to write past the limit",
          refused_write(make_bits(bits + 1), MSDTP_OUTPUT_BYTES, MSDTP_NOT_A_TABLE, 0));
    check("rows to write at the limit", accepted_write(make_empties(MSDTP_ROW_LIMIT),
                                                       MSDTP_OUTPUT_BYTES, MSDTP_ROW_LIMIT));
    check("rows to write past the limit", refused_write(make_empties(MSDTP_ROW_LIMIT + 1),
                                                        MSDTP_OUTPUT_BYTES, MSDTP_NOT_A_TABLE, 0));
}

/* The innermost of a made nest, "", has three bytes. It counts as a STRUC. */
static void check_depth(void)
{
    const uint64_t depth = MSDTP_DEPTH_LIMIT, rows = depth + 1;

    check("a message as deep as may be", accepted_read(send_nest(depth), MSDTP_TABLE_WORDS,
                                                       MSDTP_HEADER_WORDS + MSDTP_ROW_WORDS * rows));
    check("a message too deep",
          refused_read(send_nest(depth + 1), MSDTP_TABLE_WORDS, MSDTP_TOO_DEEP, 2 * depth, 0));
    check("a table as deep as may be",
          accepted_write(make_nest(depth), MSDTP_OUTPUT_BYTES, 2 * depth + 1));
    check("a table too deep",
          refused_write(make_nest(depth + 1), MSDTP_OUTPUT_BYTES, MSDTP_TOO_NESTED, 0));
}

/* The last of a made nest, with a character and its data word. */
static size_t make_deep_string(uint64_t depth, uint64_t word)
{
    const size_t words = make_nest(depth);

    made[3] = 1;
    made[words - 2] = 1;
    made[words] = word;
    return words + 1;
}

/* Too deep is said only of what is a table. */
static void check_deep_strings(void)
{
    const uint64_t depth = MSDTP_DEPTH_LIMIT + 1;
    size_t words = make_deep_string(depth - 1, UINT64_C(0x4100000000000000));

    check("a string as deep as may be", accepted_write(words, MSDTP_OUTPUT_BYTES, 2 * depth - 1));
    words = make_deep_string(depth, UINT64_C(0x4100000000000000));
    check("a string too deep", refused_write(words, MSDTP_OUTPUT_BYTES, MSDTP_TOO_NESTED, 0));
    words = make_deep_string(depth, UINT64_C(0x8000000000000000));
    check("too deep, a code over 127", refused_write(words, MSDTP_OUTPUT_BYTES, MSDTP_NOT_A_TABLE, 0));
    words = make_deep_string(depth, UINT64_C(0x4100000000000001));
    check("too deep, a spare byte", refused_write(words, MSDTP_OUTPUT_BYTES, MSDTP_NOT_A_TABLE, 0));
    words = make_nest(depth);
    made[words - MSDTP_ROW_WORDS] = MSDTP_STRUC;
    check("too deep, an empty STRUC", refused_write(words, MSDTP_OUTPUT_BYTES, MSDTP_NOT_A_TABLE, 0));
}

void check_limits(void)
{
    check_bytes();
    check_words_of_tables();
    check_long_strings();
    check_shared_words();
    check_bytes_of_outputs();
    check_tables_to_write();
    check_depth();
    check_deep_strings();
}
