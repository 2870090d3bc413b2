/* Strings: one row each, with the codes in data words as the header tells. */

#include <string.h>

#include "lent.h"

enum { FIRST = MSDTP_HEADER_WORDS + MSDTP_ROW_WORDS };

/* The code at a place of the string in the first row, as the header has it. */
static uint64_t code_at(uint64_t i)
{
    const uint64_t b = table[MSDTP_HEADER_WORDS + 2];

    return table[table[2] + b + i / 8] >> (56 - 8 * (i % 8)) & 0xFF;
}

/* The table that the header has for "HELLO", from each object that says it. */
static void check_hello(void)
{
    static const uint64_t hello[] = { 1, 1, 7, 1, 9, 5, 0, UINT64_C(0x48454C4C4F000000) };
    static const uint8_t forms[][7] = {
        { 0xC5, 0x05, 'H', 'E', 'L', 'L', 'O' },
        { 0xC2, 0x05, 'H', 'E', 'L', 'L', 'O' },
        { 0xC6, 0x05, 0x80 | 'H', 'E', 'L', 0x80 | 'L', 'O' },
    };
    size_t i;
    int good = 1;

    for (i = 0; i < sizeof forms / sizeof *forms; i++) {
        memcpy(message, forms[i], sizeof *forms);
        good = good && accepted_read(sizeof *forms, FIRST + 1, FIRST + 1)
            && memcmp(table, hello, sizeof hello) == 0;
    }
    check("HELLO read", good && code_at(0) == 'H' && code_at(4) == 'O');
    memcpy(made, hello, sizeof hello);
    check("HELLO written", accepted_write(FIRST + 1, 7, 7) && memcmp(output, forms[0], 7) == 0);
}

/* Makes the table of one string. */
static size_t make_text(const uint8_t *codes, uint64_t count)
{
    const uint64_t front[] = { 1, 1, FIRST, (count + 7) / 8, MSDTP_STRING, count, 0 };
    uint64_t i;

    memset(made, 0, sizeof made);
    memcpy(made, front, sizeof front);
    for (i = 0; i < count; i++) {
        made[FIRST + i / 8] |= (uint64_t)codes[i] << (56 - 8 * (i % 8));
    }
    return FIRST + front[3];
}

/* The message of an object of this type with so many bytes, under 128, and these bits beside theirs. */
static size_t send_text(uint8_t type, const uint8_t *codes, uint64_t count, uint8_t bits)
{
    uint64_t i;

    message[0] = type;
    message[1] = count > 0 ? (uint8_t)count : 0x81;
    message[2] = 0;
    for (i = 0; i < count; i++) {
        message[2 + i] = codes[i] | bits;
    }
    return count > 0 ? 2 + count : 3;
}

/* A string is read from a STRING with all high bits, and from the normal form that is written. */
static int read_and_written(const uint8_t *codes, uint64_t count)
{
    const size_t words = make_text(codes, count);
    size_t length = send_text(0xC6, codes, count, 0x80);
    uint64_t i;
    int good = accepted_read(length, words, words) && made_is_read(words);

    length = send_text(0xC5, codes, count, 0);
    good = good && accepted_read(length, words, words) && made_is_read(words);
    for (i = 0; good && i < count; i++) {
        good = code_at(i) == codes[i];
    }
    return good && accepted_write(words, length, length) && memcmp(output, message, length) == 0;
}

/* With each number of characters, and in the longest with each code in each place. */
static void check_codes(void)
{
    uint8_t codes[128 + 17];
    uint64_t count, from;
    int good = 1;

    for (from = 0; from < sizeof codes; from++) {
        codes[from] = from % 128;
    }
    for (count = 0; count <= 17; count++) {
        for (from = 0; from < 128; from += count < 17 ? 16 : 1) {
            good = good && read_and_written(codes + from, count);
        }
    }
    check("strings of 0 to 17 characters", good);
}

/* A string of so many characters, then of a pattern so many times, by a REPEAT in a STRUC. */
static int read_repeated(uint64_t before, uint64_t pattern, uint64_t times)
{
    static const uint8_t letters[] = "ABCDEFGHIJKLMNOPQRSTUVWXYZ";
    uint8_t bytes[64], text[256];
    uint64_t count = before;
    size_t words;

    memcpy(text, letters, before);
    memcpy(bytes, letters, before);
    for (; times > (count - before) / pattern; count += pattern) {
        memcpy(text + count, letters + before, pattern);
    }
    bytes[before] = 0xC4;
    bytes[before + 1] = (uint8_t)(1 + pattern);
    bytes[before + 2] = (uint8_t)(0x80 + times);
    memcpy(bytes + before + 3, letters + before, pattern);
    words = make_text(text, count);
    return accepted_read(send_text(0xC2, bytes, before + 3 + pattern, 0), words, words)
        && made_is_read(words);
}

static void check_repeats_within(void)
{
    uint64_t before, pattern, times;
    int good = 1;

    for (before = 0; before <= 9; before++) {
        for (pattern = 1; pattern <= 9; pattern++) {
            for (times = 0; times <= 20; times++) {
                good = good && read_repeated(before, pattern, times);
            }
        }
    }
    check("repeats within a string", good);
}

/* A message is read into these words, and they are written as this normal form. */
static void check_both(const char *name, const uint8_t *sent, size_t sent_length,
                       const uint64_t *words, size_t count, const uint8_t *normal, size_t length)
{
    int good;

    memcpy(message, sent, sent_length);
    memcpy(made, words, count * sizeof *words);
    good = accepted_read(sent_length, MSDTP_TABLE_WORDS, count) && made_is_read(count);
    check(name, good && accepted_write(count, length, length)
          && memcmp(output, normal, length) == 0);
}

/* "", nine bits, "A", no bits, "one-eight", "", one bit: the data in the order of the rows. */
static void check_beside_bits(void)
{
    static const uint8_t bytes[] = {
        0xC5, 0x81, 0x00, 0xF2, 0x02, 0x53, 0xC5, 0x01, 'A', 0xF1, 0x01,
        0xC5, 0x09, 'o', 'n', 'e', '-', 'e', 'i', 'g', 'h', 't', 0xC5, 0x81, 0x00, 0xF1, 0x03
    };
    static const uint64_t words[] = {
        7, 7, 25, 5,
        MSDTP_STRING, 0, 0,
        MSDTP_BITS, 9, 0,
        MSDTP_STRING, 1, 1,
        MSDTP_BITS, 0, 2,
        MSDTP_STRING, 9, 2,
        MSDTP_STRING, 0, 4,
        MSDTP_BITS, 1, 4,
        UINT64_C(0x2980000000000000), UINT64_C(0x4100000000000000),
        UINT64_C(0x6F6E652D65696768), UINT64_C(0x7400000000000000),
        UINT64_C(0x8000000000000000)
    };

    check_both("strings beside bits", bytes, sizeof bytes, words, sizeof words / sizeof *words,
               bytes, sizeof bytes);
}

/* A bit and "HI", three times: each copy has words of its own. */
static void check_copied(void)
{
    static const uint8_t sent[] = {
        0xC2, 0x09, 0xC4, 0x07, 0x83, 0xF1, 0x03, 0xC6, 0x02, 'H', 'I'
    };
    static const uint8_t normal[] = {
        0xC2, 0x12, 0xF1, 0x03, 0xC5, 0x02, 'H', 'I', 0xF1, 0x03, 0xC5, 0x02, 'H', 'I',
        0xF1, 0x03, 0xC5, 0x02, 'H', 'I'
    };
    static const uint64_t words[] = {
        7, 1, 25, 6,
        MSDTP_STRUC, 6, 6,
        MSDTP_BITS, 1, 0, MSDTP_STRING, 2, 1,
        MSDTP_BITS, 1, 2, MSDTP_STRING, 2, 3,
        MSDTP_BITS, 1, 4, MSDTP_STRING, 2, 5,
        UINT64_C(0x8000000000000000), UINT64_C(0x4849000000000000),
        UINT64_C(0x8000000000000000), UINT64_C(0x4849000000000000),
        UINT64_C(0x8000000000000000), UINT64_C(0x4849000000000000)
    };

    check_both("strings in a repeat", sent, sizeof sent, words, sizeof words / sizeof *words,
               normal, sizeof normal);
}

/* A CHAR has a row where it is outermost, in an EDT, or beside what is no CHAR. */
static void check_characters(void)
{
    static const uint8_t bytes[] = {
        'A', 0xC3, 0x03, 0x81, 0x82, 'B', 0xC2, 0x02, 'C', 0xFE, 0xC2, 0x04, 0xC5, 0x02, 'D', 'E'
    };
    static const uint64_t words[] = {
        10, 4, 34, 1,
        MSDTP_CHAR, 0, 'A',
        MSDTP_EDT, 3, 3, MSDTP_INT, 0, 1, MSDTP_INT, 0, 2, MSDTP_CHAR, 0, 'B',
        MSDTP_STRUC, 2, 2, MSDTP_CHAR, 0, 'C', MSDTP_EMPTY, 0, 0,
        MSDTP_STRUC, 1, 1, MSDTP_STRING, 2, 0,
        UINT64_C(0x4445000000000000)
    };

    check_both("characters outside strings", bytes, sizeof bytes, words,
               sizeof words / sizeof *words, bytes, sizeof bytes);
}

/* Each differs from the table of some items by what its name says. */
static const struct {
    const char *name;
    size_t words;
    uint64_t table[16];
} no_tables[] = {
    { "a STRUC of a CHAR", 10, { 2, 1, 10, 0, MSDTP_STRUC, 1, 1, MSDTP_CHAR, 0, 'A' } },
    { "a STRUC of CHARs", 13,
      { 3, 1, 13, 0, MSDTP_STRUC, 2, 2, MSDTP_CHAR, 0, 'H', MSDTP_CHAR, 0, 'I' } },
    { "an empty STRUC", 7, { 1, 1, 7, 0, MSDTP_STRUC, 0, 0 } },
    { "an empty STRUC in a STRUC", 10, { 2, 1, 10, 0, MSDTP_STRUC, 1, 1, MSDTP_STRUC, 0, 0 } },
    { "an EDT with a STRUC of CHARs first", 16,
      { 4, 1, 16, 0, MSDTP_EDT, 2, 3, MSDTP_STRUC, 1, 1, MSDTP_CHAR, 0, 'A', MSDTP_INT, 0, 1 } },
    { "an EDT with a STRUC first that is no string", 16,
      { 4, 1, 16, 0, MSDTP_EDT, 2, 3, MSDTP_STRUC, 1, 1, MSDTP_INT, 0, 1, MSDTP_INT, 0, 1 } },
    { "an EDT with a CHAR first", 13,
      { 3, 1, 13, 0, MSDTP_EDT, 2, 2, MSDTP_CHAR, 0, 'A', MSDTP_INT, 0, 1 } },
    { "an EDT with a string second", 13,
      { 3, 1, 13, 0, MSDTP_EDT, 2, 2, MSDTP_INT, 0, 1, MSDTP_STRING, 0, 0 } },
    { "a string with a row beneath", 10, { 2, 1, 10, 0, MSDTP_STRING, 1, 1, MSDTP_CHAR, 0, 'A' } },
    { "a string of none with another b", 7, { 1, 1, 7, 0, MSDTP_STRING, 0, 1 } },
    { "a string of none with a word", 8, { 1, 1, 7, 1, MSDTP_STRING, 0, 0, 0 } },
    { "a string with a word too many", 9,
      { 1, 1, 7, 2, MSDTP_STRING, 8, 0, UINT64_C(0x4141414141414141), 0 } },
    { "two strings in one word", 11,
      { 2, 2, 10, 1, MSDTP_STRING, 1, 0, MSDTP_STRING, 1, 0, UINT64_C(0x4100000000000000) } },
    { "BITS and a string in one word", 11,
      { 2, 2, 10, 1, MSDTP_BITS, 8, 0, MSDTP_STRING, 1, 0, UINT64_C(0x4100000000000000) } },
    { "codes from the low byte on", 8, { 1, 1, 7, 1, MSDTP_STRING, 1, 0, 'A' } },
    { "a code over 127 in the high byte", 8,
      { 1, 1, 7, 1, MSDTP_STRING, 1, 0, UINT64_C(0x8000000000000000) } },
    { "a code over 127 in the low byte", 8,
      { 1, 1, 7, 1, MSDTP_STRING, 8, 0, UINT64_C(0x4141414141414180) } },
};

static void check_refused(void)
{
    size_t i;

    for (i = 0; i < sizeof no_tables / sizeof *no_tables; i++) {
        memset(made, FILLER, sizeof made);
        memcpy(made, no_tables[i].table, no_tables[i].words * sizeof *made);
        check(no_tables[i].name,
              refused_write(no_tables[i].words, MSDTP_OUTPUT_BYTES, MSDTP_NOT_A_TABLE, 0));
    }
}

void check_strings(void)
{
    check_hello();
    check_codes();
    check_repeats_within();
    check_beside_bits();
    check_copied();
    check_characters();
    check_refused();
}
