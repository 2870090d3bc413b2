/* Tables made word by word from what the header tells. */

#include <string.h>

#include "lent.h"

#define ROW(r) (MSDTP_HEADER_WORDS + MSDTP_ROW_WORDS * (r))
enum { ROWS = 16, DATA = ROW(ROWS), USED = DATA + 5 };

/*
 * Four outermost items: -129; a STRUC of BITS of none, 9, 64, 65 and no bits; an
 * EDT of "HI", 1, a STRUC of "" and EMPTY, TRUE and XTRA 3; CHAR 127.
 */
static const uint64_t words_of_all[USED] = {
    ROWS, 4, DATA, 5,
    MSDTP_INT, 0, (uint64_t)-129,
    MSDTP_STRUC, 5, 5,
    MSDTP_BITS, 0, 0,
    MSDTP_BITS, 9, 0,
    MSDTP_BITS, 64, 1,
    MSDTP_BITS, 65, 2,
    MSDTP_BITS, 0, 4,
    MSDTP_EDT, 5, 7,
    MSDTP_STRING, 2, 4,
    MSDTP_INT, 0, 1,
    MSDTP_STRUC, 2, 2,
    MSDTP_STRING, 0, 5,
    MSDTP_EMPTY, 0, 0,
    MSDTP_BOOL, 0, 1,
    MSDTP_XTRA, 0, 3,
    MSDTP_CHAR, 0, 127,
    UINT64_C(0x2980000000000000), UINT64_C(0x0123456789ABCDEF),
    UINT64_C(0xFFFFFFFFFFFFFFFF), UINT64_C(0x8000000000000000),
    UINT64_C(0x4849000000000000)
};

/* Their normal form. */
static const uint8_t bytes_of_all[] = {
    0xE2, 0xFF, 0x7F,
    0xC2, 0x20, 0xF1, 0x01, 0xF2, 0x02, 0x53,
    0xC1, 0x0A, 0xE1, 0x40, 0x01, 0x23, 0x45, 0x67, 0x89, 0xAB, 0xCD, 0xEF,
    0xC1, 0x0B, 0xE1, 0x41, 0xFF, 0xFF, 0xFF, 0xFF, 0xFF, 0xFF, 0xFF, 0xFF, 0x80,
    0xF1, 0x01,
    0xC3, 0x0D, 0xC5, 0x02, 'H', 'I', 0x81, 0xC2, 0x04, 0xC5, 0x81, 0x00, 0xFE, 0xFD, 0xFB,
    0x7F
};

/* The table of all kinds is written, and is what is read back. */
static void check_all_kinds(void)
{
    const size_t length = sizeof bytes_of_all;
    struct msdtp_normalising n;
    size_t room;
    int good = 1;

    memset(made, FILLER, sizeof made);
    memcpy(made, words_of_all, sizeof words_of_all);
    check("all kinds: written", accepted_write(USED, MSDTP_OUTPUT_BYTES, length)
          && memcmp(output, bytes_of_all, length) == 0);
    check("all kinds: words past the data are not looked at",
          accepted_write(WORDS, length, length) && memcmp(output, bytes_of_all, length) == 0);
    for (room = 0; room < length; room++) {
        good = good && refused_write(USED, room, MSDTP_OUTPUT_SHORT, length);
    }
    check("all kinds: every output too short", good);
    check("all kinds: lent not whole", refused_write(USED - 1, length, MSDTP_NOT_A_TABLE, 0));
    memcpy(message + 1, bytes_of_all, length);
    memset(message, 0xFF, 1); /* padding */
    check("all kinds: read back", accepted_read(length + 1, MSDTP_TABLE_WORDS, USED)
          && memcmp(table, words_of_all, sizeof words_of_all) == 0);
    refill();
    n = msdtp_normalise(message + 1, length, table, USED, output + 1, length);
    check("all kinds: normalised, at odd addresses", n.number == MSDTP_ACCEPTED && n.place == 0
          && n.words == USED && n.length == length && n.missing == 0
          && memcmp(table, words_of_all, sizeof words_of_all) == 0 && table_untouched(USED)
          && memcmp(output + 1, bytes_of_all, length) == 0 && output_untouched(length + 1));
    refill();
    n = msdtp_normalise(message + 1, length, table, USED, output, length - 1);
    check("all kinds: normalised, output too short", n.number == MSDTP_OUTPUT_SHORT
          && n.place == 0 && n.words == USED && n.length == length && n.missing == 0
          && output_untouched(0)
          && memcmp(table, words_of_all, sizeof words_of_all) == 0 && table_untouched(USED));
}

/* Each change of one word makes the table of all kinds one that is not well formed. */
static const struct {
    const char *name;
    size_t at;
    uint64_t word;
} changes[] = {
    { "another number of rows", 0, ROWS - 1 },
    { "another number of outermost items", 1, 3 },
    { "another offset of the data", 2, 0 },
    { "too few data words", 3, 4 },
    { "a data word of no BITS and no string", 3, 6 },
    { "kind 0", ROW(0), 0 },
    { "kind 10", ROW(0), MSDTP_STRING + 1 },
    { "INT with an a", ROW(0) + 1, 1 },
    { "too few direct elements", ROW(1) + 1, 4 },
    { "too few rows beneath", ROW(1) + 2, 4 },
    { "BITS of no bits, another b", ROW(2) + 2, 1 },
    { "later BITS of no bits, b 0", ROW(6) + 2, 0 },
    { "b counted from the table's start", ROW(3) + 2, DATA },
    { "a spare bit from a shorter BITS", ROW(3) + 1, 8 },
    { "a spare bit at the end", DATA, UINT64_C(0x2980000000000001) },
    { "CHAR 128", ROW(15) + 2, 128 },
    { "BOOL 2", ROW(13) + 2, 2 },
    { "EMPTY with a b", ROW(12) + 2, 1 },
    { "XTRA 4", ROW(14) + 2, 4 },
    { "EDT without a version", ROW(9), MSDTP_BOOL },
    { "string, b counted from the table's start", ROW(8) + 2, DATA + 4 },
    { "string, b of the BITS before it", ROW(8) + 2, 3 },
    { "string of none, b 0", ROW(11) + 2, 0 },
    { "a spare byte from a shorter string", ROW(8) + 1, 1 },
    { "more characters than the word has", ROW(8) + 1, 9 },
    { "as many characters as can be told", ROW(8) + 1, UINT64_MAX },
    { "a spare byte at the end", DATA + 4, UINT64_C(0x4849000000000001) },
    { "a code over 127", DATA + 4, UINT64_C(0x48C9000000000000) },
};

static void check_changes(void)
{
    size_t i;

    for (i = 0; i < sizeof changes / sizeof *changes; i++) {
        memcpy(made, words_of_all, sizeof words_of_all);
        made[changes[i].at] = changes[i].word;
        check(changes[i].name, refused_write(USED + MORE, MSDTP_OUTPUT_BYTES, MSDTP_NOT_A_TABLE, 0));
    }
}

/* A message of one object for each kind has a row of that kind. */
static void check_kinds(void)
{
    static const struct {
        const char *name;
        uint64_t kind;
        size_t length;
        uint8_t bytes[4];
    } kinds[] = {
        { "INT", MSDTP_INT, 1, { 0x80 } },
        { "BITS", MSDTP_BITS, 2, { 0xF1, 0x03 } },
        { "CHAR", MSDTP_CHAR, 1, { 0x41 } },
        { "BOOL", MSDTP_BOOL, 1, { 0xFC } },
        { "EMPTY", MSDTP_EMPTY, 1, { 0xFE } },
        { "XTRA", MSDTP_XTRA, 1, { 0xF8 } },
        { "STRUC", MSDTP_STRUC, 3, { 0xC2, 0x01, 0x80 } },
        { "EDT", MSDTP_EDT, 4, { 0xC3, 0x02, 0x8C, 0x81 } },
        { "STRING", MSDTP_STRING, 3, { 0xC6, 0x01, 0x41 } },
        { "STRING by a STRUC", MSDTP_STRING, 3, { 0xC2, 0x01, 0x41 } },
        { "STRING by an empty STRUC", MSDTP_STRING, 3, { 0xC2, 0x81, 0x00 } },
        { "STRUC by a USTRUC", MSDTP_STRUC, 4, { 0xC5, 0x02, 0x80, 0x81 } },
    };
    size_t i;

    for (i = 0; i < sizeof kinds / sizeof *kinds; i++) {
        struct msdtp_reading r;

        r = msdtp_read(kinds[i].bytes, kinds[i].length, table, MSDTP_TABLE_WORDS);
        check(kinds[i].name, r.number == MSDTP_ACCEPTED && table[1] == 1
              && table[MSDTP_HEADER_WORDS] == kinds[i].kind);
    }
}

void check_tables(void)
{
    check_all_kinds();
    check_changes();
    check_kinds();
}
