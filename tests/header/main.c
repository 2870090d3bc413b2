/*
 * Holds include/msdtp.h against the archive: what the header tells, and nothing
 * else, is used to make tables and to judge answers. The argument is the version
 * that the header is to have. Prints a line for each check, 'passed: NAME' or
 * 'failed: NAME'; the exit status is 0 only when nothing failed.
 */

#include <stdio.h>
#include <string.h>

#include "lent.h"

static void check_layout(const char *version)
{
    char parts[40];

    check("struct sizes", sizeof(struct msdtp_reading) == 32
          && sizeof(struct msdtp_writing) == 16 && sizeof(struct msdtp_normalising) == 40
          && sizeof(struct msdtp_comparing) == 16 && sizeof(struct msdtp_salvaging) == 24
          && sizeof(struct msdtp_explaining) == 72 && sizeof(struct msdtp_measure_reading) == 96);
    sprintf(parts, "%d.%d.%d", MSDTP_VERSION_MAJOR, MSDTP_VERSION_MINOR, MSDTP_VERSION_PATCH);
    check("version in parts", strcmp(parts, MSDTP_VERSION) == 0);
    check("version of the Rust crate", strcmp(version, MSDTP_VERSION) == 0);
    check("always enough words", MSDTP_TABLE_WORDS
          == MSDTP_HEADER_WORDS + MSDTP_ROW_WORDS * MSDTP_ROW_LIMIT + MSDTP_WORD_LIMIT);
    check("always enough bytes", MSDTP_OUTPUT_BYTES == MSDTP_BYTE_LIMIT);
    check("always enough words of a list",
          MSDTP_LIST_WORDS == MSDTP_DIFFERENCE_WORDS * MSDTP_ROW_LIMIT);
    check("words of a sheet by name",
          MSDTP_SHEET_WORDS == MSDTP_HEADER_WORDS + 8 * MSDTP_ROW_WORDS + 1);
}

/* The fields stand one after another, in the order of the header. */
static void check_fields(void)
{
    check("fields of a reading", offsetof(struct msdtp_reading, number) == 0
          && offsetof(struct msdtp_reading, place) == 8
          && offsetof(struct msdtp_reading, words) == 16
          && offsetof(struct msdtp_reading, missing) == 24);
    check("fields of a writing", offsetof(struct msdtp_writing, number) == 0
          && offsetof(struct msdtp_writing, length) == 8);
    check("fields of a normalising", offsetof(struct msdtp_normalising, number) == 0
          && offsetof(struct msdtp_normalising, place) == 8
          && offsetof(struct msdtp_normalising, words) == 16
          && offsetof(struct msdtp_normalising, length) == 24
          && offsetof(struct msdtp_normalising, missing) == 32);
    check("fields of a comparing", offsetof(struct msdtp_comparing, number) == 0
          && offsetof(struct msdtp_comparing, entries) == 8);
    check("fields of a salvaging", offsetof(struct msdtp_salvaging, number) == 0
          && offsetof(struct msdtp_salvaging, length) == 8
          && offsetof(struct msdtp_salvaging, entries) == 16);
    check("fields of an explaining", offsetof(struct msdtp_explaining, number) == 0
          && offsetof(struct msdtp_explaining, entries) == 8
          && offsetof(struct msdtp_explaining, reading) == 16
          && offsetof(struct msdtp_explaining, evidence) == 48
          && offsetof(struct msdtp_explaining, first) == 56
          && offsetof(struct msdtp_explaining, second) == 64);
}

static void check_measure_fields(void)
{
    check("fields of a measure reading", offsetof(struct msdtp_measure_reading, number) == 0
          && offsetof(struct msdtp_measure_reading, place) == 8
          && offsetof(struct msdtp_measure_reading, words) == 16
          && offsetof(struct msdtp_measure_reading, missing) == 24
          && offsetof(struct msdtp_measure_reading, order) == 32
          && offsetof(struct msdtp_measure_reading, unit) == 40
          && offsetof(struct msdtp_measure_reading, chest) == 48
          && offsetof(struct msdtp_measure_reading, waist) == 56
          && offsetof(struct msdtp_measure_reading, sleeve) == 64
          && offsetof(struct msdtp_measure_reading, chest_um) == 72
          && offsetof(struct msdtp_measure_reading, waist_um) == 80
          && offsetof(struct msdtp_measure_reading, sleeve_um) == 88);
}

/* Whether an operation gives the number: none gives 17 to 19. */
static int is_given(uint64_t number)
{
    return number <= MSDTP_LIST_SHORT || (number >= MSDTP_NOT_A_SHEET && number <= MSDTP_FIGURE_RANGE);
}

/* Each number has words of its own, the same in both translation units, and all others have one meaning. */
static void check_meanings(void)
{
    const char *no_number = msdtp_meaning(UINT64_MAX);
    uint64_t number, other;
    int good = 1, others = 1;

    for (number = 0; number <= 2 * MSDTP_FIGURE_RANGE; number++) {
        const char *words = msdtp_meaning(number);

        good = good && words != NULL && *words && strcmp(words, meaning_elsewhere(number)) == 0;
        for (other = 0; good && is_given(number) && other < number; other++) {
            good = strcmp(words, msdtp_meaning(other)) != 0;
        }
        others = others && is_given(number) == (strcmp(words, no_number) != 0);
    }
    check("a meaning for each number", good);
    check("accepted", strcmp(msdtp_meaning(MSDTP_ACCEPTED), "accepted") == 0);
    check("one meaning for what is no number", others);
}

/* The refusals of reading that few bytes get, but for 2 and 3. */
static void check_reading(void)
{
    static const struct {
        const char *name;
        uint64_t number, place;
        size_t length;
        uint8_t bytes[9];
    } cases[] = {
        { "unassigned", MSDTP_UNASSIGNED, 0, 1, { 0xC0 } },
        { "bad bits", MSDTP_BAD_BITS, 0, 2, { 0xF1, 0x00 } },
        { "bad repeat", MSDTP_BAD_REPEAT, 0, 1, { 0xC4 } },
        { "several kinds", MSDTP_SEVERAL_KINDS, 0, 4, { 0xC5, 0x02, 0x81, 0x41 } },
        { "several kinds, an EDT and a STRUC", MSDTP_SEVERAL_KINDS, 0, 9,
          { 0xC5, 0x07, 0xC3, 0x02, 0x81, 0x82, 0xC2, 0x01, 0x81 } },
        { "bad EDT", MSDTP_BAD_EDT, 0, 3, { 0xC3, 0x81, 0x00 } },
        { "bad EDT, first a STRUC that is no string", MSDTP_BAD_EDT, 0, 7,
          { 0xC3, 0x05, 0xC2, 0x01, 0x81, 0x81, 0x82 } },
        { "4 before 9, which comes after the contents", MSDTP_UNASSIGNED, 2, 3, { 0xC3, 0x01, 0xC0 } },
    };
    size_t i;

    for (i = 0; i < sizeof cases / sizeof *cases; i++) {
        memcpy(message, cases[i].bytes, cases[i].length);
        check(cases[i].name, refused_read(cases[i].length, MSDTP_TABLE_WORDS,
                                          cases[i].number, cases[i].place, 0));
    }
}

/* A string and another STRUC are of one kind. */
static void check_one_kind(void)
{
    static const uint8_t bytes[] = { 0xC5, 0x06, 0xC5, 0x01, 0x41, 0xC2, 0x01, 0x81 };

    memcpy(message, bytes, sizeof bytes);
    check("one kind, a string and another STRUC",
          accepted_read(sizeof bytes, MSDTP_TABLE_WORDS, 17));
}

/* An empty buffer may be null: each one, wherever it is lent. */
static void check_null(void)
{
    check("null: a message of nothing, no table",
          msdtp_read(NULL, 0, NULL, 0).number == MSDTP_TABLE_SHORT);
    check("null: a message of nothing",
          msdtp_read(NULL, 0, table, MSDTP_HEADER_WORDS).number == MSDTP_ACCEPTED);
    check("null: a message of nothing, normalised",
          msdtp_normalise(NULL, 0, table, MSDTP_HEADER_WORDS, NULL, 0).number == MSDTP_ACCEPTED);
    check("null: no output", msdtp_write(table, MSDTP_HEADER_WORDS, NULL, 0).number == MSDTP_ACCEPTED);
    check("null: no table", msdtp_write(NULL, 0, NULL, 0).number == MSDTP_NOT_A_TABLE
          && msdtp_write(NULL, 0, output, MSDTP_OUTPUT_BYTES).number == MSDTP_NOT_A_TABLE);
    check("null: no list",
          msdtp_compare(table, MSDTP_HEADER_WORDS, table, MSDTP_HEADER_WORDS, NULL, 0).number == MSDTP_ACCEPTED);
    check("null: no tables to compare",
          msdtp_compare(NULL, 0, NULL, 0, NULL, 0).number == MSDTP_NOT_A_TABLE
          && msdtp_compare(NULL, 0, table, MSDTP_HEADER_WORDS, list, MSDTP_LIST_WORDS).number == MSDTP_NOT_A_TABLE
          && msdtp_compare(table, MSDTP_HEADER_WORDS, NULL, 0, list, MSDTP_LIST_WORDS).number == MSDTP_NOT_A_TABLE);
    check("null: nothing to salvage", msdtp_salvage(NULL, 0, NULL, 0, NULL, 0).number == MSDTP_ACCEPTED);
}

/* Each of the numbers was answered in some check. */
static void check_numbers(void)
{
    size_t number;
    int all = 1;

    for (number = 0; number < sizeof answered / sizeof *answered; number++) {
        all = all && answered[number] == is_given(number);
    }
    check("each number answered", all);
}

int main(int count, char **arguments)
{
    check_layout(count > 1 ? arguments[1] : "");
    check_fields();
    check_measure_fields();
    check_meanings();
    check_tables();
    check_strings();
    check_writing();
    check_reading();
    check_missing();
    check_cuts();
    check_joining();
    check_comparing();
    check_salvaging();
    check_salvaging_limits();
    check_explaining();
    check_explaining_limits();
    check_measure_reading();
    check_measure_passed();
    check_measure_writing();
    check_one_kind();
    check_null();
    check_limits();
    check_numbers();
    return failed;
}
