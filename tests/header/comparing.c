/* What the header tells of comparing two tables. */

#include <string.h>

#include "lent.h"

/* Reads a message into one of the tables to compare, and returns its words. */
static size_t read_into(uint64_t *to, const uint8_t *bytes, size_t length)
{
    const struct msdtp_reading r = msdtp_read(bytes, length, to, MSDTP_TABLE_WORDS);

    return r.number == MSDTP_ACCEPTED ? r.words : 0;
}

/* Whether the made table and the other have these entries, in a list of so many words. */
static int in_room(size_t left, size_t right, size_t room, uint64_t entries, const uint64_t *due)
{
    if (room / MSDTP_DIFFERENCE_WORDS < entries) {
        return refused_compare(left, right, room, MSDTP_LIST_SHORT, entries);
    }
    return accepted_compare(left, right, room, entries, due);
}

/* The same in every room about the one that is needed, odd ones among them, and in always enough. */
static int in_rooms(size_t left, size_t right, uint64_t entries, const uint64_t *due)
{
    size_t room;
    int good = 1;

    for (room = 0; room < MSDTP_DIFFERENCE_WORDS * entries + MORE; room++) {
        good = good && in_room(left, right, room, entries, due);
    }
    return good && in_room(left, right, MSDTP_LIST_WORDS, entries, due);
}

/* Exchanges the made table and the other, of so many words at the most. */
static void exchange(size_t words)
{
    size_t i;

    for (i = 0; i < words; i++) {
        const uint64_t word = made[i];

        made[i] = other[i];
        other[i] = word;
    }
}

/* These entries in every room; with left and right exchanged, those with their words exchanged. */
static int both_ways(size_t left, size_t right, uint64_t entries, const uint64_t *due)
{
    static uint64_t turned[LIST];
    size_t i;
    int good = in_rooms(left, right, entries, due);

    for (i = 0; i < MSDTP_DIFFERENCE_WORDS * entries; i++) {
        turned[i] = due[i ^ 1];
    }
    exchange(left > right ? left : right);
    good = good && in_rooms(right, left, entries, turned);
    exchange(left > right ? left : right);
    return good;
}

/* A message. */
struct part {
    size_t length;
    uint8_t bytes[15];
};

/* Two messages, and the entries of their tables. */
static const struct {
    const char *name;
    struct part left, right;
    uint64_t entries, due[10];
} cases[] = {
    { "compare: no items", { 0, { 0 } }, { 1, { 0xFF } }, 0, { 0 } },
    { "compare: an INT in two forms", { 1, { 0x85 } }, { 3, { 0xE2, 0x00, 0x05 } }, 0, { 0 } },
    { "compare: INTs", { 1, { 0x81 } }, { 1, { 0x82 } }, 1, { 0, 0 } },
    { "compare: an INT and its negative", { 1, { 0x81 } }, { 2, { 0xE1, 0xFF } }, 1, { 0, 0 } },
    { "compare: INTs that differ by 2^32", { 1, { 0x81 } }, { 6, { 0xE5, 0x01, 0x00, 0x00, 0x00, 0x01 } },
      1, { 0, 0 } },
    { "compare: INTs that differ by 2^63", { 1, { 0x80 } }, { 9, { 0xE0, 0x80 } }, 1, { 0, 0 } },
    { "compare: CHARs", { 1, { 'A' } }, { 1, { 'B' } }, 1, { 0, 0 } },
    { "compare: BOOLs", { 1, { 0xFC } }, { 1, { 0xFD } }, 1, { 0, 0 } },
    { "compare: XTRAs", { 1, { 0xF8 } }, { 1, { 0xFB } }, 1, { 0, 0 } },
    { "compare: EMPTYs", { 1, { 0xFE } }, { 1, { 0xFE } }, 0, { 0 } },
    { "compare: kinds with the same a and b", { 5, { 0x80, 0x00, 0xFC, 0xFE, 0xF8 } },
      { 5, { 0x00, 0xFC, 0xFE, 0xF8, 0x80 } }, 5, { 0, 0, 1, 1, 2, 2, 3, 3, 4, 4 } },
    { "compare: bits", { 2, { 0xF1, 0x05 } }, { 2, { 0xF1, 0x06 } }, 1, { 0, 0 } },
    { "compare: a bit more, a 0", { 2, { 0xF1, 0x02 } }, { 2, { 0xF1, 0x04 } }, 1, { 0, 0 } },
    { "compare: no bits and no characters", { 2, { 0xF1, 0x01 } }, { 3, { 0xC6, 0x81, 0x00 } },
      1, { 0, 0 } },
    { "compare: eight bits and a character of the same word",
      { 3, { 0xF2, 0x01, 'A' } }, { 3, { 0xC6, 0x01, 'A' } }, 1, { 0, 0 } },
    { "compare: strings", { 4, { 0xC6, 0x02, 'H', 'E' } }, { 4, { 0xC6, 0x02, 'H', 'I' } },
      1, { 0, 0 } },
    { "compare: a string in other objects", { 4, { 0xC6, 0x02, 0xC8, 'E' } },
      { 6, { 0xC2, 0x04, 'H', 0xFF, 'E', 0xFF } }, 0, { 0 } },
    { "compare: a character more, of code 0", { 3, { 0xC6, 0x01, 0x00 } },
      { 4, { 0xC6, 0x02, 0x00, 0x00 } }, 1, { 0, 0 } },
    { "compare: the ninth character", { 11, { 0xC6, 9, 'o', 'n', 'e', '-', 'e', 'i', 'g', 'h', 't' } },
      { 11, { 0xC6, 9, 'o', 'n', 'e', '-', 'e', 'i', 'g', 'h', 'T' } }, 1, { 0, 0 } },
    { "compare: a string and its character", { 3, { 0xC6, 0x01, 'A' } }, { 1, { 'A' } }, 1, { 0, 0 } },
    { "compare: a string and a STRUC of as many elements", { 4, { 0xC6, 0x02, 'A', 'B' } },
      { 4, { 0xC2, 0x02, 'A', 0x81 } }, 1, { 0, 0 } },
    { "compare: data words that moved", { 9, { 0xC6, 0x81, 0x00, 0xF1, 0x05, 0xC6, 0x02, 'H', 'E' } },
      { 9, { 0xC6, 0x01, 'A', 0xF1, 0x05, 0xC6, 0x02, 'H', 'E' } }, 1, { 0, 0 } },
    { "compare: a STRUC is gone into", { 5, { 0xC2, 0x03, 0x81, 0x82, 0xFE } },
      { 5, { 0xC2, 0x03, 0x81, 0x83, 0xFC } }, 2, { 2, 2, 3, 3 } },
    { "compare: an EDT is gone into", { 5, { 0xC3, 0x03, 0x8C, 0x81, 0xFE } },
      { 5, { 0xC3, 0x03, 0x8D, 0x81, 0x80 } }, 2, { 1, 1, 3, 3 } },
    { "compare: a type by number and by name", { 5, { 0xC3, 0x03, 0x8C, 0x81, 0xFE } },
      { 7, { 0xC3, 0x05, 0xC6, 0x01, 'M', 0x81, 0xFE } }, 1, { 1, 1 } },
    { "compare: STRUCs of two and three elements", { 4, { 0xC2, 0x02, 0x81, 0x82 } },
      { 5, { 0xC2, 0x03, 0x83, 0x84, 0x85 } }, 1, { 0, 0 } },
    { "compare: EDTs of two and three elements", { 4, { 0xC3, 0x02, 0x81, 0x82 } },
      { 5, { 0xC3, 0x03, 0x81, 0x82, 0x83 } }, 1, { 0, 0 } },
    { "compare: as many rows beneath, and other elements", { 6, { 0xC2, 0x04, 0xC2, 0x01, 0xFE, 0x81 } },
      { 5, { 0xC2, 0x03, 0xFE, 0x81, 0x82 } }, 1, { 0, 0 } },
    { "compare: a STRUC and an EDT of the same elements", { 4, { 0xC2, 0x02, 0x81, 0x82 } },
      { 4, { 0xC3, 0x02, 0x81, 0x82 } }, 1, { 0, 0 } },
    { "compare: a STRUC and what is in it", { 3, { 0xC2, 0x01, 0x81 } }, { 1, { 0x81 } }, 1, { 0, 0 } },
    { "compare: rows that run apart", { 7, { 0xC2, 0x05, 0xC2, 0x02, 0x81, 0x82, 0x83 } },
      { 4, { 0xC2, 0x02, 0x85, 0x84 } }, 2, { 1, 1, 4, 2 } },
    { "compare: the same behind rows that run apart", { 7, { 0xC2, 0x05, 0xC2, 0x02, 0x81, 0x82, 0x83 } },
      { 4, { 0xC2, 0x02, 0x85, 0x83 } }, 1, { 1, 1 } },
    { "compare: rows that run apart twice", { 8, { 0xC2, 0x02, 0x81, 0xFE, 0x81, 0xFE, 0x82, 0xFC } },
      { 8, { 0x81, 0xFE, 0xC2, 0x02, 0x81, 0xFE, 0x83, 0xFC } }, 4, { 0, 0, 3, 1, 4, 2, 5, 5 } },
    { "compare: one STRUC, and two outermost items", { 5, { 0xC2, 0x03, 0x81, 0x82, 0x83 } },
      { 2, { 0x81, 0x82 } }, 1, { 4, 2 } },
    { "compare: two outermost items and one", { 2, { 0x81, 0x82 } }, { 1, { 0x81 } }, 1, { 2, 1 } },
    { "compare: no outermost item and one", { 0, { 0 } }, { 3, { 0xC2, 0x01, 0x81 } }, 1, { 0, 2 } },
    { "compare: other outermost counts, as many rows", { 2, { 0x81, 0x82 } },
      { 3, { 0xC2, 0x01, 0x81 } }, 1, { 2, 2 } },
    { "compare: other outermost counts, nothing else the same", { 4, { 0x81, 0xFE, 0xF1, 0x05 } },
      { 4, { 0xFC, 0xC2, 0x01, 0xFD } }, 1, { 3, 3 } },
};
enum { CASES = sizeof cases / sizeof *cases };

static void check_cases(void)
{
    int i;

    for (i = 0; i < CASES; i++) {
        const size_t left = read_into(made, cases[i].left.bytes, cases[i].left.length);
        const size_t right = read_into(other, cases[i].right.bytes, cases[i].right.length);

        check(cases[i].name, left > 0 && right > 0
              && both_ways(left, right, cases[i].entries, cases[i].due));
    }
}

/* The words of a row. */
static const uint64_t *row_of(const uint64_t *of, uint64_t row)
{
    return of + MSDTP_HEADER_WORDS + MSDTP_ROW_WORDS * row;
}

/* Whether a row is of a STRUC or EDT, and the row of the next item beside it. */
static int is_container(const uint64_t *row)
{
    return row[0] == MSDTP_STRUC || row[0] == MSDTP_EDT;
}

static uint64_t beside(const uint64_t *of, uint64_t row)
{
    return row + 1 + (is_container(row_of(of, row)) ? row_of(of, row)[2] : 0);
}

/* Whether two items that are not both STRUCs, nor both EDTs, are the same: by kind, a, and b or the data words. */
static int same_leaves(uint64_t left, uint64_t right)
{
    const uint64_t *one = row_of(made, left), *two = row_of(other, right);
    const uint64_t a_word = one[0] == MSDTP_BITS ? 64 : 8;

    if (one[0] != two[0] || one[1] != two[1]) {
        return 0;
    }
    if (one[0] != MSDTP_BITS && one[0] != MSDTP_STRING) {
        return one[2] == two[2];
    }
    return memcmp(made + made[2] + one[2], other + other[2] + two[2],
                  (one[1] + a_word - 1) / a_word * sizeof *made) == 0;
}

/* Puts the entries of so many items, which begin in these rows, behind those that are there. */
static uint64_t put_entries(uint64_t left, uint64_t right, uint64_t count, uint64_t *due, uint64_t entries)
{
    for (; count > 0; count--) {
        const uint64_t *one = row_of(made, left), *two = row_of(other, right);

        if (is_container(one) && one[0] == two[0] && one[1] == two[1]) {
            entries = put_entries(left + 1, right + 1, one[1], due, entries);
        } else if (is_container(one) || is_container(two) || !same_leaves(left, right)) {
            due[MSDTP_DIFFERENCE_WORDS * entries] = left;
            due[MSDTP_DIFFERENCE_WORDS * entries + 1] = right;
            entries++;
        }
        left = beside(made, left);
        right = beside(other, right);
    }
    return entries;
}

/* The entries of the made table and the other, as the header has them. */
static uint64_t put_all(uint64_t *due)
{
    if (made[1] == other[1]) {
        return put_entries(0, 0, made[1], due, 0);
    }
    due[0] = made[0];
    due[1] = other[0];
    return 1;
}

/* Whether the made table and the other have the same normal form, both having one. */
static int same_normal_form(size_t left, size_t right)
{
    static uint8_t form[MSDTP_OUTPUT_BYTES];
    const struct msdtp_writing one = msdtp_write(made, left, form, sizeof form);
    const struct msdtp_writing two = msdtp_write(other, right, output, MSDTP_OUTPUT_BYTES);

    return one.number == MSDTP_ACCEPTED && two.number == MSDTP_ACCEPTED
        && one.length == two.length && memcmp(form, output, one.length) == 0;
}

/* From one entry to the next both words grow. */
static int grow(const uint64_t *due, uint64_t entries)
{
    uint64_t i;
    int good = 1;

    for (i = MSDTP_DIFFERENCE_WORDS; i < MSDTP_DIFFERENCE_WORDS * entries; i++) {
        good = good && due[i - MSDTP_DIFFERENCE_WORDS] < due[i];
    }
    return good;
}

static const struct part items[] = {
    { 1, { 0x81 } },
    { 1, { 0x82 } },
    { 1, { 0xFE } },
    { 4, { 0xC6, 0x02, 'H', 'E' } },
    { 11, { 0xC6, 0x09, 'o', 'n', 'e', '-', 'e', 'i', 'g', 'h', 't' } },
    { 2, { 0xF1, 0x05 } },
    { 6, { 0xC2, 0x04, 0x81, 0x82, 0xF1, 0x05 } },
    { 5, { 0xC2, 0x03, 0xC2, 0x01, 0x81 } },
    { 6, { 0xC3, 0x04, 0x81, 0x82, 0xF1, 0x06 } },
};
enum { ITEMS = sizeof items / sizeof *items, SHAPES = 4, SHEETS = SHAPES * ITEMS * ITEMS };

/*
 * Sends one of the sheets: two items, by themselves, in a STRUC, in a STRUC with
 * an INT behind it, or in an EDT.
 */
static size_t send_sheet(int sheet)
{
    static const struct part fronts[SHAPES] = {
        { 0, { 0 } }, { 2, { 0xC2, 0 } }, { 2, { 0xC2, 0 } }, { 4, { 0xC3, 2, 0x8C, 0x81 } }
    };
    const struct part *front = &fronts[sheet % SHAPES];
    const struct part *first = &items[sheet / SHAPES % ITEMS], *second = &items[sheet / SHAPES / ITEMS];
    size_t length = front->length;

    memcpy(message, front->bytes, front->length);
    memcpy(message + length, first->bytes, first->length);
    length += first->length;
    memcpy(message + length, second->bytes, second->length);
    length += second->length;
    if (front->length > 0) {
        message[1] = (uint8_t)(message[1] + first->length + second->length);
    }
    message[length] = 0x81;
    return length + (sheet % SHAPES == 2);
}

/* Every two of the sheets have the entries that the header tells. */
static void check_sheets(void)
{
    static uint64_t due[LIST];
    int first, second, good = 1, ordered = 1, same = 1;

    for (first = 0; first < SHEETS; first++) {
        const size_t left = read_into(made, message, send_sheet(first));

        for (second = 0; second < SHEETS; second++) {
            const size_t right = read_into(other, message, send_sheet(second));
            const uint64_t entries = put_all(due);

            good = good && left > 0 && right > 0
                && in_room(left, right, MSDTP_DIFFERENCE_WORDS * entries, entries, due)
                && (entries == 0 || in_room(left, right, MSDTP_DIFFERENCE_WORDS * entries - 1, entries, due));
            ordered = ordered && grow(due, entries);
            same = same && (entries == 0) == same_normal_form(left, right)
                && (entries == 0)
                    == (left == right && memcmp(made, other, left * sizeof *made) == 0);
        }
    }
    check("compare: every two of many sheets", good);
    check("compare: entries in the order of the rows", ordered);
    check("compare: none exactly for the same items", same);
}

/* Makes a table of so many INTs, all of one value, and returns its words. */
static size_t make_numbers(uint64_t *to, uint64_t count, uint64_t value)
{
    uint64_t row;

    to[0] = to[1] = count;
    to[2] = MSDTP_HEADER_WORDS + MSDTP_ROW_WORDS * count;
    to[3] = 0;
    for (row = 0; row < count; row++) {
        uint64_t *at = to + MSDTP_HEADER_WORDS + MSDTP_ROW_WORDS * row;

        at[0] = MSDTP_INT;
        at[1] = 0;
        at[2] = value;
    }
    return MSDTP_HEADER_WORDS + MSDTP_ROW_WORDS * count;
}

/* 12 for the left table, the right one or both, in every room; looked for in both before 16. */
static int no_table(size_t left, size_t right)
{
    size_t room;
    int good = 1;

    for (room = 0; room < MORE; room++) {
        good = good && refused_compare(left, right, room, MSDTP_NOT_A_TABLE, 0);
    }
    return good && refused_compare(left, right, MSDTP_LIST_WORDS, MSDTP_NOT_A_TABLE, 0);
}

static void check_no_tables(void)
{
    const size_t left = make_numbers(made, 3, 1), right = make_numbers(other, 3, 2);
    const size_t last = right - MSDTP_ROW_WORDS;
    static const uint64_t due[] = { 0, 0, 1, 1, 2, 2 };

    check("compare: two tables", both_ways(left, right, 3, due));
    check("compare: the left table lent not whole", no_table(left - 1, right));
    check("compare: the right table lent not whole", no_table(left, right - 1));
    check("compare: no words", no_table(0, right) && no_table(left, 0) && no_table(0, 0));
    other[last] = MSDTP_STRING + 1;
    check("compare: the last row of the right one is none", no_table(left, right));
    other[last] = MSDTP_INT;
    made[last] = MSDTP_STRING + 1;
    check("compare: the last row of the left one is none", no_table(left, right));
    other[0] = UINT64_MAX;
    check("compare: neither is a table", no_table(left, right));
    make_numbers(other, 2, 2);
    check("compare: no table on the left, other outermost counts", no_table(left, right));
    make_numbers(made, 3, 1);
    other[1] = 1;
    check("compare: no table on the right, other outermost counts", no_table(left, right));
    make_numbers(other, 3, 2);
    other[last + 1] = 1;
    check("compare: no table on the right, behind differences", no_table(left, right));
}

/* Words past the data of either table are not looked at. */
static void check_past_data(void)
{
    const size_t left = make_numbers(made, 3, 1), right = make_numbers(other, 3, 1);
    static const uint64_t due[] = { 1, 1 };

    memset(made + left, 0, MORE * sizeof *made);
    memset(other + right, 0xFF, MORE * sizeof *other);
    check("compare: words past the data, none",
          both_ways(left, right + MORE, 0, due) && both_ways(left + MORE, right, 0, due)
          && both_ways(left + MORE, right + MORE, 0, due));
    made[MSDTP_HEADER_WORDS + MSDTP_ROW_WORDS + 2] = 5;
    check("compare: words past the data, one", both_ways(left + MORE, right + MORE, 1, due));
}

/* Makes so many STRUCs, each inside the one before, around this row, and returns its words. */
static size_t make_nest(uint64_t *to, uint64_t depth, uint64_t kind, uint64_t b)
{
    const size_t words = make_numbers(to, depth + 1, 0);
    uint64_t row;

    to[1] = 1;
    for (row = 0; row < depth; row++) {
        uint64_t *at = to + MSDTP_HEADER_WORDS + MSDTP_ROW_WORDS * row;

        at[0] = MSDTP_STRUC;
        at[1] = 1;
        at[2] = depth - row;
    }
    to[words - MSDTP_ROW_WORDS] = kind;
    to[words - 1] = b;
    return words;
}

/* Any well-formed tables are compared, however deep they nest. */
static int nests(uint64_t depth)
{
    const uint64_t due[] = { depth, depth };
    const size_t left = make_nest(made, depth, MSDTP_INT, 1);
    size_t right = make_nest(other, depth, MSDTP_INT, 1);
    int good = both_ways(left, right, 0, due);

    right = make_nest(other, depth, MSDTP_INT, 2);
    good = good && both_ways(left, right, 1, due);
    right = make_nest(other, depth, MSDTP_STRING, 0);
    return good && both_ways(left, right, 1, due);
}

static void check_deep(void)
{
    const uint64_t depth = MSDTP_DEPTH_LIMIT, deepest = MSDTP_ROW_LIMIT - 1;
    const size_t words = make_nest(made, depth + 1, MSDTP_INT, 1);
    size_t left, right;
    uint64_t due[] = { 0, 0 };

    check("compare: as deep as a message may be", nests(depth));
    check("compare: deeper than can be written", nests(depth + 1)
          && msdtp_write(made, words, NULL, 0).number == MSDTP_TOO_NESTED);
    check("compare: as deep as a table may be", nests(deepest));
    left = make_nest(made, deepest, MSDTP_INT, 1);
    right = make_nest(other, deepest - 1, MSDTP_INT, 1);
    due[0] = due[1] = deepest - 1;
    check("compare: one deeper than the other", both_ways(left, right, 1, due));
    other[right - MSDTP_ROW_WORDS] = MSDTP_STRUC;
    check("compare: too deep to write, and no table", no_table(left, right));
}

/* As many entries as there may be, in rooms to the entry. */
static void check_most(void)
{
    static uint64_t due[LIST];
    const size_t left = make_numbers(made, MSDTP_ROW_LIMIT, 1);
    const size_t right = make_numbers(other, MSDTP_ROW_LIMIT, 2);
    const uint64_t most = put_all(due);

    check("compare: as many entries as there may be, in a list of always enough",
          most == MSDTP_ROW_LIMIT && in_room(left, right, MSDTP_LIST_WORDS, most, due));
    check("compare: as many, in a longer list", in_room(left, right, MSDTP_LIST_WORDS + 1, most, due));
    check("compare: as many, in a list one word too short",
          in_room(left, right, MSDTP_LIST_WORDS - 1, most, due));
    check("compare: as many, in no list", in_room(left, right, 0, most, due));
    make_numbers(other, MSDTP_ROW_LIMIT, 1);
    check("compare: as many rows, all the same", in_room(left, right, MSDTP_LIST_WORDS, 0, due));
    other[right - 1] = 2;
    due[0] = due[1] = MSDTP_ROW_LIMIT - 1;
    check("compare: as many rows, the last another", both_ways(left, right, 1, due));
}

/* Makes a BITS or a string of all data words, and returns its words. Its normal form is too long. */
static size_t make_long(uint64_t *to, uint64_t kind, uint64_t count)
{
    const uint64_t front[] = { 1, 1, 7, MSDTP_WORD_LIMIT, kind, count, 0 };

    memcpy(to, front, sizeof front);
    memset(to + 7, 'A', MSDTP_WORD_LIMIT * sizeof *to);
    return 7 + MSDTP_WORD_LIMIT;
}

static int long_ones(uint64_t kind, uint64_t count)
{
    static const uint64_t due[] = { 0, 0 };
    const size_t words = make_long(made, kind, count);
    int good;

    make_long(other, kind, count);
    good = msdtp_write(made, words, NULL, 0).number == MSDTP_NORMAL_LONG
        && both_ways(words, words, 0, due);
    other[words - 1] ^= 1;
    return good && both_ways(words, words, 1, due);
}

static void check_long(void)
{
    check("compare: the longest bits", long_ones(MSDTP_BITS, UINT64_C(64) * MSDTP_WORD_LIMIT));
    check("compare: the longest strings", long_ones(MSDTP_STRING, UINT64_C(8) * MSDTP_WORD_LIMIT));
}

/* The two tables may overlap, or be the same one. */
static void check_overlap(void)
{
    static const uint64_t words[] = { 0, 0, 4, 0, 1, 1, 7, 0, MSDTP_INT, 0, 5 };
    struct msdtp_comparing c = msdtp_compare(words + 4, 7, words + 4, 7, NULL, 0);

    check("compare: a table with itself", c.number == MSDTP_ACCEPTED && c.entries == 0);
    refill_list(3);
    c = msdtp_compare(words, 11, words + 4, 7, list, 3);
    check("compare: tables that overlap", c.number == MSDTP_ACCEPTED && c.entries == 1
          && list[0] == 0 && list[1] == 1 && list_untouched(2, 3));
}

/*
 * The usual way to compare, when before each call the tables become others, of so
 * many INTs that all differ. It ends in so many calls with those then there.
 */
static int compared_in(size_t calls, const uint64_t *turns)
{
    struct msdtp_comparing c = { MSDTP_LIST_SHORT, 0 };
    size_t turn;

    refill_list(MORE);
    for (turn = 0; turn < 4 && c.number == MSDTP_LIST_SHORT; turn++) {
        const size_t left = make_numbers(made, turns[turn], 1), right = make_numbers(other, turns[turn], 2);

        c = msdtp_compare(made, left, other, right, list, MSDTP_DIFFERENCE_WORDS * c.entries);
    }
    return turn == calls && c.number == MSDTP_ACCEPTED && c.entries == turns[calls - 1]
        && list_untouched(MSDTP_DIFFERENCE_WORDS * c.entries, MORE);
}

static void check_again(void)
{
    static const uint64_t nothing[] = { 0, 1, 2, 3 }, same[] = { 3, 3, 4, 5 },
        longer[] = { 1, 2, 5, 5 }, shorter[] = { 2, 5, 3, 5 }, gone[] = { 4, 0, 1, 2 };

    check("compared at once, no items", compared_in(1, nothing));
    check("compared again after 16", compared_in(2, same));
    check("compared again, more each time", compared_in(4, longer));
    check("compared again, then fewer", compared_in(3, shorter));
    check("compared again, then none", compared_in(2, gone));
}

void check_comparing(void)
{
    check_cases();
    check_sheets();
    check_no_tables();
    check_past_data();
    check_deep();
    check_most();
    check_long();
    check_overlap();
    check_again();
}
