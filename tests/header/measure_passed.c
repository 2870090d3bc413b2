/* What the header tells of reading measure sheets in every room, damaged, cut, and refused as msdtp_read refuses them. */

#include <string.h>

#include "measure.h"

/* In every room: 11 with the words needed where it is too short, and then the answer that does not depend on it. */
static int in_rooms(size_t length, uint64_t words, const struct msdtp_measure_reading *due)
{
    struct msdtp_measure_reading short_of = alone(MSDTP_TABLE_SHORT);
    size_t room;
    int good = 1;

    short_of.words = words;
    for (room = 0; room <= SMALL; room++) {
        good = good && answers(length, room, room < words ? &short_of : due);
    }
    return good;
}

static void check_rooms(void)
{
    static const uint64_t values[] = { 1016, 1, 20000 };
    struct msdtp_measure_reading due = accepted_sheet(28, 4711, MSDTP_EIGHTHS_INCH, values);
    size_t length = send_sound(0, MSDTP_EIGHTHS_INCH);

    check("sheet: in every room, by number", in_rooms(length, 28, &due));
    due = alone(MSDTP_NOT_A_SHEET);
    memcpy(message + length, message, length);
    check("sheet: in every room, two sheets", in_rooms(2 * length, 52, &due));
    length = send_sound(1, MSDTP_EIGHTHS_INCH);
    due = accepted_sheet(MSDTP_SHEET_WORDS, 4711, MSDTP_EIGHTHS_INCH, values);
    check("sheet: in every room, by name", in_rooms(length, MSDTP_SHEET_WORDS, &due));
    due = alone(MSDTP_FIGURE_EMPTY);
    check("sheet: in every room, an EMPTY", in_rooms(send_empty(0), 28, &due)
          && in_rooms(send_empty(1), MSDTP_SHEET_WORDS, &due));
    due = alone(MSDTP_NOT_A_SHEET);
    memset(message, 0x81, 9);
    check("sheet: one row more than a sheet is 11 in its words, then 20", in_rooms(9, 31, &due));
    check("sheet: in every room, nothing", in_rooms(0, 4, &due));
}

/* What is due for so much of the message, by what msdtp_read answers and by the table that it leaves. */
static struct msdtp_measure_reading due_for(size_t length)
{
    const uint64_t name = UINT64_C(0x4D45415355524500);
    const struct msdtp_reading r = msdtp_read(message, length, base, SMALL);
    const uint64_t *at = base + MSDTP_HEADER_WORDS;
    const uint64_t values[] = { at[17], at[20], at[23] };
    struct msdtp_measure_reading due = alone(r.number);
    int i, empty = 0, range = 0;

    due.place = r.place;
    due.words = r.words;
    due.missing = r.missing;
    if (r.number != MSDTP_ACCEPTED) {
        return due;
    }
    if (base[1] != 1 || base[0] != 8 || at[0] != MSDTP_EDT || at[1] != 7
        || !((at[3] == MSDTP_INT && at[5] == 12)
             || (at[3] == MSDTP_STRING && at[4] == 7 && base[base[2] + at[5]] == name))
        || at[8] != 1 || at[9] != MSDTP_INT || at[12] != MSDTP_XTRA || at[14] > 1) {
        return alone(MSDTP_NOT_A_SHEET);
    }
    for (i = 15; i < 24; i += MSDTP_ROW_WORDS) {
        if (at[i] != MSDTP_INT && at[i] != MSDTP_EMPTY) {
            return alone(MSDTP_NOT_A_SHEET);
        }
        empty = empty || at[i] == MSDTP_EMPTY;
        range = range || at[i + 2] < 1 || at[i + 2] > MSDTP_FIGURE_MOST;
    }
    if (empty || range) {
        return alone(empty ? MSDTP_FIGURE_EMPTY : MSDTP_FIGURE_RANGE);
    }
    return accepted_sheet(r.words, (int64_t)at[11], at[14], values);
}

/* Each byte of a sheet replaced by each other one: whatever it then is, it gets what is due. */
static int damaged(size_t length)
{
    size_t place;
    int byte, good = 1;

    for (place = 0; place < length; place++) {
        const uint8_t sent = message[place];

        for (byte = 0; byte < 256; byte++) {
            struct msdtp_measure_reading due;

            message[place] = (uint8_t)byte;
            due = due_for(length);
            good = good && answers(length, SMALL, &due);
        }
        message[place] = sent;
    }
    return good;
}

static void check_damage(void)
{
    check("sheet: every byte another, by number", damaged(send_sound(0, MSDTP_TENTHS_CM)));
    check("sheet: every byte another, by name", damaged(send_sound(1, MSDTP_TENTHS_CM)));
    check("sheet: every byte another, an EMPTY", damaged(send_empty(0)));
}

/* The refusals of msdtp_read pass through with all that they tell. */
static int passes(size_t length, uint64_t number, uint64_t place, uint64_t missing)
{
    struct msdtp_measure_reading due = alone(number);

    due.place = place;
    due.missing = missing;
    return answers(length, SMALL, &due) && untouched(small, 0, sizeof small);
}

static void check_cut(void)
{
    const size_t whole = send_sound(1, MSDTP_TENTHS_CM);
    size_t left;
    int good = passes(1, MSDTP_PAST_INPUT, 0, 1);

    for (left = 2; left < whole; left++) {
        good = good && passes(left, MSDTP_PAST_INPUT, 0, whole - left);
    }
    check("sheet: every beginning is 2 at 0", good);
}

static void check_passed(void)
{
    static const struct {
        const char *name;
        uint64_t number, place, missing;
        struct part part;
    } cases[] = {
        { "sheet: 3 passes through", 3, 8, 1,
          { 10, { 0xC3, 0x08, 0x8C, 0x81, 0x85, 0xF8, 0x81, 0x81, 0xE2, 0x03 } } },
        { "sheet: 4 passes through", 4, 8, 0, { 9, { 0xC3, 0x07, 0x8C, 0x81, 0x85, 0xF8, 0xFE, 0x80, 0xC0 } } },
        { "sheet: 6 passes through", 6, 8, 0,
          { 10, { 0xC3, 0x08, 0x8C, 0x81, 0x85, 0xF8, 0x81, 0x81, 0xF1, 0x00 } } },
        { "sheet: 7 passes through", 7, 9, 0,
          { 10, { 0xC3, 0x07, 0x8C, 0x81, 0x85, 0xF8, 0x81, 0x81, 0x81, 0xC4 } } },
        { "sheet: 8 passes through", 8, 8, 0,
          { 12, { 0xC3, 0x0A, 0x8C, 0x81, 0x85, 0xF8, 0x81, 0x81, 0xC5, 0x02, 0x81, 0x41 } } },
        { "sheet: 9 passes through", 9, 0, 0, { 9, { 0xC3, 0x07, 0xFE, 0x81, 0x85, 0xF8, 0x81, 0x81, 0x81 } } },
        { "sheet: 10 passes through", 10, 0, 0, { 8, { 0xC2, 0x06, 0xC4, 0x04, 0xE2, 0x40, 0x00, 0x80 } } },
    };
    size_t i;

    for (i = 0; i < sizeof cases / sizeof *cases; i++) {
        const struct part *part = &cases[i].part;

        memcpy(message, part->bytes, part->length);
        check(cases[i].name, passes(part->length, cases[i].number, cases[i].place, cases[i].missing));
    }
    for (i = 0; i < 17; i++) {
        message[2 * i] = 0xC2;
        message[2 * i + 1] = (uint8_t)(32 - 2 * i);
    }
    check("sheet: 5 passes through", passes(34, MSDTP_TOO_DEEP, 32, 0));
}

/* A sheet with as much padding behind it as a message may have, and with more; no message, and no table either. */
static void check_ends(void)
{
    static const uint64_t thousand[] = { 1000, 1000, 1000 };
    static const uint8_t sheet[] = {
        0xC3, 0x0F, 0x8C, 0x81, 0xE2, 0x12, 0x67, 0xF8,
        0xE2, 0x03, 0xE8, 0xE2, 0x03, 0xE8, 0xE2, 0x03, 0xE8
    };
    struct msdtp_measure_reading due = accepted_sheet(28, 4711, MSDTP_TENTHS_CM, thousand), m;

    memset(message, 0xFF, MSDTP_BYTE_LIMIT + 1);
    memcpy(message, sheet, sizeof sheet);
    check("sheet: as long as a message may be", answers(MSDTP_BYTE_LIMIT, SMALL, &due));
    check("sheet: 1 passes through", passes(MSDTP_BYTE_LIMIT + 1, MSDTP_TOO_LONG, 0, 0));
    due = alone(MSDTP_TABLE_SHORT);
    due.words = MSDTP_HEADER_WORDS;
    m = msdtp_measure_read(NULL, 0, NULL, 0);
    check("null: no sheet, no table", same_answer(&m, &due));
    due = alone(MSDTP_NOT_A_SHEET);
    m = msdtp_measure_read(NULL, 0, small, SMALL);
    check("null: no sheet", same_answer(&m, &due));
}

void check_measure_passed(void)
{
    check_rooms();
    check_damage();
    check_cut();
    check_passed();
    check_ends();
}
