/* What the header tells of writing measure sheets. */

#include <string.h>

#include "lent.h"

/* The table of a sheet by number. */
enum { WORDS_BY_NUMBER = 28 };

/* A sheet to write. */
struct sheet {
    int64_t order;
    uint64_t unit, figures[3];
};

/* Writes a sheet into so much of an output. */
static struct msdtp_writing write_sheet(const struct sheet *s, uint8_t *to, size_t room)
{
    return msdtp_measure_write(s->order, s->unit, s->figures[0], s->figures[1], s->figures[2], to, room);
}

/* Makes the table of a sheet, as the header lists its rows. */
static void make_sheet(const struct sheet *s)
{
    const uint64_t words[WORDS_BY_NUMBER] = {
        8, 1, WORDS_BY_NUMBER, 0,
        MSDTP_EDT, 7, 7,
        MSDTP_INT, 0, 12,
        MSDTP_INT, 0, 1,
        MSDTP_INT, 0, (uint64_t)s->order,
        MSDTP_XTRA, 0, s->unit,
        MSDTP_INT, 0, s->figures[0],
        MSDTP_INT, 0, s->figures[1],
        MSDTP_INT, 0, s->figures[2]
    };

    memcpy(made, words, sizeof words);
}

/* Refused in so much room, with nothing touched. */
static int refused_in(const struct sheet *s, size_t room, uint64_t number, uint64_t length)
{
    struct msdtp_writing w;

    memset(output, FILLER, room + MORE);
    w = write_sheet(s, output, room);
    return is(w.number, number) && w.length == length && untouched(output, 0, room + MORE);
}

/* The same in every room, an output of null among them, and in always enough. */
static int refused_sheet(const struct sheet *s, uint64_t number)
{
    const struct msdtp_writing w = write_sheet(s, NULL, 0);
    size_t room;
    int good = w.number == number && w.length == 0;

    for (room = 0; room < MSDTP_SHEET_BYTES + MORE; room++) {
        good = good && refused_in(s, room, number, 0);
    }
    return good && refused_in(s, MSDTP_OUTPUT_BYTES, number, 0);
}

/* Written in so much room: the normal form, and nothing past it is touched. */
static int written_in(const struct sheet *s, size_t room, const uint8_t *form, uint64_t length)
{
    struct msdtp_writing w;

    memset(output, FILLER, room + MORE);
    w = write_sheet(s, output, room);
    return is(w.number, MSDTP_ACCEPTED) && w.length == length && memcmp(output, form, length) == 0
        && untouched(output, length, room + MORE);
}

/* What was written is read back as the same sheet, in as many words as it takes. */
static int read_back(const struct sheet *s, const uint8_t *form, uint64_t length)
{
    const uint64_t each = s->unit == MSDTP_TENTHS_CM ? 1000 : 3175;
    uint64_t words[WORDS_BY_NUMBER];
    const struct msdtp_measure_reading m = msdtp_measure_read(form, length, words, WORDS_BY_NUMBER);

    return m.number == MSDTP_ACCEPTED && m.place == 0 && m.words == WORDS_BY_NUMBER && m.missing == 0
        && m.order == s->order && m.unit == s->unit
        && m.chest == s->figures[0] && m.waist == s->figures[1] && m.sleeve == s->figures[2]
        && m.chest_um == each * s->figures[0] && m.waist_um == each * s->figures[1]
        && m.sleeve_um == each * s->figures[2] && memcmp(words, made, sizeof words) == 0;
}

/* In every room: 15 with the length of the normal form, or that form. It is read back. */
static int written_sheet(const struct sheet *s)
{
    static uint8_t form[MSDTP_SHEET_BYTES];
    struct msdtp_writing w;
    uint64_t length, room;
    int good;

    make_sheet(s);
    w = msdtp_write(made, WORDS_BY_NUMBER, form, sizeof form);
    length = w.length;
    good = w.number == MSDTP_ACCEPTED && length >= 9 && length <= MSDTP_SHEET_BYTES;
    w = write_sheet(s, NULL, 0);
    good = good && w.number == MSDTP_OUTPUT_SHORT && w.length == length;
    for (room = 0; room < MSDTP_SHEET_BYTES + MORE; room++) {
        good = good && (room < length ? refused_in(s, room, MSDTP_OUTPUT_SHORT, length)
                                      : written_in(s, room, form, length));
    }
    return good && read_back(s, form, length);
}

static const int64_t orders[] = {
    4711, 0, 63, 64, 127, 128, -1, -128, -129, 65535, -32769, INT64_C(1) << 40, INT64_MAX, INT64_MIN
};
static const uint64_t sound[] = { 1, 63, 64, 127, 128, 1016, 19999, MSDTP_FIGURE_MOST };
static const uint64_t unsound[] = {
    0, MSDTP_FIGURE_MOST + 1, 65536, UINT64_C(1) << 32, (UINT64_C(1) << 32) + 1, UINT64_C(1) << 63,
    (uint64_t)-1, (uint64_t)-MSDTP_FIGURE_MOST
};
enum { SOUND = sizeof sound / sizeof *sound, UNSOUND = sizeof unsound / sizeof *unsound };

/* Every order number and unit, and every three figures. */
static void check_written(void)
{
    struct sheet s = { 4711, MSDTP_TENTHS_CM, { 1016, 864, 650 } };
    size_t i;
    int good = 1;

    for (i = 0; i < sizeof orders / sizeof *orders; i++) {
        s.order = orders[i];
        s.unit = MSDTP_TENTHS_CM;
        good = good && written_sheet(&s);
        s.unit = MSDTP_EIGHTHS_INCH;
        good = good && written_sheet(&s);
    }
    check("sheet written: every order number and unit", good);
    good = 1;
    for (i = 0; i < SOUND * SOUND * SOUND; i++) {
        s.unit = i % 2;
        s.figures[0] = sound[i % SOUND];
        s.figures[1] = sound[i / SOUND % SOUND];
        s.figures[2] = sound[i / SOUND / SOUND];
        good = good && written_sheet(&s);
    }
    check("sheet written: every three figures", good);
}

/* The bytes that the header has, and the shortest and the longest sheet. */
static void check_bytes(void)
{
    static const struct {
        const char *name;
        struct sheet sheet;
        uint64_t length;
        uint8_t bytes[MSDTP_SHEET_BYTES];
    } cases[] = {
        { "sheet written: order 4711", { 4711, MSDTP_TENTHS_CM, { 1016, 864, 650 } }, 17,
          { 0xC3, 0x0F, 0x8C, 0x81, 0xE2, 0x12, 0x67, 0xF8,
            0xE2, 0x03, 0xF8, 0xE2, 0x03, 0x60, 0xE2, 0x02, 0x8A } },
        { "sheet written: the shortest", { 0, MSDTP_EIGHTHS_INCH, { 1, 2, 63 } }, 9,
          { 0xC3, 0x07, 0x8C, 0x81, 0x80, 0xF9, 0x81, 0x82, 0xBF } },
        { "sheet written: the longest", { INT64_MIN, MSDTP_TENTHS_CM, { 20000, 128, 20000 } }, MSDTP_SHEET_BYTES,
          { 0xC3, 0x15, 0x8C, 0x81, 0xE0, 0x80, 0, 0, 0, 0, 0, 0, 0, 0xF8,
            0xE2, 0x4E, 0x20, 0xE2, 0x00, 0x80, 0xE2, 0x4E, 0x20 } },
    };
    size_t i;

    for (i = 0; i < sizeof cases / sizeof *cases; i++) {
        check(cases[i].name, written_in(&cases[i].sheet, MSDTP_SHEET_BYTES, cases[i].bytes, cases[i].length));
    }
}

/* 22 for each figure, whatever the others; 20 before it for another unit. */
static void check_refused(void)
{
    static const uint64_t other_units[] = { 2, 3, 256, UINT64_C(1) << 32, UINT64_MAX };
    struct sheet s;
    size_t i, place, unit;
    int range = 1, other = 1, both = 1;

    for (i = 0; i < UNSOUND; i++) {
        for (place = 0; place < 3; place++) {
            s.order = orders[i];
            s.unit = i % 2;
            s.figures[0] = s.figures[1] = s.figures[2] = 1016;
            s.figures[place] = unsound[i];
            range = range && refused_sheet(&s, MSDTP_FIGURE_RANGE);
            s.figures[(place + 1) % 3] = unsound[(i + 1) % UNSOUND];
            range = range && refused_sheet(&s, MSDTP_FIGURE_RANGE);
            for (unit = 0; unit < sizeof other_units / sizeof *other_units; unit++) {
                s.unit = other_units[unit];
                both = both && refused_sheet(&s, MSDTP_NOT_A_SHEET);
            }
        }
        s.figures[0] = s.figures[1] = s.figures[2] = sound[i];
        other = other && refused_sheet(&s, MSDTP_NOT_A_SHEET);
    }
    check("sheet refused: a figure out of range, in every room", range);
    check("sheet refused: another unit, in every room", other);
    check("sheet refused: 20 before 22", both);
}

/* A sheet that was written, and then cut, is 2 at 0 with what was cut off missing. */
static void check_cut(void)
{
    const struct sheet s = { INT64_MIN, MSDTP_EIGHTHS_INCH, { 20000, 20000, 20000 } };
    const uint64_t length = write_sheet(&s, message, MSDTP_SHEET_BYTES).length;
    uint64_t left;
    int good = length == MSDTP_SHEET_BYTES && cut_read(1, MSDTP_PAST_INPUT, 0, 1);

    for (left = 2; left < length; left++) {
        good = good && cut_read(left, MSDTP_PAST_INPUT, 0, length - left);
    }
    check("sheet written, then cut", good);
}

void check_measure_writing(void)
{
    check_bytes();
    check_written();
    check_refused();
    check_cut();
}
