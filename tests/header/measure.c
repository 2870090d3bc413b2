/* What the header tells of reading measure sheets: of their elements, and of what is none. */

#include <string.h>

#include "measure.h"

/*
 * One way to say an element: its bytes; the number that a sheet with it gets if all
 * else is as it should be; and with 0 its value, of a type the words of the table.
 */
struct element {
    size_t length;
    uint8_t bytes[10];
    uint64_t number, value;
};

static const struct element types[] = {
    { 1, { 0x8C }, 0, 28 },
    { 4, { 0xE3, 0x00, 0x00, 0x0C }, 0, 28 },
    { 9, { 0xC6, 0x07, 'M', 'E', 'A', 'S', 'U', 'R', 'E' }, 0, 29 },
    { 9, { 0xC5, 0x07, 'M', 'E', 'A', 'S', 'U', 'R', 'E' }, 0, 29 },
    { 10, { 0xC2, 0x08, 'M', 'E', 'A', 'S', 0xFF, 'U', 'R', 'E' }, 0, 29 },
    { 9, { 0xC6, 0x07, 'M' | 0x80, 'E', 'A', 'S', 'U', 'R', 'E' }, 0, 29 },
    { 1, { 0x8D }, 20, 0 },
    { 3, { 0xE2, 0x01, 0x0C }, 20, 0 },
    { 2, { 0xE1, 0xF4 }, 20, 0 },
    { 9, { 0xC6, 0x07, 'M', 'e', 'a', 's', 'u', 'r', 'e' }, 20, 0 },
    { 9, { 0xC6, 0x07, 'M', 'E', 'A', 'S', 'U', 'R', 'F' }, 20, 0 },
    { 8, { 0xC6, 0x06, 'M', 'E', 'A', 'S', 'U', 'R' }, 20, 0 },
    { 10, { 0xC6, 0x08, 'M', 'E', 'A', 'S', 'U', 'R', 'E', 0 }, 20, 0 },
    { 3, { 0xC6, 0x81, 0x00 }, 20, 0 },
};

static const struct element versions[] = {
    { 1, { 0x81 }, 0, 0 },
    { 3, { 0xE2, 0x00, 0x01 }, 0, 0 },
    { 1, { 0x80 }, 20, 0 },
    { 1, { 0x82 }, 20, 0 },
    { 2, { 0xE1, 0xFF }, 20, 0 },
    { 3, { 0xE2, 0x01, 0x01 }, 20, 0 },
};

static const struct element orders[] = {
    { 3, { 0xE2, 0x12, 0x67 }, 0, 4711 },
    { 1, { 0x80 }, 0, 0 },
    { 2, { 0xE1, 0xFF }, 0, UINT64_MAX },
    { 9, { 0xE0, 0x80 }, 0, UINT64_C(1) << 63 },
    { 9, { 0xE0, 0x7F, 0xFF, 0xFF, 0xFF, 0xFF, 0xFF, 0xFF, 0xFF }, 0, (UINT64_C(1) << 63) - 1 },
    { 1, { 0xFE }, 20, 0 },
    { 1, { 0xFC }, 20, 0 },
    { 1, { 0xF8 }, 20, 0 },
    { 1, { '4' }, 20, 0 },
    { 4, { 0xC6, 0x02, '4', '7' }, 20, 0 },
    { 2, { 0xF1, 0x01 }, 20, 0 },
    { 3, { 0xC2, 0x01, 0x81 }, 20, 0 },
};

static const struct element units[] = {
    { 1, { 0xF8 }, 0, MSDTP_TENTHS_CM },
    { 1, { 0xF9 }, 0, MSDTP_EIGHTHS_INCH },
    { 1, { 0xFA }, 20, 0 },
    { 1, { 0xFB }, 20, 0 },
    { 1, { 0x80 }, 20, 0 },
    { 1, { 0x81 }, 20, 0 },
    { 1, { 0xFE }, 20, 0 },
    { 1, { 0xFC }, 20, 0 },
};

static const struct element figures[] = {
    { 3, { 0xE2, 0x03, 0xF8 }, 0, 1016 },
    { 1, { 0x81 }, 0, 1 },
    { 3, { 0xE2, 0x4E, 0x20 }, 0, 20000 },
    { 9, { 0xE0, 0, 0, 0, 0, 0, 0, 0x4E, 0x1F }, 0, 19999 },
    { 1, { 0xFE }, 21, 0 },
    { 1, { 0x80 }, 22, 0 },
    { 3, { 0xE2, 0x4E, 0x21 }, 22, 0 },
    { 2, { 0xE1, 0xFF }, 22, 0 },
    { 9, { 0xE0, 0x80 }, 22, 0 },
    { 9, { 0xE0, 0x00, 0x00, 0x00, 0x01, 0x00, 0x00, 0x00, 0x01 }, 22, 0 },
    { 1, { 0xFC }, 20, 0 },
    { 1, { 0xF9 }, 20, 0 },
    { 1, { '1' }, 20, 0 },
    { 4, { 0xC6, 0x02, '1', '0' }, 20, 0 },
    { 2, { 0xF1, 0x05 }, 20, 0 },
    { 3, { 0xC2, 0x01, 0x81 }, 20, 0 },
    { 4, { 0xC3, 0x02, 0x81, 0x81 }, 20, 0 },
};
enum { FIGURES = sizeof figures / sizeof *figures };

/* Sends an EDT of seven elements, and returns its length. */
static size_t send_edt(const struct element *const *elements)
{
    size_t length = 2, i;

    for (i = 0; i < 7; i++) {
        memcpy(message + length, elements[i]->bytes, elements[i]->length);
        length += elements[i]->length;
    }
    message[0] = 0xC3;
    message[1] = (uint8_t)(length - 2);
    return length;
}

/* The number due for seven elements: 20 for any of them, then 21, then 22. */
static uint64_t number_due(const struct element *const *elements)
{
    static const uint64_t order[] = { MSDTP_NOT_A_SHEET, MSDTP_FIGURE_EMPTY, MSDTP_FIGURE_RANGE };
    size_t i, turn;

    for (turn = 0; turn < 3; turn++) {
        for (i = 0; i < 7; i++) {
            if (elements[i]->number == order[turn]) {
                return order[turn];
            }
        }
    }
    return MSDTP_ACCEPTED;
}

/* A sheet of these elements, type first, gets its answer. */
static int answered_sheet(const struct element *const *elements)
{
    const uint64_t values[] = { elements[4]->value, elements[5]->value, elements[6]->value };
    const uint64_t number = number_due(elements);
    const struct msdtp_measure_reading due = number != MSDTP_ACCEPTED ? alone(number)
        : accepted_sheet(elements[0]->value, (int64_t)elements[2]->value, elements[3]->value, values);

    return answers(send_edt(elements), SMALL, &due);
}

/* Every three figures, in every unit, by number and by name. */
static void check_figures(void)
{
    const struct element *elements[7] = { types, versions, orders, units, figures, figures, figures };
    size_t unit, i;
    int by_number = 1, by_name = 1;

    for (unit = 0; unit < sizeof units / sizeof *units; unit++) {
        elements[3] = &units[unit];
        for (i = 0; i < FIGURES * FIGURES * FIGURES; i++) {
            elements[4] = &figures[i % FIGURES];
            elements[5] = &figures[i / FIGURES % FIGURES];
            elements[6] = &figures[i / FIGURES / FIGURES];
            elements[0] = &types[0];
            by_number = by_number && answered_sheet(elements);
            elements[0] = &types[2];
            by_name = by_name && answered_sheet(elements);
        }
    }
    check("sheet: every three figures, by number", by_number);
    check("sheet: every three figures, by name", by_name);
}

/* Every type, version, order number and unit, with sound figures, an EMPTY, one out of range, and one that is none. */
static int fronts(size_t figure)
{
    const struct element *elements[7] = { types, versions, orders, units, figures, figures, figures };
    size_t type, version, order, unit;
    int good = 1;

    elements[5] = &figures[figure];
    for (type = 0; type < sizeof types / sizeof *types; type++) {
        elements[0] = &types[type];
        for (version = 0; version < sizeof versions / sizeof *versions; version++) {
            elements[1] = &versions[version];
            for (order = 0; order < sizeof orders / sizeof *orders; order++) {
                elements[2] = &orders[order];
                for (unit = 0; unit < sizeof units / sizeof *units; unit++) {
                    elements[3] = &units[unit];
                    good = good && answered_sheet(elements);
                }
            }
        }
    }
    return good;
}

static void check_fronts(void)
{
    check("sheet: every front, sound figures", fronts(0));
    check("sheet: every front, an EMPTY", fronts(4));
    check("sheet: every front, a figure out of range", fronts(5));
    check("sheet: every front, a figure that is none", fronts(10));
}

/* Forms of one sheet: order 4711, tenths of a centimetre, three times 1000. */
static const struct {
    const char *name;
    uint64_t words;
    struct part part;
} forms[] = {
    { "sheet: the normal form", 28,
      { 17, { 0xC3, 0x0F, 0x8C, 0x81, 0xE2, 0x12, 0x67, 0xF8,
              0xE2, 0x03, 0xE8, 0xE2, 0x03, 0xE8, 0xE2, 0x03, 0xE8 } } },
    { "sheet: padding before it, in it and behind it", 28,
      { 22, { 0xFF, 0xC3, 0x12, 0xFF, 0x8C, 0x81, 0xE2, 0x12, 0x67, 0xFF, 0xF8,
              0xE2, 0x03, 0xE8, 0xE2, 0x03, 0xE8, 0xE2, 0x03, 0xE8, 0xFF, 0xFF } } },
    { "sheet: figures by a repeat", 28,
      { 14, { 0xC3, 0x0C, 0x8C, 0x81, 0xE2, 0x12, 0x67, 0xF8, 0xC4, 0x04, 0x83, 0xE2, 0x03, 0xE8 } } },
    { "sheet: repeats of none, and repeats in one another", 28,
      { 21, { 0xC3, 0x13, 0xC4, 0x02, 0x80, 0xFE, 0x8C, 0x81, 0xE2, 0x12, 0x67, 0xF8,
              0xC4, 0x07, 0x81, 0xC4, 0x04, 0x83, 0xE2, 0x03, 0xE8 } } },
    { "sheet: a longer size", 28,
      { 19, { 0xC3, 0x82, 0x00, 0x0F, 0x8C, 0x81, 0xE2, 0x12, 0x67, 0xF8,
              0xE2, 0x03, 0xE8, 0xE2, 0x03, 0xE8, 0xE2, 0x03, 0xE8 } } },
    { "sheet: the name with a repeat", 29,
      { 26, { 0xC3, 0x18, 0xC2, 0x0A, 'M', 'E', 'A', 'S', 'U', 'R', 0xC4, 0x02, 0x81, 'E',
              0x81, 0xE2, 0x12, 0x67, 0xF8, 0xC4, 0x05, 0xE1, 0x03, 0xE2, 0x03, 0xE8 } } },
};

static void check_forms(void)
{
    static const uint64_t thousand[] = { 1000, 1000, 1000 };
    size_t i;

    for (i = 0; i < sizeof forms / sizeof *forms; i++) {
        const struct part *part = &forms[i].part;
        const struct msdtp_measure_reading due =
            accepted_sheet(forms[i].words, 4711, MSDTP_TENTHS_CM, thousand);

        memcpy(message, part->bytes, part->length);
        check(forms[i].name, answers(part->length, SMALL, &due));
    }
}

/* It is 20, 21 or 22. The table holds the reading, and nothing past that is touched. */
static int refused_sheet(size_t length, uint64_t number)
{
    const struct msdtp_measure_reading due = alone(number);

    return answers(length, SMALL, &due) && small[2] == MSDTP_HEADER_WORDS + MSDTP_ROW_WORDS * small[0]
        && untouched(small, (small[2] + small[3]) * sizeof *small, sizeof small);
}

/* What is accepted, and is no sheet. */
static const struct {
    const char *name;
    struct part part;
} others[] = {
    { "no sheet: nothing", { 0, { 0 } } },
    { "no sheet: padding", { 2, { 0xFF, 0xFF } } },
    { "no sheet: EMPTY", { 1, { 0xFE } } },
    { "no sheet: an INT", { 1, { 0x8C } } },
    { "no sheet: a string", { 9, { 0xC6, 0x07, 'M', 'E', 'A', 'S', 'U', 'R', 'E' } } },
    { "no sheet: the elements, outermost", { 7, { 0x8C, 0x81, 0x85, 0xF8, 0x81, 0x81, 0x81 } } },
    { "no sheet: a STRUC of the elements", { 9, { 0xC2, 0x07, 0x8C, 0x81, 0x85, 0xF8, 0x81, 0x81, 0x81 } } },
    { "no sheet: a sheet in a STRUC",
      { 11, { 0xC2, 0x09, 0xC3, 0x07, 0x8C, 0x81, 0x85, 0xF8, 0x81, 0x81, 0x81 } } },
    { "no sheet: a sheet in an EDT",
      { 13, { 0xC3, 0x0B, 0x8C, 0x81, 0xC3, 0x07, 0x8C, 0x81, 0x85, 0xF8, 0x81, 0x81, 0x81 } } },
    { "no sheet: type and version alone", { 4, { 0xC3, 0x02, 0x8C, 0x81 } } },
    { "no sheet: six elements", { 8, { 0xC3, 0x06, 0x8C, 0x81, 0x85, 0xF8, 0x81, 0x81 } } },
    { "no sheet: six elements, one EMPTY", { 8, { 0xC3, 0x06, 0x8C, 0x81, 0x85, 0xF8, 0xFE, 0x81 } } },
    { "no sheet: six elements, two in a STRUC",
      { 11, { 0xC3, 0x09, 0x8C, 0x81, 0x85, 0xF8, 0x81, 0xC2, 0x02, 0x81, 0x81 } } },
    { "no sheet: seven rows beneath, in six elements",
      { 10, { 0xC3, 0x08, 0x8C, 0x81, 0x85, 0xF8, 0xC2, 0x01, 0x81, 0x81 } } },
    { "no sheet: eight elements", { 10, { 0xC3, 0x08, 0x8C, 0x81, 0x85, 0xF8, 0x81, 0x81, 0x81, 0x81 } } },
    { "no sheet: eight elements, the last EMPTY",
      { 10, { 0xC3, 0x08, 0x8C, 0x81, 0x85, 0xF8, 0x81, 0x81, 0x81, 0xFE } } },
    { "no sheet: four figures by a repeat", { 10, { 0xC3, 0x08, 0x8C, 0x81, 0x85, 0xF8, 0xC4, 0x02, 0x84, 0x81 } } },
    { "no sheet: the unit behind the figures", { 9, { 0xC3, 0x07, 0x8C, 0x81, 0x85, 0x81, 0x81, 0x81, 0xF8 } } },
    { "no sheet: a sheet and a note",
      { 12, { 0xC3, 0x07, 0x8C, 0x81, 0x85, 0xF8, 0x81, 0x81, 0x81, 0xC6, 0x01, 'x' } } },
    { "no sheet: a note and a sheet",
      { 12, { 0xC6, 0x01, 'x', 0xC3, 0x07, 0x8C, 0x81, 0x85, 0xF8, 0x81, 0x81, 0x81 } } },
    { "no sheet: two sheets", { 18, { 0xC3, 0x07, 0x8C, 0x81, 0x85, 0xF8, 0x81, 0x81, 0x81,
                                      0xC3, 0x07, 0x8C, 0x81, 0x85, 0xF8, 0x81, 0x81, 0x81 } } },
    { "no sheet: two sheets, one with an EMPTY", { 18, { 0xC3, 0x07, 0x8C, 0x81, 0x85, 0xF8, 0x81, 0x81, 0x81,
                                                         0xC3, 0x07, 0x8C, 0x81, 0x85, 0xF8, 0xFE, 0x81, 0x81 } } },
};

static void check_others(void)
{
    size_t i;

    for (i = 0; i < sizeof others / sizeof *others; i++) {
        const struct part *part = &others[i].part;

        memcpy(message, part->bytes, part->length);
        check(others[i].name, refused_sheet(part->length, MSDTP_NOT_A_SHEET));
    }
}

/* With 21 and 22 the table has the rows that the header lists. */
static void check_rows(void)
{
    static const uint64_t kinds[] = {
        MSDTP_EDT, MSDTP_STRING, MSDTP_INT, MSDTP_INT, MSDTP_XTRA, MSDTP_INT, MSDTP_EMPTY, MSDTP_INT
    };
    size_t row;
    int good = refused_sheet(send_empty(1), MSDTP_FIGURE_EMPTY) && small[0] == 8 && small[1] == 1;

    for (row = 0; row < 8; row++) {
        good = good && small[MSDTP_HEADER_WORDS + MSDTP_ROW_WORDS * row] == kinds[row];
    }
    check("sheet: the rows with 21", good);
    check("sheet: the order number with 21",
          small[MSDTP_HEADER_WORDS + MSDTP_ROW_WORDS * 3 + 2] == 4711);
    check("sheet: the words with 21", small[2] + small[3] == MSDTP_SHEET_WORDS);
}

void check_measure_reading(void)
{
    check_figures();
    check_fronts();
    check_forms();
    check_others();
    check_rows();
}
