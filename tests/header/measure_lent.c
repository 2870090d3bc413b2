/* The small table, the answers and the sheets that the checks of reading measure sheets share. */

#include <string.h>

#include "measure.h"

uint64_t small[SMALL], base[SMALL];

int same_answer(const struct msdtp_measure_reading *m, const struct msdtp_measure_reading *due)
{
    return is(m->number, due->number) && m->place == due->place && m->words == due->words
        && m->missing == due->missing && m->order == due->order && m->unit == due->unit
        && m->chest == due->chest && m->waist == due->waist && m->sleeve == due->sleeve
        && m->chest_um == due->chest_um && m->waist_um == due->waist_um
        && m->sleeve_um == due->sleeve_um;
}

int answers(size_t length, size_t room, const struct msdtp_measure_reading *due)
{
    static uint8_t sent[BYTES];
    struct msdtp_measure_reading m;

    memset(small, FILLER, sizeof small);
    memset(base, FILLER, sizeof base);
    memcpy(sent, message, length);
    msdtp_read(message, length, base, room);
    m = msdtp_measure_read(message, length, small, room);
    return same_answer(&m, due) && memcmp(small, base, sizeof base) == 0
        && memcmp(sent, message, length) == 0;
}

struct msdtp_measure_reading alone(uint64_t number)
{
    struct msdtp_measure_reading due = { 0, 0, 0, 0, 0, 0, 0, 0, 0, 0, 0, 0 };

    due.number = number;
    return due;
}

struct msdtp_measure_reading accepted_sheet(uint64_t words, int64_t order, uint64_t unit,
                                            const uint64_t *figures)
{
    const uint64_t each = unit == MSDTP_TENTHS_CM ? 1000 : 3175;
    struct msdtp_measure_reading due = alone(MSDTP_ACCEPTED);

    due.words = words;
    due.order = order;
    due.unit = unit;
    due.chest = figures[0];
    due.waist = figures[1];
    due.sleeve = figures[2];
    due.chest_um = each * figures[0];
    due.waist_um = each * figures[1];
    due.sleeve_um = each * figures[2];
    return due;
}

/* Sends an EDT of the type and of what is behind it, and returns its length. */
static size_t send_behind(int by_name, const uint8_t *behind, size_t size)
{
    static const uint8_t number[] = { 0x8C };
    static const uint8_t name[] = { 0xC6, 0x07, 'M', 'E', 'A', 'S', 'U', 'R', 'E' };
    const size_t type = by_name ? sizeof name : sizeof number;

    message[0] = 0xC3;
    message[1] = (uint8_t)(type + size);
    memcpy(message + 2, by_name ? name : number, type);
    memcpy(message + 2 + type, behind, size);
    return 2 + type + size;
}

size_t send_sound(int by_name, uint64_t unit)
{
    const uint8_t behind[] = {
        0x81, 0xE2, 0x12, 0x67, (uint8_t)(0xF8 + unit), 0xE2, 0x03, 0xF8, 0x81, 0xE2, 0x4E, 0x20
    };

    return send_behind(by_name, behind, sizeof behind);
}

size_t send_empty(int by_name)
{
    static const uint8_t behind[] = { 0x81, 0xE2, 0x12, 0x67, 0xF8, 0xE2, 0x03, 0xF8, 0xFE, 0x80 };

    return send_behind(by_name, behind, sizeof behind);
}
