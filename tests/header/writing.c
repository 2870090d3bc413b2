/* Writing into every room, and tables that are changed between two calls. */

#include <string.h>

#include "lent.h"

/* The one in place n has a normal form of n bytes. */
static const struct {
    const char *name;
    size_t words;
    uint64_t table[16];
    uint8_t bytes[6];
} tables[] = {
    { "in every room: no items", 4, { 0, 0, 4, 0 }, { 0 } },
    { "in every room: 10", 7, { 1, 1, 7, 0, MSDTP_INT, 0, 10 }, { 0x8A } },
    { "in every room: EMPTY and TRUE", 10,
      { 2, 2, 10, 0, MSDTP_EMPTY, 0, 0, MSDTP_BOOL, 0, 1 }, { 0xFE, 0xFD } },
    { "in every room: 001010011", 8,
      { 1, 1, 7, 1, MSDTP_BITS, 9, 0, UINT64_C(0x2980000000000000) }, { 0xF2, 0x02, 0x53 } },
    { "in every room: 65536", 7, { 1, 1, 7, 0, MSDTP_INT, 0, 65536 }, { 0xE3, 0x01, 0x00, 0x00 } },
    { "in every room: (1 2 3)", 16,
      { 4, 1, 16, 0, MSDTP_STRUC, 3, 3, MSDTP_INT, 0, 1, MSDTP_INT, 0, 2, MSDTP_INT, 0, 3 },
      { 0xC2, 0x03, 0x81, 0x82, 0x83 } },
    { "in every room: seam", 8,
      { 1, 1, 7, 1, MSDTP_STRING, 4, 0, UINT64_C(0x7365616D00000000) },
      { 0xC5, 0x04, 's', 'e', 'a', 'm' } },
};
enum { TABLES = sizeof tables / sizeof *tables };

/* Makes the table whose normal form has so many bytes. */
static void make(size_t length)
{
    memset(made, FILLER, sizeof made);
    memcpy(made, tables[length].table, tables[length].words * sizeof *made);
}

/* The made table, of this length, is written into so much room if that is enough. */
static int in_room(size_t length, size_t room)
{
    const size_t words = tables[length].words;

    if (room < length) {
        return refused_write(words, room, MSDTP_OUTPUT_SHORT, length);
    }
    return accepted_write(words, room, length)
        && memcmp(output, tables[length].bytes, length) == 0;
}

static void check_rooms(void)
{
    size_t length, room;
    int good;

    for (length = 0; length < TABLES; length++) {
        make(length);
        good = 1;
        for (room = 0; room < length + MORE; room++) {
            good = good && in_room(length, room);
        }
        check(tables[length].name, good);
    }
}

/* Makes the table, and asks for its length with an empty output. */
static size_t told(size_t length)
{
    make(length);
    return msdtp_write(made, tables[length].words, NULL, 0).length;
}

/* The room told for one table is lent when it has been changed to another. */
static int changed(size_t from, size_t to)
{
    const size_t room = told(from);

    make(to);
    return room == from && in_room(to, room);
}

/* The same when it is no table any more: the offset of the data is another. */
static int spoiled(size_t from)
{
    const size_t room = told(from);

    made[2]++;
    return room == from && refused_write(tables[from].words, room, MSDTP_NOT_A_TABLE, 0);
}

static void check_changed(void)
{
    check("length told, then the same table", changed(0, 0) && changed(3, 3) && changed(6, 6));
    check("length told, then a longer one", changed(0, 1) && changed(1, 5) && changed(3, 6));
    check("length told, then a shorter one", changed(1, 0) && changed(5, 1) && changed(6, 3));
    check("length told, then no table", spoiled(0) && spoiled(3) && spoiled(6));
}

/*
 * The usual way to write, when before each call the table is changed to the next
 * of four. It ends in so many calls, and the one that is then there is written.
 */
static int written_in(size_t calls, const size_t *turns)
{
    struct msdtp_writing w = { MSDTP_OUTPUT_SHORT, 0 };
    size_t turn, last = turns[calls - 1];

    refill();
    for (turn = 0; turn < 4 && w.number == MSDTP_OUTPUT_SHORT; turn++) {
        make(turns[turn]);
        w = msdtp_write(made, tables[turns[turn]].words, output, w.length);
    }
    return turn == calls && w.number == MSDTP_ACCEPTED && w.length == last
        && memcmp(output, tables[last].bytes, last) == 0 && output_untouched(last);
}

static void check_again(void)
{
    static const size_t nothing[] = { 0, 1, 2, 3 }, same[] = { 3, 3, 4, 5 },
        longer[] = { 1, 2, 5, 5 }, shorter[] = { 2, 5, 3, 5 }, gone[] = { 4, 0, 1, 2 };

    check("written at once, no items", written_in(1, nothing));
    check("written again after 15", written_in(2, same));
    check("written again, longer each time", written_in(4, longer));
    check("written again, then shorter", written_in(3, shorter));
    check("written again, then no items", written_in(2, gone));
}

void check_writing(void)
{
    check_rooms();
    check_changed();
    check_again();
}
