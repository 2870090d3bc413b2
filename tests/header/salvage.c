/* What the header tells of salvaging: which objects are replaced, what is dropped, and how each is listed. */

#include <string.h>

#include "salvage.h"

/* A message or a piece of one. */
struct part {
    size_t length;
    uint8_t bytes[24];
};

/* Messages, what comes out of them, and their entries. The first are the header's own. */
static const struct {
    const char *name;
    struct part part, due;
    uint64_t entries, list[9];
} cases[] = {
    { "salvage: bits without a marker", { 4, { 0x81, 0xF1, 0x00, 0x82 } }, { 3, { 0x81, 0xFE, 0x82 } },
      1, { 1, 2, 6 } },
    { "salvage: a fault inside", { 8, { 0xC2, 0x05, 0x81, 0xC5, 0x02, 0x81, 0x41, 0x82 } }, { 2, { 0xFE, 0x82 } },
      1, { 0, 7, 8 } },
    { "salvage: a REPEAT, padding around it", { 6, { 0xFF, 0xC4, 0x02, 0x82, 0x80, 0xFF } },
      { 3, { 0xFF, 0xFE, 0xFF } }, 1, { 1, 4, 7 } },
    { "salvage: an end that was lost", { 6, { 0x81, 0xFF, 0xC3, 0x07, 0x8C, 0x81 } }, { 2, { 0x81, 0xFF } },
      1, { 2, 4, 2 } },
    { "salvage: type-bytes that mean nothing", { 6, { 0xC7, 0x01, 0x81, 0xE8, 0x81, 0x82 } }, { 1, { 0xFE } },
      2, { 0, 3, 4, 3, 3, 4 } },
    { "salvage: nothing", { 0, { 0 } }, { 0, { 0 } }, 0, { 0 } },
    { "salvage: padding alone", { 3, { 0xFF, 0xFF, 0xFF } }, { 3, { 0xFF, 0xFF, 0xFF } }, 0, { 0 } },
    { "salvage: a sound message, longer forms and padding",
      { 9, { 0xFF, 0xE2, 0x00, 0x05, 0xC2, 0x82, 0x00, 0x01, 0xFE } },
      { 9, { 0xFF, 0xE2, 0x00, 0x05, 0xC2, 0x82, 0x00, 0x01, 0xFE } }, 0, { 0 } },
    { "salvage: nothing comes out", { 2, { 0xC0, 0x81 } }, { 0, { 0 } }, 1, { 0, 2, 4 } },
    { "salvage: only padding comes out", { 3, { 0xFF, 0xFF, 0xEF } }, { 2, { 0xFF, 0xFF } }, 1, { 2, 1, 4 } },
    { "salvage: a type-byte that means nothing, to the end", { 4, { 0x81, 0xDF, 0x01, 0xC0 } }, { 2, { 0x81, 0xFE } },
      1, { 1, 3, 4 } },
    { "salvage: the same, past the end", { 4, { 0x81, 0xDF, 0x02, 0xC0 } }, { 1, { 0x81 } }, 1, { 1, 3, 4 } },
    { "salvage: the same, its size not whole", { 4, { 0x81, 0xDF, 0x83, 0x00 } }, { 1, { 0x81 } }, 1, { 1, 3, 4 } },
    { "salvage: a REPEAT to the end", { 4, { 0x81, 0xC4, 0x01, 0x80 } }, { 2, { 0x81, 0xFE } }, 1, { 1, 3, 7 } },
    { "salvage: a REPEAT past the end", { 4, { 0x81, 0xC4, 0x02, 0x80 } }, { 1, { 0x81 } }, 1, { 1, 3, 7 } },
    { "salvage: the type-byte of a REPEAT alone", { 2, { 0x81, 0xC4 } }, { 1, { 0x81 } }, 1, { 1, 1, 7 } },
    { "salvage: an INT past the end", { 3, { 0x81, 0xE2, 0x01 } }, { 1, { 0x81 } }, 1, { 1, 2, 2 } },
    { "salvage: bits past the end, without a marker", { 3, { 0x81, 0xF2, 0x00 } }, { 1, { 0x81 } }, 1, { 1, 2, 2 } },
    { "salvage: a fault inside, and an inner object past the end of the message",
      { 5, { 0x81, 0xC2, 0x02, 0xC2, 0x04 } }, { 2, { 0x81, 0xFE } }, 1, { 1, 4, 3 } },
    { "salvage: what is dropped is not gone through", { 7, { 0x81, 0xC0, 0xF1, 0x00, 0xC7, 0x01, 0x81 } },
      { 1, { 0x81 } }, 1, { 1, 6, 4 } },
    { "salvage: what is replaced is not gone into", { 7, { 0xD0, 0x04, 0xF1, 0x00, 0xC0, 0xFF, 0x82 } },
      { 2, { 0xFE, 0x82 } }, 1, { 0, 6, 4 } },
    { "salvage: padding inside is replaced with the object", { 6, { 0xC5, 0x04, 0xFF, 0x81, 0x41, 0xFF } },
      { 1, { 0xFE } }, 1, { 0, 6, 8 } },
    { "salvage: an EDT without its version, and a sound one", { 7, { 0xC3, 0x01, 0x87, 0xC3, 0x02, 0x8C, 0x81 } },
      { 5, { 0xFE, 0xC3, 0x02, 0x8C, 0x81 } }, 1, { 0, 3, 9 } },
    { "salvage: a length with other bytes", { 4, { 0xC1, 0x02, 0x90, 0x00 } }, { 1, { 0xFE } }, 1, { 0, 4, 6 } },
    { "salvage: a length that is cut", { 4, { 0xC1, 0x02, 0xE2, 0x01 } }, { 1, { 0xFE } }, 1, { 0, 4, 3 } },
    { "salvage: too many rows by itself", { 9, { 0xC2, 0x06, 0xC4, 0x04, 0xE2, 0x40, 0x00, 0x80, 0x81 } },
      { 2, { 0xFE, 0x81 } }, 1, { 0, 8, 10 } },
    { "salvage: too many data words by itself", { 10, { 0x81, 0xC2, 0x07, 0xC4, 0x05, 0xE3, 0x02, 0x00, 0x01, 0x41 } },
      { 2, { 0x81, 0xFE } }, 1, { 1, 9, 10 } },
    { "salvage: three changes, an EMPTY between them", { 8, { 0xF1, 0x00, 0xFE, 0xC4, 0x01, 0x80, 0xFF, 0xE1 } },
      { 4, { 0xFE, 0xFE, 0xFE, 0xFF } }, 3, { 0, 2, 6, 3, 3, 7, 7, 1, 2 } },
};
enum { CASES = sizeof cases / sizeof *cases };

static void check_cases(void)
{
    size_t i;

    for (i = 0; i < CASES; i++) {
        const size_t length = cases[i].part.length;
        struct msdtp_salvaging due;

        memcpy(message, cases[i].part.bytes, length);
        due = due_for(length);
        check(cases[i].name, due.number == MSDTP_ACCEPTED && due.length == cases[i].due.length
              && due.entries == cases[i].entries
              && memcmp(due_output, cases[i].due.bytes, due.length) == 0
              && memcmp(due_list, cases[i].list, MSDTP_CHANGE_WORDS * due.entries * sizeof *due_list) == 0
              && in_every_room(length, &due));
    }
}

/* The number of a dropped rest, by its first byte. */
static uint64_t number_of_rest(uint8_t first)
{
    if (first == 0xC0 || (first >= 0xC7 && first <= 0xDF) || (first >= 0xE8 && first <= 0xEF)) {
        return MSDTP_UNASSIGNED;
    }
    return first == 0xC4 ? MSDTP_BAD_REPEAT : MSDTP_PAST_INPUT;
}

/*
 * One entry of the list that was lent: in the output an EMPTY stands for it there,
 * or else it is the rest, which only the last can be.
 */
static int entry_as_told(size_t length, const uint64_t *entry, int last, uint64_t there, uint64_t come)
{
    const uint64_t place = entry[0], bytes = entry[1], number = entry[2];

    if (bytes == 0 || place + bytes > length || met_alone(message + place, bytes) != number) {
        return 0;
    }
    if (there < come) {
        return output[there] == 0xFE && bytes > 1
            && number >= MSDTP_PAST_ENCLOSING && number <= MSDTP_TOO_MANY;
    }
    return last && there == come && place + bytes == length && number == number_of_rest(message[place]);
}

/* The entries one by one, and between them what is copied. */
static int list_as_told(size_t length, uint64_t come, uint64_t entries)
{
    uint64_t i, place = 0, there = 0;
    int good = 1;

    for (i = 0; good && i < entries; i++) {
        const uint64_t *entry = changes + MSDTP_CHANGE_WORDS * i;
        const uint64_t copied = entry[0] - place;

        good = entry[0] >= place && there + copied <= come
            && memcmp(output + there, message + place, copied) == 0
            && entry_as_told(length, entry, i + 1 == entries, there + copied, come);
        place = entry[0] + entry[1];
        there += copied + 1;
    }
    return good && (there > come || (length - place == come - there
                                     && memcmp(output + there, message + place, come - there) == 0));
}

/* What the header tells of every answer with 0, without extents; and that what comes out stays as it is. */
static int as_told(size_t length, const struct msdtp_salvaging *due)
{
    const struct msdtp_salvaging again = { MSDTP_ACCEPTED, due->length, 0 };
    int good = in_rooms(length, due, length, MSDTP_CHANGE_WORDS * due->entries)
        && list_as_told(length, due->length, due->entries)
        && met_alone(output, due->length) == MSDTP_ACCEPTED
        && (due->entries == 0) == (met_alone(message, length) == MSDTP_ACCEPTED)
        && (due->entries > 0 || due->length == length)
        && due->length + due->entries <= length && due->entries <= (length + 1) / 2;

    memcpy(message, output, due->length);
    memcpy(due_output, output, due->length);
    return good && in_rooms(due->length, &again, due->length, 0);
}

/* Pieces of messages, sound and not, of every class and every number, and such as end in the middle. */
static const struct part pieces[] = {
    { 1, { 0x41 } },
    { 1, { 0x81 } },
    { 1, { 0xFE } },
    { 2, { 0xFF, 0xFF } },
    { 2, { 0xE1, 0xFF } },
    { 9, { 0xE0, 0xFF, 0xFF, 0xFF, 0xFF, 0xFF, 0xFF, 0xFF, 0xFF } },
    { 2, { 0xF1, 0x05 } },
    { 3, { 0xC6, 0x01, 0xC0 } },
    { 4, { 0xC1, 0x02, 0x88, 0xC0 } },
    { 5, { 0xC2, 0x03, 0xC4, 0x01, 0x80 } },
    { 4, { 0xC3, 0x02, 0x8C, 0x81 } },
    { 3, { 0xC5, 0x81, 0x00 } },
    { 2, { 0xF1, 0x00 } },
    { 9, { 0xF0, 0x00, 0xFF, 0xFF, 0xFF, 0xFF, 0xFF, 0xFF, 0xFF } },
    { 3, { 0xC1, 0x01, 0xFE } },
    { 3, { 0xC2, 0x01, 0xE1 } },
    { 3, { 0xC2, 0x01, 0xC0 } },
    { 3, { 0xC3, 0x81, 0x00 } },
    { 3, { 0xC4, 0x01, 0x80 } },
    { 4, { 0xC5, 0x02, 0x81, 0x41 } },
    { 3, { 0xC7, 0x01, 0xFF } },
    { 5, { 0xDF, 0x82, 0x00, 0x01, 0xE8 } },
    { 8, { 0xC2, 0x06, 0xC4, 0x04, 0xE2, 0x40, 0x00, 0x80 } },
    { 1, { 0xC0 } },
    { 1, { 0xE8 } },
    { 1, { 0xC2 } },
    { 1, { 0xC4 } },
    { 1, { 0xD1 } },
    { 2, { 0xC2, 0x82 } },
    { 2, { 0xC7, 0x05 } },
    { 1, { 0xE3 } },
    { 1, { 0xF4 } },
};
enum { PIECES = sizeof pieces / sizeof *pieces };

static size_t send_piece(size_t length, size_t piece)
{
    memcpy(message + length, pieces[piece].bytes, pieces[piece].length);
    return length + pieces[piece].length;
}

/* Every three pieces, in the rooms needed and one less of each, and all that is told of them. */
static void check_pieces(void)
{
    size_t i;
    int good = 1, told = 1;

    for (i = 0; i < PIECES * PIECES * PIECES; i++) {
        const size_t two = send_piece(send_piece(0, i % PIECES), i / PIECES % PIECES);
        const size_t length = send_piece(two, i / PIECES / PIECES);
        const struct msdtp_salvaging due = due_for(length);
        const size_t words = MSDTP_CHANGE_WORDS * due.entries;

        good = good && due.number == MSDTP_ACCEPTED && in_rooms(length, &due, due.length, words)
            && (due.length == 0 || in_rooms(length, &due, due.length - 1, words))
            && (words == 0 || in_rooms(length, &due, due.length, words - 1));
        told = told && as_told(length, &due);
    }
    check("salvage: every three of many pieces", good);
    check("salvage: what is told of all that comes out", told);
}

/* Every one of these bytes is a message's first, every one its second, and any number of INTs is behind. */
static void check_extents(void)
{
    static const uint8_t seconds[] = { 0x00, 0x01, 0x02, 0x7F, 0x80, 0x81, 0x82, 0x83, 0xFF };
    size_t first, second, length;
    int good = 1;

    for (first = 0; first < 256; first++) {
        for (second = 0; second < sizeof seconds; second++) {
            memset(message, 0x80, 140);
            message[0] = (uint8_t)first;
            message[1] = seconds[second];
            for (length = 0; length <= 140; length++) {
                const struct msdtp_salvaging due = due_for(length);

                good = good && due.number == MSDTP_ACCEPTED
                    && in_rooms(length, &due, due.length, MSDTP_CHANGE_WORDS * due.entries);
            }
        }
    }
    check("salvage: extents by every type-byte", good);
}

/* Every two bytes. */
static void check_two_bytes(void)
{
    size_t i;
    int good = 1;

    for (i = 0; i < 65536; i++) {
        struct msdtp_salvaging due;

        message[0] = (uint8_t)(i >> 8);
        message[1] = (uint8_t)i;
        due = due_for(2);
        good = good && as_told(2, &due);
    }
    check("salvage: every two bytes", good);
}

void check_salvaging(void)
{
    check_cases();
    check_pieces();
    check_extents();
    check_two_bytes();
}
