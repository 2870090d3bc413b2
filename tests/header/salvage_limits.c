/* What the header tells of salvaging at its limits: long messages, many changes, 10, and the order of the numbers. */

#include <string.h>

#include "salvage.h"

/* Sends so many bytes, these again and again. */
static size_t send_again(const char *bytes, size_t count, size_t length)
{
    size_t i;

    for (i = 0; i < length; i++) {
        message[i] = (uint8_t)bytes[i % count];
    }
    return length;
}

/* Whether this is due for the message, and is answered in the rooms needed, one less of each, and always enough. */
static int is_due(size_t length, uint64_t number, uint64_t come, uint64_t entries)
{
    const struct msdtp_salvaging due = due_for(length);
    const size_t words = MSDTP_CHANGE_WORDS * entries;

    return due.number == number && due.length == come && due.entries == entries
        && in_rooms(length, &due, come, words)
        && in_rooms(length, &due, MSDTP_OUTPUT_BYTES, MSDTP_SALVAGE_WORDS)
        && in_rooms(length, &due, 0, 0) && in_rooms(length, &due, come, 0)
        && (come == 0 || in_rooms(length, &due, come - 1, words))
        && (entries == 0 || (in_rooms(length, &due, come, words - 1) && in_rooms(length, &due, come, words - 3)));
}

static void check_lengths(void)
{
    const size_t most = MSDTP_BYTE_LIMIT;

    check("salvage: as long as a message may be", is_due(send_again("\xFF", 1, most), MSDTP_ACCEPTED, most, 0));
    message[most - 1] = 0xC0;
    check("salvage: as long, its last byte dropped", is_due(most, MSDTP_ACCEPTED, most - 1, 1));
    message[0] = 0xC0;
    check("salvage: as long, all dropped", is_due(most, MSDTP_ACCEPTED, 0, 1));
    memcpy(message, "\xD5\x82\xFF\xFC", 4);
    check("salvage: as long, all replaced", is_due(most, MSDTP_ACCEPTED, 1, 1));
    memcpy(message, "\xC6\x82\xFF\xFC", 4);
    check("salvage: as long, one string", is_due(most, MSDTP_ACCEPTED, most, 0));
    memcpy(message, "\xC6\x82\xFF\xFD", 4);
    check("salvage: as long, one string that wants a byte", is_due(most, MSDTP_ACCEPTED, 0, 1));
}

/* Over the limit nothing is looked at, whatever is lent. */
static void check_too_long(void)
{
    const struct msdtp_salvaging due = { MSDTP_TOO_LONG, 0, 0 };
    const size_t length = MSDTP_BYTE_LIMIT + 1;
    size_t turn;
    int good = 1;

    for (turn = 0; turn < 3; turn++) {
        send_again(turn == 0 ? "\xFF" : turn == 1 ? "\xC0" : "\xF1", 1, length);
        good = good && in_rooms(length, &due, 0, 0) && in_rooms(length, &due, MSDTP_OUTPUT_BYTES, 0)
            && in_rooms(length, &due, 0, MSDTP_SALVAGE_WORDS)
            && in_rooms(length, &due, MSDTP_OUTPUT_BYTES, MSDTP_SALVAGE_WORDS);
    }
    check("salvage: 1 before all others", good);
}

/* As many changes as there may be in so many bytes: bit strings without a marker, two bytes each. */
static void check_most(void)
{
    static const size_t lengths[] = { 1, 2, 3, 4, 1001, MSDTP_BYTE_LIMIT - 1, MSDTP_BYTE_LIMIT };
    const uint64_t rows = MSDTP_ROW_LIMIT;
    size_t i;
    int good = 1;

    for (i = 0; i < sizeof lengths / sizeof *lengths; i++) {
        const size_t length = send_again("\xF1\x00", 2, lengths[i]);
        const uint64_t number = length / 2 > rows ? MSDTP_TOO_MANY : MSDTP_ACCEPTED;

        good = good && is_due(length, number, length / 2, (length + 1) / 2);
    }
    check("salvage: as many changes as there may be", good);
    check("salvage: always enough words", MSDTP_SALVAGE_WORDS == MSDTP_CHANGE_WORDS * (MSDTP_BYTE_LIMIT / 2));
    check("salvage: as many changes as with 0 there may be",
          is_due(send_again("\xF1\x00", 2, 2 * rows + 1), MSDTP_ACCEPTED, rows, rows + 1));
    check("salvage: one change more",
          is_due(send_again("\xF1\x00", 2, 2 * rows + 2), MSDTP_TOO_MANY, rows + 1, rows + 1));
}

/* Sends an object that takes so many rows, then so many INTs, and returns the length. */
static size_t send_rows(uint64_t rows, uint64_t more)
{
    const uint8_t object[] = {
        0xC2, 0x06, 0xC4, 0x04, 0xE2, (uint8_t)((rows - 1) >> 8), (uint8_t)(rows - 1), 0x80
    };

    memset(message, 0x81, sizeof object + more);
    memcpy(message, object, sizeof object);
    return sizeof object + more;
}

/* Sends two strings of so many characters each, by a repeat, and returns the length. */
static size_t send_strings(uint64_t first, uint64_t second)
{
    const uint64_t counts[] = { first, second };
    size_t i;

    for (i = 0; i < 2; i++) {
        const uint8_t string[] = {
            0xC2, 0x07, 0xC4, 0x05, 0xE3, (uint8_t)(counts[i] >> 16), (uint8_t)(counts[i] >> 8), (uint8_t)counts[i], 'A'
        };

        memcpy(message + i * sizeof string, string, sizeof string);
    }
    return 18;
}

/* 10 for what comes out, where no object has too many rows or data words by itself; and an object that has. */
static void check_too_many(void)
{
    const uint64_t rows = MSDTP_ROW_LIMIT, most = 8 * (uint64_t)MSDTP_WORD_LIMIT;

    check("salvage: as many rows as may be", is_due(send_rows(rows - 5, 5), MSDTP_ACCEPTED, 13, 0));
    check("salvage: a row more", is_due(send_rows(rows - 5, 6), MSDTP_TOO_MANY, 14, 0));
    check("salvage: as many rows by itself", is_due(send_rows(rows, 0), MSDTP_ACCEPTED, 8, 0));
    check("salvage: a row more by itself", is_due(send_rows(rows + 1, 3), MSDTP_ACCEPTED, 4, 1));
    check("salvage: the EMPTY for it is a row", is_due(send_rows(rows + 1, rows - 1), MSDTP_ACCEPTED, rows, 1)
          && is_due(send_rows(rows + 1, rows), MSDTP_TOO_MANY, rows + 1, 1));
    check("salvage: as many data words as may be", is_due(send_strings(most - 8, 8), MSDTP_ACCEPTED, 18, 0));
    check("salvage: a data word more", is_due(send_strings(most - 8, 9), MSDTP_TOO_MANY, 18, 0));
    check("salvage: a data word more by itself", is_due(send_strings(most + 1, most), MSDTP_ACCEPTED, 10, 1));
    check("salvage: INTs alone, as many as may be",
          is_due(send_again("\x81", 1, rows), MSDTP_ACCEPTED, rows, 0)
          && is_due(send_again("\x81", 1, rows + 1), MSDTP_TOO_MANY, rows + 1, 0));
    send_again("\x81", 1, rows + 2);
    message[rows + 1] = 0xC2;
    check("salvage: a row more, and what is dropped", is_due(rows + 2, MSDTP_TOO_MANY, rows + 1, 1));
    message[rows] = 0xC2;
    check("salvage: what is dropped is no row", is_due(rows + 2, MSDTP_ACCEPTED, rows, 1));
}

/* Sixteen containers are sound, and seventeen are replaced. */
static void check_deep(void)
{
    size_t depth;
    int good = 1;

    for (depth = 1; depth <= MSDTP_DEPTH_LIMIT + 2; depth++) {
        const int deep = depth > MSDTP_DEPTH_LIMIT;
        size_t i;

        for (i = 0; i < depth; i++) {
            message[2 * i] = 0xC2;
            message[2 * i + 1] = (uint8_t)(2 * (depth - 1 - i) + 1);
        }
        message[2 * depth] = 0x81;
        message[2 * depth + 1] = 0x82;
        good = good && is_due(2 * depth + 2, MSDTP_ACCEPTED, deep ? 2 : 2 * depth + 2, deep)
            && (!deep || due_list[2] == MSDTP_TOO_DEEP);
    }
    check("salvage: deeper than a message may be", good);
}

/* 15, 16 and 10 are all due: each is told in its order, and with its own need alone. */
static void check_order(void)
{
    const struct msdtp_salvaging due = due_for(send_again("\xF1\x00", 2, MSDTP_BYTE_LIMIT));
    const size_t half = MSDTP_BYTE_LIMIT / 2, words = MSDTP_CHANGE_WORDS * half;
    struct msdtp_salvaging s = msdtp_salvage(message, MSDTP_BYTE_LIMIT, output, half - 1, changes, words - 1);

    check("salvage: 15 before 16 and 10", s.number == MSDTP_OUTPUT_SHORT && s.length == half && s.entries == 0);
    s = msdtp_salvage(message, MSDTP_BYTE_LIMIT, output, half, changes, words - 1);
    check("salvage: 16 before 10", s.number == MSDTP_LIST_SHORT && s.length == 0 && s.entries == half);
    s = msdtp_salvage(message, MSDTP_BYTE_LIMIT, output, half, changes, words);
    check("salvage: then 10", s.number == MSDTP_TOO_MANY && s.length == 0 && s.entries == 0);
    check("salvage: 10 is due with what it needs", due.number == MSDTP_TOO_MANY && due.length == half);
}

/*
 * The usual way to salvage, when before each call the message becomes another, with
 * so many changes. It ends in so many calls with those then there.
 */
static int salvaged_in(size_t calls, const uint64_t *turns)
{
    struct msdtp_salvaging s = { MSDTP_LIST_SHORT, 0, 0 };
    size_t turn;

    for (turn = 0; turn < 4 && s.number == MSDTP_LIST_SHORT; turn++) {
        const size_t length = send_again("\xF1\x00", 2, 2 * turns[turn]);

        s = msdtp_salvage(message, length, output, length, changes, MSDTP_CHANGE_WORDS * s.entries);
    }
    return turn == calls && s.number == MSDTP_ACCEPTED
        && s.length == turns[calls - 1] && s.entries == turns[calls - 1];
}

static void check_again(void)
{
    static const uint64_t nothing[] = { 0, 1, 2, 3 }, same[] = { 3, 3, 4, 5 },
        longer[] = { 1, 2, 5, 5 }, shorter[] = { 2, 5, 3, 5 }, gone[] = { 4, 0, 1, 2 };

    check("salvaged at once, no changes", salvaged_in(1, nothing));
    check("salvaged again after 16", salvaged_in(2, same));
    check("salvaged again, more each time", salvaged_in(4, longer));
    check("salvaged again, then fewer", salvaged_in(3, shorter));
    check("salvaged again, then none", salvaged_in(2, gone));
}

void check_salvaging_limits(void)
{
    check_lengths();
    check_too_long();
    check_most();
    check_too_many();
    check_deep();
    check_order();
    check_again();
}
