/* The lent buffers and the calls that all checks share. */

#include <stdio.h>
#include <string.h>

#include "lent.h"

uint64_t table[WORDS], made[WORDS], other[WORDS], list[LIST];
uint8_t message[BYTES], output[BYTES];
int failed;
int answered[MSDTP_FIGURE_RANGE + 1];

const char *meaning_elsewhere(uint64_t number)
{
    return msdtp_meaning(number);
}

void check(const char *name, int good)
{
    printf("%s: %s\n", good ? "passed" : "failed", name);
    failed = failed || !good;
}

int is(uint64_t number, uint64_t expected)
{
    if (number != expected) {
        return 0;
    }
    answered[expected] = 1;
    return 1;
}

void refill(void)
{
    memset(table, FILLER, sizeof table);
    memset(output, FILLER, sizeof output);
}

void refill_list(size_t room)
{
    memset(list, FILLER, (room + MORE) * sizeof *list);
}

int untouched(const void *buffer, size_t from, size_t length)
{
    const uint8_t *bytes = (const uint8_t *)buffer;

    while (from < length && bytes[from] == FILLER) {
        from++;
    }
    return from >= length;
}

int table_untouched(uint64_t from)
{
    return untouched(table, from * sizeof *table, sizeof table);
}

int output_untouched(uint64_t from)
{
    return untouched(output, from, sizeof output);
}

int list_untouched(uint64_t from, size_t room)
{
    return untouched(list, from * sizeof *list, (room + MORE) * sizeof *list);
}

/* Reading and normalising both give this refusal, and every lent byte is as it was. */
static int refused(size_t length, size_t room, const struct msdtp_reading *expected)
{
    static uint8_t sent[BYTES];
    struct msdtp_reading r;
    struct msdtp_normalising n;

    refill();
    memcpy(sent, message, sizeof sent);
    r = msdtp_read(message, length, table, room);
    n = msdtp_normalise(message, length, table, room, output, MSDTP_OUTPUT_BYTES);
    return is(r.number, expected->number) && r.place == expected->place
        && r.words == expected->words && r.missing == expected->missing
        && n.number == r.number && n.place == r.place && n.words == r.words
        && n.missing == r.missing && n.length == 0
        && table_untouched(0) && output_untouched(0) && memcmp(sent, message, sizeof sent) == 0;
}

int refused_read(size_t length, size_t room, uint64_t number, uint64_t place, uint64_t words)
{
    const struct msdtp_reading expected = { number, place, words, 0 };

    return refused(length, room, &expected);
}

int cut_read(size_t length, uint64_t number, uint64_t place, uint64_t missing)
{
    const struct msdtp_reading expected = { number, place, 0, missing };

    return refused(length, MSDTP_TABLE_WORDS, &expected);
}

int accepted_read(size_t length, size_t room, uint64_t words)
{
    struct msdtp_reading r;

    refill();
    r = msdtp_read(message, length, table, room);
    return is(r.number, MSDTP_ACCEPTED) && r.place == 0 && r.words == words && r.missing == 0
        && table_untouched(words);
}

int made_is_read(size_t words)
{
    return memcmp(table, made, words * sizeof *made) == 0;
}

/* Whether writing into so much of an output answers this, and every made word is as it was. */
static int writes(size_t words, uint8_t *to, size_t room, uint64_t number, uint64_t length)
{
    static uint64_t sent[WORDS];
    struct msdtp_writing w;

    memcpy(sent, made, sizeof sent);
    w = msdtp_write(made, words, to, room);
    return is(w.number, number) && w.length == length && memcmp(sent, made, sizeof sent) == 0;
}

/* An empty output gets this answer, null or not. */
static int asked(size_t words, uint64_t number, uint64_t length)
{
    return writes(words, NULL, 0, number, length) && writes(words, output, 0, number, length);
}

int refused_write(size_t words, size_t room, uint64_t number, uint64_t length)
{
    refill();
    return asked(words, number, length) && writes(words, output, room, number, length)
        && (number == MSDTP_OUTPUT_SHORT
            || writes(words, output, MSDTP_OUTPUT_BYTES, number, length))
        && output_untouched(0);
}

int accepted_write(size_t words, size_t room, uint64_t length)
{
    refill();
    return asked(words, length > 0 ? MSDTP_OUTPUT_SHORT : MSDTP_ACCEPTED, length)
        && output_untouched(0)
        && writes(words, output, room, MSDTP_ACCEPTED, length) && output_untouched(length);
}

/* Whether comparing into so much of a list answers this, and every word of both tables is as it was. */
static int compares(size_t left, size_t right, uint64_t *to, size_t room, uint64_t number, uint64_t entries)
{
    static uint64_t one[WORDS], two[WORDS];
    struct msdtp_comparing c;

    memcpy(one, made, left * sizeof *one);
    memcpy(two, other, right * sizeof *two);
    c = msdtp_compare(made, left, other, right, to, room);
    return is(c.number, number) && c.entries == entries
        && memcmp(one, made, left * sizeof *one) == 0 && memcmp(two, other, right * sizeof *two) == 0;
}

/* Into so much of the filled list, and into null if that is none. */
static int into_list(size_t left, size_t right, size_t room, uint64_t number, uint64_t entries)
{
    refill_list(room);
    return (room > 0 || compares(left, right, NULL, 0, number, entries))
        && compares(left, right, list, room, number, entries);
}

int refused_compare(size_t left, size_t right, size_t room, uint64_t number, uint64_t entries)
{
    return into_list(left, right, room, number, entries) && list_untouched(0, room);
}

int accepted_compare(size_t left, size_t right, size_t room, uint64_t entries, const uint64_t *due)
{
    const size_t words = MSDTP_DIFFERENCE_WORDS * entries;

    return into_list(left, right, room, MSDTP_ACCEPTED, entries)
        && memcmp(list, due, words * sizeof *due) == 0 && list_untouched(words, room);
}
