/* What the header tells of a message that is one object and was cut. */

#include <string.h>

#include "lent.h"

/* An object, and how many bytes its size field has, none if its length is fixed. */
struct object {
    size_t length, field;
    uint8_t bytes[20];
};

static const struct object objects[] = {
    { 2, 0, { 0xE1, 0x40 } },
    { 9, 0, { 0xE0, 0x7F, 0xFF, 0xFF, 0xFF, 0xFF, 0xFF, 0xFF, 0xFF } },
    { 2, 0, { 0xF1, 0x01 } },
    { 9, 0, { 0xF0, 0x80, 0x00, 0x00, 0x00, 0x00, 0x00, 0x00, 0x00 } },
    { 5, 1, { 0xC1, 0x03, 0x8C, 0xAA, 0xA0 } },
    { 8, 1, { 0xC2, 0x06, 0x81, 0xE4, 0x00, 0x00, 0x01, 0x00 } },
    { 7, 1, { 0xC2, 0x05, 0x81, 0xC4, 0x02, 0x9E, 0x80 } },
    { 3, 2, { 0xC2, 0x81, 0x00 } },
    { 17, 1, { 0xC3, 0x0F, 0x8C, 0x81, 0xE2, 0x12, 0x67, 0xF8, 0xE2, 0x03, 0xF8, 0xE2, 0x03, 0x60,
               0xE2, 0x02, 0x8A } },
    { 5, 1, { 0xC5, 0x03, 0x81, 0xE1, 0x40 } },
    { 7, 1, { 0xC6, 0x05, 0xC8, 0x45, 0x4C, 0x4C, 0x4F } },
    { 6, 3, { 0xC6, 0x82, 0x00, 0x02, 0x48, 0x45 } },
};

enum { OBJECTS = sizeof objects / sizeof *objects };

/* What is told missing where so many bytes are left. */
static uint64_t told(size_t length, size_t field, size_t left)
{
    if (left > field) {
        return length - left;
    }
    return left == 1 ? 1 : 1 + field - left;
}

/* Behind so many bytes of the message that are accepted stands an object: every beginning of it. */
static int every_beginning(size_t before, size_t length, size_t field)
{
    int good = 1;
    size_t left;

    for (left = 1; left < length; left++) {
        good = good && cut_read(before + left, MSDTP_PAST_INPUT, before, told(length, field, left));
    }
    return good;
}

/* The message is an object: it is all there after three waits for what is told missing, or fewer. */
static int whole_after_three(size_t length)
{
    int good = 1, waits;
    size_t left, there;

    for (left = 1; left < length; left++) {
        there = left;
        for (waits = 0; waits < 3; waits++) {
            there += msdtp_read(message, there, table, MSDTP_TABLE_WORDS).missing;
        }
        good = good && there == length;
    }
    return good;
}

/* The message is an object that is accepted, as one item. */
static int one_item(size_t length)
{
    const struct msdtp_reading r = msdtp_read(message, length, table, MSDTP_TABLE_WORDS);

    return r.number == MSDTP_ACCEPTED && table[1] == 1;
}

/* What is written of its table is one object too, with its size field as short as can be. */
static int written(size_t length)
{
    const struct msdtp_normalising n =
        msdtp_normalise(message, length, table, MSDTP_TABLE_WORDS, output, MSDTP_OUTPUT_BYTES);
    const size_t field = n.length < 2 || output[0] < 0xC0 || output[0] >= 0xE0 ? 0
        : output[1] < 0x80                                                     ? 1
                                                                               : 2;

    if (n.number != MSDTP_ACCEPTED) {
        return 0;
    }
    memcpy(message, output, n.length);
    return one_item(n.length) && every_beginning(0, n.length, field);
}

void check_cuts(void)
{
    static const uint8_t before[] = { 0x81, 0xC6, 0x01, 0x41, 0xFF };
    int each, good = 1, batch = 1, waits = 1, made_again = 1;

    for (each = 0; each < OBJECTS; each++) {
        const struct object *object = &objects[each];

        memcpy(message, before, sizeof before);
        memcpy(message + sizeof before, object->bytes, object->length);
        batch = batch && every_beginning(sizeof before, object->length, object->field);
        memcpy(message, object->bytes, object->length);
        good = good && one_item(object->length)
            && every_beginning(0, object->length, object->field);
        waits = waits && whole_after_three(object->length);
        made_again = made_again && written(object->length);
    }
    check("every beginning of one object", good);
    check("the last object behind others, cut", batch);
    check("whole after three waits", waits);
    check("what is written of one item, cut", made_again);

    memset(message, 0, 131);
    message[0] = 0xC6;
    message[1] = 0x80;
    message[129] = 1;
    message[130] = 0x41;
    check("128 size bytes, cut", one_item(131) && every_beginning(0, 131, 129) && whole_after_three(131));
}
