/* What the header tells of two messages end to end. */

#include <string.h>

#include "lent.h"

/* A message. */
struct part {
    size_t length;
    uint8_t bytes[35];
};

static const struct part sound[] = {
    { 0, { 0 } },
    { 1, { 0xFF } },
    { 2, { 0x81, 0xFE } },
    { 2, { 0xF1, 0x03 } },
    { 4, { 0xC6, 0x02, 0xC8, 0x45 } },
    { 6, { 0xC2, 0x04, 0xC4, 0x02, 0x82, 0x81 } },
    { 4, { 0xC3, 0x02, 0x81, 0x82 } },
};

static const struct part faulty[] = {
    { 1, { 0xC2 } },
    { 5, { 0x81, 0xC2, 0x82, 0x01, 0x00 } },
    { 5, { 0xC2, 0x83, 0x02, 0x00, 0x00 } },
    { 4, { 0xC2, 0x02, 0xE2, 0x01 } },
    { 2, { 0xFF, 0xE8 } },
    { 35, { 0xC2, 33, 0xC2, 31, 0xC2, 29, 0xC2, 27, 0xC2, 25, 0xC2, 23, 0xC2, 21, 0xC2, 19, 0xC2, 17,
            0xC2, 15, 0xC2, 13, 0xC2, 11, 0xC2, 9, 0xC2, 7, 0xC2, 5, 0xC2, 3, 0xC2, 1, 0x80 } },
    { 2, { 0xF1, 0x00 } },
    { 4, { 0xC4, 0x02, 0x82, 0x80 } },
    { 4, { 0xC5, 0x02, 0x81, 0x41 } },
    { 4, { 0xC3, 0x02, 0x81, 0xFE } },
};

enum { SOUND = sizeof sound / sizeof *sound, FAULTY = sizeof faulty / sizeof *faulty };

/* Puts two messages end to end, and returns their length. */
static size_t put_together(const struct part *first, const struct part *second)
{
    memcpy(message, first->bytes, first->length);
    memcpy(message + first->length, second->bytes, second->length);
    return first->length + second->length;
}

/* Normalises with always enough room. */
static struct msdtp_normalising normalise(const uint8_t *bytes, size_t length)
{
    return msdtp_normalise(bytes, length, table, MSDTP_TABLE_WORDS, output, MSDTP_OUTPUT_BYTES);
}

/* Both are accepted: words, rows and data words add up, and so do the normal forms. */
static int sound_pair(const struct part *first, const struct part *second)
{
    static uint8_t forms[MSDTP_OUTPUT_BYTES];
    const struct msdtp_normalising one = normalise(first->bytes, first->length);
    const uint64_t rows = table[0], items = table[1], words = table[3];
    struct msdtp_normalising two, both;
    uint64_t all_rows, all_items, all_words;

    memcpy(forms, output, one.length);
    two = normalise(second->bytes, second->length);
    memcpy(forms + one.length, output, two.length);
    all_rows = rows + table[0];
    all_items = items + table[1];
    all_words = words + table[3];
    both = normalise(message, put_together(first, second));
    return one.number == MSDTP_ACCEPTED && two.number == MSDTP_ACCEPTED
        && both.number == MSDTP_ACCEPTED
        && both.words == one.words + two.words - MSDTP_HEADER_WORDS
        && both.length == one.length + two.length && memcmp(output, forms, both.length) == 0
        && table[0] == all_rows && table[1] == all_items && table[3] == all_words
        && accepted_read(put_together(first, second), both.words, both.words);
}

/* The second is refused: the whole alike, its place moved. */
static int faulty_pair(const struct part *first, const struct part *second)
{
    const struct msdtp_reading r =
        msdtp_read(second->bytes, second->length, table, MSDTP_TABLE_WORDS);

    return r.number >= MSDTP_PAST_INPUT && r.number <= MSDTP_BAD_EDT
        && cut_read(put_together(first, second), r.number, first->length + r.place, r.missing);
}

void check_joining(void)
{
    int first, second, good = 1, alike = 1, numbers = 0;

    for (first = 0; first < SOUND; first++) {
        for (second = 0; second < SOUND; second++) {
            good = good && sound_pair(&sound[first], &sound[second]);
        }
    }
    check("two accepted messages end to end", good);
    for (first = 0; first < SOUND; first++) {
        for (second = 0; second < FAULTY; second++) {
            alike = alike && faulty_pair(&sound[first], &faulty[second]);
        }
    }
    check("a refused message behind an accepted one", alike);
    for (second = 0; second < FAULTY; second++) {
        numbers |= 1 << msdtp_read(faulty[second].bytes, faulty[second].length, table,
                                   MSDTP_TABLE_WORDS).number;
    }
    check("refused with each number from 2 to 9", numbers == 0x3FC);
}
