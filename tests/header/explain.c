/* What the header tells of explaining: the containers and the evidence of each number. */

#include <string.h>

#include "explain.h"

/* Messages and what is told of them, seven words lent. The first are the header's own. */
static const struct {
    const char *name;
    size_t length;
    uint8_t bytes[14];
    struct why due;
} cases[] = {
    { "explain: an INT past the end of the message", 2, { 0xE2, 0x01 },
      { { 0, 0, { 2, 0, 0, 1 }, MSDTP_EVIDENCE_END, 2, 0 }, { 0 } } },
    { "explain: an INT past the end of the STRUC", 4, { 0xC2, 0x02, 0xE2, 0x01 },
      { { 0, 1, { 3, 2, 0, 1 }, MSDTP_EVIDENCE_END, 4, 0 }, { 0 } } },
    { "explain: a length that is cut, no container around it", 4, { 0xC1, 0x02, 0xE2, 0x01 },
      { { 0, 0, { 3, 2, 0, 1 }, MSDTP_EVIDENCE_END, 4, 0 }, { 0 } } },
    { "explain: a count that is cut, the REPEAT around it", 6, { 0xC2, 0x04, 0xC4, 0x02, 0xE2, 0x01 },
      { { 0, 2, { 3, 4, 0, 1 }, MSDTP_EVIDENCE_END, 6, 0 }, { 0, 2 } } },
    { "explain: a type-byte that means nothing", 4, { 0x81, 0xC2, 0x01, 0xC0 },
      { { 0, 1, { 4, 3, 0, 0 }, MSDTP_EVIDENCE_BYTE, 0xC0, 3 }, { 1 } } },
    { "explain: bits without a marker", 2, { 0xF1, 0x00 },
      { { 0, 0, { 6, 0, 0, 0 }, MSDTP_EVIDENCE_BYTE, 0, 1 }, { 0 } } },
    { "explain: a length with other bytes", 4, { 0xC1, 0x02, 0x90, 0x00 },
      { { 0, 0, { 6, 0, 0, 0 }, MSDTP_EVIDENCE_NUMBER, 16, 0 }, { 0 } } },
    { "explain: an EMPTY for a length, behind padding", 4, { 0xC1, 0x02, 0xFF, 0xFE },
      { { 0, 0, { 6, 0, 0, 0 }, MSDTP_EVIDENCE_BYTE, 0xFE, 3 }, { 0 } } },
    { "explain: no length", 3, { 0xC1, 0x81, 0x00 },
      { { 0, 0, { 6, 0, 0, 0 }, MSDTP_EVIDENCE_ABSENT, 0, 0 }, { 0 } } },
    { "explain: an outermost REPEAT", 4, { 0xC4, 0x02, 0x82, 0x80 },
      { { 0, 0, { 7, 0, 0, 0 }, MSDTP_EVIDENCE_BYTE, 0xC4, 0 }, { 0 } } },
    { "explain: a count of -1", 7, { 0xC2, 0x05, 0xC4, 0x03, 0xE1, 0xFF, 0x80 },
      { { 0, 1, { 7, 2, 0, 0 }, MSDTP_EVIDENCE_NUMBER, UINT64_MAX, 0 }, { 0 } } },
    { "explain: no count, but padding", 5, { 0xC2, 0x03, 0xC4, 0x01, 0xFF },
      { { 0, 1, { 7, 2, 0, 0 }, MSDTP_EVIDENCE_ABSENT, 0, 0 }, { 0 } } },
    { "explain: two kinds", 4, { 0xC5, 0x02, 0x81, 0x41 },
      { { 0, 0, { 8, 0, 0, 0 }, MSDTP_EVIDENCE_KINDS, 2, 3 }, { 0 } } },
    { "explain: two kinds, a repeat of count 0 before them", 11,
      { 0xC5, 0x09, 0xC4, 0x02, 0x80, 0x41, 0xC4, 0x02, 0x82, 0x81, 0xFE },
      { { 0, 0, { 8, 0, 0, 0 }, MSDTP_EVIDENCE_KINDS, 9, 10 }, { 0 } } },
    { "explain: an EDT's first element is a CHAR", 5, { 0xC3, 0x03, 0x41, 0x81, 0x82 },
      { { 0, 0, { 9, 0, 0, 0 }, MSDTP_EVIDENCE_ELEMENT, 1, 2 }, { 0 } } },
    { "explain: an EDT's second element is a string of the repeat", 8,
      { 0xC3, 0x06, 0xC4, 0x04, 0x82, 0xC6, 0x01, 0x41 },
      { { 0, 0, { 9, 0, 0, 0 }, MSDTP_EVIDENCE_ELEMENT, 2, 5 }, { 0 } } },
    { "explain: an EDT without its version", 3, { 0xC3, 0x01, 0x87 },
      { { 0, 0, { 9, 0, 0, 0 }, MSDTP_EVIDENCE_NO_ELEMENT, 2, 0 }, { 0 } } },
    { "explain: a string, and seven words lent", 4, { 0xC6, 0x02, 0x48, 0x45 },
      { { 0, 0, { 11, 0, 8, 0 }, MSDTP_EVIDENCE_WANTED, 1, 1 }, { 0 } } },
    { "explain: an accepted message", 3, { 0xFF, 0xE1, 0x0A },
      { { 0, 0, { 0, 0, 7, 0 }, MSDTP_EVIDENCE_NONE, 0, 0 }, { 0 } } },
    { "explain: nothing", 0, { 0 }, { { 0, 0, { 0, 0, 4, 0 }, MSDTP_EVIDENCE_NONE, 0, 0 }, { 0 } } },
    { "explain: a size field past the end of the message", 3, { 0xC2, 0x82, 0x01 },
      { { 0, 0, { 2, 0, 0, 1 }, MSDTP_EVIDENCE_END, 3, 0 }, { 0 } } },
    { "explain: an EDT past the end of the USTRUC in a STRUC", 6, { 0xC2, 0x04, 0xC5, 0x02, 0xC3, 0x05 },
      { { 0, 2, { 3, 4, 0, 5 }, MSDTP_EVIDENCE_END, 6, 0 }, { 0, 2 } } },
    { "explain: a length that is cut, in a STRUC", 8, { 0xC2, 0x06, 0xC1, 0x04, 0xFF, 0xFF, 0xE2, 0x01 },
      { { 0, 1, { 3, 6, 0, 1 }, MSDTP_EVIDENCE_END, 8, 0 }, { 0 } } },
    { "explain: what has ended is not around it", 8, { 0xC2, 0x03, 0xC5, 0x01, 0x81, 0xC2, 0x01, 0xC0 },
      { { 0, 1, { 4, 7, 0, 0 }, MSDTP_EVIDENCE_BYTE, 0xC0, 7 }, { 5 } } },
    { "explain: the least length", 11, { 0xC1, 0x09, 0xE0, 0x80, 0, 0, 0, 0, 0, 0, 0 },
      { { 0, 0, { 6, 0, 0, 0 }, MSDTP_EVIDENCE_NUMBER, (uint64_t)1 << 63, 0 }, { 0 } } },
    { "explain: a count that is reserved", 6, { 0x81, 0xC5, 0x03, 0xC4, 0x01, 0xE8 },
      { { 0, 1, { 7, 3, 0, 0 }, MSDTP_EVIDENCE_BYTE, 0xE8, 5 }, { 1 } } },
    { "explain: an EDT of nothing, in a STRUC behind padding", 6, { 0xFF, 0xC2, 0x03, 0xC3, 0x81, 0x00 },
      { { 0, 1, { 9, 3, 0, 0 }, MSDTP_EVIDENCE_NO_ELEMENT, 1, 0 }, { 1 } } },
};
enum { CASES = sizeof cases / sizeof *cases };

static void check_cases(void)
{
    size_t i;

    for (i = 0; i < CASES; i++) {
        const size_t length = cases[i].length;
        struct why due;

        memcpy(message, cases[i].bytes, length);
        due = why_due(length, 7);
        check(cases[i].name, same_why(&due, &cases[i].due) && why_in_every_room(length, 7, &due));
    }
}

/* Whether the message is explained as due, with few words lent and with always enough. */
static int as_due(size_t length)
{
    const struct why few = why_due(length, 20), enough = why_due(length, MSDTP_TABLE_WORDS);

    return why_in(length, 20, &few, MSDTP_EXPLAIN_WORDS)
        && why_in(length, MSDTP_TABLE_WORDS, &enough, enough.answer.entries)
        && (enough.answer.entries == 0
            || why_in(length, MSDTP_TABLE_WORDS, &enough, enough.answer.entries - 1));
}

/* What stands before the contents of a container, or of two: their type-bytes, sizes and counts. */
struct around {
    size_t length, sizes[2];
    uint8_t bytes[8];
};

static const struct around boxes[] = {
    { 0, { 0, 0 }, { 0 } },
    { 2, { 1, 0 }, { 0xC2, 0 } },
    { 2, { 1, 0 }, { 0xC3, 0 } },
    { 2, { 1, 0 }, { 0xC5, 0 } },
    { 3, { 1, 0 }, { 0xC3, 0, 0x8C } },
    { 5, { 1, 3 }, { 0xC2, 0, 0xC4, 0, 0x82 } },
    { 5, { 1, 3 }, { 0xC3, 0, 0xC4, 0, 0x81 } },
    { 6, { 1, 3 }, { 0xC5, 0, 0xC4, 0, 0xE1, 0x02 } },
    { 7, { 2, 5 }, { 0x81, 0xC3, 0, 0xFF, 0xC4, 0, 0x80 } },
};
enum { BOXES = sizeof boxes / sizeof *boxes };

/* Puts so many bytes of contents, and what stands around them, and returns the length. */
static size_t put_in(const struct around *around, const uint8_t *contents, size_t count)
{
    const size_t length = around->length + count;
    size_t i;

    memcpy(message, around->bytes, around->length);
    memcpy(message + around->length, contents, count);
    for (i = 0; i < 2 && around->sizes[i] > 0; i++) {
        message[around->sizes[i]] = (uint8_t)(length - around->sizes[i] - 1);
    }
    return length;
}

/* Every four of these bytes: types of every class, in every sort of container. */
static void check_four_bytes(void)
{
    static const uint8_t of[] = {
        0x00, 0x01, 0x02, 0x41, 0x80, 0x82, 0xC0, 0xC1, 0xC2, 0xC3, 0xC4, 0xC5, 0xC6, 0xE1, 0xF1, 0xFB, 0xFE, 0xFF
    };
    const size_t all = sizeof of;
    size_t box, i;
    int good = 1;

    for (box = 0; box < BOXES; box++) {
        for (i = 0; i < all * all * all * all; i++) {
            const uint8_t contents[] = {
                of[i % all], of[i / all % all], of[i / all / all % all], of[i / all / all / all]
            };

            good = good && as_due(put_in(boxes + box, contents, sizeof contents));
        }
    }
    check("explain: every four of many bytes, in every sort of container", good);
}

/* Every two bytes. */
static void check_two_bytes(void)
{
    size_t box, i;
    int good = 1;

    for (box = 0; box < BOXES; box++) {
        for (i = 0; i < 65536; i++) {
            const uint8_t contents[] = { (uint8_t)(i >> 8), (uint8_t)i };

            good = good && as_due(put_in(boxes + box, contents, sizeof contents));
        }
    }
    check("explain: every two bytes, in every sort of container", good);
}

/* A batch of which any byte is any other: a note, a sheet of repeats, bits, a USTRUC of two EDTs. */
static void check_damage(void)
{
    static const uint8_t batch[] = {
        0xC6, 0x03, 'c', 'u', 't', 0xFF, 0xC3, 0x0C, 0x8C, 0x81, 0xE2, 0x12, 0x6A, 0xF8, 0xC4, 0x04, 0x83, 0xE2, 0x03, 0xE8,
        0xC1, 0x03, 0x8C, 0xAA, 0xA0, 0xC2, 0x0B, 0xC5, 0x09, 0xC3, 0x02, 0x81, 0x82, 0xC3, 0x03, 0xC6, 0x81, 0x00,
    };
    size_t at, value, length;
    int good = 1;

    for (at = 0; at < sizeof batch; at++) {
        for (value = 0; value < 256; value++) {
            memcpy(message, batch, sizeof batch);
            message[at] = (uint8_t)value;
            good = good && as_due(sizeof batch);
        }
    }
    check("explain: any byte of a batch damaged", good);
    memcpy(message, batch, sizeof batch);
    for (length = 0; length <= sizeof batch; length++) {
        good = good && as_due(length);
    }
    check("explain: a batch cut anywhere", good);
}

void check_explaining(void)
{
    check_cases();
    check_four_bytes();
    check_two_bytes();
    check_damage();
}
