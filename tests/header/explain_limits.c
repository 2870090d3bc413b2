/* What the header tells of explaining at its limits: sixteen containers, long messages, the words lent, and 10. */

#include <string.h>

#include "explain.h"

/* Whether the message is explained as due in every room, and these are its number, place and evidence. */
static int is_why(size_t length, uint64_t words_lent, uint64_t number, uint64_t place, const struct why *due)
{
    return due->answer.reading.number == number && due->answer.reading.place == place
        && why_in_every_room(length, words_lent, due);
}

/* So many containers of one type one inside the other, each at the end of the one around it, around a byte. */
static size_t send_deep(uint8_t type, size_t depth, uint8_t byte)
{
    const size_t each = type == 0xC4 ? 3 : 2;
    size_t i;

    message[0] = 0xC2;
    message[1] = (uint8_t)(each * (depth - 1) + 1);
    for (i = 1; i < depth; i++) {
        uint8_t *at = message + 2 + each * (i - 1);

        at[0] = type;
        at[1] = (uint8_t)(each * (depth - i) - 1);
        at[2] = 0x82;
    }
    message[2 + each * (depth - 1)] = byte;
    return 2 + each * (depth - 1) + 1;
}

/* A byte that means nothing in up to sixteen containers, and a container in sixteen: a place for each. */
static void check_deep(void)
{
    static const uint8_t types[] = { 0xC2, 0xC3, 0xC4, 0xC5 };
    size_t i, depth;
    int good = 1, deep = 1;

    for (i = 0; i < sizeof types; i++) {
        for (depth = 1; depth <= MSDTP_DEPTH_LIMIT; depth++) {
            const size_t length = send_deep(types[i], depth, 0xC0);
            struct why due = why_due(length, MSDTP_TABLE_WORDS);

            good = good && due.answer.entries == depth && due.answer.evidence == MSDTP_EVIDENCE_BYTE
                && is_why(length, MSDTP_TABLE_WORDS, MSDTP_UNASSIGNED, length - 1, &due);
            message[length - 1] = 0xC6;
            due = why_due(length, MSDTP_TABLE_WORDS);
            deep = deep && due.answer.entries == depth
                && (depth < MSDTP_DEPTH_LIMIT
                    || is_why(length, MSDTP_TABLE_WORDS, MSDTP_TOO_DEEP, length - 1, &due));
        }
    }
    check("explain: a place for each container", good);
    check("explain: the sixteen containers of 5", deep);
    check("explain: always enough words", MSDTP_EXPLAIN_WORDS == MSDTP_DEPTH_LIMIT);
}

/* As long as a message may be, with its first and its last byte at fault; and longer. */
static void check_lengths(void)
{
    const size_t most = MSDTP_BYTE_LIMIT, words = MSDTP_TABLE_WORDS;
    struct why due;

    memset(message, 0xFF, most);
    due = why_due(most, words);
    check("explain: as long as a message may be", is_why(most, words, MSDTP_ACCEPTED, 0, &due));
    message[most - 1] = 0xC0;
    due = why_due(most, words);
    check("explain: as long, its last byte at fault", is_why(most, words, MSDTP_UNASSIGNED, most - 1, &due)
          && due.answer.first == 0xC0 && due.answer.second == most - 1);
    memcpy(message, "\xC2\x82\xFF\xFC\xC4\x82\xFF\xF8\x82", 9);
    due = why_due(most, words);
    check("explain: as long, its last byte at fault in two containers",
          is_why(most, words, MSDTP_UNASSIGNED, most - 1, &due) && due.answer.entries == 2 && due.places[1] == 4);
    memcpy(message, "\xC6\x82\xFF\xFD", 4);
    due = why_due(most, words);
    check("explain: as long, one string that wants a byte", is_why(most, words, MSDTP_PAST_INPUT, 0, &due)
          && due.answer.evidence == MSDTP_EVIDENCE_END && due.answer.first == most);
    memset(message, 0xC0, most + 1);
    due = why_due(most + 1, words);
    check("explain: longer is only named", is_why(most + 1, words, MSDTP_TOO_LONG, 0, &due)
          && due.answer.entries == 0 && due.answer.evidence == MSDTP_EVIDENCE_NONE);
    check("explain: longer, whatever is lent", why_in_every_room(most + 1, 0, &due)
          && why_in_every_room(most + 1, UINT64_MAX, &due));
}

/* Every number of words lent about those needed, and as many as there are: 11 or 0, and never another. */
static void check_words_lent(void)
{
    static const uint8_t note[] = { 0xC2, 0x07, 0x81, 0xC6, 0x01, 'A', 0xF2, 0x02, 0x53 };
    uint64_t lent;
    int good = 1;
    struct why due;

    memcpy(message, note, sizeof note);
    for (lent = 0; lent < 25; lent++) {
        due = why_due(sizeof note, lent);
        good = good && due.answer.evidence == (lent < 18 ? MSDTP_EVIDENCE_WANTED : MSDTP_EVIDENCE_NONE)
            && is_why(sizeof note, lent, lent < 18 ? MSDTP_TABLE_SHORT : MSDTP_ACCEPTED, 0, &due);
    }
    check("explain: every number of words lent", good && due.answer.reading.words == 18);
    check("explain: as many words lent as there are", why_in_every_room(sizeof note, UINT64_MAX, &due));
    message[2] = 0xC0;
    due = why_due(sizeof note, 0);
    check("explain: a fault, whatever is lent", is_why(sizeof note, 0, MSDTP_UNASSIGNED, 2, &due)
          && why_in_every_room(sizeof note, 17, &due) && why_in_every_room(sizeof note, UINT64_MAX, &due));
}

/* Sends a repeat, of a count below 2^24, of these bytes in a STRUC, and returns the length. */
static size_t send_repeat(uint64_t count, const uint8_t *pattern, size_t length)
{
    const uint8_t front[] = {
        0xC2, (uint8_t)(length + 6), 0xC4, (uint8_t)(length + 4), 0xE3,
        (uint8_t)(count >> 16), (uint8_t)(count >> 8), (uint8_t)count
    };

    memcpy(message, front, sizeof front);
    memcpy(message + sizeof front, pattern, length);
    return sizeof front + length;
}

/* Whether 10 is explained by so many rows and data words, whatever is lent. */
static int is_wanted(size_t length, uint64_t rows, uint64_t words)
{
    struct why due = why_due(length, MSDTP_TABLE_WORDS);

    due.answer.evidence = MSDTP_EVIDENCE_WANTED;
    due.answer.first = rows;
    due.answer.second = words;
    return is_why(length, MSDTP_TABLE_WORDS, MSDTP_TOO_MANY, 0, &due)
        && why_in_every_room(length, 0, &due) && why_in_every_room(length, UINT64_MAX, &due);
}

static void check_wanted(void)
{
    static const uint8_t one[] = { 0x81 }, string[] = { 0xC6, 0x01, 'A' }, character[] = { 'A' },
        bits[] = { 0xC1, 0x81, 0x00 }, few[] = { 0xC2, 0x06, 0xC4, 0x04, 0xE2, 0x40, 0x00, 0x80 };
    static const uint8_t again[] = {
        0xC2, 0x14, 0xC4, 0x12, 0xE0, 0x7F, 0xFF, 0xFF, 0xFF, 0xFF, 0xFF, 0xFF, 0xFF,
        0xC4, 0x07, 0xE4, 0x7F, 0xFF, 0xFF, 0xFF, 0x81, 0xFC
    };

    memcpy(message, few, sizeof few);
    check("explain: a row too many", is_wanted(sizeof few, 16385, 0)
          && is_wanted(send_repeat(16384, one, 1), 16385, 0));
    check("explain: rows up to 65,536", is_wanted(send_repeat(65534, one, 1), 65535, 0)
          && is_wanted(send_repeat(65535, one, 1), 65536, 0));
    check("explain: more rows are told so", is_wanted(send_repeat(65536, one, 1), 65536, 0)
          && is_wanted(send_repeat(0x7FFFFF, one, 1), 65536, 0));
    check("explain: a data word too many", is_wanted(send_repeat(131073, character, 1), 1, 16385));
    check("explain: data words up to 65,536", is_wanted(send_repeat(8 * 65535, character, 1), 1, 65535)
          && is_wanted(send_repeat(8 * 65536, character, 1), 1, 65536));
    check("explain: more data words are told so", is_wanted(send_repeat(8 * 65536 + 1, character, 1), 1, 65536));
    check("explain: rows and data words", is_wanted(send_repeat(20000, string, 3), 20001, 20000)
          && is_wanted(send_repeat(65536, string, 3), 65536, 65536));
    check("explain: a fault before 10",
          why_due(send_repeat(65536, bits, 3), 4).answer.reading.number == MSDTP_BAD_BITS);
    memcpy(message, again, sizeof again);
    check("explain: repeats of repeats", is_wanted(sizeof again, 65536, 0));
}

/* The list is not what decides where there is nothing to list. */
static void check_empty_lists(void)
{
    check("null: nothing to explain", msdtp_explain(NULL, 0, 4, NULL, 0).number == MSDTP_ACCEPTED
          && msdtp_explain(NULL, 0, 3, NULL, 0).reading.number == MSDTP_TABLE_SHORT
          && msdtp_explain(NULL, 0, 0, list, MSDTP_EXPLAIN_WORDS).reading.words == MSDTP_HEADER_WORDS);
    memcpy(message, "\xC2\x01\xC0", 3);
    check("null: no list", msdtp_explain(message, 3, 4, NULL, 0).number == MSDTP_LIST_SHORT);
}

void check_explaining_limits(void)
{
    check_deep();
    check_lengths();
    check_words_lent();
    check_wanted();
    check_empty_lists();
}
