/* What the header tells of a message that is explained, and the calls that are held to it. */

#include <string.h>

#include "explain.h"
#include "extents.h"

/* The elements of a container, repeats laid out: how many were met, and where those stand that matter. */
struct elements {
    uint64_t met, kind;
    size_t first, second, other;
};

/* The kind of what an object says, strings being STRUCs; 0 of PADDING and REPEAT, which say no element. */
static uint64_t kind_of(uint8_t type)
{
    if (type < 0x80) {
        return MSDTP_CHAR;
    }
    if (type < 0xC0 || (type >= 0xE0 && type <= 0xE7)) {
        return MSDTP_INT;
    }
    if (type == 0xC1 || (type >= 0xF0 && type <= 0xF7)) {
        return MSDTP_BITS;
    }
    if (type == 0xC4 || type == 0xFF) {
        return 0;
    }
    if (type < 0xE0) {
        return type == 0xC3 ? MSDTP_EDT : MSDTP_STRUC;
    }
    return type <= 0xFB ? MSDTP_XTRA : type == 0xFE ? MSDTP_EMPTY : MSDTP_BOOL;
}

/* The place of the first object from there on that is no PADDING, or the end. */
static size_t behind_padding(size_t at, size_t end)
{
    while (at < end && message[at] == 0xFF) {
        at++;
    }
    return at;
}

/* The INT of an object that says one, in two's complement. */
static uint64_t int_at(size_t at)
{
    const size_t bytes = extent_of(message + at, MSDTP_BYTE_LIMIT) - 1;
    uint64_t value = bytes > 0 && message[at + 1] >= 0x80 ? UINT64_MAX : 0;
    size_t i;

    if (bytes == 0) {
        return message[at] % 64;
    }
    for (i = 1; i <= bytes; i++) {
        value = value << 8 | message[at + i];
    }
    return value;
}

static void meet(struct elements *elements, size_t at)
{
    const uint64_t kind = kind_of(message[at]);

    if (elements->met == 0) {
        elements->first = at;
        elements->kind = kind;
    }
    if (elements->met == 1) {
        elements->second = at;
    }
    if (elements->other == 0 && kind != elements->kind) {
        elements->other = at;
    }
    elements->met++;
}

/* Meets the elements of a run. Of the copies of a pattern two are enough. */
static void meet_run(struct elements *elements, size_t at, size_t end)
{
    while (at < end) {
        const size_t past = at + extent_of(message + at, end - at);

        if (message[at] == 0xC4) {
            const size_t count = behind_padding(at + contents_of(message + at), past);
            uint64_t copies = int_at(count);

            for (copies = copies < 2 ? copies : 2; copies > 0; copies--) {
                meet_run(elements, count + extent_of(message + count, past - count), past);
            }
        } else if (kind_of(message[at]) != 0) {
            meet(elements, at);
        }
        at = past;
    }
}

/* The places of the containers around a place, and the end of the bytes that the object there may have. */
static size_t open_around(size_t length, size_t place, struct why *due)
{
    size_t at = 0, end = length;

    while (at < place) {
        const size_t past = at + extent_of(message + at, end - at);

        if (past <= place) {
            at = past;
            continue;
        }
        if (message[at] != 0xC1) {
            due->places[due->answer.entries++] = at;
        }
        at += contents_of(message + at);
        end = past;
    }
    return end;
}

static void tell(struct why *due, uint64_t evidence, uint64_t first, uint64_t second)
{
    due->answer.evidence = evidence;
    due->answer.first = first;
    due->answer.second = second;
}

/* The length or count of the object there: the number, another type-byte, or none. */
static void tell_number(struct why *due, size_t at, size_t end)
{
    const size_t past = at + extent_of(message + at, end - at);
    const size_t place = behind_padding(at + contents_of(message + at), past);

    if (place == past) {
        tell(due, MSDTP_EVIDENCE_ABSENT, 0, 0);
    } else if (kind_of(message[place]) == MSDTP_INT) {
        tell(due, MSDTP_EVIDENCE_NUMBER, int_at(place), 0);
    } else {
        tell(due, MSDTP_EVIDENCE_BYTE, message[place], place);
    }
}

/* Whether an EDT may begin with the object there. */
static int leads(size_t at, size_t end)
{
    msdtp_read(message + at, extent_of(message + at, end - at), table, MSDTP_TABLE_WORDS);
    return table[MSDTP_HEADER_WORDS] == MSDTP_INT || table[MSDTP_HEADER_WORDS] == MSDTP_STRING;
}

/* A USTRUC or EDT that is refused for its elements. */
static void tell_elements(struct why *due, size_t at, size_t end)
{
    struct elements elements = { 0, 0, 0, 0, 0 };
    const size_t past = at + extent_of(message + at, end - at);
    uint64_t which = 1;

    meet_run(&elements, at + contents_of(message + at), past);
    if (message[at] == 0xC5) {
        tell(due, MSDTP_EVIDENCE_KINDS, elements.first, elements.other);
        return;
    }
    if (elements.met > 0 && leads(elements.first, past)) {
        which = 2;
    }
    if (elements.met < which) {
        tell(due, MSDTP_EVIDENCE_NO_ELEMENT, which, 0);
    } else {
        tell(due, MSDTP_EVIDENCE_ELEMENT, which, which == 1 ? elements.first : elements.second);
    }
}

static void tell_fault(struct why *due, size_t length)
{
    const size_t place = due->answer.reading.place, end = open_around(length, place, due);
    const uint8_t type = message[place];

    switch (due->answer.reading.number) {
    case MSDTP_PAST_INPUT:
    case MSDTP_PAST_ENCLOSING:
        tell(due, MSDTP_EVIDENCE_END, end, 0);
        break;
    case MSDTP_UNASSIGNED:
        tell(due, MSDTP_EVIDENCE_BYTE, type, place);
        break;
    case MSDTP_BAD_BITS:
    case MSDTP_BAD_REPEAT:
        if (type >= 0xF0) {
            tell(due, MSDTP_EVIDENCE_BYTE, 0, place + 1);
        } else if (type == 0xC4 && due->answer.entries == 0) {
            tell(due, MSDTP_EVIDENCE_BYTE, type, place);
        } else {
            tell_number(due, place, end);
        }
        break;
    case MSDTP_SEVERAL_KINDS:
    case MSDTP_BAD_EDT:
        tell_elements(due, place, end);
        break;
    }
}

struct why why_due(size_t length, uint64_t words_lent)
{
    const size_t room = words_lent < MSDTP_TABLE_WORDS ? words_lent : MSDTP_TABLE_WORDS;
    struct why due;

    memset(&due, 0, sizeof due);
    due.answer.reading = msdtp_read(message, length, table, room);
    if (due.answer.reading.number == MSDTP_TABLE_SHORT) {
        msdtp_read(message, length, table, MSDTP_TABLE_WORDS);
        tell(&due, MSDTP_EVIDENCE_WANTED, table[0], table[3]);
    } else if (due.answer.reading.number >= MSDTP_PAST_INPUT && due.answer.reading.number <= MSDTP_BAD_EDT) {
        tell_fault(&due, length);
    }
    return due;
}

int same_why(const struct why *one, const struct why *other)
{
    return memcmp(one, other, sizeof *one) == 0;
}

/* Whether a call with these pointers has this answer, and the list begins with so many of the places due. */
static int answers_in(const uint8_t *from, size_t length, uint64_t words_lent, uint64_t *to, size_t room,
                      const struct msdtp_explaining *answer, const uint64_t *places)
{
    const size_t told = answer->number == MSDTP_ACCEPTED ? answer->entries : 0;
    struct msdtp_explaining e;

    refill_list(room);
    e = msdtp_explain(from, length, words_lent, to, room);
    return is(e.number, answer->number) && memcmp(&e, answer, sizeof e) == 0
        && memcmp(list, places, told * sizeof *list) == 0 && list_untouched(told, room);
}

int why_in(size_t length, uint64_t words_lent, const struct why *due, size_t room)
{
    static uint8_t sent[BYTES];
    struct msdtp_explaining answer = due->answer;
    int good;

    if (room < due->answer.entries) {
        memset(&answer, 0, sizeof answer);
        answer.number = MSDTP_LIST_SHORT;
        answer.entries = due->answer.entries;
    }
    memcpy(sent, message, length);
    good = answers_in(message, length, words_lent, list, room, &answer, due->places);
    if (length == 0 || room == 0) {
        good = good && answers_in(length > 0 ? message : NULL, length, words_lent,
                                  room > 0 ? list : NULL, room, &answer, due->places);
    }
    return good && memcmp(sent, message, length) == 0;
}

int why_in_every_room(size_t length, uint64_t words_lent, const struct why *due)
{
    size_t room;
    int good = 1;

    for (room = 0; room < MSDTP_EXPLAIN_WORDS + MORE; room++) {
        good = good && why_in(length, words_lent, due, room);
    }
    return good;
}
