/* What the header tells of a message that is salvaged, and the calls that are held to it. */

#include <string.h>

#include "extents.h"
#include "salvage.h"

uint8_t due_output[MSDTP_BYTE_LIMIT];
uint64_t due_list[MSDTP_SALVAGE_WORDS];
uint64_t changes[MSDTP_SALVAGE_WORDS + 2 * MORE];

uint64_t met_alone(const uint8_t *bytes, size_t length)
{
    return msdtp_read(bytes, length, table, MSDTP_TABLE_WORDS).number;
}

static void put_entry(uint64_t entry, uint64_t place, uint64_t bytes, uint64_t number)
{
    const uint64_t words[] = { place, bytes, number };

    memcpy(due_list + MSDTP_CHANGE_WORDS * entry, words, sizeof words);
}

struct msdtp_salvaging due_for(size_t length)
{
    struct msdtp_salvaging due = { MSDTP_ACCEPTED, 0, 0 };
    size_t at, bytes;

    if (length > MSDTP_BYTE_LIMIT) {
        due.number = MSDTP_TOO_LONG;
        return due;
    }
    for (at = 0; at < length; at += bytes) {
        const size_t extent = extent_of(message + at, length - at);
        uint64_t number;

        bytes = extent > 0 ? extent : length - at;
        number = met_alone(message + at, bytes);
        if (extent > 0 && number == MSDTP_ACCEPTED) {
            memcpy(due_output + due.length, message + at, bytes);
            due.length += bytes;
            continue;
        }
        put_entry(due.entries++, at, bytes, number);
        if (extent > 0) {
            due_output[due.length++] = 0xFE;
        }
    }
    due.number = met_alone(due_output, due.length);
    return due;
}

/* The answer in so many bytes and words, where this is due with enough of both. */
static struct msdtp_salvaging answer_due(const struct msdtp_salvaging *due, size_t bytes, size_t words)
{
    struct msdtp_salvaging answer = { due->number, 0, 0 };

    if (due->number == MSDTP_TOO_LONG) {
        return answer;
    }
    if (bytes < due->length) {
        answer.number = MSDTP_OUTPUT_SHORT;
        answer.length = due->length;
    } else if (words / MSDTP_CHANGE_WORDS < due->entries) {
        answer.number = MSDTP_LIST_SHORT;
        answer.entries = due->entries;
    } else if (due->number == MSDTP_ACCEPTED) {
        answer = *due;
    }
    return answer;
}

/* Whether a call with these pointers has this answer, and output and list are as it tells. */
static int answers_in(const uint8_t *from, size_t length, uint8_t *to, size_t bytes,
                      uint64_t *list_to, size_t words, const struct msdtp_salvaging *answer)
{
    const size_t filled = answer->number == MSDTP_ACCEPTED ? answer->length : 0;
    const size_t told = answer->number == MSDTP_ACCEPTED ? MSDTP_CHANGE_WORDS * answer->entries : 0;
    struct msdtp_salvaging s;

    memset(output, FILLER, bytes + MORE);
    memset(changes, FILLER, (words + MORE) * sizeof *changes);
    s = msdtp_salvage(from, length, to, bytes, list_to, words);
    return is(s.number, answer->number) && s.length == answer->length && s.entries == answer->entries
        && memcmp(output, due_output, filled) == 0
        && memcmp(changes, due_list, told * sizeof *changes) == 0
        && untouched(output, filled, bytes + MORE)
        && untouched(changes, told * sizeof *changes, (words + MORE) * sizeof *changes);
}

int in_rooms(size_t length, const struct msdtp_salvaging *due, size_t bytes, size_t words)
{
    static uint8_t sent[BYTES];
    const struct msdtp_salvaging answer = answer_due(due, bytes, words);
    int good;

    memcpy(sent, message, length);
    good = answers_in(message, length, output, bytes, changes, words, &answer);
    if (length == 0 || bytes == 0 || words == 0) {
        good = good && answers_in(length > 0 ? message : NULL, length, bytes > 0 ? output : NULL, bytes,
                                  words > 0 ? changes : NULL, words, &answer);
    }
    return good && memcmp(sent, message, length) == 0;
}

int in_every_room(size_t length, const struct msdtp_salvaging *due)
{
    const size_t words = MSDTP_CHANGE_WORDS * due->entries;
    size_t room;
    int good = in_rooms(length, due, MSDTP_OUTPUT_BYTES, MSDTP_SALVAGE_WORDS);

    for (room = 0; room < words + MORE; room++) {
        good = good && in_rooms(length, due, due->length, room)
            && (due->length == 0 || in_rooms(length, due, due->length - 1, room));
    }
    for (room = 0; room < length + MORE; room++) {
        good = good && in_rooms(length, due, room, words) && in_rooms(length, due, room, 0);
    }
    return good;
}
