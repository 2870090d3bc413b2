/*
 * What the checks of reading measure sheets share: a small table, answers that are
 * due, and sheets to send. C99, and C++ as well.
 */

#ifndef HEADER_MEASURE_H
#define HEADER_MEASURE_H

#include "lent.h"

/* Words lent, more than any message here takes, but for those that are said to take more. */
enum { SMALL = 64 };

/* The table that a sheet is read in, and the one that msdtp_read has for it. */
extern uint64_t small[SMALL], base[SMALL];

/* A message, and its length. */
struct part {
    size_t length;
    uint8_t bytes[48];
};

/* Every field of an answer is the one due. */
int same_answer(const struct msdtp_measure_reading *m, const struct msdtp_measure_reading *due);

/* Reading the message as a sheet answers this, leaves the table as msdtp_read does, and the message as it was. */
int answers(size_t length, size_t room, const struct msdtp_measure_reading *due);

/* An answer of this number and of nothing else. */
struct msdtp_measure_reading alone(uint64_t number);

/* The answer of a sheet with 0. */
struct msdtp_measure_reading accepted_sheet(uint64_t words, int64_t order, uint64_t unit,
                                            const uint64_t *figures);

/*
 * Sends order 4711, by number or by name, and returns its length: in this unit, of
 * 1016, 1 and 20000; or with an EMPTY for the waist, and a sleeve out of range.
 */
size_t send_sound(int by_name, uint64_t unit);
size_t send_empty(int by_name);

#endif
