/*
 * What the checks of salvaging share: a list that is long enough, what the header
 * tells of a message, and each call with what it may touch. C99, and C++ as well.
 */

#ifndef HEADER_SALVAGE_H
#define HEADER_SALVAGE_H

#include "lent.h"

/* What comes out of the message, and its entries, as the header tells them. */
extern uint8_t due_output[MSDTP_BYTE_LIMIT];
extern uint64_t due_list[MSDTP_SALVAGE_WORDS];

/* The list that is lent. */
extern uint64_t changes[MSDTP_SALVAGE_WORDS + 2 * MORE];

/*
 * What is due for the message, of so many bytes, where output and list are long
 * enough: by extents as the header has them, and by msdtp_read of each object alone.
 * Length and entries are told with 10 too.
 */
struct msdtp_salvaging due_for(size_t length);

/* Salvaging the message in so many bytes and words answers as due, and touches nothing that it may not. */
int in_rooms(size_t length, const struct msdtp_salvaging *due, size_t bytes, size_t words);

/* The same in every room about those needed, and in always enough. */
int in_every_room(size_t length, const struct msdtp_salvaging *due);

/* The number of an outermost object, or of a rest, alone. */
uint64_t met_alone(const uint8_t *bytes, size_t length);

#endif
