/*
 * What the checks of explaining share: what the header tells of a message, and each
 * call with what it may touch. C99, and C++ as well.
 */

#ifndef HEADER_EXPLAIN_H
#define HEADER_EXPLAIN_H

#include "lent.h"

/* The answer with a list that is long enough, and the places in it. */
struct why {
    struct msdtp_explaining answer;
    uint64_t places[MSDTP_EXPLAIN_WORDS];
};

/*
 * What is due for the message, of so many bytes, where so many words are lent: by
 * msdtp_read, by extents, and by what the header tells of each number. With 10 the
 * evidence is not told.
 */
struct why why_due(size_t length, uint64_t words_lent);

/* Whether two are the same, in their places too. */
int same_why(const struct why *one, const struct why *other);

/* Explaining the message in so many words of a list answers as due, and touches nothing that it may not. */
int why_in(size_t length, uint64_t words_lent, const struct why *due, size_t room);

/* The same in every room about those needed, and in always enough. */
int why_in_every_room(size_t length, uint64_t words_lent, const struct why *due);

#endif
