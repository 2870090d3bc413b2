/*
 * What the checks of include/msdtp.h share: lent buffers, each call with what it
 * may touch, and the count of what failed. C99, and C++ as well.
 */

#ifndef HEADER_LENT_H
#define HEADER_LENT_H

#include "msdtp.h"

/* Buffers are lent with some room more, filled beforehand. */
enum { MORE = 8, FILLER = 0xA5 };
enum { WORDS = MSDTP_TABLE_WORDS + MORE, BYTES = MSDTP_BYTE_LIMIT + MORE };
enum { LIST = MSDTP_LIST_WORDS + 2 * MORE };

extern uint64_t table[WORDS], made[WORDS], other[WORDS], list[LIST];
extern uint8_t message[BYTES], output[BYTES];

/* Whether a check failed. */
extern int failed;

/* The numbers, by themselves, that were answered as expected. */
extern int answered[MSDTP_FIGURE_RANGE + 1];

/* Whether a number is the one expected, which then counts as answered. */
int is(uint64_t number, uint64_t expected);

/* Prints a check's line. */
void check(const char *name, int good);

/* Whether all bytes of a buffer that was filled, from one of them on, are as filled. */
int untouched(const void *buffer, size_t from, size_t length);

/* Fills the table and the output; whether they are as filled from there on. */
void refill(void);
int table_untouched(uint64_t from);
int output_untouched(uint64_t from);

/* The same of a list of which so many words are lent: of these and some more. */
void refill_list(size_t room);
int list_untouched(uint64_t from, size_t room);

/*
 * Reading and normalising the message are both refused and touch nothing, the
 * message neither. With refused_read no bytes are missing. With cut_read so many
 * are, and the table lent is always long enough.
 */
int refused_read(size_t length, size_t room, uint64_t number, uint64_t place, uint64_t words);
int cut_read(size_t length, uint64_t number, uint64_t place, uint64_t missing);

/* The message is read with so many words, and nothing past them is touched. */
int accepted_read(size_t length, size_t room, uint64_t words);

/*
 * Writing the made table is refused and touches nothing: with so much room, with
 * an empty output, null or not, and but for 15 with one of always enough.
 */
int refused_write(size_t words, size_t room, uint64_t number, uint64_t length);

/*
 * The made table is written in so many bytes, and nothing past them is touched.
 * An empty output, null or not, tells so many: with 15, or with 0 if none.
 */
int accepted_write(size_t words, size_t room, uint64_t length);

/*
 * Comparing the made table, as the left one, with the other, of so many words, is
 * refused and touches nothing, or answers these entries and touches nothing past
 * them. With no room the list is lent as null too.
 */
int refused_compare(size_t left, size_t right, size_t room, uint64_t number, uint64_t entries);
int accepted_compare(size_t left, size_t right, size_t room, uint64_t entries, const uint64_t *due);

/* Whether the table that was read is the made one, of so many words. */
int made_is_read(size_t words);

/* msdtp_meaning as another translation unit has it. */
const char *meaning_elsewhere(uint64_t number);

/*
 * The checks of tables.c, strings.c, writing.c, missing.c, cuts.c, joining.c,
 * comparing.c, salvage.c, salvage_limits.c, explain.c, explain_limits.c, measure.c,
 * measure_passed.c, measure_writing.c and limits.c.
 */
void check_tables(void);
void check_strings(void);
void check_writing(void);
void check_missing(void);
void check_cuts(void);
void check_joining(void);
void check_comparing(void);
void check_salvaging(void);
void check_salvaging_limits(void);
void check_explaining(void);
void check_explaining_limits(void);
void check_measure_reading(void);
void check_measure_passed(void);
void check_measure_writing(void);
void check_limits(void);

#endif
