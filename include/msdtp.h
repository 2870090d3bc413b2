/*
 * Messages of the MSDTP (RFC 713): reading, writing, normalising, comparing,
 * salvaging and explaining; and measure sheets.
 *
 *   msdtp_read           the bytes of a message to a table of its items
 *   msdtp_write          a table of items to the bytes of its normal form
 *   msdtp_normalise      the bytes of a message to the bytes of its normal form
 *   msdtp_compare        two tables of items to a list of their differences
 *   msdtp_salvage        the bytes of a damaged message to those of a sound one
 *   msdtp_explain        the bytes of a refused message to the reason why
 *   msdtp_measure_read   the bytes of a measure sheet to its figures
 *   msdtp_measure_write  the figures of a measure sheet to its bytes
 *
 * Link with libmsdtp.a. Everything that a caller needs to know stands here, in
 * this order: lent buffers, numbers, limits and sizes, the table, the
 * operations, those of measure sheets, five complete examples.
 */

#ifndef MSDTP_H
#define MSDTP_H

#include <stddef.h>
#include <stdint.h>

#ifdef __cplusplus
extern "C" {
#endif

/*
 * This header belongs to the archive of the same version. What was compiled
 * with another must be compiled again. In 0.4.0 the answers' structures grew; in
 * 0.5.0 the function that told only a length went: lend msdtp_write an empty
 * output instead; in 0.6.0 a string became one row, with its characters in data
 * words: what makes or walks tables must be changed; in 0.7.0 msdtp_compare came,
 * and with it number 16; in 0.8.0 msdtp_measure_read and msdtp_measure_write came,
 * and with them the numbers 20 to 22; in 0.9.0 msdtp_salvage came, and in 0.10.0
 * msdtp_explain, and no number with either: the other operations answer as they did
 * in 0.8.0.
 */
#define MSDTP_VERSION_MAJOR 0
#define MSDTP_VERSION_MINOR 10
#define MSDTP_VERSION_PATCH 0
#define MSDTP_VERSION "0.10.0"

/*
 * LENT BUFFERS
 *
 * Every operation works in buffers that the caller lends, and returns a small
 * structure of numbers. Any bytes and any words get an answer. Nothing is
 * allocated, no state is kept, and a stack of 64 KiB is enough. Calls from
 * several threads do not disturb one another, as long as no buffer that one of
 * them writes to is lent to another at the same time.
 *
 * A buffer is a pointer to its first element and its number of elements: bytes
 * of a message or an output, words of a table or a list.
 *   - An empty buffer may be null.
 *   - A table and a list must be aligned as uint64_t is. Messages and outputs may
 *     begin anywhere.
 *   - Buffers lent to one call may not overlap, and nobody else may change them
 *     while it runs. Only the two tables lent to msdtp_compare, both const, may
 *     overlap or be the same one.
 *   - A buffer lent as const is never changed. What the others hold afterwards
 *     is told with each operation, for every answer. What they held before
 *     makes no difference to the answer.
 *
 * The archive is for machines whose size_t has 64 bits.
 */
typedef char msdtp_size_t_has_64_bits[sizeof(size_t) == 8 ? 1 : -1];

/*
 * NUMBERS
 *
 * The field `number` says how an operation ended: 0, or why it was refused. A
 * message is a run of objects (STRUC, REPEAT, ..) that say items (see the
 * table). STRUC, USTRUC, EDT, STRING and REPEAT are the containers.
 *
 * msdtp_read gives 0 to 11. It looks for 1; then from left to right for the
 * first fault of 2 to 9; then for 10; then for 11. At one object the order is
 * 4; 7 for an outermost REPEAT; 5; 2 or 3; 6 or 7; its contents; 8 or 9.
 * With 2 and 3 it tells how many bytes are missing, and with 2 they may only be
 * late (see the operations).
 *
 * msdtp_write gives 0 and 12 to 15, looked for in this order.
 * msdtp_normalise gives 0 to 11 as reading does, then 14 and 15. What was read
 * is well formed and not too deep, so 12 and 13 are never due.
 * msdtp_compare gives 0, 12 and 16: it looks for 12 in both tables, then for 16.
 * msdtp_salvage gives 0, 1, 15, 16 and 10, looked for in this order. The changes
 * that it lists have numbers of their own, 2 to 10: those of msdtp_read.
 * msdtp_explain gives 0 and 16. The number that it explains stands beside it.
 *
 * msdtp_measure_read gives 0 to 11 as reading does, then 20, 21 and 22, looked for
 * in this order: each in the whole sheet before the next.
 * msdtp_measure_write gives 0, 20, 22 and 15, looked for in this order.
 * No operation gives 17 to 19.
 */
#define MSDTP_ACCEPTED 0
#define MSDTP_TOO_LONG 1       /* the message is over MSDTP_BYTE_LIMIT */
#define MSDTP_PAST_INPUT 2     /* an outermost object passes the message's end */
#define MSDTP_PAST_ENCLOSING 3 /* an inner object passes the enclosing one's end */
#define MSDTP_UNASSIGNED 4     /* a reserved or unassigned type-byte */
#define MSDTP_TOO_DEEP 5       /* a container inside sixteen others */
#define MSDTP_BAD_BITS 6       /* SBITSTR without a marker in its first data
                                  byte; LBITSTR without an INT first, with a
                                  negative one, or with other bytes than it
                                  needs for so many bits */
#define MSDTP_BAD_REPEAT 7     /* REPEAT outermost, without an INT first, or
                                  with a negative one */
#define MSDTP_SEVERAL_KINDS 8  /* USTRUC whose elements are not of one kind. The
                                  kinds are those of the table, but a string
                                  and another STRUC are of one */
#define MSDTP_BAD_EDT 9        /* EDT that breaks the EDT rule (see the table) */
#define MSDTP_TOO_MANY 10      /* over MSDTP_ROW_LIMIT or MSDTP_WORD_LIMIT */
#define MSDTP_TABLE_SHORT 11   /* the lent table is too short */
#define MSDTP_NOT_A_TABLE 12   /* a table to write or to compare is not well
                                  formed */
#define MSDTP_TOO_NESTED 13    /* a STRUC, string or EDT inside sixteen others */
#define MSDTP_NORMAL_LONG 14   /* the normal form is over MSDTP_BYTE_LIMIT */
#define MSDTP_OUTPUT_SHORT 15  /* the lent output is too short */
#define MSDTP_LIST_SHORT 16    /* the lent list is too short */
#define MSDTP_NOT_A_SHEET 20   /* the message is no measure sheet (see there), or
                                  the unit of one to write is neither of the two */
#define MSDTP_FIGURE_EMPTY 21  /* a figure of the sheet is EMPTY: stop and ask */
#define MSDTP_FIGURE_RANGE 22  /* a figure is not from 1 to MSDTP_FIGURE_MOST */

/* A number in plain words, for the person who is to be told. Never null. */
static inline const char *msdtp_meaning(uint64_t number)
{
    switch (number) {
    case 0: return "accepted";
    case 1: return "the message is longer than 65,536 bytes";
    case 2: return "the message ends in the middle of an object";
    case 3: return "an object does not fit into the one that holds it";
    case 4: return "a byte that means nothing in this format";
    case 5: return "seventeen containers, one inside the other; sixteen are allowed";
    case 6: return "a bit string that does not say how long it is, or says it wrongly";
    case 7: return "a repeat where none may stand, or without a proper count";
    case 8: return "a list that promises one kind and holds several";
    case 9: return "an EDT whose first two elements are not its type and its version";
    case 10: return "more than 16,384 rows, or more than 16,384 words of bits and strings";
    case 11: return "the table that was lent is too short";
    case 12: return "what was given is no table of items";
    case 13: return "more than sixteen containers, one inside the other";
    case 14: return "the normal form would be longer than 65,536 bytes";
    case 15: return "the output that was lent is too short";
    case 16: return "the list that was lent is too short";
    case 20: return "what was given is no measure sheet";
    case 21: return "a figure of the sheet is EMPTY: stop and ask";
    case 22: return "a figure of the sheet is not from 1 to 20,000";
    default: return "no number of the list";
    }
}

/*
 * LIMITS AND SIZES
 *
 * What is exactly at a limit is within it. A string counts as one row and its
 * data words: a table can hold one of 131,072 characters, and a normal form one
 * of 65,532.
 */
#define MSDTP_BYTE_LIMIT 65536 /* bytes of a message, and of a normal form */
#define MSDTP_ROW_LIMIT 16384  /* rows of a table */
#define MSDTP_WORD_LIMIT 16384 /* data words of a table */
#define MSDTP_DEPTH_LIMIT 16   /* containers one inside another */

#define MSDTP_HEADER_WORDS 4     /* words before the first row */
#define MSDTP_ROW_WORDS 3        /* words of a row */
#define MSDTP_DIFFERENCE_WORDS 2 /* words of an entry of msdtp_compare's list */
#define MSDTP_CHANGE_WORDS 3     /* words of an entry of msdtp_salvage's list */
#define MSDTP_TABLE_WORDS 65540  /* always enough for the table of a message */
#define MSDTP_OUTPUT_BYTES 65536 /* always enough for a normal form, and for what
                                    msdtp_salvage writes */
#define MSDTP_LIST_WORDS 32768   /* always enough for msdtp_compare's list: 16,384
                                    entries */
#define MSDTP_SALVAGE_WORDS 98304 /* always enough for msdtp_salvage's list:
                                     32,768 entries */
#define MSDTP_EXPLAIN_WORDS 16   /* always enough for msdtp_explain's list: a word
                                    for each of MSDTP_DEPTH_LIMIT containers */

#define MSDTP_TENTHS_CM 0       /* a sheet's figures are tenths of a centimetre */
#define MSDTP_EIGHTHS_INCH 1    /* a sheet's figures are eighths of an inch */
#define MSDTP_FIGURE_MOST 20000 /* the largest figure of a sheet; 1 is the least */
#define MSDTP_SHEET_WORDS 29    /* always enough for the table of a sheet */
#define MSDTP_SHEET_BYTES 23    /* always enough for a sheet that is written */

/*
 * THE TABLE
 *
 * A table is uint64_t words: a header, then the rows, then the data words.
 *
 *   word 0   R, the number of rows
 *   word 1   the number of outermost items
 *   word 2   the offset of the data in the table: 4 + 3 * R
 *   word 3   D, the number of data words
 *   then     R rows of three words: kind, a, b. Row r is at word 4 + 3 * r
 *   then     D data words: the bits of all BITS, the characters of all strings
 *
 * The table ends there, after 4 + 3 * R + D words. Words past the data belong
 * to the caller: they are neither read nor changed.
 *
 *   kind         a                      b
 *   INT          0                      the value in two's complement, so that
 *                                       (uint64_t)-1 is -1; -2^63 to 2^63 - 1
 *   BITS         number of bits         its first data word (see below)
 *   CHAR         0                      the code, 0 to 127
 *   BOOL         0                      0 for FALSE, 1 for TRUE
 *   EMPTY        0                      0
 *   XTRA         0                      0 to 3
 *   STRUC, EDT   direct elements        rows beneath
 *   STRING       number of characters   its first data word (see below)
 */
#define MSDTP_INT 1
#define MSDTP_BITS 2
#define MSDTP_CHAR 3
#define MSDTP_BOOL 4
#define MSDTP_EMPTY 5
#define MSDTP_XTRA 6
#define MSDTP_STRUC 7
#define MSDTP_EDT 8
#define MSDTP_STRING 9

/*
 * Rows. Every item is one row, and the rows of its elements follow it at once,
 * in order, each again followed by those of its own elements. Only a string has
 * no rows for its characters. The direct elements of a STRUC or EDT are the items
 * right inside it. The rows beneath it are the rows of all items inside it, at
 * any depth. Neither is ever 0: a STRUC of none is a string.
 *
 * To walk, begin at row 0; there are as many items as word 1 says. From the
 * item in row r, the next item beside it is in row r + 1, or in row r + 1 + b
 * if r is a STRUC or EDT. The elements of a STRUC or EDT in row r begin in row
 * r + 1, and there are a of them.
 *
 * Strings. A STRUC whose elements are all CHAR, the empty one too, is a string.
 * It is a row of kind STRING, whatever object says it, and never one of kind
 * STRUC. So a CHAR has a row only where it is outermost, in an EDT, or in a STRUC
 * beside an element that is no CHAR. STRUC, USTRUC and STRING objects all say a
 * STRUC; a table does not tell which one it was. REPEATs are laid out in full,
 * and PADDING says nothing.
 *
 * The EDT rule. An EDT has two elements or more; the first is an INT or a
 * string, the second an INT.
 *
 * Data words. Each BITS and each string begins a new word. They follow one
 * another in the order of their rows, with no word between them, so b is the
 * number of data words that the BITS and strings in the rows before it take. It
 * is counted from the start of the data, not of the table: the first word is
 * table[table[2] + b]. A BITS of no bits and a string of no characters take no
 * word, and have that same b.
 *   - The first bit of a BITS is the highest bit of its first word
 *     (UINT64_C(1) << 63), its 65th that of the next. n bits take n / 64 words,
 *     rounded up, and the spare low bits of the last one are 0.
 *   - The characters of a string are their codes, 0 to 127, eight to a word and
 *     a byte for each. The first is the highest byte of the first word, the ninth
 *     that of the next. n characters take n / 8 words, rounded up, and the spare
 *     low bytes of the last one are 0. Counted from 0, the code at i is
 *     table[table[2] + b + i / 8] >> (56 - 8 * (i % 8)) & 0xFF.
 *
 * So "HELLO", alone in a table, is the row MSDTP_STRING 5 0 and the data word
 * 48454C4C4F000000 hex: 48 45 4C 4C 4F are its codes, and three bytes are spare.
 * The whole table is 1, 1, 7, 1, 9, 5, 0, UINT64_C(0x48454C4C4F000000).
 *
 * A table is WELL FORMED when it is exactly the table of some items as told
 * above, with at most MSDTP_ROW_LIMIT rows and MSDTP_WORD_LIMIT data words, and
 * is lent whole. Any other words are refused with 12: another kind, an a or b
 * that is not as told, elements that do not add up, a STRUC that is empty or has
 * only CHARs, a data word that belongs to no BITS and no string, a code over 127,
 * a spare bit or byte that is not 0, an EDT against the rule, fewer words than
 * the header tells. How deep it nests is not asked for there, but with 13, where
 * a string counts as the STRUC that it is.
 *
 * THE SAME ITEMS are two INTs, CHARs, BOOLs or XTRAs of one value; two EMPTYs;
 * two BITS of as many bits, or two strings of as many characters, with the same
 * ones in order, whatever data words they begin at; and two STRUCs, or two EDTs,
 * with the same elements in order. Two well-formed tables are of the same items
 * in the same order exactly when their words, up to the end of the data, are equal.
 */

/*
 * THE OPERATIONS
 *
 * Reads a message into a table. The answer:
 *
 *   number    place                      words                missing
 *   0         0                          those of the table   0
 *   2, 3      offset in the message of   0                    1 to 65,536
 *             the faulty object's
 *             type-byte
 *   4 to 9    the same                   0                    0
 *   11        0                          those needed         0
 *   1, 10     0                          0                    0
 *
 * With 0, the first `words` words of the table are the table of the message's
 * items, and all words after them are as they were. With any other number the
 * whole table is as it was. MSDTP_TABLE_WORDS are always enough.
 *
 * `missing` is how many bytes the faulty object needs past the end that it
 * passes: with 2 that of the message, with 3 that of the enclosing object. Where
 * the size field itself passes that end, only the field's own missing bytes are
 * counted (1 if none of it is there), and what its contents would need is not
 * guessed. 65,536 stands for so many or more.
 *
 *   C2 04 82      2 at 0, missing 3: of four bytes of contents, one is there
 *   C2            2 at 0, missing 1: nothing of the size field is there
 *   C2 82 01      2 at 0, missing 1: 82 says that two size bytes follow it, and
 *                 one is there
 *   C2 02 E2 01   3 at 2, missing 1: the INT needs two bytes, and the STRUC has
 *                 one left
 *
 * A message that comes in parts. With 2 the tail may be late: wait for
 * `missing` bytes more, then read the longer message from its first byte. As
 * long as the message is within MSDTP_BYTE_LIMIT,
 *   - with 2 and fewer than `missing` bytes more, whatever they are, it is 2 at
 *     the same place again. Each takes one off `missing`, if that was below
 *     65,536;
 *   - with 3 to 9, no bytes that come later change the answer: it is a bad
 *     message, not a late tail.
 * Where only the size field's bytes were missing, the next reading tells what
 * the contents need. Where so many more would bring the message over the limit,
 * as 65,536 always would, no bytes make it an accepted one. A message that ends
 * between two objects is whole: whether more are to come, its bytes do not tell.
 *
 * A message that is one object, as a sheet is, with no padding (FF) before or
 * after it, and that is accepted when it is whole, is always known for one that
 * was cut: each of its beginnings, from its first byte to all but its last, is 2
 * at 0. `missing` is then exactly what was cut off. Only where the size field
 * itself is cut it is what the field still wants: 1 with the type-byte alone,
 * and then the rest of the field. So it is never more than was cut off, and
 * whoever waits for `missing` bytes and reads again has the whole after three
 * waits at the most. What msdtp_write makes of a table of one item is such a
 * message. Behind a message that is accepted it is the same, the place being
 * that one's length, as long as both are within MSDTP_BYTE_LIMIT.
 *
 *   C6 82 00 02 48 45   "HE", its size in three bytes. Of its beginnings, 1 to 5
 *                       bytes long, are missing 1, 2, 1, 2, 1
 *
 * Two messages end to end are one message. As long as their bytes together are
 * within MSDTP_BYTE_LIMIT,
 *   - if both are accepted, and both words 0 of their tables together are within
 *     MSDTP_ROW_LIMIT, and both words 3 within MSDTP_WORD_LIMIT, the whole is
 *     accepted and says the first's items and then the second's. It takes the
 *     words of both, less MSDTP_HEADER_WORDS. Its normal form is their normal
 *     forms end to end, if those together are within MSDTP_BYTE_LIMIT;
 *   - if the first is accepted and the second refused with 2 to 9, the whole is
 *     refused with that number and `missing`, at the second's place plus the
 *     first's length.
 */
struct msdtp_reading {
    uint64_t number, place, words, missing;
};

struct msdtp_reading msdtp_read(const uint8_t *message, size_t message_len,
                                uint64_t *table, size_t table_len);

/*
 * Writes the normal form of a table's items. Two messages have the same normal
 * form exactly when they say the same items in the same order. The normal form
 * is itself accepted and says these items, and no accepted message without
 * repeats that says them is shorter.
 *
 * `length` is the number of bytes of the normal form with 0 and 15, and
 * otherwise 0. With 0, the first `length` bytes of the output are the normal
 * form, and all bytes after them are as they were. With any other number the
 * whole output is as it was.
 *
 * The output lent decides only between 0 and 15: it is 15 exactly where the
 * output is shorter than the normal form. The other numbers and `length` do not
 * depend on it. So to ask for the length, lend an empty output, null or not: the
 * answer is 15 with the length or, for a table of no items, 0 with length 0.
 *
 * The usual way to write is to lend what 15 tells until another number comes,
 * as the example does. Each call judges the table as it then is: if it was
 * changed between two calls, the answer is about the changed one, and nothing is
 * written past the output lent. What 15 tells is more each time, so this ends. A
 * caller of fixed room may lend MSDTP_OUTPUT_BYTES, which are always enough.
 */
struct msdtp_writing {
    uint64_t number, length;
};

struct msdtp_writing msdtp_write(const uint64_t *table, size_t table_len,
                                 uint8_t *output, size_t output_len);

/*
 * Reads a message into a table, then writes the normal form of that table.
 *
 *   0         as reading and writing with 0
 *   1 to 11   reading's number, place, words and missing; length is 0; table and
 *             output are as they were
 *   14, 15    writing's number and length, reading's words; place and missing
 *             are 0; the table holds the reading, and the output is as it was
 */
struct msdtp_normalising {
    uint64_t number, place, words, length, missing;
};

struct msdtp_normalising msdtp_normalise(const uint8_t *message, size_t message_len,
                                         uint64_t *table, size_t table_len,
                                         uint8_t *output, size_t output_len);

/*
 * Compares the items of two tables, and lists what is not the same. An entry of
 * the list is two words, a row of the left table and a row of the right one. Rows
 * are counted from 0.
 *
 * If the tables have different numbers of outermost items (their words 1), that
 * is the one difference. Its entry is R of each table, left[0] and right[0]: the
 * number after that of the last row, so that no other entry has it.
 *
 * Otherwise the items are matched by position, the first of the left with the
 * first of the right, and so on.
 *   - Two STRUCs, or two EDTs, with the same number of direct elements are gone
 *     into: their elements are matched in the same way, at any depth. They have
 *     no entry of their own.
 *   - Any other two that are not the same are one difference. Its entry is the
 *     rows of these two, and nothing beneath them is told.
 * So there is one entry for two STRUCs, or two EDTs, with different numbers of
 * direct elements; for a STRUC and an EDT, even of the same elements; for a string
 * and another one, or anything else: a string has no rows beneath it and is never
 * gone into.
 *
 * The entries stand in the order of the rows, of both tables at once: from one
 * entry to the next both words grow. The words of an entry need not be equal:
 * behind a difference whose two items have different numbers of rows beneath
 * them, the same position is another row in each table.
 *
 *   ((1 2) 3) and (5 4)   rows 1, 1: (1 2) and 5; rows 4, 2: 3 and 4
 *   (1 2) and (1 2 3)     rows 0, 0: two elements and three
 *   1 2 and 1             rows 2, 1: two outermost items and one, R of each
 *
 * The list is empty exactly when both tables are of the same items in the same
 * order, and so, where both have a normal form, exactly when they have the same.
 * With left and right exchanged, number and `entries` are the same, and the two
 * words of each entry are exchanged.
 *
 *   number   entries              the list
 *   0        those of the list    its first MSDTP_DIFFERENCE_WORDS * entries
 *                                 words are the entries, and all words after
 *                                 them are as they were
 *   12       0                    as it was
 *   16       those needed         as it was
 *
 * It is 12 where either table is not well formed, or both are not, whatever the
 * list. Any well-formed tables are compared, however deep they nest and however
 * long their normal forms are: 13 and 14 are not given. Words past the data of a
 * table are not looked at.
 *
 * The list lent decides only between 0 and 16: it is 16 exactly where it has room
 * for fewer entries than there are. `entries` does not depend on it. One whose
 * length is odd has room for the entries that fit, and its last word is never
 * changed. So to ask whether anything differs, and in how many places, lend an
 * empty list, null or not: the answer is 16 with their number or, for the same
 * items, 0 with none.
 *
 * The usual way to compare is to lend what 16 tells until another number comes,
 * as the second example does: MSDTP_DIFFERENCE_WORDS for each entry. As with
 * writing, each call judges the tables as they then are, and this ends. A caller
 * of fixed room may lend MSDTP_LIST_WORDS, which are always enough: no row of
 * either table is in two entries.
 */
struct msdtp_comparing {
    uint64_t number, entries;
};

struct msdtp_comparing msdtp_compare(const uint64_t *left, size_t left_len,
                                     const uint64_t *right, size_t right_len,
                                     uint64_t *list, size_t list_len);

/*
 * Salvages a message: one damaged sheet does not cost the batch. What is sound is
 * copied to the output, and what is not is replaced or dropped, and listed. No
 * table is lent.
 *
 * The outermost objects are gone through from left to right. How far one of them
 * reaches, its EXTENT, is told by its type-byte and its size alone:
 *
 *   00 to BF, F8 to FE   the type-byte
 *   E0 to E7, F0 to F7   and 1 to 7 bytes by its low three bits; 0 there means 8
 *   C1 to DF             and a size field, and as many bytes as that says: C7 to
 *                        DF too, which mean nothing otherwise
 *   C0, E8 to EF         not known; nor is any whose size field is not whole
 *
 *   - An object whose extent lies in the message, and which as a message by itself
 *     would be refused by msdtp_read, however long the table lent, is REPLACED, all
 *     of it, by one EMPTY (FE). An outermost REPEAT is one of these, and so is an
 *     object that has too many rows or data words by itself.
 *   - At the first object whose extent is not known or passes the message's end,
 *     the REST of the message, from its type-byte on, is DROPPED.
 *   - All else is copied as it is, padding too.
 *
 * The EMPTY means what it always means: stop and ask. It stands for the sheet that
 * was there, and the sheets around it keep their places. Sizes are believed: where
 * a size itself was damaged, what stands behind that object may be taken for other
 * objects than were sent. Whoever uses what comes out looks at the list first.
 *
 * Each change is an entry of the list, three words, in the order of the message:
 *
 *   place    the offset in the message of the first byte replaced or dropped, which
 *            is the object's type-byte: padding before it is kept
 *   bytes    how many were replaced or dropped
 *   number   the number with which msdtp_read refuses these bytes alone, however
 *            long the table lent. Of a replaced object it is 3 to 10. Of a dropped
 *            rest it is 4 where its first byte is C0, C7 to DF or E8 to EF, 7 where
 *            that is C4, and otherwise 2
 *
 * The EMPTY of an entry stands in the output at the entry's place, less the bytes
 * of the entries before it, and one more for each of these. Where that is `length`
 * there is none: the entry is the dropped rest, which only the last can be.
 *
 *   81 F1 00 82                  81 FE 82; entry 1, 2, 6
 *   C2 05 81 C5 02 81 41 82      FE 82; entry 0, 7, 8: the STRUC is replaced whole,
 *                                for the USTRUC in it
 *   FF C4 02 82 80 FF            FF FE FF; entry 1, 4, 7
 *   81 FF C3 07 8C 81            81 FF; entry 2, 4, 2: dropped
 *   C7 01 81 E8 81 82            FE; entries 0, 3, 4 and 3, 3, 4: the second is the
 *                                dropped rest
 *
 * With 0, what comes out is accepted by msdtp_read, room being lent. There are no
 * entries exactly where the message itself is accepted so, and it then comes out as
 * it is. Otherwise the output is shorter than the message by one byte at least for
 * each entry.
 *
 *   number   length                entries
 *   0        those of the output   those of the list
 *   15       those needed          0
 *   16       0                     those needed
 *   1, 10    0                     0
 *
 * With 0, the first `length` bytes of the output are what comes out, the first
 * MSDTP_CHANGE_WORDS * entries words of the list are the entries, and all bytes and
 * words after them are as they were. With any other number the whole output and
 * the whole list are as they were.
 *
 * It is 1 where the message is over MSDTP_BYTE_LIMIT. Otherwise it is 15 exactly
 * where the output is shorter than what comes out; then 16 exactly where the list
 * has room for fewer entries than there are; then 10 where what would come out is
 * over MSDTP_ROW_LIMIT or MSDTP_WORD_LIMIT, as no object of it is by itself. With
 * 10 no buffers help: have the message sent in parts.
 *
 * So a caller who asks for what is needed lends empty buffers, null or not. The
 * answer is 15 with the bytes; or, where nothing comes out, 16 with the entries or
 * 0 with none. With those bytes lent it is 16 with the entries or, where there are
 * none, 0 or 10. A list whose length is no multiple of three has room for the
 * entries that fit, and the words left over are never changed.
 *
 * The usual way to salvage is to lend an output as long as the message, which is
 * always enough, and a list as 16 tells, as the fourth example does. A message of n
 * bytes has at most (n + 1) / 2 changes, and with 0 never more than 16,385. A caller
 * of fixed room may lend MSDTP_OUTPUT_BYTES and MSDTP_SALVAGE_WORDS, which are always
 * enough.
 */
struct msdtp_salvaging {
    uint64_t number, length, entries;
};

struct msdtp_salvaging msdtp_salvage(const uint8_t *message, size_t message_len,
                                     uint8_t *output, size_t output_len,
                                     uint64_t *list, size_t list_len);

/*
 * Explains a message: why it is refused, where, inside what, and what to look at. No
 * table is lent. It is told how many words one would have, `words_lent`: as many as
 * were lent to msdtp_read, or MSDTP_TABLE_WORDS, which are enough for every message.
 *
 * `reading` is exactly what msdtp_read answers for the message and a table of so many
 * words: its number, place, words and missing, with 0 too. Any `words_lent` may be told;
 * it decides only between 0 and 11 there.
 *
 * The list is of the CONTAINERS that are open around the faulty object, itself left
 * out, the outermost first: a word each, the place of its type-byte in the message.
 *   - A REPEAT is open around its count. Where that is cut short, the REPEAT is listed.
 *   - An LBITSTR is no container and is never listed, not even around its length.
 *   - There are sixteen with 5, and never more. With 0, 1, 2, 10 and 11 there are none.
 *
 * The EVIDENCE is the fact about the message for which it is refused. `evidence` says
 * of which sort it is, and `first` and `second` are its numbers:
 *
 *   evidence                    with      first                  second
 *   MSDTP_EVIDENCE_NONE         0, 1, 5   0                      0
 *   MSDTP_EVIDENCE_END          2, 3      the offset of the      0
 *                                         first byte past the
 *                                         end that was passed
 *   MSDTP_EVIDENCE_BYTE         4, 6, 7   the byte at fault      its place
 *   MSDTP_EVIDENCE_NUMBER       6, 7      the length or count    0
 *                                         at fault, in two's
 *                                         complement
 *   MSDTP_EVIDENCE_ABSENT       6, 7      0                      0
 *   MSDTP_EVIDENCE_KINDS        8         the place of the       the place of the
 *                                         first element          earliest element of
 *                                                                another kind
 *   MSDTP_EVIDENCE_ELEMENT      9         1 or 2, the element    its place
 *                                         that is first wrong
 *   MSDTP_EVIDENCE_NO_ELEMENT   9         1 or 2, the same, if   0
 *                                         it is not there
 *   MSDTP_EVIDENCE_WANTED       10, 11    the rows needed        the data words needed
 *
 * By the number of the reading:
 *
 *   1       Nothing: the message was not read.
 *   2, 3    The end of the message with 2; with 3 that of the object right around, also
 *           where this is the LBITSTR whose length is cut short.
 *             E2 01                  2 at 0: END 2
 *             C2 02 E2 01            3 at 2, list 0: END 4
 *             C1 02 E2 01            3 at 2: END 4
 *             C2 04 C4 02 E2 01      3 at 4, list 0 2: END 6
 *   4       The type-byte.
 *             81 C2 01 C0            4 at 3, list 1: BYTE C0 hex, 3
 *   5       Only the sixteen containers, in the list: of sixteen STRUCs around one more
 *           it is 5 at 32, list 0 2 4 and so on to 30.
 *   6       Of an SBITSTR its first data byte, which is 0. Of an LBITSTR its length: the
 *           number, where that is negative or the bytes behind it are not those that so
 *           many bits need; another object's type-byte, where that stands in its place,
 *           padding passed over; or that there is none.
 *             F1 00                  6 at 0: BYTE 0, 1
 *             C1 02 90 00            6 at 0: NUMBER 16, which needs two bytes
 *             C1 02 FF FE            6 at 0: BYTE FE hex, 3
 *             C1 81 00               6 at 0: ABSENT
 *   7       Of an outermost REPEAT its type-byte. Of any other its count: the number,
 *           where that is negative; otherwise as with 6.
 *             C4 02 82 80            7 at 0: BYTE C4 hex, 0
 *             C2 05 C4 03 E1 FF 80   7 at 2, list 0: NUMBER (uint64_t)-1
 *             C2 03 C4 01 FF         7 at 2, list 0: ABSENT
 *   8       Two elements of the USTRUC.
 *             C5 02 81 41            8 at 0: KINDS 2, 3
 *             C5 09 C4 02 80 41 C4 02 82 81 FE
 *                                    8 at 0: KINDS 9, 10. The first repeat has count 0
 *   9       An element of the EDT: the first, where it is neither INT nor string, or
 *           else the second, which is no INT.
 *             C3 03 41 81 82         9 at 0: ELEMENT 1, 2
 *             C3 06 C4 04 82 C6 01 41
 *                                    9 at 0: ELEMENT 2, 5. Twice the string at 5
 *             C3 01 87               9 at 0: NO_ELEMENT 2
 *   10, 11  What the table would take, each told as 65,536 if it is more.
 *             C2 06 C4 04 E2 40 00 80
 *                                    10: WANTED 16385, 0
 *             C6 02 48 45            11 with 7 words: WANTED 1, 1
 *
 * Elements are those after repeats are laid out. One that comes from a repeat has the
 * place of its object in the pattern, and a repeat of count 0 has none.
 *
 *   number   entries              the list
 *   0        those of the list    its first `entries` words are the places, and all
 *                                 words after them are as they were
 *   16       those needed         as it was; all else in the answer is 0
 *
 * The list lent decides only between 0 and 16: it is 16 exactly where it has fewer words
 * than there are containers to list, whatever the reading is. MSDTP_EXPLAIN_WORDS are
 * always enough, so that the usual way to explain is to lend so many, as the fifth
 * example does, and 16 is never met.
 */
#define MSDTP_EVIDENCE_NONE 0
#define MSDTP_EVIDENCE_END 1
#define MSDTP_EVIDENCE_BYTE 2
#define MSDTP_EVIDENCE_NUMBER 3
#define MSDTP_EVIDENCE_ABSENT 4
#define MSDTP_EVIDENCE_KINDS 5
#define MSDTP_EVIDENCE_ELEMENT 6
#define MSDTP_EVIDENCE_NO_ELEMENT 7
#define MSDTP_EVIDENCE_WANTED 8

struct msdtp_explaining {
    uint64_t number, entries;
    struct msdtp_reading reading;
    uint64_t evidence, first, second;
};

struct msdtp_explaining msdtp_explain(const uint8_t *message, size_t message_len,
                                      uint64_t words_lent,
                                      uint64_t *list, size_t list_len);

/*
 * MEASURE SHEETS
 *
 * A measure sheet is a message of exactly one outermost item: an EDT of exactly
 * seven elements, each of which is one row of its table. In row 0 stands the EDT,
 * then:
 *
 *   row   element        what it is
 *   1     type           the INT 12, or the string "MEASURE"
 *   2     version        the INT 1
 *   3     order number   any INT
 *   4     unit           XTRA MSDTP_TENTHS_CM or XTRA MSDTP_EIGHTHS_INCH
 *   5     chest          the figures, in that unit: each an INT from 1 to
 *   6     waist          MSDTP_FIGURE_MOST, or EMPTY, where it was left out:
 *   7     sleeve         stop and ask
 *
 * A sheet is judged by its items, whatever objects say them: longer forms, STRUC,
 * USTRUC or STRING for the type, repeats and padding make no difference.
 *
 * Reads a message that is a measure sheet, and answers its figures. WITH ANY NUMBER
 * BUT 0 THERE ARE NO FIGURES: a sheet of which one is EMPTY, or out of range, is
 * not answered with the other two. The answer:
 *
 *   number     place, missing   words                order and all behind it
 *   0          0                those of the table   those of the sheet
 *   1 to 11    msdtp_read's     msdtp_read's         0
 *   20 to 22   0                0                    0
 *
 * With 0 these are
 *
 *   order                           the order number
 *   unit                            MSDTP_TENTHS_CM or MSDTP_EIGHTHS_INCH
 *   chest, waist, sleeve            the figures in that unit, from 1 to
 *                                   MSDTP_FIGURE_MOST: 0 is never a figure
 *   chest_um, waist_um, sleeve_um   the figures in micrometres: 1,000 for each
 *                                   tenth of a centimetre, 3,175 for each eighth
 *                                   of an inch. That is exact, and at most
 *                                   63,500,000
 *
 * 1 to 11 are those of msdtp_read, with all that it tells: with 2 wait for
 * `missing` bytes, and with 11 `words` are those needed. Then
 *
 *   20   the message is accepted by msdtp_read, and is no measure sheet. It has no
 *        outermost item, or several; or its one item is no EDT of seven elements;
 *        or one of these is not what the list above has for it, a figure that is
 *        neither INT nor EMPTY among them
 *   21   all is as in the list above, but that a figure is EMPTY, or several are
 *   22   the same, and none is EMPTY, but a figure is below 1 or over
 *        MSDTP_FIGURE_MOST, or several are
 *
 * So an EMPTY beside a figure that is out of range is 21, and with another unit
 * besides it is 20.
 *
 * With 0, and with 20, 21 and 22 too, the table is as msdtp_read leaves it with 0:
 * its first words, table[2] + table[3] of them, are the table of the message's
 * items, and all words after them are as they were. With 21 and 22 its rows are
 * those of the list above: whoever has to ask finds there what order it is, and
 * which figure. With 1 to 11 the whole table is as it was.
 *
 * A sheet takes 28 words, or MSDTP_SHEET_WORDS if its type is by name. A message
 * that takes more is no sheet: where so many are lent it is 11, and where as many
 * as 11 tells, 20. So a caller who wants nothing but sheets need not lend more.
 *
 *   C3 0F 8C 81 E2 12 67 F8 E2 03 F8 E2 03 60 E2 02 8A
 *               0: order 4711, unit 0, figures 1016, 864 and 650, in micrometres
 *               1016000, 864000 and 650000; 28 words
 *   C3 0D 8C 81 E2 12 68 F8 FE E2 03 60 E2 02 8A
 *               21: the chest is EMPTY
 *   C3 0D 8C 81 E2 12 68 F8 80 E2 03 60 E2 02 8A
 *               22: the chest is 0
 *   C3 0D 8C 81 E2 12 68 F8 FC E2 03 60 E2 02 8A
 *               20: the chest is a BOOL
 */
struct msdtp_measure_reading {
    uint64_t number, place, words, missing;
    int64_t order;
    uint64_t unit, chest, waist, sleeve, chest_um, waist_um, sleeve_um;
};

struct msdtp_measure_reading msdtp_measure_read(const uint8_t *message, size_t message_len,
                                                uint64_t *table, size_t table_len);

/*
 * Writes a measure sheet of this order number, unit and figures: the normal form,
 * with the INT 12 as type and the INT 1 as version.
 *
 *   number   length               the output
 *   0        those of the sheet   its first `length` bytes are the sheet, and all
 *                                 bytes after them are as they were
 *   15       those needed         as it was
 *   20, 22   0                    as it was
 *
 * It is 20 where the unit is neither MSDTP_TENTHS_CM nor MSDTP_EIGHTHS_INCH; then
 * 22 where a figure is 0 or over MSDTP_FIGURE_MOST, as a negative one is that was
 * made a uint64_t; then 15. A figure that is EMPTY cannot be written, and 21 is not
 * given.
 *
 * The output lent decides only between 0 and 15: it is 15 exactly where the output
 * is shorter than the sheet. The other numbers and `length` do not depend on it.
 * A sheet has 9 to 23 bytes: MSDTP_SHEET_BYTES are always enough, and an empty
 * output, null or not, gets 15 with the length.
 *
 * What is written is read back by msdtp_measure_read, in a table of 28 words or
 * more, with 0 and the same order number, unit and figures. It is one object with no
 * padding around it: if it is cut, it is always known for that, as told with
 * msdtp_read.
 */
struct msdtp_writing msdtp_measure_write(int64_t order, uint64_t unit, uint64_t chest,
                                         uint64_t waist, uint64_t sleeve,
                                         uint8_t *output, size_t output_len);

/*
 * AN EXAMPLE, COMPLETE
 *
 *     #include <inttypes.h>
 *     #include <stdio.h>
 *     #include <stdlib.h>
 *     #include "msdtp.h"
 *
 *     // The usual way to write. The caller frees the output after any answer. It
 *     // is null if nothing was lent, as for a table of no items. 15 is left only
 *     // where there is no memory for so many bytes.
 *     static struct msdtp_writing write_items(const uint64_t *table, size_t table_len,
 *                                             uint8_t **output)
 *     {
 *         *output = NULL;
 *         struct msdtp_writing w = msdtp_write(table, table_len, NULL, 0);
 *         while (w.number == MSDTP_OUTPUT_SHORT) {
 *             uint8_t *longer = (uint8_t *)realloc(*output, w.length);
 *             if (longer == NULL)
 *                 break;
 *             *output = longer;
 *             w = msdtp_write(table, table_len, longer, w.length);
 *         }
 *         return w;
 *     }
 *
 *     // Two outermost items: a STRUC of the nine bits 001010011 and of a string of
 *     // eleven characters; and the INT -5. Four rows, so the data is at
 *     // 4 + 3 * 4 = 16: one word of bits, then two for the string.
 *     static uint64_t made[] = {
 *         4, 2, 16, 3,
 *         MSDTP_STRUC, 2, 2,
 *         MSDTP_BITS, 9, 0,
 *         MSDTP_STRING, 11, 1,
 *         MSDTP_INT, 0, (uint64_t)-5,
 *         UINT64_C(0x2980000000000000), 0, 0
 *     };
 *     static uint64_t table[MSDTP_TABLE_WORDS];
 *
 *     // Puts so many characters, of codes below 128, into data words that are 0.
 *     static void put_string(uint64_t *words, const char *from, uint64_t count)
 *     {
 *         for (uint64_t i = 0; i < count; i++)
 *             words[i / 8] |= (uint64_t)from[i] << (56 - 8 * (i % 8));
 *     }
 *
 *     static void print_string(uint64_t count, uint64_t first)
 *     {
 *         const uint64_t *words = table + table[2] + first;
 *         for (uint64_t i = 0; i < count; i++)
 *             putchar((int)(words[i / 8] >> (56 - 8 * (i % 8)) & 0xFF));
 *         putchar('\n');
 *     }
 *
 *     static void print_bits(uint64_t count, uint64_t first)
 *     {
 *         const uint64_t *words = table + table[2] + first;
 *         for (uint64_t bit = 0; bit < count; bit++)
 *             putchar(words[bit / 64] >> (63 - bit % 64) & 1 ? '1' : '0');
 *         putchar('\n');
 *     }
 *
 *     // Prints so many items, the first of them in this row.
 *     static void print_items(uint64_t row, uint64_t count, int depth)
 *     {
 *         for (; count > 0; count--) {
 *             const uint64_t *at = table + MSDTP_HEADER_WORDS + MSDTP_ROW_WORDS * row;
 *             uint64_t kind = at[0], a = at[1], b = at[2];
 *             printf("%*s", 2 * depth, "");
 *             row++;
 *             if (kind == MSDTP_STRUC || kind == MSDTP_EDT) {
 *                 printf("%s\n", kind == MSDTP_STRUC ? "STRUC" : "EDT");
 *                 print_items(row, a, depth + 1);
 *                 row += b;
 *             } else if (kind == MSDTP_STRING) {
 *                 print_string(a, b);
 *             } else if (kind == MSDTP_BITS) {
 *                 print_bits(a, b);
 *             } else if (kind == MSDTP_INT) {
 *                 printf("%" PRId64 "\n", (int64_t)b);
 *             } else {
 *                 printf("kind %" PRIu64 ": %" PRIu64 "\n", kind, b);
 *             }
 *         }
 *     }
 *
 *     int main(void)
 *     {
 *         uint8_t *output;
 *         put_string(made + 17, "left sleeve", 11);
 *         struct msdtp_writing w = write_items(made, sizeof made / sizeof *made,
 *                                              &output);
 *         printf("%s: %" PRIu64 " bytes\n", msdtp_meaning(w.number), w.length);
 *         if (w.number != MSDTP_ACCEPTED) {
 *             free(output);
 *             return 1;
 *         }
 *         // The STRUC has come, and the INT's type-byte; the rest is late.
 *         uint64_t come = 19;
 *         struct msdtp_reading r = msdtp_read(output, come,
 *                                             table, MSDTP_TABLE_WORDS);
 *         printf("%s: %" PRIu64 " missing\n", msdtp_meaning(r.number), r.missing);
 *         if (r.number == MSDTP_PAST_INPUT)
 *             r = msdtp_read(output, come + r.missing, table, MSDTP_TABLE_WORDS);
 *         free(output);
 *         printf("%s: %" PRIu64 " words\n", msdtp_meaning(r.number), r.words);
 *         if (r.number != MSDTP_ACCEPTED)
 *             return 1;
 *         print_items(0, table[1], 0);
 *         return 0;
 *     }
 *
 * It prints:
 *
 *     accepted: 20 bytes
 *     the message ends in the middle of an object: 1 missing
 *     accepted: 19 words
 *     STRUC
 *       001010011
 *       left sleeve
 *     -5
 */

/*
 * ANOTHER EXAMPLE, COMPLETE: WHAT CHANGED
 *
 *     #include <inttypes.h>
 *     #include <stdio.h>
 *     #include <stdlib.h>
 *     #include "msdtp.h"
 *
 *     // An EDT of type 12 and version 1: a chest of 1016, a waist of 864, and a
 *     // string, "cut". Then a chest of 1020, for the waist a STRUC of two figures,
 *     // and another string, "cut on".
 *     static const uint8_t sent[] = {
 *         0xC3, 0x0D, 0x8C, 0x81, 0xE2, 0x03, 0xF8, 0xE2, 0x03, 0x60,
 *         0xC6, 0x03, 'c', 'u', 't'
 *     };
 *     static const uint8_t sent_again[] = {
 *         0xC3, 0x15, 0x8C, 0x81, 0xE2, 0x03, 0xFC,
 *         0xC2, 0x06, 0xE2, 0x03, 0x60, 0xE2, 0x03, 0x66,
 *         0xC6, 0x06, 'c', 'u', 't', ' ', 'o', 'n'
 *     };
 *     static uint64_t left[MSDTP_TABLE_WORDS], right[MSDTP_TABLE_WORDS];
 *
 *     // The usual way to compare. The caller frees the list after any answer. It
 *     // is null if nothing was lent, as for the same items. 16 is left only where
 *     // there is no memory for so many entries.
 *     static struct msdtp_comparing compare_items(uint64_t **list)
 *     {
 *         *list = NULL;
 *         struct msdtp_comparing c = msdtp_compare(left, MSDTP_TABLE_WORDS,
 *                                                  right, MSDTP_TABLE_WORDS, NULL, 0);
 *         while (c.number == MSDTP_LIST_SHORT) {
 *             size_t words = MSDTP_DIFFERENCE_WORDS * c.entries;
 *             uint64_t *longer = (uint64_t *)realloc(*list, words * sizeof *longer);
 *             if (longer == NULL)
 *                 break;
 *             *list = longer;
 *             c = msdtp_compare(left, MSDTP_TABLE_WORDS, right, MSDTP_TABLE_WORDS,
 *                               longer, words);
 *         }
 *         return c;
 *     }
 *
 *     // Prints what stands in a row: an INT's value, of anything else its kind.
 *     static void print_row(const uint64_t *table, uint64_t row)
 *     {
 *         const uint64_t *at = table + MSDTP_HEADER_WORDS + MSDTP_ROW_WORDS * row;
 *         if (at[0] == MSDTP_INT)
 *             printf("row %" PRIu64 ", %" PRId64, row, (int64_t)at[2]);
 *         else
 *             printf("row %" PRIu64 ", kind %" PRIu64, row, at[0]);
 *     }
 *
 *     int main(void)
 *     {
 *         struct msdtp_reading l = msdtp_read(sent, sizeof sent,
 *                                             left, MSDTP_TABLE_WORDS);
 *         struct msdtp_reading r = msdtp_read(sent_again, sizeof sent_again,
 *                                             right, MSDTP_TABLE_WORDS);
 *         if (l.number != MSDTP_ACCEPTED || r.number != MSDTP_ACCEPTED)
 *             return 1;
 *         uint64_t *list;
 *         struct msdtp_comparing c = compare_items(&list);
 *         printf("%s: %" PRIu64 " entries\n", msdtp_meaning(c.number), c.entries);
 *         for (uint64_t i = 0; c.number == MSDTP_ACCEPTED && i < c.entries; i++) {
 *             const uint64_t *entry = list + MSDTP_DIFFERENCE_WORDS * i;
 *             if (entry[0] == left[0]) {
 *                 printf("%" PRIu64 " outermost items; then %" PRIu64 "\n",
 *                        left[1], right[1]);
 *             } else {
 *                 print_row(left, entry[0]);
 *                 printf("; then ");
 *                 print_row(right, entry[1]);
 *                 putchar('\n');
 *             }
 *         }
 *         free(list);
 *         return c.number != MSDTP_ACCEPTED;
 *     }
 *
 * This one prints:
 *
 *     accepted: 3 entries
 *     row 3, 1016; then row 3, 1020
 *     row 4, 864; then row 4, kind 7
 *     row 5, kind 9; then row 7, kind 9
 */

/*
 * A THIRD EXAMPLE, COMPLETE: A MEASURE SHEET
 *
 *     #include <inttypes.h>
 *     #include <stdio.h>
 *     #include "msdtp.h"
 *
 *     // Order 4712 in tenths of a centimetre, with an EMPTY for the chest; and a
 *     // note, which is no sheet.
 *     static const uint8_t no_chest[] = {
 *         0xC3, 0x0D, 0x8C, 0x81, 0xE2, 0x12, 0x68, 0xF8, 0xFE,
 *         0xE2, 0x03, 0x60, 0xE2, 0x02, 0x8A
 *     };
 *     static const uint8_t note[] = { 0xC6, 0x03, 'c', 'u', 't' };
 *     static uint64_t table[MSDTP_SHEET_WORDS];
 *
 *     // With 21 the table holds the sheet: the order number in row 3, and from row
 *     // 5 on the figures.
 *     static const uint64_t *row(uint64_t at)
 *     {
 *         return table + MSDTP_HEADER_WORDS + MSDTP_ROW_WORDS * at;
 *     }
 *
 *     static void stop_and_ask(void)
 *     {
 *         static const char *const names[] = { "chest", "waist", "sleeve" };
 *         for (uint64_t i = 0; i < 3; i++) {
 *             if (row(5 + i)[0] == MSDTP_EMPTY)
 *                 printf("order %" PRId64 ": stop and ask for the %s\n",
 *                        (int64_t)row(3)[2], names[i]);
 *         }
 *     }
 *
 *     // Cuts with 0, and never with another number: there are no figures then.
 *     static void draft(const uint8_t *message, size_t length)
 *     {
 *         struct msdtp_measure_reading m =
 *             msdtp_measure_read(message, length, table, MSDTP_SHEET_WORDS);
 *         if (m.number == MSDTP_ACCEPTED)
 *             printf("order %" PRId64 ": cut %" PRIu64 ", %" PRIu64 ", %" PRIu64 "\n",
 *                    m.order, m.chest_um, m.waist_um, m.sleeve_um);
 *         else if (m.number == MSDTP_FIGURE_EMPTY)
 *             stop_and_ask();
 *         else if (m.number == MSDTP_PAST_INPUT)
 *             printf("cut nothing yet: wait for %" PRIu64 " bytes\n", m.missing);
 *         else
 *             printf("cut nothing: %s\n", msdtp_meaning(m.number));
 *     }
 *
 *     int main(void)
 *     {
 *         uint8_t sheet[MSDTP_SHEET_BYTES];
 *         struct msdtp_writing w = msdtp_measure_write(4713, MSDTP_EIGHTHS_INCH,
 *                                                      320, 272, 204,
 *                                                      sheet, MSDTP_SHEET_BYTES);
 *         printf("%s: %" PRIu64 " bytes\n", msdtp_meaning(w.number), w.length);
 *         if (w.number != MSDTP_ACCEPTED)
 *             return 1;
 *         // Nine bytes have come, then all.
 *         draft(sheet, 9);
 *         draft(sheet, w.length);
 *         draft(no_chest, sizeof no_chest);
 *         draft(note, sizeof note);
 *         return 0;
 *     }
 *
 * The third prints:
 *
 *     accepted: 17 bytes
 *     cut nothing yet: wait for 8 bytes
 *     order 4713: cut 1016000, 863600, 647700
 *     order 4712: stop and ask for the chest
 *     cut nothing: what was given is no measure sheet
 */

/*
 * A FOURTH EXAMPLE, COMPLETE: A DAMAGED BATCH
 *
 *     #include <inttypes.h>
 *     #include <stdio.h>
 *     #include <stdlib.h>
 *     #include "msdtp.h"
 *
 *     // A measure sheet; one whose sleeve wants a byte more than the sheet has;
 *     // padding and a note; and a sheet of which the end was lost.
 *     static const uint8_t batch[] = {
 *         0xC3, 0x07, 0x8C, 0x81, 0x81, 0xF8, 0x85, 0x86, 0x87,
 *         0xC3, 0x08, 0x8C, 0x81, 0x82, 0xF8, 0x85, 0x86, 0xE2, 0x03,
 *         0xFF, 0xC6, 0x03, 'c', 'u', 't',
 *         0xC3, 0x07, 0x8C, 0x81, 0x83, 0xF8
 *     };
 *     static uint8_t mended[sizeof batch];
 *     static uint64_t table[MSDTP_TABLE_WORDS];
 *
 *     // The usual way to salvage. The caller frees the list after any answer. It is
 *     // null if nothing was lent, as for a sound message. 16 is left only where
 *     // there is no memory for so many entries.
 *     static struct msdtp_salvaging salvage(uint64_t **list)
 *     {
 *         *list = NULL;
 *         struct msdtp_salvaging s = msdtp_salvage(batch, sizeof batch,
 *                                                  mended, sizeof mended, NULL, 0);
 *         while (s.number == MSDTP_LIST_SHORT) {
 *             size_t words = MSDTP_CHANGE_WORDS * s.entries;
 *             uint64_t *longer = (uint64_t *)realloc(*list, words * sizeof *longer);
 *             if (longer == NULL)
 *                 break;
 *             *list = longer;
 *             s = msdtp_salvage(batch, sizeof batch, mended, sizeof mended,
 *                               longer, words);
 *         }
 *         return s;
 *     }
 *
 *     // Prints the entries. `gone` is how many bytes the output is behind.
 *     static void print_changes(const uint64_t *list, uint64_t entries, uint64_t length)
 *     {
 *         uint64_t gone = 0;
 *         for (uint64_t i = 0; i < entries; i++) {
 *             const uint64_t *entry = list + MSDTP_CHANGE_WORDS * i;
 *             printf("from %" PRIu64 " on, %" PRIu64 " bytes: %s\n", entry[0], entry[1],
 *                    msdtp_meaning(entry[2]));
 *             if (entry[0] - gone < length)
 *                 printf("  now EMPTY, at %" PRIu64 "\n", entry[0] - gone);
 *             else
 *                 printf("  dropped\n");
 *             gone += entry[1] - 1;
 *         }
 *     }
 *
 *     int main(void)
 *     {
 *         uint64_t *list;
 *         struct msdtp_salvaging s = salvage(&list);
 *         printf("%s: %" PRIu64 " bytes, %" PRIu64 " changes\n",
 *                msdtp_meaning(s.number), s.length, s.entries);
 *         if (s.number == MSDTP_ACCEPTED)
 *             print_changes(list, s.entries, s.length);
 *         free(list);
 *         if (s.number != MSDTP_ACCEPTED)
 *             return 1;
 *         struct msdtp_reading r = msdtp_read(mended, s.length,
 *                                             table, MSDTP_TABLE_WORDS);
 *         printf("%s: %" PRIu64 " outermost items\n", msdtp_meaning(r.number), table[1]);
 *         return 0;
 *     }
 *
 * The fourth prints:
 *
 *     accepted: 16 bytes, 2 changes
 *     from 9 on, 10 bytes: an object does not fit into the one that holds it
 *       now EMPTY, at 9
 *     from 25 on, 6 bytes: the message ends in the middle of an object
 *       dropped
 *     accepted: 3 outermost items
 */

/*
 * A FIFTH EXAMPLE, COMPLETE: TELL ME WHY
 *
 *     #include <inttypes.h>
 *     #include <stdio.h>
 *     #include "msdtp.h"
 *
 *     // A STRUC, in it a USTRUC of two INTs and an EMPTY; a STRUC, in it a repeat of
 *     // count -1; bits without their marker; an EDT without its version; one of
 *     // which the end was lost; and a string, for which seven words are too few.
 *     static const struct {
 *         size_t length;
 *         uint8_t bytes[9];
 *     } sent[] = {
 *         { 9, { 0xC2, 0x07, 0x81, 0xC5, 0x04, 0x85, 0x86, 0xFE, 0x87 } },
 *         { 7, { 0xC2, 0x05, 0xC4, 0x03, 0xE1, 0xFF, 0x85 } },
 *         { 2, { 0xF1, 0x00 } },
 *         { 3, { 0xC3, 0x01, 0x8C } },
 *         { 4, { 0xC3, 0x07, 0x8C, 0x81 } },
 *         { 5, { 0xC6, 0x03, 'c', 'u', 't' } }
 *     };
 *
 *     static void print_evidence(uint64_t evidence, uint64_t first, uint64_t second)
 *     {
 *         switch (evidence) {
 *         case MSDTP_EVIDENCE_END:
 *             printf("  the end is before %" PRIu64 "\n", first);
 *             break;
 *         case MSDTP_EVIDENCE_BYTE:
 *             printf("  byte %02" PRIX64 " hex, at %" PRIu64 "\n", first, second);
 *             break;
 *         case MSDTP_EVIDENCE_NUMBER:
 *             printf("  the number %" PRId64 "\n", (int64_t)first);
 *             break;
 *         case MSDTP_EVIDENCE_ABSENT:
 *             printf("  no number\n");
 *             break;
 *         case MSDTP_EVIDENCE_KINDS:
 *             printf("  one kind at %" PRIu64 ", another at %" PRIu64 "\n", first, second);
 *             break;
 *         case MSDTP_EVIDENCE_ELEMENT:
 *             printf("  element %" PRIu64 ", at %" PRIu64 "\n", first, second);
 *             break;
 *         case MSDTP_EVIDENCE_NO_ELEMENT:
 *             printf("  no element %" PRIu64 "\n", first);
 *             break;
 *         case MSDTP_EVIDENCE_WANTED:
 *             printf("  rows %" PRIu64 ", data words %" PRIu64 "\n", first, second);
 *             break;
 *         }
 *     }
 *
 *     // Prints why a message is refused where so many words are lent.
 *     static void print_why(const uint8_t *message, size_t length, uint64_t words_lent)
 *     {
 *         uint64_t list[MSDTP_EXPLAIN_WORDS];
 *         struct msdtp_explaining e = msdtp_explain(message, length, words_lent,
 *                                                   list, MSDTP_EXPLAIN_WORDS);
 *         printf("%" PRIu64 " at %" PRIu64 ": %s\n", e.reading.number, e.reading.place,
 *                msdtp_meaning(e.reading.number));
 *         for (uint64_t i = 0; i < e.entries; i++)
 *             printf("  in the container at %" PRIu64 "\n", list[i]);
 *         print_evidence(e.evidence, e.first, e.second);
 *     }
 *
 *     int main(void)
 *     {
 *         for (size_t i = 0; i < sizeof sent / sizeof *sent; i++)
 *             print_why(sent[i].bytes, sent[i].length, 7);
 *         return 0;
 *     }
 *
 * The fifth prints:
 *
 *     8 at 3: a list that promises one kind and holds several
 *       in the container at 0
 *       one kind at 5, another at 7
 *     7 at 2: a repeat where none may stand, or without a proper count
 *       in the container at 0
 *       the number -1
 *     6 at 0: a bit string that does not say how long it is, or says it wrongly
 *       byte 00 hex, at 1
 *     9 at 0: an EDT whose first two elements are not its type and its version
 *       no element 2
 *     2 at 0: the message ends in the middle of an object
 *       the end is before 4
 *     11 at 0: the table that was lent is too short
 *       rows 1, data words 1
 */

#ifdef __cplusplus
}
#endif

#endif
