/*
 * Prints the figures of a measure sheet and its normal form, or why there are no
 * figures. From the repository's root, once `bash archive.sh` has made the
 * archive:
 *
 *   gcc -std=c99 -Wall -Wextra -pedantic -Iinclude examples/c/measure.c target/staticlib/libmsdtp.a -o target/measure
 *   target/measure examples/empty-chest.msg
 *
 * The exit status is 0 for a sheet with its figures, 1 for a message that is
 * refused, and 2 for a file that cannot be read. Of a refused one it also says what
 * there is to do: which figures to ask for; for how many bytes to wait, if its tail
 * may be late; or, if it is no measure sheet, what its items are.
 */

#include <inttypes.h>
#include <stdio.h>

#include "msdtp.h"

/* One byte more than a message may have, so that a longer file is refused. */
enum { MESSAGE_BYTES = MSDTP_BYTE_LIMIT + 1 };

static uint8_t message[MESSAGE_BYTES];
static uint64_t table[MSDTP_TABLE_WORDS];
static uint8_t output[MSDTP_OUTPUT_BYTES];

/* Prints a refusal. Only reading's, to 11, have a place, and only 2 and 3 bytes missing. */
static void print_refused(uint64_t number, uint64_t place, uint64_t missing)
{
    printf("refused %" PRIu64, number);
    if (number <= MSDTP_TABLE_SHORT) {
        printf(" at %" PRIu64, place);
    }
    printf(": %s", msdtp_meaning(number));
    if (missing > 0) {
        printf("; bytes missing: %" PRIu64 "%s", missing,
               missing < MSDTP_BYTE_LIMIT ? "" : " or more");
    }
    putchar('\n');
}

/*
 * Prints how long to wait for the tail of a refused message. Only with number 2
 * can it be late, and only if all of it may come: a message over the limit is
 * never read.
 */
static void print_wait(uint64_t number, uint64_t missing, size_t length)
{
    if (number == MSDTP_PAST_INPUT && length + missing <= MSDTP_BYTE_LIMIT) {
        printf("wait for %" PRIu64 " more bytes\n", missing);
    } else {
        printf("more bytes will not help\n");
    }
}

/* Prints so many bits of the table's data, from one of its words on. */
static void print_bits(uint64_t count, uint64_t first)
{
    const uint64_t *words = table + table[2] + first;
    uint64_t bit;

    printf("BITS of %" PRIu64 "%s", count, count > 0 ? " " : "");
    for (bit = 0; bit < count; bit++) {
        putchar(words[bit / 64] >> (63 - bit % 64) & 1 ? '1' : '0');
    }
    putchar('\n');
}

/*
 * Prints so many characters of the table's data, from one of its words on. A
 * quote, a backslash and what cannot be printed are printed in hexadecimal.
 */
static void print_string(uint64_t count, uint64_t first)
{
    const uint64_t *words = table + table[2] + first;
    uint64_t at;

    printf("STRING of %" PRIu64 " \"", count);
    for (at = 0; at < count; at++) {
        int code = (int)(words[at / 8] >> (56 - 8 * (at % 8)) & 0xFF);

        if (code < ' ' || code > '~' || code == '"' || code == '\\') {
            printf("\\x%02X", (unsigned)code);
        } else {
            putchar(code);
        }
    }
    printf("\"\n");
}

/* Prints an INT, which the table has modulo 2^64. */
static void print_int(uint64_t value)
{
    if (value >> 63) {
        printf("INT -%" PRIu64 "\n", 0 - value);
    } else {
        printf("INT %" PRIu64 "\n", value);
    }
}

/* Prints one row: its kind, a and b. */
static void print_row(const uint64_t *row)
{
    uint64_t a = row[1], b = row[2];

    switch (row[0]) {
    case MSDTP_INT: print_int(b); break;
    case MSDTP_BITS: print_bits(a, b); break;
    case MSDTP_CHAR: printf("CHAR %" PRIu64 "\n", b); break;
    case MSDTP_BOOL: printf("BOOL %s\n", b ? "TRUE" : "FALSE"); break;
    case MSDTP_EMPTY: printf("EMPTY: stop and ask\n"); break;
    case MSDTP_XTRA: printf("XTRA %" PRIu64 "\n", b); break;
    case MSDTP_STRUC: printf("STRUC of %" PRIu64 "\n", a); break;
    case MSDTP_EDT: printf("EDT of %" PRIu64 "\n", a); break;
    case MSDTP_STRING: print_string(a, b); break;
    }
}

/*
 * Prints every row, farther to the right inside STRUCs and EDTs. For each of
 * these that is open, ends[] has the number of the first row after it. A table
 * that reading filled has no row that ends after the one around it, and none
 * deeper than the array.
 */
static void print_rows(void)
{
    uint64_t ends[MSDTP_DEPTH_LIMIT], at;
    int depth = 0;

    for (at = 0; at < table[0]; at++) {
        const uint64_t *row = table + MSDTP_HEADER_WORDS + MSDTP_ROW_WORDS * at;

        while (depth > 0 && ends[depth - 1] == at) {
            depth--;
        }
        printf("%*s", 2 * depth, "");
        print_row(row);
        if (row[0] == MSDTP_STRUC || row[0] == MSDTP_EDT) {
            ends[depth++] = at + 1 + row[2];
        }
    }
}

/* Prints one figure, in the sheet's unit and in micrometres. */
static void print_figure(const char *name, uint64_t figure, uint64_t micrometres)
{
    printf("  %s %" PRIu64 ", %" PRIu64 " micrometres\n", name, figure, micrometres);
}

static void print_figures(const struct msdtp_measure_reading *sheet)
{
    printf("order %" PRId64 ", in %s\n", sheet->order,
           sheet->unit == MSDTP_TENTHS_CM ? "tenths of a centimetre" : "eighths of an inch");
    print_figure("chest", sheet->chest, sheet->chest_um);
    print_figure("waist", sheet->waist, sheet->waist_um);
    print_figure("sleeve", sheet->sleeve, sheet->sleeve_um);
}

/*
 * Prints what to ask for, of a sheet that was refused with 21 or 22: the table
 * holds its order number in row 3, and its figures in rows 5 to 7.
 */
static void print_questions(void)
{
    static const char *const names[] = { "chest", "waist", "sleeve" };
    const uint64_t *rows = table + MSDTP_HEADER_WORDS;
    const int64_t order = (int64_t)rows[MSDTP_ROW_WORDS * 3 + 2];
    int at;

    for (at = 0; at < 3; at++) {
        const uint64_t *row = rows + MSDTP_ROW_WORDS * (5 + at);
        const int64_t figure = (int64_t)row[2];

        if (row[0] == MSDTP_EMPTY) {
            printf("order %" PRId64 ": ask for the %s, which is EMPTY\n", order, names[at]);
        } else if (figure < 1 || figure > MSDTP_FIGURE_MOST) {
            printf("order %" PRId64 ": ask for the %s, which is %" PRId64 "\n",
                   order, names[at], figure);
        }
    }
}

/* Normalises the message, then prints its normal form. */
static int print_normal_form(size_t length)
{
    struct msdtp_normalising normal =
        msdtp_normalise(message, length, table, MSDTP_TABLE_WORDS,
                        output, MSDTP_OUTPUT_BYTES);
    uint64_t at;

    if (normal.number != MSDTP_ACCEPTED) {
        print_refused(normal.number, normal.place, normal.missing);
        return 1;
    }
    printf("normal form, %" PRIu64 " bytes:", normal.length);
    for (at = 0; at < normal.length; at++) {
        printf(" %02X", (unsigned)output[at]);
    }
    putchar('\n');
    return 0;
}

/*
 * Reads the message as a measure sheet, and prints it or what there is to do. A
 * table for any message is lent, so that one that is no sheet can be listed.
 */
static int print_message(size_t length)
{
    struct msdtp_measure_reading sheet =
        msdtp_measure_read(message, length, table, MSDTP_TABLE_WORDS);

    if (sheet.number == MSDTP_ACCEPTED) {
        print_figures(&sheet);
        return print_normal_form(length);
    }
    print_refused(sheet.number, sheet.place, sheet.missing);
    switch (sheet.number) {
    case MSDTP_FIGURE_EMPTY:
    case MSDTP_FIGURE_RANGE:
        print_questions();
        break;
    case MSDTP_NOT_A_SHEET:
        printf("its items: %" PRIu64 " outermost, %" PRIu64 " rows, %" PRIu64 " words\n",
               table[1], table[0], table[2] + table[3]);
        print_rows();
        print_normal_form(length);
        break;
    default:
        print_wait(sheet.number, sheet.missing, length);
    }
    return 1;
}

int main(int count, char **arguments)
{
    const char *name = count > 1 ? arguments[1] : "examples/empty-chest.msg";
    FILE *file = fopen(name, "rb");
    size_t length;
    int failed;

    if (file == NULL) {
        perror(name);
        return 2;
    }
    length = fread(message, 1, MESSAGE_BYTES, file);
    failed = ferror(file);
    fclose(file);
    if (failed) {
        fprintf(stderr, "%s cannot be read\n", name);
        return 2;
    }
    return print_message(length);
}
