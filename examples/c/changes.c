/*
 * Prints what changed from one message to another: one line for each difference,
 * with the rows and what stands in them. From the repository's root, once `bash
 * archive.sh` has made the archive:
 *
 *   gcc -std=c99 -Wall -Wextra -pedantic -Iinclude examples/c/changes.c target/staticlib/libmsdtp.a -o target/changes
 *   target/changes examples/note.msg examples/second-fitting.msg
 *
 * The exit status is 0 if both say the same items, 1 if they do not, and 2 for a
 * message that is refused, a file that cannot be read, or a wrong number of
 * files.
 */

#include <inttypes.h>
#include <stdio.h>

#include "msdtp.h"

/* One byte more than a message may have, so that a longer file is refused. */
enum { MESSAGE_BYTES = MSDTP_BYTE_LIMIT + 1 };

static uint8_t message[MESSAGE_BYTES];
static uint64_t left[MSDTP_TABLE_WORDS], right[MSDTP_TABLE_WORDS];
static uint64_t list[MSDTP_LIST_WORDS];

/* Reads the message of a file into a table. Whether it could, and was accepted. */
static int read_file(const char *name, uint64_t *table)
{
    FILE *file = fopen(name, "rb");
    struct msdtp_reading reading;
    size_t length;
    int failed;

    if (file == NULL) {
        perror(name);
        return 0;
    }
    length = fread(message, 1, MESSAGE_BYTES, file);
    failed = ferror(file);
    fclose(file);
    if (failed) {
        fprintf(stderr, "%s cannot be read\n", name);
        return 0;
    }
    reading = msdtp_read(message, length, table, MSDTP_TABLE_WORDS);
    if (reading.number != MSDTP_ACCEPTED) {
        printf("%s: refused %" PRIu64 " at %" PRIu64 ": %s\n", name,
               reading.number, reading.place, msdtp_meaning(reading.number));
        return 0;
    }
    return 1;
}

/* Prints an INT, which the table has modulo 2^64. */
static void print_int(uint64_t value)
{
    if (value >> 63) {
        printf("INT -%" PRIu64, 0 - value);
    } else {
        printf("INT %" PRIu64, value);
    }
}

/* Prints so many bits, from a data word on. */
static void print_bits(uint64_t count, const uint64_t *words)
{
    uint64_t bit;

    printf("BITS of %" PRIu64 "%s", count, count > 0 ? " " : "");
    for (bit = 0; bit < count; bit++) {
        putchar(words[bit / 64] >> (63 - bit % 64) & 1 ? '1' : '0');
    }
}

/*
 * Prints so many characters, from a data word on. A quote, a backslash and what
 * cannot be printed are printed in hexadecimal.
 */
static void print_string(uint64_t count, const uint64_t *words)
{
    uint64_t at;

    printf("STRING of %" PRIu64 " \"", count);
    for (at = 0; at < count; at++) {
        int code = (int)(words[at / 8] >> (56 - 8 * (at % 8)) & 0xFF);

        if (code < ' ' || code > '~' || code == '"' || code == '\\') {
            printf("\\x%02X", (unsigned)code);
        } else {
            putchar(code);
        }
    }
    putchar('"');
}

/* Prints a row of a table: its number, its kind, a and b. */
static void print_row(const uint64_t *table, uint64_t number)
{
    const uint64_t *row = table + MSDTP_HEADER_WORDS + MSDTP_ROW_WORDS * number;
    const uint64_t *data = table + table[2];
    uint64_t a = row[1], b = row[2];

    printf("row %" PRIu64 " ", number);
    switch (row[0]) {
    case MSDTP_INT: print_int(b); break;
    case MSDTP_BITS: print_bits(a, data + b); break;
    case MSDTP_CHAR: printf("CHAR %" PRIu64, b); break;
    case MSDTP_BOOL: printf("BOOL %s", b ? "TRUE" : "FALSE"); break;
    case MSDTP_EMPTY: printf("EMPTY: stop and ask"); break;
    case MSDTP_XTRA: printf("XTRA %" PRIu64, b); break;
    case MSDTP_STRUC: printf("STRUC of %" PRIu64, a); break;
    case MSDTP_EDT: printf("EDT of %" PRIu64, a); break;
    case MSDTP_STRING: print_string(a, data + b); break;
    }
}

/*
 * Prints one difference. If the numbers of outermost items differ, its entry is
 * the number of rows of each table, and no row has that number.
 */
static void print_difference(const uint64_t *entry)
{
    if (entry[0] == left[0]) {
        printf("outermost items: %" PRIu64 ", now %" PRIu64 "\n", left[1], right[1]);
        return;
    }
    print_row(left, entry[0]);
    printf(", now ");
    print_row(right, entry[1]);
    putchar('\n');
}

/* Compares both tables, which were read and so are well formed, in a list that is always enough. */
static int print_changes(void)
{
    struct msdtp_comparing comparing =
        msdtp_compare(left, MSDTP_TABLE_WORDS, right, MSDTP_TABLE_WORDS,
                      list, MSDTP_LIST_WORDS);
    uint64_t at;

    if (comparing.number != MSDTP_ACCEPTED) {
        printf("refused %" PRIu64 ": %s\n", comparing.number, msdtp_meaning(comparing.number));
        return 2;
    }
    printf("differences: %" PRIu64 "\n", comparing.entries);
    for (at = 0; at < comparing.entries; at++) {
        print_difference(list + MSDTP_DIFFERENCE_WORDS * at);
    }
    return comparing.entries > 0;
}

int main(int count, char **arguments)
{
    if (count != 3) {
        fprintf(stderr, "two messages are needed, an old one and a new one\n");
        return 2;
    }
    if (!read_file(arguments[1], left) || !read_file(arguments[2], right)) {
        return 2;
    }
    return print_changes();
}
