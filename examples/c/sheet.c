/*
 * Writes a measure sheet to standard output. From the repository's root, once
 * `bash archive.sh` has made the archive:
 *
 *   gcc -std=c99 -Wall -Wextra -pedantic -Iinclude examples/c/sheet.c target/staticlib/libmsdtp.a -o target/sheet
 *   target/sheet 4711 tenths 1016 864 650 >target/sheet.msg
 *
 * The arguments are the order number, the unit, chest, waist and sleeve. The unit
 * is `tenths`, of a centimetre, or `eighths`, of an inch. The exit status is 0 for
 * a sheet that is written, 1 for one that is refused, with the number on standard
 * error, and 2 for other arguments or an output that cannot be written.
 */

#include <ctype.h>
#include <errno.h>
#include <inttypes.h>
#include <stdio.h>
#include <stdlib.h>
#include <string.h>

#include "msdtp.h"

/* Takes an order number. Whether the argument is one, and nothing else. */
static int take_order(const char *argument, int64_t *order)
{
    const char *digits = argument + (*argument == '-');
    char *end;

    errno = 0;
    *order = strtoll(argument, &end, 10);
    return isdigit((unsigned char)*digits) && *end == '\0' && errno == 0;
}

static int take_unit(const char *argument, uint64_t *unit)
{
    *unit = strcmp(argument, "tenths") == 0 ? MSDTP_TENTHS_CM : MSDTP_EIGHTHS_INCH;
    return *unit == MSDTP_TENTHS_CM || strcmp(argument, "eighths") == 0;
}

/* Takes a figure. Whether it is one that a sheet may have is left to the library. */
static int take_figure(const char *argument, uint64_t *figure)
{
    char *end;

    errno = 0;
    *figure = strtoull(argument, &end, 10);
    return isdigit((unsigned char)*argument) && *end == '\0' && errno == 0;
}

int main(int count, char **arguments)
{
    uint8_t output[MSDTP_SHEET_BYTES];
    uint64_t unit, chest, waist, sleeve;
    struct msdtp_writing writing;
    int64_t order;

    if (count != 6 || !take_order(arguments[1], &order) || !take_unit(arguments[2], &unit)
        || !take_figure(arguments[3], &chest) || !take_figure(arguments[4], &waist)
        || !take_figure(arguments[5], &sleeve)) {
        fprintf(stderr, "needed are ORDER, UNIT, CHEST, WAIST and SLEEVE: "
                        "UNIT is tenths or eighths, the others are whole numbers\n");
        return 2;
    }
    writing = msdtp_measure_write(order, unit, chest, waist, sleeve, output, sizeof output);
    if (writing.number != MSDTP_ACCEPTED) {
        fprintf(stderr, "refused %" PRIu64 ": %s\n", writing.number, msdtp_meaning(writing.number));
        return 1;
    }
    if (fwrite(output, 1, writing.length, stdout) != writing.length || fflush(stdout) != 0) {
        fprintf(stderr, "the sheet cannot be written\n");
        return 2;
    }
    return 0;
}
