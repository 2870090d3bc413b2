/*
 * Salvages a damaged message: writes what can be kept of it to a new file, and
 * prints what was changed, and why. From the repository's root, once `bash
 * archive.sh` has made the archive:
 *
 *   gcc -std=c99 -Wall -Wextra -pedantic -Iinclude examples/c/salvage.c target/staticlib/libmsdtp.a -o target/salvage
 *   target/salvage examples/damaged-batch.msg target/mended.msg
 *
 * The exit status is 0 if nothing had to be changed, 1 if something was, and 2, with
 * no new file, for a message that is refused, a file that cannot be read, one that
 * cannot be written or is there already, or a wrong number of files.
 */

#include <inttypes.h>
#include <stdio.h>

#include "msdtp.h"

/* One byte more than a message may have, so that a longer file is refused. */
enum { MESSAGE_BYTES = MSDTP_BYTE_LIMIT + 1 };

static uint8_t message[MESSAGE_BYTES];
static uint8_t output[MSDTP_OUTPUT_BYTES];
static uint64_t list[MSDTP_SALVAGE_WORDS];

/* Reads the message of a file. Whether it could. */
static int read_file(const char *name, size_t *length)
{
    FILE *file = fopen(name, "rb");
    int failed;

    if (file == NULL) {
        perror(name);
        return 0;
    }
    *length = fread(message, 1, MESSAGE_BYTES, file);
    failed = ferror(file);
    fclose(file);
    if (failed) {
        fprintf(stderr, "%s cannot be read\n", name);
    }
    return !failed;
}

/* Writes the output, of so many bytes, to a file that is not there yet: 'x' is for that. Whether it could. */
static int write_file(const char *name, size_t length)
{
    FILE *file = fopen(name, "wbx");
    int written;

    if (file == NULL) {
        perror(name);
        return 0;
    }
    written = fwrite(output, 1, length, file) == length;
    written = fclose(file) == 0 && written;
    if (!written) {
        fprintf(stderr, "%s cannot be written\n", name);
        remove(name);
    }
    return written;
}

/*
 * Prints the changes. The output has the EMPTY of an entry at its place, less what
 * is gone before it. Only the dropped rest has none: that would be the output's end.
 */
static void print_changes(uint64_t entries, uint64_t length)
{
    uint64_t gone = 0, at;

    printf("changes: %" PRIu64 "\n", entries);
    for (at = 0; at < entries; at++) {
        const uint64_t *entry = list + MSDTP_CHANGE_WORDS * at;
        const uint64_t place = entry[0], bytes = entry[1], number = entry[2];

        printf("from %" PRIu64 " on, %" PRIu64 " bytes, refused %" PRIu64 " alone: %s\n",
               place, bytes, number, msdtp_meaning(number));
        if (place - gone < length) {
            printf("  now EMPTY, at %" PRIu64 ": stop and ask\n", place - gone);
        } else {
            printf("  dropped: have it sent again\n");
        }
        gone += bytes - 1;
    }
}

int main(int count, char **arguments)
{
    struct msdtp_salvaging salvaging;
    size_t length;

    if (count != 3) {
        fprintf(stderr, "two files are needed, a message and a new one for what is kept of it\n");
        return 2;
    }
    if (!read_file(arguments[1], &length)) {
        return 2;
    }
    salvaging = msdtp_salvage(message, length, output, MSDTP_OUTPUT_BYTES,
                              list, MSDTP_SALVAGE_WORDS);
    if (salvaging.number != MSDTP_ACCEPTED) {
        printf("refused %" PRIu64 ": %s; nothing is written\n",
               salvaging.number, msdtp_meaning(salvaging.number));
        return 2;
    }
    if (!write_file(arguments[2], salvaging.length)) {
        return 2;
    }
    print_changes(salvaging.entries, salvaging.length);
    printf("bytes: %zu, now %" PRIu64 "\n", length, salvaging.length);
    return salvaging.entries > 0;
}
