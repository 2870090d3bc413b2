/*
 * Prints why a message is refused, for the person at the bench: what is wrong and
 * where, what to look at, and inside what it stands. From the repository's root, once
 * `bash archive.sh` has made the archive:
 *
 *   gcc -std=c99 -Wall -Wextra -pedantic -Iinclude examples/c/why.c target/staticlib/libmsdtp.a -o target/why
 *   target/why examples/mixed-figures.msg
 *   target/why examples/measure.msg 20
 *
 * It is explained for a table of so many words, or of as many as are always enough. The
 * exit status is 0 for a message that is accepted, 1 for one that is refused, and 2 for
 * a file that cannot be read, words that are no number, or a wrong number of arguments.
 */

#include <errno.h>
#include <inttypes.h>
#include <stdio.h>
#include <stdlib.h>
#include <string.h>

#include "msdtp.h"

/* One byte more than a message may have, so that a longer file is refused. */
enum { MESSAGE_BYTES = MSDTP_BYTE_LIMIT + 1 };

static uint8_t message[MESSAGE_BYTES];
static uint64_t list[MSDTP_EXPLAIN_WORDS];

/* Reads the message of a file. Whether it could. */
static int read_file(const char *name, size_t *length)
{
    FILE *file = fopen(name, "rb");
    int failed;

    if (file == NULL) {
        perror(name);
        return 0;
    }
    *length = fread(message, 1, MESSAGE_BYTES, file);
    failed = ferror(file);
    fclose(file);
    if (failed) {
        fprintf(stderr, "%s cannot be read\n", name);
    }
    return !failed;
}

/* A number of digits alone. Whether it is one. */
static int read_words(const char *digits, uint64_t *words)
{
    errno = 0;
    *words = strtoull(digits, NULL, 10);
    if (*digits && strspn(digits, "0123456789") == strlen(digits) && errno == 0) {
        return 1;
    }
    fprintf(stderr, "how many words are lent is a number in decimal\n");
    return 0;
}

/* What stands behind a number that is told as 65,536 if it is larger. */
static const char *or_more(uint64_t told)
{
    return told < MSDTP_BYTE_LIMIT ? "" : " or more";
}

/* The refusal: its number, its place, its meaning, and the words needed or the bytes missing. */
static void print_refusal(const struct msdtp_reading *reading)
{
    printf("refused %" PRIu64 " at %" PRIu64 ": %s",
           reading->number, reading->place, msdtp_meaning(reading->number));
    if (reading->number == MSDTP_TABLE_SHORT) {
        printf("; words needed: %" PRIu64, reading->words);
    } else if (reading->missing > 0) {
        printf("; bytes missing: %" PRIu64 "%s", reading->missing, or_more(reading->missing));
    }
    putchar('\n');
}

/* What is at fault, where that is an object; or null. */
static const char *part(uint64_t number)
{
    switch (number) {
    case MSDTP_PAST_INPUT:
    case MSDTP_PAST_ENCLOSING: return "The part";
    case MSDTP_UNASSIGNED: return "The sign";
    case MSDTP_TOO_DEEP: return "The box";
    case MSDTP_BAD_BITS: return "The row of yes-and-no marks";
    case MSDTP_BAD_REPEAT: return "The repeat";
    case MSDTP_SEVERAL_KINDS: return "The list";
    case MSDTP_BAD_EDT: return "The form";
    default: return NULL;
    }
}

/* What is wrong: with that part, or with the whole message. */
static const char *fault(uint64_t number, int outermost)
{
    switch (number) {
    case MSDTP_TOO_LONG: return "Nothing of it was read";
    case MSDTP_PAST_INPUT: return "goes on past the end of the message";
    case MSDTP_PAST_ENCLOSING: return "does not fit into what holds it";
    case MSDTP_UNASSIGNED: return "means nothing";
    case MSDTP_TOO_DEEP: return "stands inside sixteen others, and sixteen are the most";
    case MSDTP_BAD_BITS: return "has no proper length";
    case MSDTP_BAD_REPEAT: return outermost ? "stands where none may stand" : "has no proper count";
    case MSDTP_SEVERAL_KINDS: return "is to hold one kind of thing and holds several";
    case MSDTP_BAD_EDT: return "does not begin with its name and its version";
    case MSDTP_TOO_MANY: return "There is too much in the message for one table";
    default: return "The message is good, and the table is too short for it";
    }
}

/* What to look at. */
static void print_evidence(uint64_t evidence, uint64_t first, uint64_t second)
{
    switch (evidence) {
    case MSDTP_EVIDENCE_END:
        printf(": the room for it ends before byte %" PRIu64, first);
        break;
    case MSDTP_EVIDENCE_BYTE:
        printf(": byte %" PRIu64 " is %02" PRIX64 " in hexadecimal", second, first);
        break;
    case MSDTP_EVIDENCE_NUMBER:
        printf(": the number there is %" PRId64, (int64_t)first);
        break;
    case MSDTP_EVIDENCE_ABSENT:
        printf(": there is no number there");
        break;
    case MSDTP_EVIDENCE_KINDS:
        printf(": the first thing in it stands at byte %" PRIu64 ", and the earliest of another kind at byte %" PRIu64,
               first, second);
        break;
    case MSDTP_EVIDENCE_ELEMENT:
        printf(": the %s thing in it, at byte %" PRIu64 ", is %s", first == 1 ? "first" : "second", second,
               first == 1 ? "neither a number nor a text" : "no number");
        break;
    case MSDTP_EVIDENCE_NO_ELEMENT:
        printf(": there is no %s thing in it", first == 1 ? "first" : "second");
        break;
    case MSDTP_EVIDENCE_WANTED:
        printf(": it takes %" PRIu64 "%s row%s and %" PRIu64 "%s word%s of bits and strings",
               first, or_more(first), first == 1 ? "" : "s", second, or_more(second), second == 1 ? "" : "s");
        break;
    }
    printf(".\n");
}

/* Inside what it stands. */
static void print_boxes(uint64_t entries)
{
    uint64_t i;

    if (entries == 0) {
        printf("It stands in no box.");
    } else if (entries == 1) {
        printf("It stands in one box, which begins at byte %" PRIu64 ".", list[0]);
    } else {
        printf("It stands in %" PRIu64 " boxes, which begin at bytes %" PRIu64, entries, list[0]);
        for (i = 1; i < entries; i++) {
            printf("%s%" PRIu64, i + 1 < entries ? ", " : " and ", list[i]);
        }
        printf(", the outermost first.");
    }
    printf(" Bytes are counted from 0.\n");
}

static void print_why(const struct msdtp_explaining *why)
{
    const struct msdtp_reading *reading = &why->reading;
    const char *what = part(reading->number);

    print_refusal(reading);
    if (what != NULL) {
        printf("%s that begins at byte %" PRIu64 " ", what, reading->place);
    }
    printf("%s", fault(reading->number, why->entries == 0));
    print_evidence(why->evidence, why->first, why->second);
    if (what != NULL) {
        print_boxes(why->entries);
    }
}

int main(int count, char **arguments)
{
    uint64_t words = MSDTP_TABLE_WORDS;
    struct msdtp_explaining why;
    size_t length;

    if (count != 2 && count != 3) {
        fprintf(stderr, "a message is needed, and perhaps how many words are lent for it\n");
        return 2;
    }
    if (count == 3 && !read_words(arguments[2], &words)) {
        return 2;
    }
    if (!read_file(arguments[1], &length)) {
        return 2;
    }
    /* The list is always long enough, so that 16 is never met. */
    why = msdtp_explain(message, length, words, list, MSDTP_EXPLAIN_WORDS);
    if (why.reading.number == MSDTP_ACCEPTED) {
        printf("accepted: its table takes %" PRIu64 " words\n", why.reading.words);
        return 0;
    }
    print_why(&why);
    return 1;
}
