/* The bytes missing with 2 and 3, and what a caller can rely on who waits for them. */

#include <string.h>

#include "lent.h"

/* The most that is told. */
enum { CAP = MSDTP_BYTE_LIMIT };

/* Few bytes with 2 and 3. The bytes are counted to the end that is passed. */
static void check_few(void)
{
    static const struct {
        const char *name;
        uint64_t number, place, missing;
        size_t length;
        uint8_t bytes[6];
    } cases[] = {
        { "missing: no size field", MSDTP_PAST_INPUT, 0, 1, 1, { 0xC2 } },
        { "missing: two size bytes of two", MSDTP_PAST_INPUT, 0, 2, 2, { 0xC2, 0x82 } },
        { "missing: one size byte of two", MSDTP_PAST_INPUT, 0, 1, 3, { 0xC2, 0x82, 0x01 } },
        { "missing: 128 size bytes", MSDTP_PAST_INPUT, 0, 128, 2, { 0xC2, 0x80 } },
        { "missing: three bytes of four", MSDTP_PAST_INPUT, 0, 3, 3, { 0xC2, 0x04, 0x82 } },
        { "missing: 128 bytes of contents", MSDTP_PAST_INPUT, 0, 128, 2, { 0xC2, 0x00 } },
        { "missing: an INT's two bytes", MSDTP_PAST_INPUT, 0, 2, 1, { 0xE2 } },
        { "missing: an INT's eight bytes", MSDTP_PAST_INPUT, 0, 8, 1, { 0xE0 } },
        { "missing: a second object's byte", MSDTP_PAST_INPUT, 1, 1, 2, { 0x80, 0xE1 } },
        { "2 before 6", MSDTP_PAST_INPUT, 0, 1, 2, { 0xF2, 0x00 } },
        { "missing: an inner INT's byte", MSDTP_PAST_ENCLOSING, 2, 1, 3, { 0xC2, 0x01, 0xE1 } },
        { "missing: one byte of two", MSDTP_PAST_ENCLOSING, 2, 1, 4, { 0xC2, 0x02, 0xE2, 0x01 } },
        { "missing: to the enclosing end", MSDTP_PAST_ENCLOSING, 2, 2, 6,
          { 0xC2, 0x02, 0xC5, 0x02, 0x41, 0x41 } },
        { "missing: an inner size field", MSDTP_PAST_ENCLOSING, 2, 1, 4, { 0xC2, 0x01, 0xC5, 0x01 } },
        { "missing: inner size bytes", MSDTP_PAST_ENCLOSING, 2, 3, 5,
          { 0xC2, 0x02, 0xC5, 0x83, 0x00 } },
        { "missing: a length cut short", MSDTP_PAST_ENCLOSING, 2, 1, 4, { 0xC1, 0x02, 0xE2, 0x01 } },
        { "missing: a count cut short", MSDTP_PAST_ENCLOSING, 4, 3, 6,
          { 0xC2, 0x04, 0xC4, 0x01, 0xE3, 0x81 } },
    };
    size_t i;

    for (i = 0; i < sizeof cases / sizeof *cases; i++) {
        memcpy(message, cases[i].bytes, cases[i].length);
        check(cases[i].name,
              cut_read(cases[i].length, cases[i].number, cases[i].place, cases[i].missing));
    }
}

/* A STRUC with a size field of four bytes, and EMPTYs to the end of the buffer. */
static void send_struc(uint64_t size)
{
    memset(message, 0xFE, sizeof message);
    message[0] = 0xC2;
    message[1] = 0x83;
    message[2] = (uint8_t)(size >> 16);
    message[3] = (uint8_t)(size >> 8);
    message[4] = (uint8_t)size;
}

/* A STRUC of this size, of whose contents so many bytes are there, wants so many more. */
static int cut_struc(uint64_t size, size_t there, uint64_t missing)
{
    send_struc(size);
    return cut_read(5 + there, MSDTP_PAST_INPUT, 0, missing);
}

/* 65,536 stands for so many or more: of the bytes missing, not of the size. */
static void check_cap(void)
{
    const size_t most = MSDTP_BYTE_LIMIT - 5;

    check("missing, one under the cap", cut_struc(CAP - 1, 0, CAP - 1));
    check("missing, at the cap", cut_struc(CAP, 0, CAP));
    check("missing, one over the cap", cut_struc(CAP + 1, 0, CAP));
    check("missing, far over the cap", cut_struc(0xFFFFFF, 0, CAP));
    check("a size over the cap, and not what is missing", cut_struc(CAP + 4, 5, CAP - 1));
    check("the longest message, one under the cap", cut_struc(most + CAP - 1, most, CAP - 1));
    check("the longest message, over the cap", cut_struc(most + CAP + 1, most, CAP));
    check("the longest message, a byte missing", cut_struc(most + 1, most, 1));
    memset(message, 0xFF, 130);
    memcpy(message, "\xC2\x80", 2);
    check("a size of 128 bytes", cut_read(130, MSDTP_PAST_INPUT, 0, CAP));
}

/* Each byte that comes takes one off what is missing: of the size field, then of the contents. */
static void check_falling(void)
{
    const size_t size = 300, whole = 5 + size;
    size_t come, waits = 0;
    int good;

    send_struc(size);
    good = cut_read(1, MSDTP_PAST_INPUT, 0, 1);
    for (come = 2; come < 5; come++) {
        good = good && cut_read(come, MSDTP_PAST_INPUT, 0, 5 - come);
    }
    for (; come < whole; come++) {
        good = good && cut_read(come, MSDTP_PAST_INPUT, 0, whole - come);
    }
    check("one missing less with each byte", good);
    check("none missing", accepted_read(whole, MSDTP_TABLE_WORDS, 4 + 3 * (1 + size)));
    for (come = 1; come < whole && waits < whole; waits++) {
        come += msdtp_read(message, come, table, MSDTP_TABLE_WORDS).missing;
    }
    check("read again when the missing bytes have come", come == whole && waits == 3);
}

/* Whether the message is read with this answer. */
static int reads_as(size_t length, uint64_t number, uint64_t place, uint64_t missing)
{
    struct msdtp_reading r = msdtp_read(message, length, table, MSDTP_TABLE_WORDS);

    return r.number == number && r.place == place && r.words == 0 && r.missing == missing;
}

/* With 3 to 9 the answer is the same whatever comes behind. */
static void check_bad(void)
{
    static const struct {
        uint64_t number, place, missing;
        size_t length;
        uint8_t bytes[33];
    } cases[] = {
        { MSDTP_PAST_ENCLOSING, 2, 1, 4, { 0xC2, 0x02, 0xE2, 0x01 } },
        { MSDTP_PAST_ENCLOSING, 2, 2, 4, { 0xC1, 0x02, 0xE3, 0x01 } },
        { MSDTP_UNASSIGNED, 0, 0, 1, { 0xC0 } },
        { MSDTP_TOO_DEEP, 32, 0, 33,
          { 0xC2, 31, 0xC2, 29, 0xC2, 27, 0xC2, 25, 0xC2, 23, 0xC2, 21, 0xC2, 19, 0xC2, 17,
            0xC2, 15, 0xC2, 13, 0xC2, 11, 0xC2, 9, 0xC2, 7, 0xC2, 5, 0xC2, 3, 0xC2, 1, 0xC2 } },
        { MSDTP_BAD_BITS, 0, 0, 2, { 0xF1, 0x00 } },
        { MSDTP_BAD_REPEAT, 0, 0, 1, { 0xC4 } },
        { MSDTP_SEVERAL_KINDS, 0, 0, 4, { 0xC5, 0x02, 0x81, 0x41 } },
        { MSDTP_BAD_EDT, 0, 0, 3, { 0xC3, 0x81, 0x00 } },
    };
    size_t i, more;
    int byte, good = 1;

    for (i = 0; i < sizeof cases / sizeof *cases; i++) {
        for (byte = 0; byte < 256; byte++) {
            memset(message, byte, sizeof message);
            memcpy(message, cases[i].bytes, cases[i].length);
            for (more = 0; more < 20; more++) {
                good = good && reads_as(cases[i].length + more, cases[i].number,
                                        cases[i].place, cases[i].missing);
            }
        }
    }
    check("a bad message, whatever comes behind it", good);
}

/* With 14, as with 0 and 15, normalising tells that nothing is missing. */
static void check_long(void)
{
    static const uint8_t bytes[] = {
        0xC2, 0x0A, 0xC4, 0x08, 0xE2, 0x3F, 0xFF, 0xE4, 0x40, 0x00, 0x00, 0x00
    };
    struct msdtp_normalising n;

    n = msdtp_normalise(bytes, sizeof bytes, table, MSDTP_TABLE_WORDS, output, MSDTP_OUTPUT_BYTES);
    check("nothing missing with 14", n.number == MSDTP_NORMAL_LONG && n.place == 0
          && n.words == 4 + 3 * MSDTP_ROW_LIMIT && n.length == 0 && n.missing == 0);
}

void check_missing(void)
{
    check_few();
    check_cap();
    check_falling();
    check_bad();
    check_long();
}
