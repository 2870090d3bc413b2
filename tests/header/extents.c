/* How far an object reaches, by its type-byte and its size. */

#include "extents.h"

/* The low bits of a byte, of which none means one more than all. */
static size_t counted(uint8_t byte, size_t most)
{
    return byte % most > 0 ? byte % most : most;
}

/*
 * The bytes of a size field and of what it tells; more than there are where the
 * field itself is not whole.
 */
static size_t sized(const uint8_t *field, size_t length)
{
    size_t more, size = 0, i;

    if (length == 0) {
        return 1;
    }
    if (field[0] < 0x80) {
        return 1 + counted(field[0], 128);
    }
    more = counted(field[0], 128);
    if (length < 1 + more) {
        return 1 + more;
    }
    for (i = 0; i < more && size <= MSDTP_BYTE_LIMIT; i++) {
        size = 256 * size + field[1 + i];
    }
    return 1 + more + size;
}

size_t extent_of(const uint8_t *object, size_t length)
{
    const uint8_t type = object[0];
    size_t extent = 1;

    if (type == 0xC0 || (type >= 0xE8 && type <= 0xEF)) {
        return 0;
    }
    if (type >= 0xC1 && type <= 0xDF) {
        extent += sized(object + 1, length - 1);
    } else if (type >= 0xE0 && type <= 0xF7) {
        extent += counted(type, 8);
    }
    return extent <= length ? extent : 0;
}

size_t contents_of(const uint8_t *object)
{
    return object[1] < 0x80 ? 2 : 2 + counted(object[1], 128);
}
