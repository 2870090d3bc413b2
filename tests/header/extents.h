/* Where objects end and contents begin, as the header tells of extents. C99, and C++ as well. */

#ifndef HEADER_EXTENTS_H
#define HEADER_EXTENTS_H

#include "msdtp.h"

/* An object's extent; 0 where it is not known or passes the end of so many bytes. */
size_t extent_of(const uint8_t *object, size_t length);

/* Where in an object of C1 to C6, whose size field is whole, the contents begin. */
size_t contents_of(const uint8_t *object);

#endif
