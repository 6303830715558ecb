/* One input for every function of the library that takes bytes; aborts if an answer differs from the reference's, or if a
   place is written that must not be. */
#ifndef HARNESS_H
#define HARNESS_H

#include <stddef.h>
#include <stdint.h>

void try_bytes(const uint8_t *bytes, size_t length);

#endif
