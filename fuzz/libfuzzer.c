/* The entry for libFuzzer. */
#include "harness.h"

int LLVMFuzzerTestOneInput(const uint8_t *bytes, size_t length) {
    try_bytes(bytes, length);
    return 0;
}
