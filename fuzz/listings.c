/* A listing of both tables, as `getrawaddrman` of Bitcoin Core and `addrman raw` print it. */
#include "common.h"

bool target_listing(const uint8_t *bytes, size_t length);

int LLVMFuzzerTestOneInput(const uint8_t *bytes, size_t length) {
    target_listing(bytes, length);
    return 0;
}
