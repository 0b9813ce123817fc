/* A table of prefixes: what compiles is a sane asmap, and decompiles to a table that compiles to the same bytes. */
#include "common.h"

int LLVMFuzzerTestOneInput(const uint8_t *bytes, size_t length) {
    static uint8_t out[1 << 20], again[1 << 20];
    static char table[1 << 20];
    addrman_fault fault;
    size_t compiled = 0, text = 0, second = 0;
    addrman_result result =
        addrman_asmap_compile((const char *)bytes, length, out, sizeof out, &compiled, &fault);
    CHECK(result == ADDRMAN_OK || result == ADDRMAN_ERR_REFUSED);
    if (result)
        return 0;
    CHECK(!addrman_asmap_check(out, compiled));
    result = addrman_asmap_decompile(out, compiled, table, sizeof table, &text, &fault);
    CHECK(result == ADDRMAN_OK || result == ADDRMAN_ERR_SHORT_BUFFER);
    if (result || !text)
        return 0;
    CHECK(!addrman_asmap_compile(table, text, again, sizeof again, &second, &fault));
    CHECK(second == compiled && !memcmp(again, out, compiled));
    return 0;
}
