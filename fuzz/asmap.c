/* An asmap: one that is sane is decompiled, and its table compiles to an asmap that is sane; tables with it open. */
#include "common.h"

int LLVMFuzzerTestOneInput(const uint8_t *bytes, size_t length) {
    static char table[1 << 20];
    static uint8_t out[1 << 20];
    addrman_fault fault;
    size_t text = 0, compiled = 0;
    addrman_result sane = addrman_asmap_check(bytes, length);
    CHECK(sane == ADDRMAN_OK || sane == ADDRMAN_ERR_REFUSED);
    addrman_result result = addrman_asmap_decompile(bytes, length, table, sizeof table, &text, &fault);
    if (sane) {
        CHECK(result == ADDRMAN_ERR_REFUSED);
        return 0;
    }
    if (length) {
        addrman am = ADDRMAN_INIT;
        addrman_addr addr;
        uint32_t number = 0;
        const uint8_t key[32] = {1};
        CHECK(!addrman_open(&am, key, seed, bytes, length));
        CHECK(!addrman_addr_parse("8.8.8.8", 7, &addr));
        CHECK(!addrman_asn(&am, &addr, &number));
        addrman_close(&am);
    }
    if (result == ADDRMAN_ERR_SHORT_BUFFER || result == ADDRMAN_ERR_REFUSED)
        return 0;
    CHECK(result == ADDRMAN_OK);
    if (!text)
        return 0;
    CHECK(!addrman_asmap_compile(table, text, out, sizeof out, &compiled, &fault));
    CHECK(!addrman_asmap_check(out, compiled));
    return 0;
}
