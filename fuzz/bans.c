/* A banlist.json: what is read is written, read and written again. */
#include "common.h"

int LLVMFuzzerTestOneInput(const uint8_t *bytes, size_t length) {
    addrman_bans bans = ADDRMAN_BANS_INIT, again = ADDRMAN_BANS_INIT;
    addrman_fault fault;
    size_t first = 0, second = 0;
    addrman_result result = addrman_bans_open(&bans, (const char *)bytes, length, &fault);
    CHECK(result == ADDRMAN_OK || result == ADDRMAN_ERR_REFUSED);
    if (result)
        return 0;
    CHECK(addrman_bans_write(&bans, NULL, 0, &first) == ADDRMAN_ERR_SHORT_BUFFER);
    char *out = malloc(first), *other = malloc(first);
    CHECK(!addrman_bans_write(&bans, out, first, &second) && second == first);
    CHECK(!addrman_bans_open(&again, out, first, &fault));
    CHECK(!addrman_bans_write(&again, other, first, &second));
    CHECK(second == first && !memcmp(out, other, first));
    addrman_bans_close(&bans);
    addrman_bans_close(&again);
    free(out);
    free(other);
    return 0;
}
