/* The payload of an addr or, if the first byte is odd, of an addrv2 message: read, counted, written, and taken. */
#include "common.h"

static void take(bool is_v2, const uint8_t *payload, size_t length) {
    addrman am = ADDRMAN_INIT;
    addrman_fault fault;
    addrman_added added;
    addrman_addr source;
    const uint8_t key[32] = {1};
    static uint64_t words[1000] = {5};
    CHECK(!addrman_open(&am, key, seed, NULL, 0));
    CHECK(!addrman_addr_parse("1.2.3.4", 7, &source));
    CHECK(!addrman_take_message(&am, is_v2, payload, length, &source, words, 1000, 1700000000, &added, &fault));
    CHECK(added.accepted <= added.total && added.total <= 1000);
    addrman_close(&am);
}

int LLVMFuzzerTestOneInput(const uint8_t *bytes, size_t length) {
    static addrman_entry entries[1000], again[1000];
    static uint8_t out[60000];
    addrman_fault fault, other;
    size_t listed = 0, written = 0, relisted = 0;
    uint32_t count = 0;
    if (!length)
        return 0;
    bool is_v2 = bytes[0] & 1;
    bytes++;
    length--;
    addrman_result result = addrman_read_message(is_v2, bytes, length, entries, 1000, &listed, &fault);
    CHECK(result == ADDRMAN_OK || result == ADDRMAN_ERR_REFUSED);
    CHECK(addrman_message_count(is_v2, bytes, length, &count, &other) == result);
    if (result) {
        CHECK(fault.kind == other.kind && fault.at == other.at);
        return 0;
    }
    CHECK(listed <= count && count <= 1000);
    CHECK(!addrman_write_message(is_v2, entries, listed, out, sizeof out, &written));
    CHECK(!addrman_read_message(is_v2, out, written, again, 1000, &relisted, &fault));
    size_t fitting = 0;
    for (size_t i = 0; i < listed; i++) {
        addrman_network net = entries[i].peer.addr.network;
        fitting += is_v2 ? net != ADDRMAN_INTERNAL : net == ADDRMAN_IPV4 || net == ADDRMAN_IPV6;
    }
    CHECK(relisted == fitting);
    if (is_v2 && listed == count && fitting == count && written == length)
        CHECK(!memcmp(out, bytes, length));
    take(is_v2, bytes, length);
    return 0;
}
