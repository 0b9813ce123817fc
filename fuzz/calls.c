/* A log of calls: each is a byte that names it, and the numbers that it takes. Peers are of few groups, so that slots
 * collide, and times are small steps. At the end the tables are saved, read, and saved again. */
#include "common.h"

static addrman_peer peer_of(uint64_t number) {
    addrman_peer peer;
    memset(&peer, 0, sizeof peer);
    peer.addr.network = ADDRMAN_IPV4;
    peer.addr.length = 4;
    peer.addr.bytes[0] = (uint8_t)(20 + number % 3);
    peer.addr.bytes[1] = (uint8_t)(number >> 2 & 3);
    peer.addr.bytes[2] = (uint8_t)(number >> 8);
    peer.addr.bytes[3] = (uint8_t)(number >> 16);
    peer.port = 8333;
    return peer;
}

static void call(addrman *am, const uint8_t **bytes, size_t *length, uint32_t *now) {
    uint32_t kind = (uint32_t)next_number(bytes, length, 1) % 10, found = 0;
    addrman_peer peer = peer_of(next_number(bytes, length, 3)), source = peer_of(next_number(bytes, length, 1));
    uint64_t words[16];
    addrman_picked picked;
    addrman_resolved resolved;
    addrman_result result = ADDRMAN_OK;
    for (int i = 0; i < 16; i++)
        words[i] = ((uint64_t)*now << 32 | kind) * (0x9e3779b97f4a7c15u + 2 * (uint64_t)i);
    switch (kind) {
    case 0: case 1: case 2:
        result = addrman_add(am, &peer, &source.addr, *now - 600, 1, 0, words[0], *now, &found);
        break;
    case 3: result = addrman_good(am, &peer, true, *now, &found); break;
    case 4: result = addrman_good(am, &peer, false, *now, &found); break;
    case 5: result = addrman_attempt(am, &peer, true, *now, &found); break;
    case 6: result = addrman_connected(am, &peer, *now, &found); break;
    case 7:
        result = addrman_select(am, words[0] & 1, ADDRMAN_ALL_NETS, words, 16, *now, &picked);
        CHECK(result == ADDRMAN_OK || result == ADDRMAN_NONE || result == ADDRMAN_EXHAUSTED);
        return;
    case 8: result = addrman_resolve_collisions(am, *now, &resolved); break;
    default:
        *now += (uint32_t)next_number(bytes, length, 1) * 301;
        result = addrman_select_collision(am, words[0], &picked);
        CHECK(result == ADDRMAN_OK || result == ADDRMAN_NONE);
        return;
    }
    CHECK(result == ADDRMAN_OK);
}

int LLVMFuzzerTestOneInput(const uint8_t *bytes, size_t length) {
    addrman am = ADDRMAN_INIT, again = ADDRMAN_INIT;
    addrman_fault fault;
    addrman_counts before, after;
    uint32_t now = 1700000000;
    const uint8_t key[32] = {1};
    size_t size = 0, second = 0;
    CHECK(!addrman_open(&am, key, seed, NULL, 0));
    while (length)
        call(&am, &bytes, &length, &now);
    CHECK(addrman_write_file(&am, ADDRMAN_MAIN, NULL, 0, &size) == ADDRMAN_ERR_SHORT_BUFFER);
    uint8_t *out = malloc(size);
    CHECK(!addrman_write_file(&am, ADDRMAN_MAIN, out, size, &second) && second == size);
    CHECK(!addrman_open_file(&again, out, size, ADDRMAN_MAIN, seed, NULL, 0, &fault));
    CHECK(!addrman_size(&am, &before) && !addrman_size(&again, &after));
    CHECK(before.new_count == after.new_count && before.tried_count == after.tried_count);
    addrman_close(&am);
    addrman_close(&again);
    free(out);
    return 0;
}
