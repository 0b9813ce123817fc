/* A peers.dat of any format: an input is its bytes between the magic and the checksum, which are put right. What is
 * read is written, read and written again, and a peer is selected. */
#include "common.h"

static void select_one(addrman *am, uint64_t from) {
    uint64_t words[12];
    addrman_picked picked;
    for (int i = 0; i < 12; i++)
        words[i] = from * (uint64_t)(2 * i + 1);
    addrman_result result = addrman_select(am, false, ADDRMAN_ALL_NETS, words, 12, 1700000000, &picked);
    CHECK(result == ADDRMAN_OK || result == ADDRMAN_NONE || result == ADDRMAN_EXHAUSTED);
}

static void write_again(addrman *am) {
    addrman again = ADDRMAN_INIT;
    addrman_fault fault;
    size_t length = 0, second = 0;
    CHECK(addrman_write_file(am, ADDRMAN_MAIN, NULL, 0, &length) == ADDRMAN_ERR_SHORT_BUFFER);
    uint8_t *out = malloc(length), *other = malloc(length);
    CHECK(addrman_write_file(am, ADDRMAN_MAIN, out, length, &second) == ADDRMAN_OK && second == length);
    CHECK(addrman_open_file(&again, out, length, ADDRMAN_MAIN, seed, NULL, 0, &fault) == ADDRMAN_OK);
    CHECK(addrman_write_file(&again, ADDRMAN_MAIN, other, length, &second) == ADDRMAN_OK);
    CHECK(second == length && !memcmp(out, other, length));
    addrman_close(&again);
    free(out);
    free(other);
}

int LLVMFuzzerTestOneInput(const uint8_t *bytes, size_t length) {
    uint8_t *file = malloc(length + 36);
    addrman am = ADDRMAN_INIT;
    addrman_fault fault;
    memcpy(file, "\xf9\xbe\xb4\xd9", 4);
    if (length)
        memcpy(file + 4, bytes, length);
    checksum(file, length + 4, file + length + 4);
    addrman_result result = addrman_open_file(&am, file, length + 36, ADDRMAN_MAIN, seed, NULL, 0, &fault);
    CHECK(result == ADDRMAN_OK || result == ADDRMAN_ERR_REFUSED);
    CHECK(!result || fault.kind != ADDRMAN_FAULT_BAD_SUM);
    if (!result) {
        write_again(&am);
        select_one(&am, length * 0x9e3779b97f4a7c15u + 1);
    }
    addrman_close(&am);
    free(file);
    return 0;
}
