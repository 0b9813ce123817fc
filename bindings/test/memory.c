/*
 * Each allocation of a history fails in turn: the call that wants it answers ADDRMAN_ERR_MEMORY, or
 * does without it; nothing but that call fails, and everything can be used and closed afterwards.
 * Linked with -Wl,--wrap=malloc -Wl,--wrap=realloc.
 */
#include "../addrman.h"

#include <stdio.h>
#include <string.h>

static long left; /* allocations until one fails; 0: none does */

void *__real_malloc(size_t size);
void *__real_realloc(void *old, size_t size);
void *__wrap_malloc(size_t size);
void *__wrap_realloc(void *old, size_t size);

static bool fails(void)
{
    return left > 0 && --left == 0;
}

void *__wrap_malloc(size_t size)
{
    return fails() ? NULL : __real_malloc(size);
}

void *__wrap_realloc(void *old, size_t size)
{
    return fails() ? NULL : __real_realloc(old, size);
}

enum { CALLS = 26 };
static const char *names[CALLS] = { "open", "take_message", "good", "add", "select", "sample", "records", "peer_text",
                                    "write_file", "open_file", "save_begin", "asmap_compile", "asmap_decompile",
                                    "bans_open", "answers_open", "answer", "message_count", "read_message", "write_message",
                                    "name_text", "sample_entries", "take_chosen", "opener_peers", "take_unbanned", "risk",
                                    "sample_unfiltered" };

/* An addr message of three entries. */
static size_t fill(uint8_t *out)
{
    static const uint8_t entry[26] = { 0x00, 0xf1, 0x53, 0x65, 1, 0, 0, 0, 0, 0, 0, 0, 0, 0, 0, 0, 0, 0, 0, 0, 0, 0, 0xff, 0xff, 8, 8 };
    uint8_t *p = out;
    *p++ = 3;
    for (uint8_t i = 1; i <= 3; i++) {
        memcpy(p, entry, sizeof entry);
        p += sizeof entry;
        *p++ = i;
        *p++ = 8;
        *p++ = 0x20;
        *p++ = 0x8d;
    }
    return (size_t)(p - out);
}

/* Whether an object that is open knows a number by its asmap, whose bytes are gone. */
static bool knows(addrman *am, const addrman_addr *addr)
{
    uint32_t asn, code = addrman_asn(am, addr, &asn);
    return code == ADDRMAN_ERR_CLOSED || (code == ADDRMAN_OK && asn == 5);
}

int main(void)
{
    static const char table[] = "1.2.3.0/24 AS5\n";
    static const uint8_t key[32];
    static const uint64_t seed[2] = { 1, 2 }, words[12] = { 1, 2, 3, 4, 5, 6, 7, 8, 9, 10, 11, 12 };
    static uint8_t payload[100], file[100000], map[1000], given[1000];
    size_t payload_length = fill(payload);
    size_t given_length = 0;
    addrman_fault none;
    if (addrman_asmap_compile(table, sizeof table - 1, given, sizeof given, &given_length, &none)) return 1;
    unsigned wanted[CALLS] = { 0 }, without = 0;
    for (long fail = 1;; fail++) {
        addrman a = ADDRMAN_INIT, b = ADDRMAN_INIT;
        addrman_addr source = { { 1, 2, 3, 4 }, ADDRMAN_IPV4, 4 };
        addrman_peer peer = { { { 8, 8, 1, 8 }, ADDRMAN_IPV4, 4 }, 8333 }, peers[9];
        addrman_record records[9];
        addrman_added added;
        addrman_fault fault;
        addrman_picked picked;
        addrman_counts counts;
        char text[100];
        uint32_t answer, code[CALLS];
        size_t length = 0, map_length = 0, sampled = 77;
        addrman_save job = ADDRMAN_SAVE_INIT;
        addrman_bans bans = ADDRMAN_BANS_INIT;
        addrman_answers answers = ADDRMAN_ANSWERS_INIT;
        left = fail;
        memcpy(map, given, given_length);
        code[0] = addrman_open(&a, key, seed, map, given_length);
        memset(map, 0xff, given_length);
        code[1] = addrman_take_message(&a, false, payload, payload_length, &source, words, 3, 1700000000, &added, &fault);
        code[2] = addrman_good(&a, &peer, true, 1700000001, &answer);
        code[3] = addrman_add(&a, &peer, &source, 1700000000, 1, 7200, 0, 1700000002, &answer);
        code[4] = addrman_select(&a, false, ADDRMAN_ALL_NETS, words, 12, 1700000003, &picked);
        code[5] = addrman_sample(&a, 0, 0, ADDRMAN_ALL_NETS, words, 12, 1700000004, peers, 9, &sampled);
        code[6] = addrman_records(&a, records, 9, &length);
        code[7] = addrman_peer_text(&peer, text, sizeof text, &length);
        code[8] = addrman_write_file(&a, ADDRMAN_MAIN, file, sizeof file, &length);
        memcpy(map, given, given_length);
        code[9] = code[8] ? 0 : addrman_open_file(&b, file, length, ADDRMAN_MAIN, seed, map, given_length, &fault);
        memset(map, 0xff, given_length);
        code[10] = addrman_save_begin(&job, &a, ADDRMAN_MAIN, 1000);
        code[11] = addrman_asmap_compile(table, sizeof table - 1, map, sizeof map, &map_length, &fault);
        code[12] = code[11] ? 0 : addrman_asmap_decompile(map, map_length, text, sizeof text, &length, &fault);
        code[13] = addrman_bans_open(&bans, "{\"banned_nets\":[]}", 18, &fault);
        code[14] = addrman_answers_open(&answers);
        code[15] = addrman_answer(&answers, &a, &bans, ADDRMAN_IPV4, 0, true, false, 1700000005, words, 12, file, sizeof file, &length);
        addrman_entry entries[3], some[9];
        code[16] = addrman_message_count(false, payload, payload_length, &answer, &fault);
        code[17] = addrman_read_message(false, payload, payload_length, entries, 3, &length, &fault);
        code[18] = code[17] ? 0 : addrman_write_message(false, entries, length, file, sizeof file, &length);
        code[19] = addrman_name_text(&source, text, sizeof text, &length);
        code[20] = addrman_sample_entries(&a, 0, 0, ADDRMAN_ALL_NETS, words, 12, 1700000006, some, 9, &length);
        code[21] = addrman_take_chosen(&a, false, payload, payload_length, &source, 3, 1, ADDRMAN_ALL_NETS, words, 6, 1700000007, &added,
                                       &fault);
        code[23] = addrman_take_unbanned(&a, &bans, false, payload, payload_length, &source, 3, 1, ADDRMAN_ALL_NETS, words, 6, 1700000007,
                                         &added, &fault);
        answer = addrman_opener_add(&a, &peer);
        code[22] = answer ? 0 : addrman_opener_peers(&a, peers, 9, &length);
        const addrman_set set = { { { 8, 8 }, ADDRMAN_IPV4, 4 }, 16, 0 };
        addrman_shares shares;
        code[24] = addrman_risk(&a, &set, 1, 1700000007, &shares);
        code[25] = addrman_sample_unfiltered(&a, 0, 0, ADDRMAN_ALL_NETS, words, 12, records, 9, &length);
        bool reached = left == 0;
        left = 0;
        unsigned failed = 0;
        for (int i = 0; i < CALLS; i++) {
            if (code[i] == ADDRMAN_ERR_MEMORY) {
                wanted[i]++;
                failed++;
            } else if (code[i] && code[i] != ADDRMAN_NONE && code[i] != ADDRMAN_EXHAUSTED
                       && !((code[0] || ((i == 15 || i == 23) && (code[13] || code[14]))) && code[i] == ADDRMAN_ERR_CLOSED)) {
                printf("allocation %ld: %s returned %u\n", fail, names[i], code[i]);
                return 1;
            }
        }
        if (failed > 1 || (code[0] == ADDRMAN_OK && addrman_size(&a, &counts) != ADDRMAN_OK)) {
            printf("allocation %ld: %u calls had no memory\n", fail, failed);
            return 1;
        }
        if (code[5] == ADDRMAN_ERR_MEMORY && sampled != 77) {
            printf("allocation %ld: sample wrote a length without memory\n", fail);
            return 1;
        }
        if (!knows(&a, &source) || !knows(&b, &source)) {
            printf("allocation %ld: an object has no copy of its asmap\n", fail);
            return 1;
        }
        addrman_close(&a);
        addrman_close(&b);
        addrman_save_close(&job);
        addrman_bans_close(&bans);
        addrman_answers_close(&answers);
        if (!reached) {
            printf("%ld allocations failed in turn;", fail - 1);
            for (int i = 0; i < CALLS; i++)
                if (wanted[i]) printf(" %s %u", names[i], wanted[i]);
            printf("; answered all the same %u\n", without);
            return 0;
        }
        if (!failed) without++;
    }
}
