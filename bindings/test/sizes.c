/*
 * No clause says that memory suffices: a call that answers ADDRMAN_ERR_MEMORY from some size on
 * would keep them all. So each call that may answer it is made here at its largest size, or at a
 * large one where there is no largest, and answers ADDRMAN_OK.
 */
#include "../addrman.h"

#include <stdio.h>
#include <stdlib.h>
#include <string.h>

enum { NOW = 1700000000, ADDED = 600000, REACHED = 120000, ENTRIES = 1000, ROWS = 2000000, BANS = 100000, SETS = 1000, CONNECTIONS = 100000,
       KEYS = 64 };

static const uint8_t key[32];
static const uint64_t seed[2] = { 1, 2 };
static unsigned calls;
static uint64_t state;

static uint64_t draw(void)
{
    uint64_t z = (state += 0x9e3779b97f4a7c15u);
    z = (z ^ z >> 30) * 0xbf58476d1ce4e5b9u;
    z = (z ^ z >> 27) * 0x94d049bb133111ebu;
    return z ^ z >> 31;
}

static void fail(const char *name, unsigned long number)
{
    printf("sizes.c: %s: %lu\n", name, number);
    exit(1);
}

/* A call at its largest size. */
static void must(const char *name, uint32_t code)
{
    if (code) fail(name, code);
    calls++;
}

static void want(const char *name, bool holds)
{
    if (!holds) fail(name, 0);
}

static void *room(size_t size)
{
    void *out = malloc(size);
    if (!out) fail("no room for the test itself", size);
    return out;
}

/* A peer of one of many groups. */
static addrman_peer peer_of(uint64_t i)
{
    uint64_t r = i * 0x9e3779b97f4a7c15u;
    addrman_peer peer = { { { (uint8_t)(20 + (r >> 56) % 80), (uint8_t)(r >> 48), (uint8_t)(r >> 40), (uint8_t)(r >> 32) }, ADDRMAN_IPV4, 4 },
                          (uint16_t)(1 + i) };
    return peer;
}

/* Tables in which hardly a slot is free. */
static void fill(addrman *am)
{
    uint32_t answer;
    for (uint32_t i = 0; i < ADDED; i++) {
        addrman_peer peer = peer_of(i);
        addrman_addr source = { { (uint8_t)(100 + i % 80), (uint8_t)(i / 80), 1, 1 }, ADDRMAN_IPV4, 4 };
        uint32_t code = addrman_add(am, &peer, &source, NOW, 1033, 0, draw(), NOW, &answer);
        if (!code && i < REACHED) code = addrman_good(am, &peer, false, NOW, &answer);
        if (code) fail("add or good", code);
    }
    calls++;
}

static void tables(addrman *am, const uint8_t *map, size_t map_length)
{
    addrman_counts counts;
    addrman_fault fault;
    addrman loaded = ADDRMAN_INIT;
    addrman_save save = ADDRMAN_SAVE_INIT;
    addrman_shares shares;
    addrman_answers answers = ADDRMAN_ANSWERS_INIT;
    addrman_bans none = ADDRMAN_BANS_INIT;
    size_t length, file_length;
    uint32_t what;
    must("open with an asmap", addrman_open(am, key, seed, map, map_length));
    must("open_core", addrman_open_core(&loaded, key, seed, map, map_length));
    must("open", addrman_open(am, key, seed, NULL, 0)); /* an asmap of few numbers leaves slots free */
    fill(am);
    if (addrman_size(am, &counts)) fail("size", 0);
    size_t count = counts.new_count + counts.tried_count;
    if (counts.new_count < 60000 || counts.tried_count < 16000) fail("tables with free slots", counts.new_count);
    uint64_t *words = room((count + 1) * sizeof *words);
    for (size_t i = 0; i <= count; i++) words[i] = draw();
    addrman_peer *peers = room(count * sizeof *peers);
    addrman_entry *entries = room(count * sizeof *entries);
    addrman_record *records = room(count * sizeof *records);
    addrman_set *sets = room(SETS * sizeof *sets);
    must("sample", addrman_sample(am, 0, 100, ADDRMAN_ALL_NETS, words, count, NOW, peers, count, &length));
    want("a sample of all", length == count);
    must("sample_entries", addrman_sample_entries(am, 0, 100, ADDRMAN_ALL_NETS, words, count, NOW, entries, count, &length));
    must("sample_unfiltered", addrman_sample_unfiltered(am, 0, 100, ADDRMAN_ALL_NETS, words, count, records, count, &length));
    want("an unfiltered sample of all", length == count);
    must("records", addrman_records(am, records, count, &length));
    for (int i = 0; i < SETS; i++) sets[i] = (addrman_set) { { { (uint8_t)(20 + i % 80), (uint8_t)i }, ADDRMAN_IPV4, 4 }, 16, 0 };
    must("risk", addrman_risk(am, sets, SETS, NOW, &shares));

    file_length = ADDRMAN_FILE_ROOM(count);
    uint8_t *file = room(file_length);
    must("write_file", addrman_write_file(am, ADDRMAN_MAIN, file, file_length, &file_length));
    must("open_file", addrman_open_file(&loaded, file, file_length, ADDRMAN_MAIN, seed, map, map_length, &fault));
    must("open_file_core", addrman_open_file_core(&loaded, file, file_length, ADDRMAN_MAIN, seed, map, map_length, &fault));
    must("save_begin", addrman_save_begin(&save, am, ADDRMAN_MAIN, UINT32_MAX));
    for (int i = 0; i < 2; i++) {
        if (addrman_save_next(&save, &what, file, file_length, &length) || addrman_save_done(&save, true)) fail("save", i);
    }
    want("a save in one piece", what == ADDRMAN_APPEND && length == file_length);

    must("answers_open", addrman_answers_open(&answers));
    if (addrman_bans_open(&none, NULL, 0, &fault)) fail("bans_open", 0);
    for (uint32_t i = 0; i < KEYS; i++) {
        uint32_t code = addrman_answer(&answers, am, &none, ADDRMAN_IPV4, i, true, false, NOW, words, count + 1, file, file_length, &length);
        if (code || length < 13 * 1000) fail("answer", code);
    }
    calls++;

    addrman_close(am);
    addrman_close(&loaded);
    addrman_save_close(&save);
    addrman_answers_close(&answers);
    addrman_bans_close(&none);
    free(words);
    free(peers);
    free(entries);
    free(records);
    free(sets);
    free(file);
}

static void messages(addrman *am, addrman_bans *bans)
{
    static uint8_t longest[3 + ENTRIES * 530], payload[3 + ENTRIES * 30];
    static uint64_t words[2 * ENTRIES];
    addrman_entry entries[ENTRIES];
    addrman_added added;
    addrman_fault fault;
    addrman_addr source = { { 1, 2, 3, 4 }, ADDRMAN_IPV4, 4 };
    size_t length, end = 3;
    uint32_t count;
    must("open", addrman_open(am, key, seed, NULL, 0));
    for (int i = 0; i < ENTRIES; i++) entries[i] = (addrman_entry) { 1033, peer_of((uint64_t)i), NOW };
    must("write_message", addrman_write_message(true, entries, ENTRIES, payload, sizeof payload, &length));
    must("take_message", addrman_take_message(am, true, payload, length, &source, words, ENTRIES, NOW, &added, &fault));
    must("take_first", addrman_take_first(am, true, payload, length, &source, ENTRIES, words, ENTRIES, NOW, &added, &fault));
    must("take_chosen", addrman_take_chosen(am, true, payload, length, &source, ENTRIES, 1, ADDRMAN_ALL_NETS, words, 2 * ENTRIES, NOW, &added,
                                            &fault));
    must("take_unbanned", addrman_take_unbanned(am, bans, true, payload, length, &source, ENTRIES, 1, ADDRMAN_ALL_NETS, words, 2 * ENTRIES, NOW,
                                                &added, &fault));
    want("all entries", added.total == ENTRIES);
    /* Entries of a network that nobody knows, whose addresses have 512 bytes. */
    memcpy(longest, "\xfd\xe8\x03", 3);
    for (int i = 0; i < ENTRIES; i++, end += 530)
        memcpy(longest + end, "\0\xf1\x53\x65\x01\x63\xfd\0\x02", 9), memset(longest + end + 9, 7, 514);
    for (int i = 0; i < ENTRIES; i++) memmove(longest + 3 + i * 523, longest + 3 + i * 530, 523);
    must("message_count", addrman_message_count(true, longest, 3 + ENTRIES * 523, &count, &fault));
    want("the entries of a long message", count == ENTRIES);
    must("read_message", addrman_read_message(true, payload, length, entries, ENTRIES, &length, &fault));
    want("its entries", length == ENTRIES);
    for (uint64_t i = 0; i < 10; i++) {
        addrman_peer peer = { { { (uint8_t)(20 + i), 1, 1, 1 }, ADDRMAN_IPV4, 4 }, 8333 };
        if (addrman_opener_add(am, &peer)) fail("opener_add", i);
    }
    addrman_peer open[10];
    must("opener_peers", addrman_opener_peers(am, open, 10, &length));
    addrman_close(am);
}

/* As many rows as a table may have, a number each that its neighbours have not. */
static uint8_t *asmap(size_t *map_length)
{
    size_t most = (size_t)ROWS * 32, length = 0, map_room = 8388608, back;
    char *table = room(most), *text = room(most);
    uint8_t *map = room(map_room);
    addrman_fault fault;
    for (unsigned i = 0; i < ROWS; i++)
        length += (size_t)sprintf(table + length, "%u.%u.%u.0/24 AS%u\n", 1 + (i >> 16), i >> 8 & 255, i & 255, 1 + i % 7);
    must("asmap_compile", addrman_asmap_compile(table, length, map, map_room, map_length, &fault));
    must("asmap_decompile", addrman_asmap_decompile(map, *map_length, text, most, &back, &fault));
    want("the same table", back == length && !memcmp(table, text, length));
    length += (size_t)sprintf(table + length, "1.0.0.0/8 AS9\n");
    want("a row too many", addrman_asmap_compile(table, length, map, map_room, &back, &fault) == ADDRMAN_ERR_REFUSED
         && fault.kind == ADDRMAN_FAULT_TOO_MANY);
    free(table);
    free(text);
    return map;
}

static void bans_of(addrman_bans *bans)
{
    size_t most = (size_t)BANS * 100 + 100, length = 0;
    char *json = room(most);
    addrman_fault fault;
    uint32_t reply;
    length += (size_t)sprintf(json, "{\"banned_nets\":[");
    for (unsigned i = 0; i < BANS - 1; i++)
        length += (size_t)sprintf(json + length, "%s{\"version\":1,\"ban_created\":1,\"banned_until\":4000000000,\"address\":\"%u.%u.%u.0/24\"}",
                                  i ? "," : "", 240 + (i >> 16), i >> 8 & 255, i & 255);
    length += (size_t)sprintf(json + length, "]}");
    must("bans_open", addrman_bans_open(bans, json, length, &fault));
    must("bans_add", addrman_bans_add(bans, "9.9.9.9", 7, NOW, NOW + 9, &reply));
    want("the last ban that there is room for", reply == ADDRMAN_BAN_ADDED);
    if (addrman_bans_add(bans, "9.9.9.8", 7, NOW, NOW + 9, &reply) || reply != ADDRMAN_BAN_FULL) fail("a ban too many", reply);
    must("bans_write", addrman_bans_write(bans, json, most, &length));
    free(json);
}

static void limits(void)
{
    addrman_limiter limiter = ADDRMAN_LIMITER_INIT;
    addrman_addr source = { { 1, 2, 3, 4 }, ADDRMAN_IPV4, 4 };
    must("limiter_open", addrman_limiter_open(&limiter));
    for (uint32_t i = 0; i < CONNECTIONS; i++) {
        uint32_t is_new, code = addrman_limiter_add(&limiter, i, &source, false, NOW, &is_new);
        if (code || !is_new) fail("limiter_add", i);
    }
    calls++;
    addrman_limiter_close(&limiter);
}

int main(void)
{
    addrman am = ADDRMAN_INIT;
    addrman_bans bans = ADDRMAN_BANS_INIT;
    size_t map_length;
    uint8_t *map = asmap(&map_length);
    bans_of(&bans);
    messages(&am, &bans);
    tables(&am, map, map_length);
    limits();
    addrman_bans_close(&bans);
    free(map);
    printf("%u calls that may lack memory answer at their largest sizes\n", calls);
    return 0;
}
