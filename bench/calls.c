/*
 * The calls of `bench calls KIND TIMES` (plain/bench), by libaddrman: calls KIND TIMES. It prints the
 * same sum, and with `stack` as the kind how many bytes of stack the calls use at most.
 */
#include "addrman.h"

#include <inttypes.h>
#include <pthread.h>
#include <stdio.h>
#include <stdlib.h>
#include <string.h>

enum { NOW = 1700000000, PEERS = 20000, WORDS = 1000, ENTRY = 30, STACK = 1 << 20 };

static addrman am = ADDRMAN_INIT;
static uint64_t words[WORDS];

static void fail(const char *what, unsigned code)
{
    fprintf(stderr, "%s: %u\n", what, code);
    exit(1);
}

static addrman_addr address(uint64_t index)
{
    addrman_addr out = { { (uint8_t)(20 + index % 64), (uint8_t)(index / 64), (uint8_t)(index / 16384), 1 }, ADDRMAN_IPV4, 4 };
    return out;
}

static addrman_addr source(uint64_t index)
{
    return address(index / 1000 * 65);
}

static uint64_t add_one(uint64_t index)
{
    addrman_peer peer = { address(index), 8333 };
    addrman_addr from = source(index);
    uint32_t accepted, code = addrman_add(&am, &peer, &from, NOW, 1, 7200, index, NOW, &accepted);
    if (code) fail("add", code);
    return accepted;
}

static uint64_t take_one(uint64_t first)
{
    static const uint8_t start[24] = { 0x00, 0xf1, 0x53, 0x65, 1, [22] = 0xff, 0xff };
    static uint8_t payload[3 + 1000 * ENTRY];
    addrman_addr from = source(first);
    addrman_added added;
    addrman_fault fault;
    memcpy(payload, "\xfd\xe8\x03", 3);
    for (uint64_t i = 0; i < 1000; i++) {
        uint8_t *entry = payload + 3 + i * ENTRY;
        addrman_addr to = address(first + i);
        memcpy(entry, start, sizeof start);
        memcpy(entry + 24, to.bytes, 4);
        memcpy(entry + 28, "\x20\x8d", 2);
    }
    uint32_t code = addrman_take_message(&am, false, payload, sizeof payload, &from, words, WORDS, NOW, &added, &fault);
    if (code) fail("take_message", code);
    return added.accepted;
}

static uint64_t select_one(uint64_t index)
{
    addrman_picked picked;
    uint64_t sum = 0;
    uint32_t code = addrman_select(&am, false, ADDRMAN_ALL_NETS, words + index % 512, 300, NOW, &picked);
    if (code == ADDRMAN_NONE || code == ADDRMAN_EXHAUSTED) return 1;
    if (code) fail("select", code);
    for (int i = 0; i < picked.peer.addr.length; i++) sum = sum * 7 + picked.peer.addr.bytes[i];
    return sum;
}

/* What each call is measured with: each runs in a thread whose stack was filled with bytes before. */
static addrman_peer one_peer, peers[PEERS];
static addrman_record records[PEERS];
static addrman_resolved resolved;
static addrman_fault fault;
static addrman other = ADDRMAN_INIT;
static uint64_t many[PEERS];
static uint8_t file[4000000], map[1000], table[100];
static const char deep[] = "::/0 AS1\n2001:db8::1/128 AS5\n"; /* the deepest that a table can be */
static size_t length;
static uint32_t answer;

static void none(void) {}
static void add(void) { add_one(50000); }
static void take_message(void) { take_one(50000); }
static void good(void) { answer = addrman_good(&am, &one_peer, true, NOW, &answer); }
static void select_peer(void) { select_one(3); }
static void sample(void) { answer = addrman_sample(&am, 1000, 23, ADDRMAN_ALL_NETS, many, PEERS, NOW, peers, PEERS, &length); }
static void resolve(void) { answer = addrman_resolve_collisions(&am, NOW, &resolved); }
static void list(void) { answer = addrman_records(&am, records, PEERS, &length); }
static void write_file(void) { answer = addrman_write_file(&am, ADDRMAN_MAIN, file, sizeof file, &length); }
static void open_file(void) { answer = addrman_open_file(&other, file, length, ADDRMAN_MAIN, many, file, 0, &fault); }
static void compile(void) { answer = addrman_asmap_compile((const uint8_t *)deep, sizeof deep - 1, map, sizeof map, &length, &fault); }
static void decompile(void) { answer = addrman_asmap_decompile(map, length, table, sizeof table, &length, &fault); }

static const struct { const char *name; void (*call)(void); } calls[] = {
    { "none", none }, { "add", add }, { "take_message", take_message }, { "good", good }, { "select", select_peer },
    { "sample", sample }, { "resolve_collisions", resolve }, { "records", list }, { "write_file", write_file },
    { "open_file", open_file }, { "asmap_compile", compile }, { "asmap_decompile", decompile },
};

static void *started(void *call)
{
    calls[(size_t)call].call();
    return NULL;
}

static void stack(void)
{
    uint8_t *bytes = aligned_alloc(4096, STACK);
    size_t without = 0;
    one_peer.addr = address(7);
    for (size_t i = 0; i < sizeof calls / sizeof *calls; i++) {
        pthread_t thread;
        pthread_attr_t attributes;
        size_t unused = 0;
        memset(bytes, 0xa5, STACK);
        if (pthread_attr_init(&attributes) || pthread_attr_setstack(&attributes, bytes, STACK)
            || pthread_create(&thread, &attributes, started, (void *)i) || pthread_join(thread, NULL))
            fail("thread", 0);
        while (bytes[unused] == 0xa5) unused++;
        if (i == 0) without = STACK - unused;
        else printf("%s %zu\n", calls[i].name, STACK - unused - without);
    }
    addrman_close(&other);
    free(bytes);
}

int main(int argc, char **argv)
{
    static const uint64_t seed[2] = { 1, 2 };
    uint8_t key[32];
    uint64_t sum = 0, word = 1, times;
    if (argc != 3) return 2;
    times = strtoull(argv[2], NULL, 10);
    for (int i = 0; i < WORDS; i++) words[i] = word = word * 6364136223846793005u + 1442695040888963407u;
    memset(key, 7, sizeof key);
    if (addrman_open(&am, key, seed, key, 0)) return 1;
    char kind = argv[1][0] == 's' && argv[1][1] == 't' ? 't' : argv[1][0]; /* adds, messages, selects, stack */
    if (kind == 's' || kind == 't')
        for (uint64_t index = 0; index < PEERS; index++) add_one(index);
    if (kind == 't') {
        stack();
        return 0;
    }
    for (uint64_t index = 0; index < times; index++)
        sum += kind == 'a' ? add_one(index) : kind == 'm' ? take_one(index * 1000) : select_one(index);
    printf("sum %" PRIu64 "\n", sum);
    addrman_close(&am);
    return 0;
}
