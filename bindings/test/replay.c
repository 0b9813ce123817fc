/*
 * Carries out a log by the library, and prints the replies as `addrman replay` does: replay KEY|FILE
 * < LOG. KEY is 64 hexadecimal digits; FILE is a peers.dat. `save` writes peers.dat into the current
 * folder. Saves in pieces are not known.
 */
#include "../addrman.h"

#include <inttypes.h>
#include <stdio.h>
#include <stdlib.h>
#include <string.h>

static const uint64_t seed[2] = { 1, 2 };
static const uint8_t nothing[1];
static addrman am = ADDRMAN_INIT;
static uint32_t now;
static uint64_t words[1000001];
static size_t word_count;
static uint8_t bytes[2000000];

static void fail(const char *what, unsigned code)
{
    fprintf(stderr, "%s: %u\n", what, code);
    exit(1);
}

static uint64_t rotated(uint64_t x, int by)
{
    return x << by | x >> (64 - by);
}

/* The outputs of xoshiro256++, seeded as seed_from_u64 of Rust's rand_xoshiro does. */
static void draw_words(uint64_t from, size_t count)
{
    uint64_t s[4];
    for (int i = 0; i < 4; i++) {
        uint64_t z = (from += 0x9e3779b97f4a7c15u);
        z = (z ^ z >> 30) * 0xbf58476d1ce4e5b9u;
        z = (z ^ z >> 27) * 0x94d049bb133111ebu;
        s[i] = z ^ z >> 31;
    }
    for (word_count = 0; word_count < count; word_count++) {
        words[word_count] = rotated(s[0] + s[3], 23) + s[0];
        uint64_t t = s[1] << 17;
        s[2] ^= s[0];
        s[3] ^= s[1];
        s[1] ^= s[2];
        s[0] ^= s[3];
        s[2] ^= t;
        s[3] = rotated(s[3], 45);
    }
}

static void read_words(char *text)
{
    word_count = 0;
    if (*text == '@') {
        char *end;
        uint64_t from = strtoull(text + 1, &end, 10);
        draw_words(from, strtoull(end + 1, NULL, 10));
    } else if (strcmp(text, "-") != 0) {
        for (char *t = strtok(text, ","); t; t = strtok(NULL, ","))
            words[word_count++] = strtoull(t, NULL, 10);
    }
}

static size_t read_hex(const char *text, uint8_t *out)
{
    size_t n = 0;
    if (strcmp(text, "-") == 0) return 0;
    for (; text[0]; text += 2) {
        unsigned byte;
        sscanf(text, "%2x", &byte);
        out[n++] = (uint8_t)byte;
    }
    return n;
}

static addrman_peer read_peer(const char *text)
{
    addrman_peer peer;
    uint32_t code = addrman_peer_parse(text, strlen(text), &peer);
    if (code) fail(text, code);
    return peer;
}

static addrman_addr read_addr(const char *text)
{
    addrman_addr addr;
    uint32_t code = addrman_addr_parse(text, strlen(text), &addr);
    if (code) fail(text, code);
    return addr;
}

static uint32_t read_nets(char *text)
{
    static const char *names[] = { "unroutable", "ipv4", "ipv6", "onion", "i2p", "cjdns", "internal" };
    uint32_t nets = 0;
    if (strcmp(text, "all") == 0) return ADDRMAN_ALL_NETS;
    for (char *t = strtok(text, ","); t; t = strtok(NULL, ","))
        for (int i = 0; i < 7; i++)
            if (strcmp(t, names[i]) == 0) nets |= ADDRMAN_NET(i);
    return nets;
}

static void put_peer(const addrman_peer *peer)
{
    char text[100];
    size_t length;
    uint32_t code = addrman_peer_text(peer, text, sizeof text, &length);
    if (code) fail("peer_text", code);
    printf("%.*s", (int)length, text);
}

static void put_record(const addrman_record *r)
{
    char source[100];
    size_t length;
    uint32_t code = addrman_addr_text(&r->source, source, sizeof source, &length);
    if (code) fail("addr_text", code);
    printf("peer ");
    put_peer(&r->peer);
    printf(" source %.*s time %" PRIu32 " services %" PRIu64 " success %" PRIu32 " try %" PRIu32 " attempts %" PRIu32,
           (int)length, source, r->time, r->services, r->last_success, r->last_try, r->attempts);
    printf(r->bucket_count ? " new " : " tried");
    for (uint32_t i = 0; i < r->bucket_count; i++) printf("%s%u", i ? "," : "", r->buckets[i]);
    printf("\n");
}

/* A save by requests, in pieces of 1000 bytes. */
static void save(void)
{
    addrman_save job = ADDRMAN_SAVE_INIT;
    addrman_request request;
    size_t length;
    uint8_t piece[1000];
    FILE *to = NULL;
    bool ok = true;
    uint32_t code = addrman_save_begin(&job, &am, ADDRMAN_MAIN, sizeof piece);
    if (code) fail("save_begin", code);
    while (ok && (code = addrman_save_next(&job, &request, piece, sizeof piece, &length)) == ADDRMAN_OK) {
        if (request == ADDRMAN_CREATE) ok = (to = fopen("peers.tmp", "wb")) != NULL;
        else if (request == ADDRMAN_APPEND) ok = fwrite(piece, 1, length, to) == length;
        else if (request == ADDRMAN_SYNC) ok = fclose(to) == 0;
        else if (request == ADDRMAN_RENAME) ok = rename("peers.tmp", "peers.dat") == 0;
        if (addrman_save_done(&job, ok)) fail("save_done", 0);
    }
    if (code != ADDRMAN_NONE) fail("save_next", code);
    addrman_save_close(&job);
    printf("saved\n");
}

static void message(bool is_v2, char *source, char *payload, char *text)
{
    static const char *faults[] = { "", "truncated", "non-canonical", "too-many", "bad-length", "too-long", "trailing" };
    addrman_addr from = read_addr(source);
    addrman_added added;
    addrman_fault fault;
    size_t length = read_hex(payload, bytes);
    read_words(text);
    uint32_t code = addrman_take_message(&am, is_v2, bytes, length, &from, words, word_count, now, &added, &fault);
    if (code == ADDRMAN_OK) printf("added %" PRIu32 " of %" PRIu32 "\n", added.accepted, added.total);
    else if (code == ADDRMAN_ERR_REFUSED) printf("refused %s\n", faults[fault.kind]);
    else if (code == ADDRMAN_ERR_SHORT_WORDS) printf("short %" PRIu32 " %zu\n", added.total, word_count);
    else fail("take_message", code);
}

static void sample(char **f)
{
    static addrman_peer peers[70000];
    size_t length;
    read_words(f[4]);
    uint32_t code = addrman_sample(&am, strtoul(f[1], NULL, 10), strtoul(f[2], NULL, 10), read_nets(f[3]), words,
                                   word_count, now, peers, 70000, &length);
    if (code == ADDRMAN_ERR_SHORT_WORDS) {
        printf("short %zu %zu\n", length, word_count);
        return;
    }
    if (code) fail("sample", code);
    printf("sample %zu", length);
    for (size_t i = 0; i < length; i++) {
        printf(" ");
        put_peer(&peers[i]);
    }
    printf("\n");
}

static void dump(void)
{
    static addrman_record records[90000];
    size_t length;
    uint32_t code = addrman_records(&am, records, 90000, &length);
    if (code) fail("records", code);
    for (size_t i = 0; i < length; i++) put_record(&records[i]);
    printf("end %zu\n", length);
}

static void put_pick(uint32_t code, const addrman_picked *picked, const char *found, const char *none)
{
    if (code == ADDRMAN_NONE) printf("%s\n", none);
    else if (code == ADDRMAN_EXHAUSTED) printf("exhausted\n");
    else if (code) fail(found, code);
    else {
        printf("%s ", found);
        put_peer(&picked->peer);
        printf(" %" PRIu32 "\n", picked->last_try);
    }
}

static void put_known(uint32_t code, uint32_t known)
{
    if (code) fail("mark", code);
    printf(known ? "ok\n" : "unknown\n");
}

static void carry_out(char **f, int fields)
{
    static const char *outcomes[] = { "unknown", "already", "clash", "moved" };
    uint32_t code, answer;
    addrman_picked picked;
    if (fields == 0) return;
    if (strcmp(f[0], "now") == 0) printf("now %" PRIu32 "\n", now = strtoul(f[1], NULL, 10));
    else if (strcmp(f[0], "addr") == 0) message(false, f[1], f[2], f[3]);
    else if (strcmp(f[0], "addrv2") == 0) message(true, f[1], f[2], f[3]);
    else if (strcmp(f[0], "save") == 0) save();
    else if (strcmp(f[0], "sample") == 0) sample(f);
    else if (strcmp(f[0], "dump") == 0) dump();
    else if (strcmp(f[0], "size") == 0) {
        addrman_counts c;
        if ((code = addrman_size(&am, &c))) fail("size", code);
        printf("size new %" PRIu32 " tried %" PRIu32 " clashes %" PRIu32 "\n", c.new_count, c.tried_count, c.collisions);
    } else if (strcmp(f[0], "resolve") == 0) {
        addrman_resolved r;
        if ((code = addrman_resolve_collisions(&am, now, &r))) fail("resolve", code);
        printf("resolved erased %" PRIu32 " moved %" PRIu32 " kept %" PRIu32 "\n", r.erased, r.moved, r.kept);
    } else if (strcmp(f[0], "clash") == 0) {
        code = addrman_select_collision(&am, strtoull(f[1], NULL, 10), &picked);
        put_pick(code, &picked, "clash", "none");
    } else if (strcmp(f[0], "select") == 0) {
        read_words(f[3]);
        code = addrman_select(&am, strcmp(f[1], "new") == 0, read_nets(f[2]), words, word_count, now, &picked);
        put_pick(code, &picked, "one", "nothing");
    } else if (strcmp(f[0], "find") == 0) {
        addrman_record record;
        addrman_peer peer = read_peer(f[1]);
        code = addrman_find(&am, &peer, &record);
        if (code == ADDRMAN_NONE) printf("unknown\n");
        else if (code) fail("find", code);
        else put_record(&record);
    } else {
        addrman_peer peer = read_peer(f[1]);
        if (strcmp(f[0], "good") == 0) {
            if ((code = addrman_good(&am, &peer, strcmp(f[2], "test") == 0, now, &answer))) fail("good", code);
            printf("%s\n", outcomes[answer]);
        } else {
            if (strcmp(f[0], "attempt") == 0) code = addrman_attempt(&am, &peer, strcmp(f[2], "count") == 0, now, &answer);
            else if (strcmp(f[0], "connected") == 0) code = addrman_connected(&am, &peer, now, &answer);
            else if (strcmp(f[0], "services") == 0) code = addrman_set_services(&am, &peer, strtoull(f[2], NULL, 10), &answer);
            else fail(f[0], 0);
            put_known(code, answer);
        }
    }
}

int main(int argc, char **argv)
{
    static char line[4100000];
    addrman_counts counts;
    addrman_fault fault;
    uint32_t code;
    if (argc != 2) return 2;
    if (!ADDRMAN_ABI_FITS(addrman_abi())) fail("abi", addrman_abi());
    if (addrman_size(&am, &counts) != ADDRMAN_ERR_CLOSED) fail("a closed handle", 0);
    FILE *in = strlen(argv[1]) == 64 ? NULL : fopen(argv[1], "rb");
    if (in) {
        static uint8_t all[33600000];
        size_t length = fread(all, 1, sizeof all, in);
        fclose(in);
        code = addrman_open_file(&am, all, length, ADDRMAN_MAIN, seed, nothing, 0, &fault);
        if (code) fail("open_file", 100 * code + fault.kind);
    } else {
        uint8_t key[32];
        if (read_hex(argv[1], key) != 32) return 2;
        if ((code = addrman_open(&am, key, seed, nothing, 0))) fail("open", code);
    }
    while (fgets(line, sizeof line, stdin)) {
        char *fields[6], *rest = line;
        int count = 0;
        line[strcspn(line, "\n")] = 0;
        if (line[0] == 0 || line[0] == '#') continue;
        while (rest && count < 6) {
            fields[count++] = rest;
            rest = strchr(rest, ' ');
            if (rest) *rest++ = 0;
        }
        carry_out(fields, count);
    }
    addrman_close(&am);
    if (addrman_size(&am, &counts) != ADDRMAN_ERR_CLOSED) fail("a closed handle", 1);
    return 0;
}
