/*
 * Full tables, as large as ADDRMAN_MAX_RECORDS says: full FOLDER writes them as FOLDER/peers.dat.
 * Another record then gets no slot.
 */
#include "../addrman.h"

#include <stdio.h>
#include <stdlib.h>
#include <string.h>
#include <time.h>

enum { NEW = 65536, TRIED = 16384 };

static addrman am = ADDRMAN_INIT;
static uint64_t state;
static uint32_t now;

static void fail(const char *name, unsigned long number)
{
    printf("full.c: %s: %lu\n", name, number);
    exit(1);
}

/* A number that is as good as a random one (splitmix64). */
static uint64_t draw(void)
{
    uint64_t z = (state += 0x9e3779b97f4a7c15u);
    z = (z ^ z >> 30) * 0xbf58476d1ce4e5b9u;
    z = (z ^ z >> 27) * 0x94d049bb133111ebu;
    return z ^ z >> 31;
}

/* A peer that was not drawn before, and a source, each of one of many groups. */
static void draw_peer(addrman_peer *peer, addrman_addr *source)
{
    uint64_t r = draw();
    *peer = (addrman_peer){ { { (uint8_t)(20 + (r & 63)), (uint8_t)(r >> 8), (uint8_t)(r >> 16), (uint8_t)(r >> 24) }, ADDRMAN_IPV4, 4 },
                            (uint16_t)(r >> 48) };
    *source = (addrman_addr){ { (uint8_t)(128 + (r >> 32 & 31)), (uint8_t)(r >> 40), 1, 1 }, ADDRMAN_IPV4, 4 };
}

/* Announces a peer that was seen at a time, and reaches it or not. */
static void learn(uint32_t seen, bool reached)
{
    addrman_peer peer;
    addrman_addr source;
    uint32_t answer;
    draw_peer(&peer, &source);
    if (addrman_add(&am, &peer, &source, seen, 1033, 0, draw(), now, &answer)) fail("add", 0);
    if (reached && addrman_good(&am, &peer, false, seen, &answer)) fail("good", 0);
}

/* Announces peers until the tables have as many records. */
static void fill(uint32_t new_count, uint32_t tried_count, uint32_t seen, bool reached)
{
    addrman_counts counts;
    for (int i = 0; i < 300; i++) {
        for (int j = 0; j < 10000; j++) learn(seen, reached);
        if (addrman_size(&am, &counts)) fail("size", 0);
        if (counts.new_count >= new_count && counts.tried_count >= tried_count) return;
    }
    fail("slots stay free", counts.new_count + counts.tried_count);
}

int main(int argc, char **argv)
{
    static uint8_t file[ADDRMAN_FILE_ROOM(ADDRMAN_MAX_RECORDS)];
    const uint8_t key[32] = { 7 };
    const uint64_t seed[2] = { 1, 2 };
    char path[4096];
    addrman_counts counts;
    size_t length;
    if (argc != 2) return 2;
    now = (uint32_t)time(NULL);
    if (addrman_open(&am, key, seed, NULL, 0)) fail("open", 0);
    /* Peers that were seen long ago give their slots of the new table to any other. */
    fill(0, TRIED, now - 40 * 86400, true);
    fill(NEW, TRIED, now, false);
    for (int i = 0; i < 1000; i++) learn(now, i % 2 == 0);
    if (addrman_size(&am, &counts)) fail("size", 0);
    if (counts.new_count + counts.tried_count != ADDRMAN_MAX_RECORDS) fail("another number of records", counts.new_count);
    if (addrman_write_file(&am, ADDRMAN_MAIN, file, sizeof file, &length)) fail("write_file", length);
    snprintf(path, sizeof path, "%s/peers.dat", argv[1]);
    FILE *out = fopen(path, "wb");
    if (!out || fwrite(file, 1, length, out) != length || fclose(out)) fail("peers.dat", 0);
    addrman_close(&am);
    printf("full tables have ADDRMAN_MAX_RECORDS records, in %zu bytes\n", length);
    return 0;
}
