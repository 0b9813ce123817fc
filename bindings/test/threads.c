/*
 * Eight threads, each with tables of its own, come to the same files as one after the other. And
 * eight threads that read one object, under a lock, find what one thread finds.
 */
#include "../addrman.h"

#include <pthread.h>
#include <stdio.h>
#include <stdlib.h>
#include <string.h>

enum { THREADS = 8, ADDED = 10000, READS = 2000, NOW = 1700000000 };

static uint64_t next_of(uint64_t *state)
{
    uint64_t z = (*state += 0x9e3779b97f4a7c15u);
    z = (z ^ z >> 30) * 0xbf58476d1ce4e5b9u;
    z = (z ^ z >> 27) * 0x94d049bb133111ebu;
    return z ^ z >> 31;
}

static addrman_peer peer_of(uint64_t r)
{
    addrman_peer peer = { { { (uint8_t)(20 + r % 60), (uint8_t)(r >> 8), (uint8_t)(r >> 16), 1 }, ADDRMAN_IPV4, 4 }, 8333 };
    return peer;
}

struct work {
    uint64_t begins;
    uint8_t *file;
    size_t length;
    uint32_t code;
};

static uint32_t fill(addrman *am, uint64_t begins)
{
    static const uint64_t seed[2] = { 1, 2 };
    uint64_t state = begins;
    uint8_t key[32] = { (uint8_t)begins };
    uint32_t code = addrman_open(am, key, seed, NULL, 0);
    for (int i = 0; i < ADDED && !code; i++) {
        uint64_t r = next_of(&state);
        addrman_addr source = { { 5, (uint8_t)(r >> 40), 1, 1 }, ADDRMAN_IPV4, 4 };
        addrman_peer peer = peer_of(r);
        uint32_t answer;
        code = addrman_add(am, &peer, &source, NOW, 1, 7200, r, NOW, &answer);
        if (i % 7 == 0 && !code) code = addrman_good(am, &peer, true, NOW + 1, &answer);
    }
    return code;
}

static void *run(void *argument)
{
    struct work *work = argument;
    addrman am = ADDRMAN_INIT;
    work->code = fill(&am, work->begins);
    if (!work->code && addrman_write_file(&am, ADDRMAN_MAIN, NULL, 0, &work->length) == ADDRMAN_ERR_SHORT_BUFFER) {
        work->file = malloc(work->length);
        work->code = addrman_write_file(&am, ADDRMAN_MAIN, work->file, work->length, &work->length);
    }
    addrman_close(&am);
    return NULL;
}

/* What one thread reads: the sum of what it finds. */
struct reads {
    addrman *am;
    pthread_mutex_t *lock;
    uint64_t begins, sum;
};

static void *read_all(void *argument)
{
    struct reads *reads = argument;
    uint64_t state = reads->begins, words[60];
    for (int i = 0; i < READS; i++) {
        addrman_peer peer = peer_of(next_of(&state));
        addrman_record record;
        addrman_picked picked;
        addrman_counts counts;
        uint32_t slot = 0, bucket = 0;
        for (int w = 0; w < 60; w++) words[w] = next_of(&state);
        pthread_mutex_lock(reads->lock);
        uint32_t found = addrman_find(reads->am, &peer, &record), chosen = addrman_select(reads->am, i % 2, ADDRMAN_ALL_NETS, words, 60, NOW, &picked),
                 sized = addrman_size(reads->am, &counts), slotted = addrman_tried_slot(reads->am, &peer, &bucket, &slot);
        pthread_mutex_unlock(reads->lock);
        reads->sum = reads->sum * 31 + found + chosen * 3 + sized * 5 + slotted * 7 + bucket + slot + counts.new_count;
        if (found == ADDRMAN_OK) reads->sum += record.number;
        if (chosen == ADDRMAN_OK) reads->sum += picked.peer.addr.bytes[1];
    }
    return NULL;
}

/* Runs a function over all works, one after another or in a thread each. */
static int each(void *(*function)(void *), char *works, size_t size, bool at_once)
{
    pthread_t threads[THREADS];
    for (int i = 0; i < THREADS; i++)
        if (!at_once)
            function(works + i * size);
        else if (pthread_create(&threads[i], NULL, function, works + i * size))
            return 1;
    for (int i = 0; i < THREADS && at_once; i++) pthread_join(threads[i], NULL);
    return 0;
}

int main(void)
{
    struct work alone[THREADS], both[THREADS];
    struct reads single[THREADS], shared[THREADS];
    pthread_mutex_t lock = PTHREAD_MUTEX_INITIALIZER;
    addrman am = ADDRMAN_INIT;
    size_t bytes = 0;
    if (fill(&am, 77)) return 2;
    for (int i = 0; i < THREADS; i++) {
        alone[i] = both[i] = (struct work) { (uint64_t)i, NULL, 0, 0 };
        single[i] = shared[i] = (struct reads) { &am, &lock, (uint64_t)i, 0 };
    }
    if (each(run, (char *)alone, sizeof *alone, false) || each(run, (char *)both, sizeof *both, true)) return 2;
    if (each(read_all, (char *)single, sizeof *single, false) || each(read_all, (char *)shared, sizeof *shared, true)) return 2;
    addrman_close(&am);
    for (int i = 0; i < THREADS; i++) {
        if (alone[i].code || both[i].code || !both[i].length || alone[i].length != both[i].length
            || memcmp(alone[i].file, both[i].file, alone[i].length)) {
            printf("tables %d differ: codes %u and %u\n", i, alone[i].code, both[i].code);
            return 1;
        }
        if (single[i].sum != shared[i].sum) {
            printf("thread %d reads something else\n", i);
            return 1;
        }
        bytes += both[i].length;
        free(alone[i].file);
        free(both[i].file);
    }
    printf("%d threads: %zu bytes of %d files, and %d reads of one object\n", THREADS, bytes, THREADS, 4 * READS * THREADS);
    return 0;
}
