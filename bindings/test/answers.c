/*
 * Answers to getaddr: which one comes, how long it is kept, and what it has. Prints how many answers
 * were looked at.
 */
#include "../addrman.h"

#include <stdio.h>
#include <stdlib.h>
#include <string.h>

enum { PEERS = 2000, HOUR = 3600, KEPT = 75600, EXTRA = 21600, MAX_PAYLOAD = 49003 };

static addrman am = ADDRMAN_INIT;
static addrman_bans bans = ADDRMAN_BANS_INIT;
static addrman_answers answers = ADDRMAN_ANSWERS_INIT;
static uint64_t words[PEERS + 1];
static unsigned answered;

typedef struct {
    uint8_t bytes[MAX_PAYLOAD];
    size_t length;
} message;

static void want(bool is, const char *what)
{
    if (is) return;
    printf("answers: %s\n", what);
    exit(1);
}

/* An answer with all words, which are drawn anew for each. */
static addrman_result ask(addrman_network from, uint32_t socket, bool is_v2, bool own, uint32_t now, message *out)
{
    static uint64_t state = 1;
    for (size_t i = 0; i <= PEERS; i++) words[i] = state = state * 6364136223846793005u + 1442695040888963407u;
    answered++;
    return addrman_answer(&answers, &am, &bans, from, socket, is_v2, own, now, words, PEERS + 1, out->bytes,
                          sizeof out->bytes, &out->length);
}

static bool same(const message *a, const message *b)
{
    return a->length == b->length && memcmp(a->bytes, b->bytes, a->length) == 0;
}

static size_t count(const message *m)
{
    return m->bytes[0] < 253 ? m->bytes[0] : m->bytes[1] + 256u * m->bytes[2];
}

/* The time of an entry of an addr message. */
static uint32_t time_of(const message *m, size_t i)
{
    const uint8_t *at = m->bytes + (m->bytes[0] < 253 ? 1 : 3) + 30 * i;
    return at[0] | (uint32_t)at[1] << 8 | (uint32_t)at[2] << 16 | (uint32_t)at[3] << 24;
}

static void fill(uint32_t now)
{
    uint32_t is_new;
    for (uint32_t i = 0; i < PEERS; i++) {
        addrman_addr source = { { 1, (uint8_t)(i % 200), 3, 4 }, ADDRMAN_IPV4, 4 };
        addrman_peer peer = { { { (uint8_t)(20 + i % 100), (uint8_t)(i / 100), 1, 8 }, ADDRMAN_IPV4, 4 }, 8333 };
        want(addrman_add(&am, &peer, &source, now - i, 1, 0, i, now, &is_new) == ADDRMAN_OK, "a peer is not added");
    }
}

static void closed(message *out)
{
    want(addrman_answers_forget(&answers) == ADDRMAN_ERR_CLOSED, "a closed object forgets");
    want(ask(ADDRMAN_IPV4, 0, true, false, 1000, out) == ADDRMAN_ERR_CLOSED, "a closed object answers");
    want(addrman_answers_open(&answers) == ADDRMAN_OK, "no object is opened");
    want(ask(ADDRMAN_IPV4, 0, true, false, 1000, out) == ADDRMAN_ERR_CLOSED, "closed tables answer");
}

int main(void)
{
    static const uint8_t key[32];
    static const uint64_t seed[2] = { 1, 2 };
    static message first, second, other, old, own;
    const uint32_t now = 1700000000;
    addrman_fault fault;
    addrman_counts counts;
    uint32_t reply;
    closed(&first);
    want(addrman_open(&am, key, seed, key, 0) == ADDRMAN_OK, "no tables are opened");
    want(ask(ADDRMAN_IPV4, 0, true, false, 1000, &first) == ADDRMAN_ERR_CLOSED, "a closed list of bans answers");
    want(addrman_bans_open(&bans, "", 0, &fault) == ADDRMAN_OK, "no list of bans is opened");
    fill(now);
    want(addrman_size(&am, &counts) == ADDRMAN_OK, "no size");
    size_t records = counts.new_count;

    want(ask(7, 0, true, false, now, &first) == ADDRMAN_ERR_ARGUMENT, "network 7 is answered");
    size_t need = 0;
    want(addrman_answer(&answers, &am, &bans, ADDRMAN_IPV4, 0, true, false, now, words, records, first.bytes,
                        sizeof first.bytes, &need) == ADDRMAN_ERR_SHORT_WORDS && need == records + 1, "words lack");
    want(addrman_bans_add(&bans, "20.0.0.0/8", 10, now - 1, now + 10, &reply) == ADDRMAN_OK, "no ban");
    want(ask(ADDRMAN_IPV4, 0, true, false, now, &first) == ADDRMAN_OK, "no answer");
    want(count(&first) * 100 <= 23 * records && count(&first) * 100 > 20 * records, "another part is told");
    want(addrman_bans_remove(&bans, "20.0.0.0/8", 10, &reply) == ADDRMAN_OK && reply, "no ban is taken out");

    /* It is kept for 21 hours before and after, without words, and for other sockets others are. */
    for (int i = 0; i < 3; i++) {
        uint32_t then = i == 0 ? now : i == 1 ? now + KEPT - 1 : now - KEPT + 1;
        second.length = 0;
        want(addrman_answer(&answers, &am, &bans, ADDRMAN_IPV4, 0, true, false, then, words, 0, second.bytes,
                            sizeof second.bytes, &second.length) == ADDRMAN_OK && same(&first, &second), "an answer changes");
    }
    want(ask(ADDRMAN_IPV4, 1, true, false, now, &other) == ADDRMAN_OK && !same(&first, &other), "two sockets have one answer");
    want(ask(ADDRMAN_ONION, 0, true, false, now, &other) == ADDRMAN_OK && !same(&first, &other), "two networks have one answer");
    size_t length = 0;
    want(addrman_answer(&answers, &am, &bans, ADDRMAN_IPV4, 0, true, false, now, words, 0, second.bytes, 10, &length)
             == ADDRMAN_ERR_SHORT_BUFFER && length == first.length, "ten bytes are room");

    /* The other form has the same peers, all of IPv4; banned ones are not told; times are hidden. */
    want(ask(ADDRMAN_IPV4, 0, false, false, now, &old) == ADDRMAN_OK && count(&old) == count(&first)
             && old.length == 30 * count(&old) + (old.bytes[0] < 253 ? 1 : 3), "the old form has others");
    for (size_t i = 0; i < count(&old); i++) {
        const uint8_t *addr = old.bytes + (old.bytes[0] < 253 ? 1 : 3) + 30 * i + 12;
        want(addr[10] == 0xff && addr[12] >= 21 && addr[12] < 120, "a banned peer is told");
        want(time_of(&old, i) == time_of(&old, 0) && time_of(&old, i) <= now - 691200
                 && time_of(&old, i) >= now - 691200 - 345600, "times are not hidden");
    }
    want(ask(ADDRMAN_IPV4, 2, false, true, now, &own) == ADDRMAN_OK && time_of(&own, 0) != time_of(&own, 1)
             && time_of(&own, 0) > now - PEERS, "times are not the records'");

    /* After 27 hours there is a new one; of at most 64; and none after forget. */
    want(ask(ADDRMAN_IPV4, 0, true, false, now + KEPT + EXTRA + 1, &second) == ADDRMAN_OK && !same(&first, &second), "no answer ends");
    for (uint32_t socket = 3; socket < 63; socket++)
        want(ask(ADDRMAN_IPV4, socket, true, false, now, &other) == ADDRMAN_OK, "64 keys have no room");
    other.length = 77;
    want(ask(ADDRMAN_IPV4, 63, true, false, now, &other) == ADDRMAN_NONE && other.length == 77, "a 65th key has an answer");
    want(addrman_answers_forget(&answers) == ADDRMAN_OK, "nothing is forgotten");
    want(ask(ADDRMAN_IPV4, 63, true, false, now, &other) == ADDRMAN_OK && !same(&other, &second), "no room after forget");

    /* Of fewer than 1000 records it is kept for an hour. */
    addrman_close(&am);
    want(addrman_open(&am, key, seed, key, 0) == ADDRMAN_OK, "no tables are opened again");
    want(ask(ADDRMAN_IPV6, 0, true, false, now, &first) == ADDRMAN_OK && first.length == 1 && first.bytes[0] == 0, "empty tables tell");
    fill(now + HOUR);
    want(ask(ADDRMAN_IPV6, 0, true, false, now + HOUR - 1, &second) == ADDRMAN_OK && second.length == 1, "an hour is shorter");
    want(ask(ADDRMAN_IPV6, 0, true, false, now + HOUR, &second) == ADDRMAN_OK && second.length > 1000, "an hour is longer");
    addrman_answers_close(&answers);
    addrman_answers_close(&answers);
    addrman_answers_close(NULL);
    addrman_bans_close(&bans);
    addrman_close(&am);
    printf("answers to getaddr: %u requests, kept for 21 hours, of 64 keys, in both forms\n", answered);
    return 0;
}
