/*
 * NULL with the length 0 is a list without elements, at each call that takes one: it answers as it
 * does for a pointer to something. Besides: the texts of codes and faults, and the calls that no
 * other test in C makes.
 */
#include "../addrman.h"

#include <stdio.h>
#include <stdlib.h>
#include <string.h>

static const uint64_t seed[2] = { 1, 2 };
static const uint8_t key[32] = { 7 };
static const uint32_t now = 1700000000;
static unsigned compared;

/* Objects with three records and no ban, and what the calls write. */
struct world {
    addrman am;
    addrman_bans bans;
    addrman_answers answers;
    addrman_limiter limiter;
    addrman_save save;
    addrman_addr addr;
    addrman_peer peer;
    addrman_record record;
    addrman_picked picked;
    addrman_added added;
    addrman_fault fault;
    addrman_ban ban;
    addrman_request request;
    addrman_shares shares;
    uint32_t number;
    size_t length;
};

static void must(addrman_result code, const char *call)
{
    if (!code) return;
    printf("%s returned %u\n", call, code);
    exit(1);
}

static void build(struct world *w)
{
    memset(w, 0, sizeof *w);
    must(addrman_open(&w->am, key, seed, NULL, 0), "open");
    must(addrman_bans_open(&w->bans, NULL, 0, &w->fault), "bans_open");
    must(addrman_answers_open(&w->answers), "answers_open");
    must(addrman_limiter_open(&w->limiter), "limiter_open");
    w->addr = (addrman_addr) { { 1, 2, 3, 4 }, ADDRMAN_IPV4, 4 };
    for (uint8_t i = 0; i < 3; i++) {
        w->peer = (addrman_peer) { { { 8, 8, i, 8 }, ADDRMAN_IPV4, 4 }, 8333 };
        must(addrman_add(&w->am, &w->peer, &w->addr, now, 1, 0, i, now, &w->number), "add");
    }
    must(addrman_opener_add(&w->am, &w->peer), "opener_add");
    must(addrman_save_begin(&w->save, &w->am, ADDRMAN_MAIN, 100), "save_begin");
    while (addrman_save_next(&w->save, &w->request, (uint8_t[100]) { 0 }, 100, &w->length) == ADDRMAN_OK && w->request != ADDRMAN_APPEND)
        must(addrman_save_done(&w->save, true), "save_done");
}

static void drop(struct world *w)
{
    addrman_close(&w->am);
    addrman_bans_close(&w->bans);
    addrman_answers_close(&w->answers);
    addrman_limiter_close(&w->limiter);
    addrman_save_close(&w->save);
}

/* Calls number `call` with no elements at these pointers, of which only the types differ. */
static int carry_out(struct world *w, unsigned call, const void *in, void *out)
{
    addrman *am = &w->am;
    size_t *length = &w->length;
    addrman_fault *fault = &w->fault;
    switch (call) {
    case 0: return (int)addrman_addr_parse(in, 0, &w->addr);
    case 1: return (int)addrman_peer_parse(in, 0, &w->peer);
    case 2: return (int)addrman_name_parse(in, 0, &w->addr);
    case 3: return (int)addrman_addr_text(&w->addr, out, 0, length);
    case 4: return (int)addrman_peer_text(&w->peer, out, 0, length);
    case 5: return (int)addrman_name_text(&w->addr, out, 0, length);
    case 6: return (int)addrman_open(am, key, seed, in, 0);
    case 7: return (int)addrman_open_core(am, key, seed, in, 0);
    case 8: return (int)addrman_open_file(am, in, 0, ADDRMAN_MAIN, seed, in, 0, fault);
    case 9: return (int)addrman_open_file_core(am, in, 0, ADDRMAN_MAIN, seed, in, 0, fault);
    case 10: return (int)addrman_write_file(am, ADDRMAN_MAIN, out, 0, length);
    case 11: return (int)addrman_save_next(&w->save, &w->request, out, 0, length);
    case 12: return (int)addrman_take_message(am, true, in, 0, &w->addr, in, 0, now, &w->added, fault);
    case 13: return (int)addrman_take_message(am, true, (const uint8_t *)"", 1, &w->addr, in, 0, now, &w->added, fault);
    case 14: return (int)addrman_take_first(am, true, (const uint8_t *)"", 1, &w->addr, 9, in, 0, now, &w->added, fault);
    case 15: return (int)addrman_take_chosen(am, true, (const uint8_t *)"", 1, &w->addr, 9, 1, ADDRMAN_ALL_NETS, in, 0, now, &w->added, fault);
    case 16: return (int)addrman_take_unbanned(am, &w->bans, true, (const uint8_t *)"", 1, &w->addr, 9, 1, ADDRMAN_ALL_NETS, in, 0, now,
                                               &w->added, fault);
    case 17: return (int)addrman_take_unbanned(am, &w->bans, true, in, 0, &w->addr, 9, 1, ADDRMAN_ALL_NETS, in, 0, now, &w->added, fault);
    case 18: return (int)addrman_message_count(true, in, 0, &w->number, fault);
    case 19: return (int)addrman_read_message(true, in, 0, out, 0, length, fault);
    case 20: return (int)addrman_read_message(true, (const uint8_t *)"", 1, out, 0, length, fault);
    case 21: return (int)addrman_write_message(true, in, 0, out, 0, length);
    case 22: return (int)addrman_select(am, false, ADDRMAN_ALL_NETS, in, 0, now, &w->picked);
    case 23: return (int)addrman_select_record(am, false, ADDRMAN_ALL_NETS, in, 0, now, &w->record);
    case 24: return (int)addrman_sample(am, 0, 0, ADDRMAN_ALL_NETS, in, 0, now, out, 0, length);
    case 25: return (int)addrman_sample_entries(am, 0, 0, ADDRMAN_ALL_NETS, in, 0, now, out, 0, length);
    case 26: return (int)addrman_records(am, out, 0, length);
    case 27: return (int)addrman_asmap_check(in, 0);
    case 28: return (int)addrman_asmap_compile(in, 0, out, 0, length, fault);
    case 29: return (int)addrman_asmap_compile("1.2.3.0/24 AS5\n", 15, out, 0, length, fault);
    case 30: return (int)addrman_asmap_decompile(in, 0, out, 0, length, fault);
    case 31: return (int)addrman_group(am, &w->addr, out, 0, length);
    case 32: return (int)addrman_opener_peers(am, out, 0, length);
    case 33: return (int)addrman_subnet_parse(in, 0, &w->addr, &w->number);
    case 34: return (int)addrman_bans_open(&w->bans, in, 0, fault);
    case 35: return (int)addrman_bans_write(&w->bans, out, 0, length);
    case 36: return (int)addrman_bans_add(&w->bans, in, 0, now, now, &w->number);
    case 37: return (int)addrman_bans_remove(&w->bans, in, 0, &w->number);
    case 38: return (int)addrman_answer(&w->answers, am, &w->bans, ADDRMAN_IPV4, 0, true, false, now, in, 0, out, 0, length);
    case 39: return (int)addrman_answer(&w->answers, am, &w->bans, ADDRMAN_IPV4, 0, true, false, now, seed, 0, out, 0, length);
    case 40: return (int)addrman_risk(am, in, 0, now, &w->shares);
    case 41: return (int)addrman_sample_unfiltered(am, 0, 0, ADDRMAN_ALL_NETS, in, 0, out, 0, length);
    default: return -1;
    }
}

static void texts(void)
{
    static const struct { uint32_t kind; const char *word; } faults[] = {
        { 1, "truncated" }, { 2, "non-canonical" }, { 3, "too-many" }, { 4, "bad-length" }, { 5, "too-long" }, { 6, "trailing" },
        { 10, "bad-magic" }, { 11, "bad-sum" }, { 12, "compat" }, { 13, "version" }, { 14, "count" }, { 15, "record" },
        { 16, "buckets" }, { 17, "time" }, { 18, "attempts" }, { 19, "too-large" }, { 20, "duplicate" }, { 21, "asmap" },
        { 30, "json" }, { 31, "form" }, { 40, "form" }, { 41, "number" }, { 42, "host-bits" }, { 43, "repeated" }, { 44, "empty" },
        { 45, "code-too-large" }, { 0, "unknown" }, { 7, "unknown" }, { 46, "unknown" }, { UINT32_MAX, "unknown" } };
    for (size_t i = 0; i < sizeof faults / sizeof *faults; i++)
        if (strcmp(addrman_fault_text(faults[i].kind), faults[i].word)) {
            printf("fault %u is %s\n", faults[i].kind, addrman_fault_text(faults[i].kind));
            exit(1);
        }
    for (uint32_t code = 0; code < 12; code++)
        if ((strcmp(addrman_result_text(code), "unknown") == 0) != (code > ADDRMAN_EXHAUSTED)) {
            printf("code %u is %s\n", code, addrman_result_text(code));
            exit(1);
        }
    if (strcmp(addrman_version(), ADDRMAN_WANTED)) {
        printf("the version is %s\n", addrman_version());
        exit(1);
    }
}

static void expect(bool holds, const char *what)
{
    if (holds) return;
    printf("%s is another\n", what);
    exit(1);
}

/* 8.8.8.8:8333 from 1.2.3.4 under the key of zeros is at slot 37 of the new bucket 87. */
static void others(void)
{
    static const uint8_t zeros[32], mapped[16] = { [10] = 0xff, 0xff, 8, 8, 8, 8 };
    addrman am = ADDRMAN_INIT;
    addrman_addr source = { { 1, 2, 3, 4 }, ADDRMAN_IPV4, 4 }, onion = { { 1 }, ADDRMAN_ONION, 32 };
    addrman_peer peer = { { { 0 }, 0, 0 }, 8333 };
    addrman_record record;
    uint8_t v1[16];
    uint32_t slot, bucket, in_new, in_tried, routable, accepted;
    addrman_addr_from_v1(mapped, &peer.addr);
    expect(peer.addr.network == ADDRMAN_IPV4 && peer.addr.bytes[3] == 8, "an address");
    expect(addrman_addr_to_v1(&peer.addr, v1) == ADDRMAN_OK && !memcmp(v1, mapped, 16), "its old form");
    expect(addrman_addr_to_v1(&onion, v1) == ADDRMAN_NONE, "the old form of an onion address");
    expect(addrman_addr_routable(&peer.addr, &routable) == ADDRMAN_OK && routable, "a routable address");
    must(addrman_open(&am, zeros, seed, NULL, 0), "open");
    must(addrman_add(&am, &peer, &source, now, 1, 0, 0, now, &accepted), "add");
    must(addrman_find(&am, &peer, &record), "find");
    must(addrman_new_slot(&am, &peer, record.buckets[0], &slot), "new_slot");
    expect(record.bucket_count == 1 && record.buckets[0] == 87 && slot == 37, "a place");
    must(addrman_tried_slot(&am, &peer, &bucket, &slot), "tried_slot");
    expect(bucket < 256 && slot < 64, "a place in the tried table");
    must(addrman_size_of(&am, ADDRMAN_NET(ADDRMAN_IPV4), &in_new, &in_tried), "size_of");
    expect(in_new == 1 && in_tried == 0, "a size");
    addrman_set sets[2] = { { .asn = 5 }, { .prefix = 16 } };
    addrman_shares shares;
    must(addrman_subnet_parse("8.8.0.0/16", 10, &sets[1].base, &sets[1].prefix), "subnet_parse");
    must(addrman_risk(&am, sets, 2, now, &shares), "risk");
    expect(shares.picks == 1000000 && shares.new_only == 1000000 && shares.tried == 0, "the part of a subnet");
    must(addrman_risk(&am, sets, 1, now, &shares), "risk");
    expect(shares.picks == 0 && shares.new_only == 0 && shares.tried == 0, "the part of an AS without an asmap");
    sets[1].prefix = 33;
    expect(addrman_risk(&am, sets, 2, now, &shares) == ADDRMAN_ERR_ARGUMENT, "a set of too many bits");
    expect(addrman_judge_feeler(0, now, 1) == ADDRMAN_TAKE && addrman_judge_feeler(now, now, 1) == ADDRMAN_RECENT, "a verdict");
    addrman_close(&am);
    addrman_close(&am);
    addrman_close(NULL);
    addrman_save_close(NULL);
    addrman_bans_close(NULL);
    addrman_limiter_close(NULL);
    addrman_answers_close(NULL);
}

int main(void)
{
    static uint64_t something;
    struct world with, without;
    texts();
    others();
    for (unsigned call = 0;; call++) {
        build(&with);
        build(&without);
        int wanted = carry_out(&with, call, &something, &something), code = carry_out(&without, call, NULL, NULL);
        bool alike = code == wanted && with.length == without.length && with.number == without.number
            && !memcmp(&with.fault, &without.fault, sizeof with.fault) && !memcmp(&with.added, &without.added, sizeof with.added);
        drop(&with);
        drop(&without);
        if (wanted < 0) break;
        if (!alike) {
            printf("call %u answers NULL with %d, not %d\n", call, code, wanted);
            return 1;
        }
        compared++;
    }
    printf("%u calls take NULL with the length 0, and codes and faults have texts\n", compared);
    return 0;
}
