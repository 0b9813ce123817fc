/*
 * A backtrace that begins in an allocation of the library comes through it to main, from each call
 * that allocates. Linked with -Wl,--wrap=malloc.
 */
#include "../addrman.h"

#include <stdio.h>
#include <stdlib.h>
#include <unwind.h>

int main(void);

static unsigned allocations, lost; /* of the call that is made now */
static unsigned calls, deepest;    /* calls that allocated, and the most functions between malloc and main */

void *__real_malloc(size_t size);
void *__wrap_malloc(size_t size);

struct walk {
    unsigned frames;
    bool ends;
};

static _Unwind_Reason_Code step(struct _Unwind_Context *context, void *argument)
{
    struct walk *walk = argument;
    walk->ends = _Unwind_FindEnclosingFunction((void *)(_Unwind_GetIP(context) - 1)) == (void *)main;
    walk->frames++;
    return walk->ends ? _URC_END_OF_STACK : _URC_NO_REASON;
}

void *__wrap_malloc(size_t size)
{
    static bool walks; /* what walks may allocate, too */
    if (!walks) {
        struct walk walk = { 0, false };
        walks = true;
        _Unwind_Backtrace(step, &walk);
        walks = false;
        allocations++;
        lost += !walk.ends;
        if (walk.frames - 1 > deepest) deepest = walk.frames - 1;
    }
    return __real_malloc(size);
}

static void end(const char *name, uint32_t code)
{
    if (code || lost) {
        printf("%s: code %u, and %u of %u backtraces end in the library\n", name, code, lost, allocations);
        exit(1);
    }
    calls += allocations > 0;
    allocations = 0;
}

int main(void)
{
    static const uint8_t key[32], payload[] = { 1, 0, 0xf1, 0x53, 0x65, 9, 1, 4, 8, 8, 8, 8, 0x20, 0x8d };
    static const uint64_t seed[2] = { 1, 2 }, words[3] = { 1, 2, 3 };
    static uint8_t file[5000], map[100];
    addrman am = ADDRMAN_INIT;
    addrman_addr source = { { 1, 2, 3, 4 }, ADDRMAN_IPV4, 4 };
    addrman_record record;
    addrman_added added;
    addrman_fault fault;
    addrman_shares shares;
    addrman_peer peer;
    size_t length;
    end("asmap_compile", addrman_asmap_compile("1.2.3.0/24 AS5\n", 15, map, sizeof map, &length, &fault));
    end("open", addrman_open(&am, key, seed, map, length));
    end("take_message", addrman_take_message(&am, true, payload, sizeof payload, &source, words, 1, 1700000000, &added, &fault));
    end("sample", addrman_sample(&am, 0, 0, ADDRMAN_ALL_NETS, words, 3, 1700000000, &peer, 1, &length));
    end("sample_unfiltered", addrman_sample_unfiltered(&am, 0, 0, ADDRMAN_ALL_NETS, words, 3, &record, 1, &length));
    end("records", addrman_records(&am, &record, 1, &length));
    end("risk", addrman_risk(&am, NULL, 0, 1700000000, &shares));
    end("write_file", addrman_write_file(&am, ADDRMAN_MAIN, file, sizeof file, &length));
    end("open_file", addrman_open_file(&am, file, length, ADDRMAN_MAIN, seed, NULL, 0, &fault));
    addrman_close(&am);
    printf("backtraces come from allocations of %u calls through up to %u functions to main\n", calls, deepest);
    return calls < 8;
}
