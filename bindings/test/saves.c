/*
 * A save that is over keeps no memory, whether it succeeded or failed at any request, and nobody
 * closes it; one that is given up is closed. For LeakSanitizer.
 */
#include "../addrman.h"

#include <stdio.h>
#include <stdlib.h>

static addrman am = ADDRMAN_INIT;

static void expect(bool holds, const char *what, int number)
{
    if (holds) return;
    printf("saves.c: %s: %d\n", what, number);
    exit(1);
}

/* Carries out a save up to the request of this index, which fails. Returns how many succeeded. */
static int save_until(addrman_save *job, int failing)
{
    static uint8_t piece[1000];
    addrman_request request;
    addrman_result code;
    size_t length;
    int done = 0;
    expect(addrman_save_begin(job, &am, ADDRMAN_MAIN, sizeof piece) == ADDRMAN_OK, "save_begin", failing);
    while ((code = addrman_save_next(job, &request, piece, sizeof piece, &length)) == ADDRMAN_OK) {
        bool succeeds = done != failing;
        expect(addrman_save_done(job, succeeds) == ADDRMAN_OK, "save_done", done);
        if (!succeeds) break;
        done++;
    }
    expect(code == ADDRMAN_OK || code == ADDRMAN_NONE, "save_next", (int)code);
    expect(addrman_save_next(job, &request, piece, sizeof piece, &length) == ADDRMAN_ERR_CLOSED, "a save that is over is open", done);
    expect(addrman_save_done(job, true) == ADDRMAN_ERR_CLOSED, "what is over goes on", done);
    return done;
}

int main(void)
{
    const uint8_t key[32] = { 7 };
    const uint64_t seed[2] = { 1, 2 };
    int whole, runs = 0;
    expect(addrman_open(&am, key, seed, NULL, 0) == ADDRMAN_OK, "open", 0);
    /* The handle of each save is dropped while it holds whatever the save left there. */
    {
        addrman_save job = ADDRMAN_SAVE_INIT;
        whole = save_until(&job, -1);
    }
    for (; runs < whole; runs++) {
        addrman_save job = ADDRMAN_SAVE_INIT;
        expect(save_until(&job, runs) == runs, "a save that fails", runs);
    }
    addrman_save job = ADDRMAN_SAVE_INIT;
    for (int i = 0; i < 3; i++) {
        addrman_request request;
        uint8_t piece[1000];
        size_t length;
        expect(addrman_save_begin(&job, &am, ADDRMAN_MAIN, sizeof piece) == ADDRMAN_OK, "another save_begin", i);
        expect(addrman_save_next(&job, &request, piece, sizeof piece, &length) == ADDRMAN_OK, "another save_next", i);
    }
    addrman_save_close(&job);
    addrman_save_close(&job);
    addrman_close(&am);
    printf("a save of %d requests keeps no memory, whole and with each of them failing\n", whole);
    return 0;
}
