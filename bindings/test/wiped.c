/*
 * What a key leaves in memory. All of the memory of this process that can be written is searched for
 * its 32 bytes: while tables are open they are in the heap, and after all objects are closed, and the
 * copies of the caller are wiped, nowhere in it. How many are left on the stack is said.
 */
#include "../addrman.h"

#include <inttypes.h>
#include <stdio.h>
#include <stdlib.h>
#include <string.h>

enum { COUNT = 2000, NOW = 1700000000 };

/* A byte of the key, which is nowhere whole but in the copies that are made of it. */
static uint8_t byte_of(size_t i)
{
    return (uint8_t)((i + 1) * 37 ^ (i * i * 11 + 5) ^ 0xa5);
}

static void wipe(void *at, size_t length)
{
    volatile uint8_t *bytes = at;
    while (length--) *bytes++ = 0;
}

/* How often the key is in the memory that can be written: in the stack, or elsewhere. */
static unsigned found(bool in_stack)
{
    char line[512];
    unsigned count = 0;
    FILE *maps = fopen("/proc/self/maps", "r");
    if (!maps) exit(3);
    while (fgets(line, sizeof line, maps)) {
        uintptr_t begin, end;
        char rights[8];
        if (sscanf(line, "%" SCNxPTR "-%" SCNxPTR " %7s", &begin, &end, rights) != 3 || rights[1] != 'w') continue;
        if ((strstr(line, "[stack]") != NULL) != in_stack || strstr(line, "[vvar")) continue;
        for (const volatile uint8_t *at = (const uint8_t *)begin; at + 32 <= (const uint8_t *)end; at++) {
            size_t i = 0;
            while (i < 32 && at[i] == byte_of(i)) i++;
            count += i == 32;
        }
    }
    fclose(maps);
    return count;
}

static void expect(bool is, const char *what, addrman_result code)
{
    if (is) return;
    printf("%s: %s\n", what, addrman_result_text(code));
    exit(1);
}

int main(void)
{
    static uint64_t words[COUNT + 1];
    const uint64_t seed[2] = { 1, 2 };
    uint8_t key[32];
    addrman am = ADDRMAN_INIT, again = ADDRMAN_INIT;
    addrman_save save = ADDRMAN_SAVE_INIT;
    addrman_bans bans = ADDRMAN_BANS_INIT;
    addrman_answers answers = ADDRMAN_ANSWERS_INIT;
    addrman_fault fault;
    uint32_t answer;
    size_t length = 0, room = ADDRMAN_FILE_ROOM(COUNT);
    uint8_t *file = malloc(room);
    if (!file) return 2;
    for (size_t i = 0; i < 32; i++) key[i] = byte_of(i);
    addrman_result code = addrman_open(&am, key, seed, NULL, 0);
    wipe(key, sizeof key);
    expect(!code, "open", code);
    for (uint32_t i = 0; i < COUNT; i++) {
        addrman_addr source = { { 5, (uint8_t)(i % 50), 1, 1 }, ADDRMAN_IPV4, 4 };
        addrman_peer peer = { { { (uint8_t)(20 + i % 60), (uint8_t)(i >> 8), (uint8_t)i, 1 }, ADDRMAN_IPV4, 4 }, 8333 };
        code = addrman_add(&am, &peer, &source, NOW, 1, 7200, i, NOW, &answer);
        expect(!code, "add", code);
        if (i % 7 == 0) code = addrman_good(&am, &peer, true, NOW + 1, &answer);
        expect(!code, "good", code);
        words[i] = i * UINT64_C(0x9e3779b97f4a7c15);
    }
    code = addrman_write_file(&am, ADDRMAN_MAIN, file, room, &length);
    expect(!code && length <= room, "write_file", code);
    code = addrman_open_file(&again, file, length, ADDRMAN_MAIN, seed, NULL, 0, &fault);
    expect(!code, "open_file", code);
    code = addrman_save_begin(&save, &again, ADDRMAN_MAIN, 1 << 30);
    expect(!code, "save_begin", code);
    addrman_request request;
    while ((code = addrman_save_next(&save, &request, file, room, &length)) == ADDRMAN_OK) {
        code = addrman_save_done(&save, true);
        expect(!code, "save_done", code);
    }
    expect(code == ADDRMAN_NONE, "save_next", code);
    wipe(file, room);
    code = addrman_bans_open(&bans, NULL, 0, &fault);
    expect(!code, "bans_open", code);
    code = addrman_answers_open(&answers);
    expect(!code, "answers_open", code);
    code = addrman_answer(&answers, &again, &bans, ADDRMAN_IPV4, 0, true, false, NOW, words, COUNT + 1, file, room, &length);
    expect(!code, "answer", code);
    unsigned open = found(false);
    addrman_close(&am);
    addrman_close(&again);
    addrman_save_close(&save);
    addrman_bans_close(&bans);
    addrman_answers_close(&answers);
    unsigned closed = found(false);
    free(file);
    if (open < 2 || closed) {
        printf("the key is found %u times while two objects are open, and %u times after they are closed\n", open, closed);
        return 1;
    }
    printf("the key of two objects is in memory %u times, and after they are closed 0 times, and on the stack %u times\n", open, found(true));
    return 0;
}
