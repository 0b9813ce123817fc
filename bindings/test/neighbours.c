/*
 * Carries out commands on a list of bans and lines of a log of events, and prints what the program
 * prints: neighbours < LINES. A line `take N COUNT` stands for a message of COUNT entries, and prints
 * nothing. `banlist.json` of the current folder is read, if it is there, and written at the end.
 */
#include "../addrman.h"

#include <inttypes.h>
#include <stdio.h>
#include <stdlib.h>
#include <string.h>

static addrman_bans bans = ADDRMAN_BANS_INIT;
static addrman_limiter limiter = ADDRMAN_LIMITER_INIT;
static uint32_t now;

static void fail(const char *what, unsigned code)
{
    fprintf(stderr, "%s: %u\n", what, code);
    exit(1);
}

static uint32_t number(const char *text)
{
    return (uint32_t)strtoul(text, NULL, 10);
}

static void ban_line(char **f)
{
    static const char *replies[] = { "added", "kept", "full" };
    const char *subnet = f[1];
    uint32_t code, answer;
    if (strcmp(f[0], "ban") == 0) {
        if ((code = addrman_bans_add(&bans, subnet, strlen(f[1]), number(f[2]), number(f[3]), &answer))) fail("add", code);
        printf("ban %s\n", replies[answer]);
    } else if (strcmp(f[0], "unban") == 0) {
        if ((code = addrman_bans_remove(&bans, subnet, strlen(f[1]), &answer))) fail("remove", code);
        printf(answer ? "removed\n" : "absent\n");
    } else {
        addrman_peer peer;
        addrman_ban ban;
        char text[100];
        size_t length;
        if ((code = addrman_peer_parse(subnet, strlen(f[1]), &peer))) fail(f[1], code);
        code = addrman_bans_covering(&bans, &peer.addr, number(f[2]), &ban);
        if (code == ADDRMAN_NONE) {
            printf("free\n");
            return;
        }
        if (code || (code = addrman_addr_text(&ban.base, text, sizeof text, &length))) fail("covering", code);
        const char *inner = text;
        if (*text == '[') inner++, length -= 2;
        printf("banned %.*s", (int)length, inner);
        if (ban.base.network == ADDRMAN_IPV4 || ban.base.network == ADDRMAN_IPV6) printf("/%" PRIu32, ban.prefix);
        printf(" %" PRIu32 "\n", ban.until);
    }
}

static void event_line(char **f)
{
    uint32_t code, answer;
    if (strcmp(f[0], "now") == 0) {
        now = number(f[1]);
    } else if (strcmp(f[0], "open") == 0) {
        addrman_addr addr;
        if ((code = addrman_addr_parse(f[2], strlen(f[2]), &addr))) fail(f[2], code);
        if ((code = addrman_limiter_add(&limiter, number(f[1]), &addr, strcmp(f[3], "unlimited") == 0, now, &answer))) fail("open", code);
        printf("# open %s%s\n", f[1], answer ? "" : " already");
    } else if (strcmp(f[0], "close") == 0) {
        if ((code = addrman_limiter_remove(&limiter, number(f[1]), &answer))) fail("close", code);
        printf("# close %s%s\n", f[1], answer ? "" : " unknown");
    } else if (strcmp(f[0], "getaddr") == 0) {
        if ((code = addrman_limiter_getaddr(&limiter, number(f[1]), &answer))) fail("getaddr", code);
        printf("# getaddr %s%s\n", f[1], answer == ADDRMAN_GETADDR_UNKNOWN ? " unknown" : answer == ADDRMAN_GETADDR_ALREADY ? " already" : "");
    } else if (strcmp(f[0], "take") == 0) {
        code = addrman_limiter_admit(&limiter, number(f[1]), number(f[2]), now, &answer);
        if (code && code != ADDRMAN_NONE) fail("admit", code);
    } else if (strcmp(f[0], "stat") == 0) {
        addrman_limits l;
        code = addrman_limiter_stat(&limiter, number(f[1]), &l);
        if (code == ADDRMAN_NONE) printf("# stat %s unknown\n", f[1]);
        else if (code) fail("stat", code);
        else printf("# stat %s processed %" PRIu32 " limited %" PRIu32 " tenths %" PRIu32 "\n", f[1], l.processed, l.limited, l.tenths);
    } else fail(f[0], 0);
}

int main(void)
{
    static char json[1000000];
    static char line[1000];
    size_t length = 0;
    addrman_fault fault;
    uint32_t code, answer;
    FILE *file = fopen("banlist.json", "rb");
    if (file) {
        length = fread(json, 1, sizeof json, file);
        fclose(file);
    }
    if (addrman_bans_remove(&bans, json, 0, &answer) != ADDRMAN_ERR_CLOSED) fail("a closed list", 0);
    if (addrman_limiter_remove(&limiter, 0, &answer) != ADDRMAN_ERR_CLOSED) fail("a closed limit", 0);
    if ((code = addrman_bans_open(&bans, json, length, &fault))) fail("bans_open", 100 * code + fault.kind);
    if ((code = addrman_limiter_open(&limiter))) fail("limiter_open", code);
    while (fgets(line, sizeof line, stdin)) {
        char *f[4] = { strtok(line, " \n") };
        for (int i = 1; i < 4; i++) f[i] = strtok(NULL, " \n");
        if (!f[0]) continue;
        if (strstr(f[0], "ban")) ban_line(f);
        else event_line(f);
    }
    if ((code = addrman_bans_write(&bans, json, sizeof json, &length))) fail("bans_write", code);
    file = fopen("banlist.json", "wb");
    if (!file || fwrite(json, 1, length, file) != length || fclose(file)) fail("banlist.json", 0);
    addrman_bans_close(&bans);
    addrman_bans_close(&bans);
    addrman_limiter_close(&limiter);
    addrman_close(NULL);
    addrman_save_close(NULL);
    addrman_bans_close(NULL);
    addrman_limiter_close(NULL);
    return 0;
}
