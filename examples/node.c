/*
 * A small node on the loopback interface: keeps its tables over a restart, takes messages within
 * the limit on received addresses, announces its own address, answers getaddr, and connects.
 *
 *     gcc examples/node.c -I bindings bin/lib/libaddrman.a -o bin/node
 *     bin/node FOLDER < MESSAGES
 *     bin/node FOLDER OWN [PEER] < MESSAGES
 *
 * FOLDER has its peers.dat, or gets one. A line of MESSAGES is SOURCE HEX: the address that sent an
 * addrv2 message, and the payload in hexadecimal; or SOURCE getaddr, which is answered. Without OWN
 * the node has no network, and prints whom it would connect to.
 *
 * OWN is the node's address and port, as 8.8.4.4:18401. The node then listens at that port of
 * 127.0.0.1, and reaches each other peer at its port there. It connects to PEER if that is given,
 * and else to peers of its tables, and ends by SIGTERM, or when nothing came for ten seconds.
 */
#include "addrman.h"
#include "loopback.h"

#include <errno.h>
#include <fcntl.h>
#include <poll.h>
#include <signal.h>
#include <stdio.h>
#include <stdlib.h>
#include <sys/random.h>
#include <time.h>

enum { MAX_CONNECTIONS = 16, MAX_PAYLOAD = 49003, MAX_WORDS = ADDRMAN_MAX_RECORDS + 1 };

typedef struct {
    link_to link;
    bool outbound, answered;
    addrman_peer peer; /* whom it leads to, or where it comes from */
} connection;

static addrman am = ADDRMAN_INIT;
static addrman_bans bans = ADDRMAN_BANS_INIT;
static addrman_limiter limiter = ADDRMAN_LIMITER_INIT;
static addrman_answers answers = ADDRMAN_ANSWERS_INIT;
static addrman_peer own;
static connection connections[MAX_CONNECTIONS];
static volatile sig_atomic_t is_over;

static void stop(const char *what, unsigned code)
{
    fprintf(stderr, "node: %s: %u\n", what, code);
    exit(1);
}

static uint32_t now(void)
{
    return (uint32_t)time(NULL);
}

/* Fills memory with random bytes of the system. */
static void draw_bytes(void *to, size_t length)
{
    for (size_t done = 0; done < length;) {
        ssize_t some = getrandom((char *)to + done, length - done, 0);
        if (some > 0) done += (size_t)some;
        else if (errno != EINTR) stop("getrandom", 0);
    }
}

/* Random words: at most one for each record, and one more. */
static const uint64_t *draw(size_t count)
{
    static uint64_t words[MAX_WORDS];
    if (count > MAX_WORDS) stop("too many random words", (unsigned)count);
    draw_bytes(words, count * sizeof *words);
    return words;
}

/* The text of a peer. */
static const char *text_of(const addrman_peer *peer)
{
    static char text[80];
    size_t length;
    if (addrman_peer_text(peer, text, sizeof text - 1, &length)) stop("peer_text", 0);
    text[length] = 0;
    return text;
}

static addrman_peer peer_of(const char *text)
{
    addrman_peer peer;
    if (addrman_peer_parse(text, strlen(text), &peer)) stop(text, 0);
    return peer;
}

/* ---------------------------------------------------------------------------------- the file */

static void open_tables(const char *folder)
{
    static uint8_t bytes[33600000];
    char path[4096];
    addrman_fault fault;
    uint64_t seed[2];
    memcpy(seed, draw(2), sizeof seed);
    snprintf(path, sizeof path, "%s/peers.dat", folder);
    FILE *in = fopen(path, "rb");
    addrman_result code;
    if (in) {
        size_t length = fread(bytes, 1, sizeof bytes, in);
        if (ferror(in)) stop("peers.dat cannot be read", errno);
        fclose(in);
        code = addrman_open_file(&am, bytes, length, ADDRMAN_MAIN, seed, NULL, 0, &fault);
        if (code == ADDRMAN_ERR_REFUSED) stop("peers.dat is refused, fault", fault.kind);
    } else if (errno != ENOENT) {
        stop("peers.dat cannot be opened", errno);
    } else {
        code = addrman_open(&am, (const uint8_t *)draw(4), seed, NULL, 0);
    }
    if (code) stop("open", code);
    if (addrman_bans_open(&bans, "", 0, &fault) || addrman_answers_open(&answers)
        || addrman_limiter_open(&limiter))
        stop("bans, answers and limiter", 0);
}

/* Carries out what a save asks for, each request only after the one before: a crash leaves the old
 * file or the new one. */
static void save(const char *folder)
{
    static uint8_t piece[65536];
    addrman_save job = ADDRMAN_SAVE_INIT;
    addrman_request request;
    addrman_result code;
    size_t length;
    int file = -1, in = open(folder, O_RDONLY | O_DIRECTORY);
    if (in < 0) stop(folder, 0);
    code = addrman_save_begin(&job, &am, ADDRMAN_MAIN, sizeof piece);
    if (code) stop("save_begin", code);
    while ((code = addrman_save_next(&job, &request, piece, sizeof piece, &length)) == ADDRMAN_OK) {
        bool done = false;
        switch (request) {
        case ADDRMAN_CREATE:
            file = openat(in, "peers.tmp", O_WRONLY | O_CREAT | O_TRUNC, 0600);
            done = file >= 0;
            break;
        case ADDRMAN_APPEND: done = write(file, piece, length) == (ssize_t)length; break;
        case ADDRMAN_SYNC: done = fsync(file) == 0 && close(file) == 0; break;
        case ADDRMAN_RENAME: done = renameat(in, "peers.tmp", in, "peers.dat") == 0; break;
        case ADDRMAN_SYNC_FOLDER: done = fsync(in) == 0; break;
        }
        if (!done) stop("request of a save", request);
        if ((code = addrman_save_done(&job, true))) stop("save_done", code);
    }
    if (code != ADDRMAN_NONE) stop("save_next", code); /* with NONE the save is closed */
    close(in);
}

/* --------------------------------------------------------------------- messages and answers */

/* Writes the payload that answers a getaddr from an address, which came in on socket 0, and its
 * length. Returns false if nothing is told. */
static bool answer(const addrman_addr *from, uint8_t *payload, size_t *length)
{
    addrman_counts counts;
    uint32_t network;
    if (addrman_addr_class(from, &network) || addrman_size(&am, &counts)) stop("answer", 0);
    size_t need = 1 + (size_t)counts.new_count + counts.tried_count;
    addrman_result code = addrman_answer(&answers, &am, &bans, (addrman_network)network, 0, true,
        false, now(), draw(need), need, payload, MAX_PAYLOAD, length);
    if (code && code != ADDRMAN_NONE) stop("answer", code);
    return code == ADDRMAN_OK;
}

/* Carries out a line of MESSAGES. */
static void take_line(const char *source, const char *hex)
{
    static uint8_t payload[1000000];
    addrman_addr from;
    addrman_added added;
    addrman_fault fault;
    size_t length = 0;
    if (addrman_addr_parse(source, strlen(source), &from)) stop(source, 0);
    if (strcmp(hex, "getaddr") == 0) {
        if (answer(&from, payload, &length)) printf("%s is told %zu bytes\n", source, length);
        else printf("%s is told nothing\n", source);
        return;
    }
    for (unsigned byte; length < sizeof payload && sscanf(hex, "%2x", &byte) == 1; hex += 2)
        payload[length++] = (uint8_t)byte;
    addrman_result code = addrman_take_message(&am, true, payload, length, &from, draw(1000), 1000,
        now(), &added, &fault);
    if (code == ADDRMAN_ERR_REFUSED) printf("%s sent no message: fault %u\n", source, fault.kind);
    else if (code) stop("take_message", code);
    else printf("%s told %u peers, %u new\n", source, added.total, added.accepted);
}

/* ------------------------------------------------------------------------------- connections */

static uint32_t number_of(const connection *one)
{
    return (uint32_t)(one - connections);
}

/* Keeps a connection that was opened, and tells its peer the node's own address. Returns NULL if
 * too many are open, or the peer is banned. */
static connection *keep(int socket, const addrman_peer *peer, bool outbound)
{
    uint8_t payload[100];
    addrman_entry entry = { 1, own, now() };
    addrman_ban ban;
    size_t length;
    uint32_t is_new;
    connection *one = connections;
    while (one < connections + MAX_CONNECTIONS && one->link.socket >= 0) one++;
    if (one == connections + MAX_CONNECTIONS
        || addrman_bans_covering(&bans, &peer->addr, now(), &ban) == ADDRMAN_OK) {
        close(socket);
        return NULL;
    }
    begin_link(&one->link, socket);
    one->outbound = outbound;
    one->answered = false;
    one->peer = *peer;
    if (addrman_limiter_add(&limiter, number_of(one), &peer->addr, false, now(), &is_new)
        || addrman_write_message(true, &entry, 1, payload, sizeof payload, &length))
        stop("keep", 0);
    send_message(&one->link, "addrv2", payload, length);
    return one;
}

static void drop(connection *one)
{
    uint32_t known;
    if (addrman_limiter_remove(&limiter, number_of(one), &known)) stop("limiter_remove", 0);
    if (one->outbound
        && (addrman_opener_remove(&am, &one->peer, &known)
            || addrman_connected(&am, &one->peer, now(), &known)))
        stop("drop", 0);
    close(one->link.socket);
    one->link.socket = -1;
}

/* Takes as much of a message as the limit lets through. Returns whether it is one. */
static bool take(connection *from, bool is_v2, const message *got)
{
    addrman_added added;
    addrman_fault fault;
    uint32_t count, most;
    addrman_result code = addrman_message_count(is_v2, got->payload, got->length, &count, &fault);
    if (code == ADDRMAN_ERR_REFUSED) return false;
    if (code || addrman_limiter_admit(&limiter, number_of(from), count, now(), &most))
        stop("limiter_admit", code);
    code = addrman_take_first(&am, is_v2, got->payload, got->length, &from->peer.addr, most,
        draw(most), most, now(), &added, &fault);
    if (code) stop("take_first", code);
    printf("%s announced %u peers, of which %u are let through, %u new\n", text_of(&from->peer),
        count, most, added.accepted);
    return true;
}

/* Handles a message. Returns false if the connection is to be closed. */
static bool handle(connection *from, const message *got)
{
    static uint8_t out[MAX_PAYLOAD];
    size_t length;
    if (strcmp(got->name, "addr") == 0) return take(from, false, got);
    if (strcmp(got->name, "addrv2") == 0) return take(from, true, got);
    if (strcmp(got->name, "getaddr") || from->outbound || from->answered) return true;
    from->answered = true;
    if (!answer(&from->peer.addr, out, &length)) return true;
    printf("%s is told %zu bytes\n", text_of(&from->peer), length);
    send_message(&from->link, "addrv2", out, length);
    return true;
}

/* Reads what came, and handles each message that is whole. Returns false if the connection is over
 * or is to be closed. */
static bool receive(connection *from)
{
    message next;
    if (!receive_some(&from->link)) return false;
    while (next_message(&from->link, &next)) {
        if (!handle(from, &next)) return false;
        drop_message(&from->link, &next);
    }
    return !is_too_long(&from->link);
}

/* Connects to a peer of the opener's, and sends getaddr. */
static void reach(const addrman_peer *peer)
{
    uint32_t known, outcome;
    int socket = connect_at(peer->port);
    if (addrman_attempt(&am, peer, true, now(), &known)) stop("attempt", 0);
    connection *one = socket < 0 ? NULL : keep(socket, peer, true);
    if (!one) {
        if (addrman_opener_remove(&am, peer, &known)) stop("opener_remove", 0);
        return;
    }
    printf("connected to %s\n", text_of(peer));
    if (addrman_good(&am, peer, true, now(), &outcome) || addrman_set_services(&am, peer, 1, &known)
        || addrman_limiter_getaddr(&limiter, number_of(one), &outcome))
        stop("reach", 0);
    send_message(&one->link, "getaddr", NULL, 0);
}

/* Picks a peer. Where the random words do not suffice, they are kept, and more follow them. */
static addrman_result pick(addrman_picked *picked)
{
    static uint64_t words[MAX_WORDS];
    addrman_result code = ADDRMAN_EXHAUSTED;
    uint32_t moment = now();
    for (size_t have = 0, want = 300; code == ADDRMAN_EXHAUSTED && want <= MAX_WORDS; want *= 2) {
        draw_bytes(words + have, (want - have) * sizeof *words);
        have = want;
        code = addrman_select(&am, false, ADDRMAN_ALL_NETS, words, have, moment, picked);
    }
    return code;
}

/* Chooses peers to connect to, no two of one network group, until ten are chosen or tries fail. */
static void connect_all(bool has_network)
{
    for (uint32_t attempt = 1; attempt <= 100; attempt++) {
        addrman_picked picked;
        uint32_t verdict;
        addrman_result code = pick(&picked);
        if (code == ADDRMAN_NONE) return;
        if (code || addrman_opener_judge(&am, &picked, now(), attempt, &verdict))
            stop("select", code);
        /* The port tells the node itself. */
        if (verdict != ADDRMAN_TAKE || (has_network && picked.peer.port == own.port)) continue;
        code = addrman_opener_add(&am, &picked.peer);
        if (code == ADDRMAN_ERR_FULL) return;
        if (code) stop("opener_add", code);
        if (has_network) reach(&picked.peer);
        else printf("connect to %s\n", text_of(&picked.peer));
    }
}

/* Connects to a peer that is given. */
static void connect_to(const addrman_peer *peer)
{
    uint32_t accepted;
    if (addrman_add(&am, peer, &peer->addr, now(), 1, 0, draw(1)[0], now(), &accepted)
        || addrman_opener_add(&am, peer))
        stop("connect_to", 0);
    reach(peer);
}

static void end(int signal)
{
    (void)signal;
    is_over = 1;
}

/* Serves connections until the node is told to end. */
static void serve(int listener)
{
    const addrman_peer other = { { { 127, 0, 0, 1 }, ADDRMAN_IPV4, 4 }, 0 };
    while (!is_over) {
        struct pollfd waits[1 + MAX_CONNECTIONS] = { { listener, POLLIN, 0 } };
        for (int i = 0; i < MAX_CONNECTIONS; i++)
            waits[1 + i] = (struct pollfd){ connections[i].link.socket, POLLIN, 0 };
        fflush(stdout);
        if (poll(waits, 1 + MAX_CONNECTIONS, 100) <= 0) continue;
        alarm(10);
        for (int i = 0; i < MAX_CONNECTIONS; i++)
            if (waits[1 + i].revents && !receive(&connections[i])) drop(&connections[i]);
        if (waits[0].revents) {
            int one = accept(listener, NULL, NULL);
            if (one >= 0) keep(one, &other, false);
        }
    }
    for (int i = 0; i < MAX_CONNECTIONS; i++)
        if (connections[i].link.socket >= 0) drop(&connections[i]);
    close(listener);
}

int main(int argc, char **argv)
{
    static char source[100], hex[2000001];
    addrman_counts counts;
    int listener = -1;
    if (argc < 2 || argc > 4) return 2;
    open_tables(argv[1]);
    for (int i = 0; i < MAX_CONNECTIONS; i++) connections[i].link.socket = -1;
    while (scanf("%99s %2000000s", source, hex) == 2) take_line(source, hex);
    if (argc > 2) {
        own = peer_of(argv[2]);
        signal(SIGTERM, end);
        signal(SIGALRM, end);
        listener = listen_at(own.port);
        if (listener < 0) stop("listen", errno);
        printf("listens\n");
    }
    if (argc == 4) {
        addrman_peer peer = peer_of(argv[3]);
        connect_to(&peer);
    } else {
        connect_all(argc == 3);
    }
    if (argc > 2) {
        alarm(10);
        serve(listener);
    }
    save(argv[1]);
    if (addrman_size(&am, &counts)) stop("size", 0);
    printf("%u peers in the new table, %u in the tried table\n", counts.new_count,
        counts.tried_count);
    addrman_close(&am);
    addrman_bans_close(&bans);
    addrman_limiter_close(&limiter);
    addrman_answers_close(&answers);
    return 0;
}
