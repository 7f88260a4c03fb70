// Clients of `ssb_live serve` over named pipes, for `bench/live --long`: they add orders of one line and withdraw them, in
// balance, and keep no text.
//
//   balance REFRESHES LIVE LINE IN OUT [IN OUT ..]
//
// Each client sends so many refreshes without waiting for replies: first it adds LIVE orders, and from then on, in turn,
// it withdraws its oldest order and adds a new one. LINE is what stands behind the order's key and its line number. For
// each million of receipts that all clients together have read, a line goes to standard output: how many, and the seconds
// since the first byte was sent. A reply that is no receipt is an error. OUT is opened before IN.
#define _GNU_SOURCE
#include <err.h>
#include <errno.h>
#include <fcntl.h>
#include <pthread.h>
#include <stdint.h>
#include <stdio.h>
#include <stdlib.h>
#include <string.h>
#include <time.h>
#include <unistd.h>

enum { MOST_CLIENTS = 16, BLOCK = 1 << 16, MOST_REFRESH = 1 << 10, READ_SIZE = 1 << 20, TOLD = 1000000 };

static const uint64_t FIRST_KEY = 1000000000000, KEYS = 1000000000000;      // of a client

typedef struct {
    uint64_t first_key;
    int into, out;
    pthread_t sender, reader;
} Client;

static uint64_t refreshes, live;
static const char *line;
static pthread_barrier_t all_open;
static pthread_mutex_t telling = PTHREAD_MUTEX_INITIALIZER;
static uint64_t begun, receipts;        // the second under `telling`

static uint64_t now(void) {
    struct timespec time;
    clock_gettime(CLOCK_MONOTONIC, &time);
    return (uint64_t)time.tv_sec * 1000000000 + (uint64_t)time.tv_nsec;
}

static void send_all(int into, const char *bytes, size_t size) {
    while (size > 0) {
        ssize_t count = write(into, bytes, size);
        if (count < 0 && errno != EINTR)
            err(1, "write");
        if (count > 0) {
            bytes += count;
            size -= (size_t)count;
        }
    }
}

// The text of a refresh, of which so many were sent before.
static size_t refresh_text(char *text, uint64_t first_key, uint64_t sent) {
    uint64_t turn = sent < live ? 0 : (sent - live) / 2;
    if (sent >= live && (sent - live) % 2 == 0)
        return (size_t)sprintf(text, "begin\nwithdraw|%lu\ncommit\n", (unsigned long)(first_key + turn));
    uint64_t added = sent < live ? sent : live + turn;
    return (size_t)sprintf(text, "begin\nadd\nline|%lu|1|%s\ncommit\n", (unsigned long)(first_key + added), line);
}

static void *sends(void *of) {
    Client *client = of;
    char text[BLOCK + MOST_REFRESH];
    size_t size = 0;
    pthread_barrier_wait(&all_open);
    for (uint64_t sent = 0; sent < refreshes; sent++) {
        size += refresh_text(text + size, client->first_key, sent);
        if (size >= BLOCK) {
            send_all(client->into, text, size);
            size = 0;
        }
    }
    send_all(client->into, text, size);
    close(client->into);
    return NULL;
}

static void count_receipts(uint64_t count) {
    pthread_mutex_lock(&telling);
    uint64_t before = receipts / TOLD;
    receipts += count;
    if (receipts / TOLD > before) {
        printf("%lu %.3f\n", (unsigned long)receipts, (double)(now() - begun) / 1e9);
        fflush(stdout);
    }
    pthread_mutex_unlock(&telling);
}

static void *reads(void *of) {
    Client *client = of;
    char *bytes = malloc(READ_SIZE);
    int at_start = 1;
    uint64_t read_all = 0;
    if (!bytes)
        err(1, "malloc");
    for (;;) {
        ssize_t size = read(client->out, bytes, READ_SIZE);
        if (size < 0 && errno == EINTR)
            continue;
        if (size < 0)
            err(1, "read");
        if (size == 0)
            break;
        uint64_t count = 0;
        for (const char *at = bytes, *end = bytes + size; at < end;) {
            if (at_start && *at != 'c')         // committed N
                errx(1, "no receipt: %.40s", at);
            const char *feed = memchr(at, '\n', (size_t)(end - at));
            at_start = feed != NULL;
            count += at_start;
            at = feed ? feed + 1 : end;
        }
        read_all += count;
        count_receipts(count);
    }
    if (read_all != refreshes)
        errx(1, "%lu receipts for %lu refreshes", (unsigned long)read_all, (unsigned long)refreshes);
    free(bytes);
    return NULL;
}

int main(int count, char **words) {
    Client clients[MOST_CLIENTS];
    int number = (count - 4) / 2;
    if (count < 6 || count % 2 || number > MOST_CLIENTS || strlen(words[3]) > MOST_REFRESH / 2)
        errx(2, "balance REFRESHES LIVE LINE IN OUT [IN OUT ..]");
    refreshes = strtoull(words[1], NULL, 10);
    live = strtoull(words[2], NULL, 10);
    line = words[3];
    for (int i = 0; i < number; i++) {
        clients[i] = (Client){.first_key = FIRST_KEY + KEYS * (uint64_t)i};
        clients[i].out = open(words[5 + 2 * i], O_RDONLY);      // waits for the server
        clients[i].into = open(words[4 + 2 * i], O_WRONLY);
        if (clients[i].out < 0 || clients[i].into < 0)
            err(1, "%s, %s", words[4 + 2 * i], words[5 + 2 * i]);
    }
    pthread_barrier_init(&all_open, NULL, (unsigned)number);
    begun = now();
    for (int i = 0; i < number; i++)
        if (pthread_create(&clients[i].reader, NULL, reads, &clients[i])
            || pthread_create(&clients[i].sender, NULL, sends, &clients[i]))
            errx(1, "no thread");
    for (int i = 0; i < number; i++) {
        pthread_join(clients[i].sender, NULL);
        pthread_join(clients[i].reader, NULL);
    }
    return 0;
}
