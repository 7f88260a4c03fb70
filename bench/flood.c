// Clients of `ssb_live serve` over named pipes, for bench/serve and bench/standing: they take less time than the server that they measure.
//
//   flood ahead TEXT IN OUT [TEXT IN OUT ..]   sends each text over its pipe without waiting, and reads all replies:
//                                              prints how many lines the replies had, and the seconds from the first
//                                              byte that a client sent to the last that one read
//   flood wait SECONDS TEXT IN OUT             sends the refreshes of the text one by one, each after the receipt of
//                                              the one before, at most so many seconds: prints the nanoseconds of each
//   flood ask SECONDS TEXT IN OUT [..]         asks the questions of each text, one a line, again and again for so many
//                                              seconds, each once the answer to the one before was read: prints of each
//                                              answer its client, its line in the text (both from 0) and its nanoseconds
//
// TEXT is a file. OUT is opened before IN.
#define _GNU_SOURCE
#include <err.h>
#include <errno.h>
#include <fcntl.h>
#include <pthread.h>
#include <stdint.h>
#include <stdio.h>
#include <stdlib.h>
#include <string.h>
#include <sys/mman.h>
#include <sys/stat.h>
#include <time.h>
#include <unistd.h>

enum { MOST_CLIENTS = 16, READ_SIZE = 1 << 20, MOST_ANSWERS = 1 << 22 };

typedef struct {
    const char *text;
    size_t size;
    int into, out;
    uint64_t first, last;       // the nanoseconds of the first byte sent and of the last byte read
    size_t lines;               // of the replies
    pthread_t sender, reader;
} Client;

static pthread_barrier_t all_open;

static uint64_t now(void) {
    struct timespec time;
    clock_gettime(CLOCK_MONOTONIC, &time);
    return (uint64_t)time.tv_sec * 1000000000 + (uint64_t)time.tv_nsec;
}

static Client client_of(const char *name, const char *into, const char *out) {
    Client client = {0};
    struct stat file;
    int text = open(name, O_RDONLY);
    if (text < 0 || fstat(text, &file) || file.st_size == 0)
        err(1, "%s", name);
    client.size = (size_t)file.st_size;
    client.text = mmap(NULL, client.size, PROT_READ, MAP_PRIVATE | MAP_POPULATE, text, 0);
    if (client.text == MAP_FAILED)
        err(1, "%s", name);
    close(text);
    client.out = open(out, O_RDONLY);       // waits for the server
    client.into = open(into, O_WRONLY);
    if (client.out < 0 || client.into < 0)
        err(1, "%s, %s", into, out);
    return client;
}

static void send_all(int into, const char *bytes, size_t size) {
    while (size > 0) {
        ssize_t count = write(into, bytes, size);
        if (count < 0 && errno != EINTR)
            err(1, "write");
        if (count > 0) {
            bytes += count;
            size -= (size_t)count;
        }
    }
}

static size_t read_some(int out, char *bytes, size_t room) {
    for (;;) {
        ssize_t count = read(out, bytes, room);
        if (count >= 0)
            return (size_t)count;
        if (errno != EINTR)
            err(1, "read");
    }
}

static size_t line_feeds(const char *bytes, size_t size) {
    size_t count = 0;
    for (const char *at = bytes, *end = bytes + size; (at = memchr(at, '\n', (size_t)(end - at))); at++)
        count++;
    return count;
}

// ---- ahead ----

static void *sends(void *of) {
    Client *client = of;
    pthread_barrier_wait(&all_open);
    client->first = now();
    send_all(client->into, client->text, client->size);
    close(client->into);
    return NULL;
}

static void *reads(void *of) {
    Client *client = of;
    char *bytes = malloc(READ_SIZE);
    size_t count;
    if (!bytes)
        err(1, "malloc");
    while ((count = read_some(client->out, bytes, READ_SIZE)) > 0) {
        client->lines += line_feeds(bytes, count);
        client->last = now();
    }
    free(bytes);
    return NULL;
}

static int ahead(int count, char **words) {
    Client clients[MOST_CLIENTS];
    for (int i = 0; i < count; i++)
        clients[i] = client_of(words[3 * i], words[3 * i + 1], words[3 * i + 2]);
    pthread_barrier_init(&all_open, NULL, (unsigned)count);
    for (int i = 0; i < count; i++)
        if (pthread_create(&clients[i].reader, NULL, reads, &clients[i])
            || pthread_create(&clients[i].sender, NULL, sends, &clients[i]))
            errx(1, "no thread");
    uint64_t first = UINT64_MAX, last = 0;
    size_t lines = 0;
    for (int i = 0; i < count; i++) {
        pthread_join(clients[i].sender, NULL);
        pthread_join(clients[i].reader, NULL);
        first = clients[i].first < first ? clients[i].first : first;
        last = clients[i].last > last ? clients[i].last : last;
        lines += clients[i].lines;
    }
    printf("%zu %.9f\n", lines, last > first ? (double)(last - first) / 1e9 : 0);
    return 0;
}

// ---- one by one ----

// How many bytes the refresh takes that stands at the front: through its `commit` line.
static size_t refresh_size(const char *bytes, size_t size) {
    const char *end = memmem(bytes, size, "\ncommit\n", 8);
    return end ? (size_t)(end - bytes) + 8 : 0;
}

static int wait_for_each(double seconds, char **words) {
    static char reply[READ_SIZE];
    Client client = client_of(words[0], words[1], words[2]);
    uint64_t end = now() + (uint64_t)(seconds * 1e9);
    size_t at = 0, size;
    while (now() < end && (size = refresh_size(client.text + at, client.size - at)) > 0) {
        uint64_t start = now();
        send_all(client.into, client.text + at, size);
        for (size_t told = 0; told == 0;) {
            size_t count = read_some(client.out, reply, sizeof reply);
            if (count == 0)
                errx(1, "the session ended");
            told = line_feeds(reply, count);
        }
        printf("%llu\n", (unsigned long long)(now() - start));
        at += size;
    }
    close(client.into);
    while (read_some(client.out, reply, sizeof reply) > 0) {}
    return 0;
}

// ---- questions without a pause ----

typedef struct {
    Client client;
    uint64_t end;               // when no question is begun any more, in nanoseconds
    double seconds;
    size_t answers;
    uint32_t *lines, *times;    // of each answer: which line asked, and the nanoseconds
    pthread_t thread;
} Asker;

// Reads one answer: the line that ends in ` rows R`, and R lines. Any other line is an answer by itself.
static void read_answer(int out, char *reply) {
    size_t size = 0, seen = 0, wanted = 1;
    for (int has_head = 0; seen < wanted;) {
        size_t count = read_some(out, reply + size, READ_SIZE - size);
        if (count == 0)
            errx(1, "the session ended");
        seen += line_feeds(reply + size, count);
        size += count;
        if (!has_head && seen > 0) {
            char *end = memchr(reply, '\n', size), *rows = memmem(reply, (size_t)(end - reply), " rows ", 6);
            wanted = 1 + (rows ? strtoul(rows + 6, NULL, 10) : 0);
            has_head = 1;
        }
    }
}

static void *asks(void *of) {
    Asker *asker = of;
    Client *client = &asker->client;
    char *reply = malloc(READ_SIZE);
    if (!reply)
        err(1, "malloc");
    pthread_barrier_wait(&all_open);
    asker->end = now() + (uint64_t)(asker->seconds * 1e9);
    uint32_t line = 0;
    for (size_t at = 0; asker->answers < MOST_ANSWERS; line++) {
        if (at == client->size)
            at = line = 0;
        const char *feed = memchr(client->text + at, '\n', client->size - at);
        size_t size = feed ? (size_t)(feed + 1 - client->text) - at : 0;
        uint64_t start = now();
        if (size == 0 || start >= asker->end)
            break;
        send_all(client->into, client->text + at, size);
        read_answer(client->out, reply);
        asker->lines[asker->answers] = line;
        asker->times[asker->answers++] = (uint32_t)(now() - start);
        at += size;
    }
    close(client->into);
    while (read_some(client->out, reply, READ_SIZE) > 0) {}
    free(reply);
    return NULL;
}

static int ask(double seconds, int count, char **words) {
    static Asker askers[MOST_CLIENTS];
    for (int i = 0; i < count; i++) {
        askers[i].client = client_of(words[3 * i], words[3 * i + 1], words[3 * i + 2]);
        askers[i].seconds = seconds;
        askers[i].lines = malloc(MOST_ANSWERS * sizeof *askers[i].lines);
        askers[i].times = malloc(MOST_ANSWERS * sizeof *askers[i].times);
        if (!askers[i].lines || !askers[i].times)
            err(1, "malloc");
    }
    pthread_barrier_init(&all_open, NULL, (unsigned)count);
    for (int i = 0; i < count; i++)
        if (pthread_create(&askers[i].thread, NULL, asks, &askers[i]))
            errx(1, "no thread");
    for (int i = 0; i < count; i++)
        pthread_join(askers[i].thread, NULL);
    for (int i = 0; i < count; i++)
        for (size_t answer = 0; answer < askers[i].answers; answer++)
            printf("%d %u %u\n", i, askers[i].lines[answer], askers[i].times[answer]);
    return 0;
}

int main(int count, char **words) {
    if (count > 3 && count % 3 == 2 && count <= 2 + 3 * MOST_CLIENTS && !strcmp(words[1], "ahead"))
        return ahead((count - 2) / 3, words + 2);
    if (count == 6 && !strcmp(words[1], "wait"))
        return wait_for_each(atof(words[2]), words + 3);
    if (count > 3 && count % 3 == 0 && count <= 3 + 3 * MOST_CLIENTS && !strcmp(words[1], "ask"))
        return ask(atof(words[2]), (count - 3) / 3, words + 3);
    errx(2, "ahead TEXT IN OUT .. | wait SECONDS TEXT IN OUT | ask SECONDS TEXT IN OUT ..");
}
