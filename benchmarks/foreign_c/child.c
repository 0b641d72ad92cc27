/* The work that `benchmarks/web` times from C: pushes to one child after another of a listener to all of a path, which is told of its children alone,
   and what the seat is told of each taken as text. Counts go to standard output, nanoseconds to standard error. */
#include "kaltewi.h"

#include <stdio.h>
#include <stdlib.h>
#include <time.h>

enum { ROUNDS = 5, STEPS = 20000, OF_CHILDREN = KW_REMOVED | KW_ADDED | KW_MOVED | KW_CHANGED };

static char text[1 << 18];
static uint8_t room[1 << 20];

static long long now(void)
{
    struct timespec at;
    clock_gettime(CLOCK_MONOTONIC, &at);
    return at.tv_sec * 1000000000LL + at.tv_nsec;
}

static void must(kw_status status)
{
    if (status != KW_DONE) {
        fprintf(stderr, "a call ended with %u\n", status);
        exit(1);
    }
}

/* Takes what the seat is told, and counts it. */
static int hear(kw_client *client)
{
    int count = 0;
    size_t len = 0;
    must(kw_client_settle(client, 1));
    while (kw_client_next(client, 1, room, sizeof room, &len) == KW_DONE)
        count++;
    return count;
}

/* Pushes a number to a child, and counts what the seat is told of it. */
static int push(kw_client *client, int known, int number)
{
    int child = (int)(number * 7919LL % known);
    int n = snprintf(text, sizeof text, "{\"k\":\"data\",\"path\":\"/a/k%05d\",\"tag\":1,\"value\":%d}", child, 1000000 + number);
    must(kw_client_server_message(client, (const uint8_t *)text, (size_t)n));
    return hear(client);
}

/* What the server sends first: an object of so many numbered children. */
static void fill(kw_client *client, int known)
{
    int n = snprintf(text, sizeof text, "{\"k\":\"data\",\"path\":\"/a\",\"tag\":1,\"value\":{");
    for (int i = 0; i < known; i++)
        n += snprintf(text + n, sizeof text - (size_t)n, "%s\"k%05d\":%d", i ? "," : "", i, i);
    n += snprintf(text + n, sizeof text - (size_t)n, "}}");
    must(kw_client_server_message(client, (const uint8_t *)text, (size_t)n));
    hear(client);
}

static void measure(int known)
{
    static const size_t rings[] = {64};
    kw_client client = {0};
    uint64_t listener = 0;
    int count = 0;
    must(kw_client_open(&client, rings, 1));
    must(kw_client_connected(&client));
    must(kw_client_listen(&client, 1, (const uint8_t *)"/a", 2, NULL, 0, &listener));
    must(kw_client_want(&client, 1, listener, OF_CHILDREN));
    fill(&client, known);
    long long start = now();
    for (int i = 0; i < STEPS; i++)
        count += push(&client, known, i);
    fprintf(stderr, "time %d %lld\n", known, (now() - start) / STEPS);
    printf("%d %d\n", known, count);
    kw_client_close(&client);
}

int main(void)
{
    for (int i = 0; i < ROUNDS; i++)
        for (int known = 10; known <= 10000; known *= 10)
            measure(known);
    return 0;
}
