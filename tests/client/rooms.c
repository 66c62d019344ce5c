/* The portable client in a caller's room, which may hold anything before and holds nothing of a request after; and in threads at once. */
#include "star_client_portable.h"

#include <pthread.h>
#include <stdio.h>
#include <stdlib.h>
#include <string.h>

enum { THREADS = 4, TIMES = 50 };

static const uint8_t CELLS[] = "\7Germany\6Berlin", SEED[33] = "one seed of thirty-two bytes here";
static const uint16_t THRESHOLDS[] = {20, 10};
static uint8_t wanted[STAR_CLIENT_MAX_REPORT];
static size_t wanted_length;

/* Whether the bytes stand anywhere in the room. */
static int stands(const struct star_client_room *room, const void *bytes, size_t n) {
    const uint8_t *all = (const uint8_t *)room;
    for (size_t i = 0; i + n <= sizeof *room; i++)
        if (!memcmp(all + i, bytes, n)) return 1;
    return 0;
}

static int in_a_room(int filling) {
    struct star_client_room *room = malloc(sizeof *room);
    uint8_t out[STAR_CLIENT_MAX_REPORT] = {0};
    size_t written = 0, needed = 0;
    memset(room, filling, sizeof *room);
    uint32_t length = star_client_length_in(room, 1, CELLS, sizeof CELLS - 1, THRESHOLDS, 2, CELLS, 0, &needed);
    int good = length == STAR_CLIENT_DONE && !stands(room, "Germany", 7);
    uint32_t status = star_client_report_in(room, 1, CELLS, sizeof CELLS - 1, THRESHOLDS, 2, CELLS, 0, 7, SEED, 32, 0, out, sizeof out, &written);
    good = good && status == STAR_CLIENT_DONE && written == needed && written == wanted_length && !memcmp(out, wanted, written);
    good = good && !stands(room, "Germany", 7) && !stands(room, "Berlin", 6) && !stands(room, SEED, 16) && !stands(room, out, 16);
    if (!good) printf("a room filled with %d: status %u\n", filling, (unsigned)status);
    free(room);
    return good;
}

static void *in_a_thread(void *answer) {
    int *good = answer;
    *good = 1;
    for (int i = 0; i < TIMES; i++) {
        uint8_t out[STAR_CLIENT_MAX_REPORT];
        size_t written = 0;
        *good = *good && star_client_report(1, CELLS, sizeof CELLS - 1, THRESHOLDS, 2, CELLS, 0, 7, SEED, 32, 0, out, sizeof out, &written) == STAR_CLIENT_DONE &&
                written == wanted_length && !memcmp(out, wanted, written);
    }
    return NULL;
}

int main(void) {
    if (star_client_report(1, CELLS, sizeof CELLS - 1, THRESHOLDS, 2, CELLS, 0, 7, SEED, 32, 0, wanted, sizeof wanted, &wanted_length)) return 1;
    int passed = in_a_room(0) + in_a_room(255), answers[THREADS];
    pthread_t threads[THREADS];
    for (int i = 0; i < THREADS; i++)
        if (pthread_create(&threads[i], NULL, in_a_thread, &answers[i])) return 1;
    for (int i = 0; i < THREADS; i++) pthread_join(threads[i], NULL), passed += answers[i];
    printf("%d passed, %d failed\n", passed, 2 + THREADS - passed);
    return passed < 2 + THREADS;
}
