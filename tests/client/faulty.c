/* Faulty calls of the library, and of the helper for records: each gives its status, and leaves buffer and length untouched.
 * Built with -fsanitize=address. */
#include "star_client.h"

#include <stdio.h>
#include <stdlib.h>
#include <string.h>

struct call {
    const char *name;
    uint32_t version;
    const char *cells;
    size_t cells_length;
    const uint16_t *thresholds;
    size_t layers, extra_length, seed_length, room;
    uint32_t status;
};

#define GOOD "\2de\6berlin"
static const uint16_t TWO[] = {3, 2}, LOW[] = {1, 2}, HIGH[] = {2, 513}, HIGHER[] = {2, 4097}, MANY[17] = {2, 2, 2, 2, 2, 2, 2, 2, 2, 2, 2, 2, 2, 2, 2, 2, 2};
static const char NINE[] = "\1a\1a\1a\1a\1a\1a\1a\1a\1a", LONG[] = "\x41" "0123456789012345678901234567890123456789012345678901234567890123x\6berlin";

static const struct call CALLS[] = {
    {"no version 0", 0, GOOD, 10, TWO, 2, 0, 32, 300, STAR_CLIENT_BAD_VERSION},
    {"no version 3", 3, GOOD, 10, TWO, 2, 0, 32, 300, STAR_CLIENT_BAD_VERSION},
    {"no thresholds", 1, "", 0, TWO, 0, 0, 32, 300, STAR_CLIENT_BAD_THRESHOLDS},
    {"a threshold of 1", 1, GOOD, 10, LOW, 2, 0, 32, 300, STAR_CLIENT_BAD_THRESHOLDS},
    {"a threshold of 513 in version 1", 1, GOOD, 10, HIGH, 2, 0, 32, 300, STAR_CLIENT_BAD_THRESHOLDS},
    {"a threshold of 4097 in version 2", 2, GOOD, 10, HIGHER, 2, 0, 32, 300, STAR_CLIENT_BAD_THRESHOLDS},
    {"nine layers in version 1", 1, NINE, 18, MANY, 9, 0, 32, 3000, STAR_CLIENT_BAD_THRESHOLDS},
    {"seventeen layers in version 2", 2, NINE, 18, MANY, 17, 0, 32, 3000, STAR_CLIENT_BAD_THRESHOLDS},
    {"an empty value", 1, "\0\6berlin", 8, TWO, 2, 0, 32, 300, STAR_CLIENT_BAD_VALUES},
    {"a value of 65 bytes", 1, LONG, 73, TWO, 2, 0, 32, 400, STAR_CLIENT_BAD_VALUES},
    {"one value for two thresholds", 1, GOOD, 3, TWO, 2, 0, 32, 300, STAR_CLIENT_BAD_VALUES},
    {"two values for one threshold", 1, GOOD, 10, TWO, 1, 0, 32, 300, STAR_CLIENT_BAD_VALUES},
    {"a cell that is cut", 1, GOOD, 9, TWO, 2, 0, 32, 300, STAR_CLIENT_BAD_VALUES},
    {"extra bytes in version 1", 1, GOOD, 10, TWO, 2, 1, 32, 300, STAR_CLIENT_BAD_EXTRA},
    {"256 extra bytes", 2, GOOD, 10, TWO, 2, 256, 32, 600, STAR_CLIENT_BAD_EXTRA},
    {"31 bytes of seed", 1, GOOD, 10, TWO, 2, 0, 31, 300, STAR_CLIENT_BAD_SEED},
    {"33 bytes of seed", 1, GOOD, 10, TWO, 2, 0, 33, 300, STAR_CLIENT_BAD_SEED},
    {"a byte less of room than the report", 1, GOOD, 10, TWO, 2, 0, 32, 283, STAR_CLIENT_SMALL_BUFFER},
    {"no room", 2, GOOD, 10, TWO, 2, 255, 32, 0, STAR_CLIENT_SMALL_BUFFER},
    {"just the room of the report", 1, GOOD, 10, TWO, 2, 0, 32, 284, STAR_CLIENT_DONE},
};

/* A copy of these bytes in memory of just their size, so that a read past it is seen. */
static void *copy_of(const void *bytes, size_t n) {
    void *copy = malloc(n ? n : 1);
    if (n) memcpy(copy, bytes, n);
    return copy;
}

/* The same call for a record: four bytes more of room and of what is written, and with less than four the fault that comes first. */
static int passes_as_record(const struct call *c, size_t room, const uint8_t *report, size_t length) {
    static const uint8_t zeros[256];
    uint8_t *cells = copy_of(c->cells, c->cells_length), *out = malloc(room + 1);
    memset(out, 0xaa, room + 1);
    size_t written = 77;
    uint32_t status = star_client_record(c->version, cells, c->cells_length, c->thresholds, c->layers, zeros, c->extra_length, 7, zeros,
                                         c->seed_length, 0, out, room, &written);
    uint32_t wanted = c->status == STAR_CLIENT_DONE && room < 4 + c->room ? STAR_CLIENT_SMALL_BUFFER : c->status;
    int good = status == wanted && out[room] == 0xaa;
    if (status == STAR_CLIENT_DONE) {
        const uint8_t front[4] = {0, 0, (uint8_t)(length >> 8), (uint8_t)length};
        good = good && written == 4 + length && !memcmp(out, front, 4) && !memcmp(out + 4, report, length);
    } else {
        for (size_t i = 0; i < room; i++) good = good && out[i] == 0xaa;
        good = good && written == 77;
    }
    if (!good) printf("%s: as a record in %zu bytes, status %u\n", c->name, room, (unsigned)status);
    free(cells), free(out);
    return good;
}

static int passes(const struct call *c) {
    static const uint8_t zeros[256];
    uint8_t *cells = copy_of(c->cells, c->cells_length), *extra = copy_of(zeros, c->extra_length), *seed = copy_of(zeros, c->seed_length);
    uint16_t *thresholds = copy_of(c->thresholds, 2 * c->layers);
    uint8_t *out = malloc(c->room + 1);
    memset(out, 0xaa, c->room + 1);
    size_t written = 77, needed = 77;
    uint32_t status = star_client_report(c->version, cells, c->cells_length, thresholds, c->layers, extra, c->extra_length, 7, seed,
                                         c->seed_length, 0, out, c->room, &written);
    uint32_t other = star_client_length(c->version, cells, c->cells_length, thresholds, c->layers, extra, c->extra_length, &needed);
    uint32_t wanted = c->status < STAR_CLIENT_BAD_SEED ? c->status : STAR_CLIENT_DONE;
    int good = status == c->status && other == wanted && (other == STAR_CLIENT_DONE || needed == 77) && out[c->room] == 0xaa;
    if (status == STAR_CLIENT_DONE) {
        good = good && written == needed && written == c->room;
    } else {
        for (size_t i = 0; i < c->room; i++) good = good && out[i] == 0xaa;
        good = good && written == 77;
    }
    if (!good) printf("%s: status %u, length %u\n", c->name, (unsigned)status, (unsigned)other);
    for (size_t room = 0; room < 5; room++) good &= passes_as_record(c, room, out, written);
    good &= passes_as_record(c, c->room + 4, out, written);
    free(cells), free(extra), free(seed), free(thresholds), free(out);
    return good;
}

/* Each status has a text of its own, and no other number has one of theirs. */
static int texts_differ(void) {
    int good = 1;
    for (uint32_t i = 0; i <= STAR_CLIENT_SMALL_BUFFER + 1; i++)
        for (uint32_t j = 0; j < i; j++) good = good && strcmp(star_client_status_text(i), star_client_status_text(j));
    return good && !strcmp(star_client_status_text(STAR_CLIENT_SMALL_BUFFER + 1), star_client_status_text(UINT32_MAX));
}

int main(void) {
    size_t all = 1 + sizeof CALLS / sizeof *CALLS, good = (size_t)texts_differ();
    for (size_t i = 0; i < all - 1; i++) good += (size_t)passes(&CALLS[i]);
    printf("%zu passed, %zu failed\n", good, all - good);
    return good < all;
}
