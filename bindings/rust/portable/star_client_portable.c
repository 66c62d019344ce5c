/* star_client.h and star_client_portable.h over the C that wasm2c makes of the lowered module. */
#include "star_client_portable.h"
#include "module.h"

#include <stdlib.h>

/* The most of each argument that isn't a fault whatever it holds. */
enum { MOST_LAYERS = 16, MOST_EXTRA = 255 };

/* Where each argument lies behind the module's own data, in bytes from there: each has the room of one more than the most. */
enum { AT_THRESHOLDS = 0, AT_WRITTEN = 64, AT_EXTRA = 128, AT_CELLS = 512, AT_SEED = 2048, AT_OUT = 2176, AT_END = AT_OUT + STAR_CLIENT_MAX_REPORT };

/* The module's stack lies below its data, and its data below 66 KB: what a call can have written lies below this. */
enum { USED = 66 * 1024 + AT_END };

typedef Z_module_instance_t Instance;

_Static_assert(sizeof(Instance) <= sizeof(struct star_client_room), "the room holds an instance");
_Static_assert((int)USED <= (int)WASM_RT_MEMORY_BYTES, "the memory holds the arguments");

/* The module is proved to have no trap that arguments could reach: this is for a tool that is wrong. */
void wasm_rt_trap(wasm_rt_trap_t trap) {
    (void)trap;
    abort();
}

/* Key and seed don't stay behind: a call through a volatile pointer isn't left out. */
static void clear(Instance *instance) {
    static void *(*const volatile set)(void *, int, size_t) = memset;
    set(instance->w2c_memory.data, 0, USED);
}

static size_t at_most(size_t n, size_t most) {
    return n < most ? n : most;
}

/* The arguments as the module has them: where they lie, and how long they are. */
struct arguments {
    uint64_t base, cells, thresholds, extra;
};

static uint8_t *place(Instance *instance, uint64_t at) {
    return instance->w2c_memory.data + at;
}

/* Makes the module anew, whose memory is clear, and puts the arguments behind its data. Of what is too long, one more than the most
 * stands for it. */
static struct arguments begin(Instance *instance, const uint8_t *cells, size_t cells_length, const uint16_t *thresholds,
                              size_t thresholds_length, const uint8_t *extra, size_t extra_length) {
    Z_module_instantiate(instance);
    const struct arguments told = {
        *Z_moduleZ___heap_base(instance), at_most(cells_length, STAR_CLIENT_MAX_CELLS + 1), at_most(thresholds_length, MOST_LAYERS + 1),
        at_most(extra_length, MOST_EXTRA + 1),
    };
    for (size_t i = 0; i < told.thresholds; i++) {
        const uint8_t two[2] = {(uint8_t)thresholds[i], (uint8_t)(thresholds[i] >> 8)};
        memcpy(place(instance, told.base + AT_THRESHOLDS + 2 * i), two, 2);
    }
    memcpy(place(instance, told.base + AT_CELLS), cells, (size_t)told.cells);
    memcpy(place(instance, told.base + AT_EXTRA), extra, (size_t)told.extra);
    return told;
}

static size_t written_of(Instance *instance, uint64_t base) {
    const uint8_t *bytes = place(instance, base + AT_WRITTEN);
    return (size_t)bytes[0] | (size_t)bytes[1] << 8;
}

static uint32_t report_in(Instance *instance, uint32_t version, const uint8_t *cells, size_t cells_length, const uint16_t *thresholds,
                          size_t thresholds_length, const uint8_t *extra, size_t extra_length, uint32_t epoch, const uint8_t *seed,
                          size_t seed_length, uint32_t client, uint8_t *out, size_t out_length, size_t *written) {
    const struct arguments told = begin(instance, cells, cells_length, thresholds, thresholds_length, extra, extra_length);
    const uint64_t base = told.base;
    const size_t seed_told = at_most(seed_length, STAR_CLIENT_SEED_BYTES + 1), room = at_most(out_length, STAR_CLIENT_MAX_REPORT);
    memcpy(place(instance, base + AT_SEED), seed, seed_told);
    const uint32_t status = Z_moduleZ_star_client_report(instance, version, base + AT_CELLS, told.cells, base + AT_THRESHOLDS, told.thresholds,
                                                         base + AT_EXTRA, told.extra, epoch, base + AT_SEED, seed_told, client,
                                                         base + AT_OUT, room, base + AT_WRITTEN);
    if (status == STAR_CLIENT_DONE) {
        *written = written_of(instance, base);
        memcpy(out, place(instance, base + AT_OUT), *written);
    }
    clear(instance);
    return status;
}

static uint32_t length_in(Instance *instance, uint32_t version, const uint8_t *cells, size_t cells_length, const uint16_t *thresholds,
                          size_t thresholds_length, const uint8_t *extra, size_t extra_length, size_t *written) {
    const struct arguments told = begin(instance, cells, cells_length, thresholds, thresholds_length, extra, extra_length);
    const uint64_t base = told.base;
    const uint32_t status = Z_moduleZ_star_client_length(instance, version, base + AT_CELLS, told.cells, base + AT_THRESHOLDS, told.thresholds,
                                                         base + AT_EXTRA, told.extra, base + AT_WRITTEN);
    if (status == STAR_CLIENT_DONE) *written = written_of(instance, base);
    clear(instance);
    return status;
}

/* A room of each thread, for the calls of star_client.h. It is clear at first, and each call leaves it so. */
static Instance *own(void) {
    static _Thread_local Instance instance;
    return &instance;
}

uint32_t star_client_report(uint32_t version, const uint8_t *cells, size_t cells_length, const uint16_t *thresholds,
                            size_t thresholds_length, const uint8_t *extra, size_t extra_length, uint32_t epoch, const uint8_t *seed,
                            size_t seed_length, uint32_t client, uint8_t *out, size_t out_length, size_t *written) {
    return report_in(own(), version, cells, cells_length, thresholds, thresholds_length, extra, extra_length, epoch, seed, seed_length, client,
                     out, out_length, written);
}

uint32_t star_client_length(uint32_t version, const uint8_t *cells, size_t cells_length, const uint16_t *thresholds,
                            size_t thresholds_length, const uint8_t *extra, size_t extra_length, size_t *written) {
    return length_in(own(), version, cells, cells_length, thresholds, thresholds_length, extra, extra_length, written);
}

/* The caller's room, which may hold anything. */
static Instance *cleared(struct star_client_room *room) {
    memset(room, 0, sizeof *room);
    return (Instance *)(void *)room;
}

uint32_t star_client_report_in(struct star_client_room *room, uint32_t version, const uint8_t *cells, size_t cells_length,
                               const uint16_t *thresholds, size_t thresholds_length, const uint8_t *extra, size_t extra_length,
                               uint32_t epoch, const uint8_t *seed, size_t seed_length, uint32_t client, uint8_t *out, size_t out_length,
                               size_t *written) {
    return report_in(cleared(room), version, cells, cells_length, thresholds, thresholds_length, extra, extra_length, epoch, seed,
                     seed_length, client, out, out_length, written);
}

uint32_t star_client_length_in(struct star_client_room *room, uint32_t version, const uint8_t *cells, size_t cells_length,
                               const uint16_t *thresholds, size_t thresholds_length, const uint8_t *extra, size_t extra_length,
                               size_t *written) {
    return length_in(cleared(room), version, cells, cells_length, thresholds, thresholds_length, extra, extra_length, written);
}
