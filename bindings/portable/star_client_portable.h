/*
 * The portable client: the calls of star_client.h for machines for which no archive is built, in plain C11. It is the proved module
 * bindings/web/star_client.wasm, whose memory binaryen lowers to 32 bits and which wabt's wasm2c turns into C. The module is proved;
 * what was done to it since, and the compiler, are tested.
 *
 * A call works in a buffer of 128 KB (a room), which it clears before it returns. The calls of star_client.h use a room of the
 * calling thread; the two below use the caller's, which no other call may use at the same time.
 */
#ifndef STAR_CLIENT_PORTABLE_H
#define STAR_CLIENT_PORTABLE_H

#include "star_client.h"

#ifdef __cplusplus
extern "C" {
#endif

#define STAR_CLIENT_ROOM_BYTES 131136

/* Where a call works. It may hold anything before the first call. */
struct star_client_room {
    uint64_t words[STAR_CLIENT_ROOM_BYTES / 8];
};

/* star_client_report in the caller's room, with the same arguments and results. */
uint32_t star_client_report_in(struct star_client_room *room, uint32_t version, const uint8_t *cells, size_t cells_length,
                               const uint16_t *thresholds, size_t thresholds_length, const uint8_t *extra, size_t extra_length,
                               uint32_t epoch, const uint8_t *seed, size_t seed_length, uint32_t client, uint8_t *out, size_t out_length,
                               size_t *written);

/* star_client_length in the caller's room, with the same arguments and results. */
uint32_t star_client_length_in(struct star_client_room *room, uint32_t version, const uint8_t *cells, size_t cells_length,
                               const uint16_t *thresholds, size_t thresholds_length, const uint8_t *extra, size_t extra_length,
                               size_t *written);

#ifdef __cplusplus
}
#endif
#endif
