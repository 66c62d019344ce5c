/*
 * The client of Nested STAR: it makes one report in the caller's buffer.
 *
 * Both functions are proved in crates/star_client_c (src/lib.rt): with good arguments and room they always give the report, whose
 * bytes are those that docs/FORMATS.md describes, and after a fault nothing is written. They allocate no memory, keep no state, call
 * nothing of the system, and may be called by many threads at once; this follows from how they are written, not from a proved clause.
 * A call needs less than 20 KB of stack, which is measured and not proved.
 *
 * What the proof takes for granted, and the caller must ensure:
 *  - no pointer is null, even if a length is 0;
 *  - each pointer is that of as many items as its length says; `thresholds` lies at an even address and `written` at one that
 *    its type allows, as C's own arrays and variables do;
 *  - `out` and `written` overlap nothing else that is passed.
 *
 * docs/CLIENTS.md says what a client must ensure. Above all: one seed and client number make one report, ever.
 */
#ifndef STAR_CLIENT_H
#define STAR_CLIENT_H

#include <stddef.h>
#include <stdint.h>

#ifdef __cplusplus
extern "C" {
#endif

/* What a call returns. Faults are looked for in this order, and the first is returned. */
enum star_client_status {
    STAR_CLIENT_DONE = 0,           /* the report or its length is written */
    STAR_CLIENT_BAD_VERSION = 1,    /* the version is neither 1 nor 2 */
    STAR_CLIENT_BAD_THRESHOLDS = 2, /* not 1 to 8 numbers from 2 to 512, or in version 2 not 1 to 16 from 2 to 4096 */
    STAR_CLIENT_BAD_VALUES = 3,     /* the cells are not those of one value of 1 to 64 bytes for each threshold */
    STAR_CLIENT_BAD_EXTRA = 4,      /* more than 255 extra bytes, or any in version 1 */
    STAR_CLIENT_BAD_SEED = 5,       /* other than 32 bytes */
    STAR_CLIENT_SMALL_BUFFER = 6    /* less room than the report is long */
};

#define STAR_CLIENT_SEED_BYTES 32
#define STAR_CLIENT_MAX_CELLS 1040   /* bytes: the cells of 16 values of 64 bytes */
#define STAR_CLIENT_MAX_REPORT 3487  /* bytes: no report is longer; in version 1 none is longer than 1616 */
#define STAR_CLIENT_MAX_RECORD 3491  /* bytes: a report after its length */

/*
 * Writes the report into the front of `out`, and its length into `*written`.
 *
 *  version            1 or 2; any other number is STAR_CLIENT_BAD_VERSION
 *  cells              for each value one byte, how many bytes it has (1 to 64), and then these bytes
 *  cells_length       bytes of cells, from 2 to 65 for each threshold; cells that aren't those of as many values as there are
 *                     thresholds, up to the last byte, are STAR_CLIENT_BAD_VALUES
 *  thresholds         for each value, how many reports must have it before the aggregator may learn it. From 2 to 512,
 *                     in version 2 from 2 to 4096; anything else is STAR_CLIENT_BAD_THRESHOLDS
 *  thresholds_length  numbers, not bytes: from 1 to 8, in version 2 from 1 to 16; anything else is STAR_CLIENT_BAD_THRESHOLDS
 *  extra              what the aggregator learns if it learns the last value
 *  extra_length       bytes: 0 in version 1, from 0 to 255 in version 2; more is STAR_CLIENT_BAD_EXTRA
 *  epoch              any number of 32 bits: only reports of one epoch are counted together
 *  seed               bytes of which nobody knows anything
 *  seed_length        bytes: 32; anything else is STAR_CLIENT_BAD_SEED
 *  client             any number of 32 bits, such as 0; several reports from one seed need different ones
 *  out                room for the report
 *  out_length         bytes of room; less than the report is long is STAR_CLIENT_SMALL_BUFFER; bytes after the report stay as they were
 *  written            receives the length of the report in bytes
 *
 * Anything but STAR_CLIENT_DONE leaves `out` and `*written` as they were.
 */
uint32_t star_client_report(uint32_t version, const uint8_t *cells, size_t cells_length, const uint16_t *thresholds,
                            size_t thresholds_length, const uint8_t *extra, size_t extra_length, uint32_t epoch,
                            const uint8_t *seed, size_t seed_length, uint32_t client, uint8_t *out, size_t out_length,
                            size_t *written);

/*
 * Writes into `*written` how many bytes that report will have: 137 for each threshold, plus the bytes of cells and extra.
 * The faults are those of the report except for seed and room; after one, `*written` is as it was.
 */
uint32_t star_client_length(uint32_t version, const uint8_t *cells, size_t cells_length, const uint16_t *thresholds,
                            size_t thresholds_length, const uint8_t *extra, size_t extra_length, size_t *written);

/*
 * Writes a record into the front of `out`: the length of the report in four bytes, most significant first, and the report. Records one
 * after the other are a stream, which `star_tool reveal` reads. The arguments are those of star_client_report, but `out_length` and
 * `*written` count the four bytes too; the statuses are the same, and after a fault `out` and `*written` are as they were.
 * This helper is tested and not proved.
 */
static inline uint32_t star_client_record(uint32_t version, const uint8_t *cells, size_t cells_length, const uint16_t *thresholds,
                                          size_t thresholds_length, const uint8_t *extra, size_t extra_length, uint32_t epoch,
                                          const uint8_t *seed, size_t seed_length, uint32_t client, uint8_t *out, size_t out_length,
                                          size_t *written) {
    /* With less than four bytes of room no report fits, so the status is a fault and nothing is written. */
    const size_t front = out_length < 4 ? out_length : 4;
    size_t length = 0;
    const uint32_t status = star_client_report(version, cells, cells_length, thresholds, thresholds_length, extra, extra_length, epoch, seed,
                                               seed_length, client, out + front, out_length - front, &length);
    if (status != STAR_CLIENT_DONE) return status;
    out[0] = (uint8_t)(length >> 24), out[1] = (uint8_t)(length >> 16), out[2] = (uint8_t)(length >> 8), out[3] = (uint8_t)length;
    *written = 4 + length;
    return STAR_CLIENT_DONE;
}

/* The text of a status: the argument and its limit. Any other number is "unknown status". */
static inline const char *star_client_status_text(uint32_t status) {
    switch (status) {
    case STAR_CLIENT_DONE: return "done";
    case STAR_CLIENT_BAD_VERSION: return "version is neither 1 nor 2";
    case STAR_CLIENT_BAD_THRESHOLDS: return "thresholds are not 1 to 8 numbers from 2 to 512, or in version 2 not 1 to 16 from 2 to 4096";
    case STAR_CLIENT_BAD_VALUES: return "cells are not those of one value of 1 to 64 bytes for each threshold";
    case STAR_CLIENT_BAD_EXTRA: return "extra has more than 255 bytes, or any in version 1";
    case STAR_CLIENT_BAD_SEED: return "seed has other than 32 bytes";
    case STAR_CLIENT_SMALL_BUFFER: return "out has less room than the report is long";
    default: return "unknown status";
    }
}

#ifdef __cplusplus
}
#endif
#endif
