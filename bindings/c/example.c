/* Makes a report of a country and a city, and writes it to standard output as one record of a stream:
 *     ./example Germany Berlin > reports.stream */
#include "star_client.h"

#include <stdio.h>
#include <string.h>

int main(int argc, char **argv) {
    const uint16_t thresholds[2] = {20, 10};
    uint8_t cells[STAR_CLIENT_MAX_CELLS], seed[STAR_CLIENT_SEED_BYTES], record[STAR_CLIENT_MAX_RECORD], none = 0;
    size_t cells_length = 0, written = 0;

    if (argc != 3) return fprintf(stderr, "usage: example COUNTRY CITY\n"), 2;
    for (int i = 1; i < argc; i++) {
        size_t n = strlen(argv[i]);
        if (n > 64) return fprintf(stderr, "a value has at most 64 bytes\n"), 2;
        cells[cells_length++] = (uint8_t)n;
        memcpy(cells + cells_length, argv[i], n);
        cells_length += n;
    }

    /* A seed of this report alone. */
    FILE *random = fopen("/dev/urandom", "rb");
    if (!random || fread(seed, 1, sizeof seed, random) != sizeof seed) return fprintf(stderr, "no seed\n"), 3;
    fclose(random);

    uint32_t status = star_client_record(1, cells, cells_length, thresholds, 2, &none, 0, 1, seed, sizeof seed, 0,
                                         record, sizeof record, &written);
    if (status != STAR_CLIENT_DONE) return fprintf(stderr, "no report: %s\n", star_client_status_text(status)), 4;

    return fwrite(record, 1, written, stdout) == written ? 0 : 5;
}
