/* Makes the report of each line of standard input through star_client.h, and prints it in hexadecimal, or `status N`.
 * A line: version epoch client seed thresholds values extra, with lists joined by commas, bytes in hexadecimal, and `-` for nothing.
 * With a number as its word it makes each report so many times, and says on standard error how much processor time one took. */
#include "star_client.h"

#include <stdio.h>
#include <stdlib.h>
#include <string.h>
#include <time.h>

static size_t bytes_of(const char *hex, uint8_t *bytes) {
    size_t n = strlen(hex) / 2;
    for (size_t i = 0; i < n; i++) {
        unsigned byte;
        sscanf(hex + 2 * i, "%2x", &byte);
        bytes[i] = (uint8_t)byte;
    }
    return n;
}

int main(int argc, char **argv) {
    static char line[1 << 16];
    static uint8_t cells[1 << 14], extra[1 << 12], seed[1 << 8], out[STAR_CLIENT_MAX_REPORT];
    static uint16_t thresholds[64];
    int times = argc > 1 ? atoi(argv[1]) : 1;

    while (fgets(line, sizeof line, stdin)) {
        const char *words[7];
        for (int i = 0; i < 7; i++) words[i] = strtok(i ? NULL : line, " \n");
        size_t cells_length = 0, layers = 0, written = 0, needed = 0;
        for (char *value = (char *)words[5]; value && strcmp(words[5], "-");) {
            char *comma = strchr(value, ',');
            if (comma) *comma = 0;
            size_t n = bytes_of(value, cells + cells_length + 1);
            cells[cells_length] = (uint8_t)n;
            cells_length += 1 + n;
            value = comma ? comma + 1 : NULL;
        }
        for (char *k = (char *)words[4]; k && strcmp(words[4], "-"); k = strchr(k, ',') ? strchr(k, ',') + 1 : NULL)
            thresholds[layers++] = (uint16_t)atoi(k);
        size_t extra_length = strcmp(words[6], "-") ? bytes_of(words[6], extra) : 0, seed_length = bytes_of(words[3], seed);
        uint32_t version = (uint32_t)strtoul(words[0], NULL, 10), epoch = (uint32_t)strtoul(words[1], NULL, 10);
        uint32_t client = (uint32_t)strtoul(words[2], NULL, 10), status = 0;

        clock_t from = clock();
        for (int i = 0; i < times; i++)
            status = star_client_report(version, cells, cells_length, thresholds, layers, extra, extra_length, epoch, seed, seed_length,
                                        client, out, sizeof out, &written);
        double taken = (double)(clock() - from) / CLOCKS_PER_SEC;
        if (argc > 1) fprintf(stderr, "%u layers: %.2f us\n", (unsigned)layers, 1e6 * taken / times);

        if (status != STAR_CLIENT_DONE) {
            printf("status %u\n", (unsigned)status);
            continue;
        }
        if (star_client_length(version, cells, cells_length, thresholds, layers, extra, extra_length, &needed) || needed != written) {
            printf("length %u, and not %u\n", (unsigned)needed, (unsigned)written);
            continue;
        }
        static uint8_t record[STAR_CLIENT_MAX_RECORD];
        size_t recorded = 0;
        if (star_client_record(version, cells, cells_length, thresholds, layers, extra, extra_length, epoch, seed, seed_length, client, record,
                               sizeof record, &recorded) || recorded != 4 + written || memcmp(record + 4, out, written) ||
            record[0] || record[1] || (size_t)(record[2] << 8 | record[3]) != written) {
            puts("the record is another one");
            continue;
        }
        for (size_t i = 0; i < written; i++) printf("%02x", out[i]);
        puts("");
    }
    return 0;
}
