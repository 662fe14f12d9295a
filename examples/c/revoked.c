/* revoked LIST SERIAL..: of each serial in hex, whether the DER list of revoked certificates has it, and where.
 * cc -O2 -o revoked examples/c/revoked.c $(pkg-config --cflags --libs rushtrivet) */
#include "rushtrivet.h"
#include <ctype.h>
#include <stdio.h>
#include <stdlib.h>
#include <string.h>

static uint8_t *read_file(const char *name, size_t *length) {
    size_t room = 1 << 16, count = 0;
    uint8_t *octets = malloc(room);
    FILE *file = fopen(name, "rb");
    if (!file || !octets) {
        perror(name);
        exit(2);
    }
    for (size_t more; (more = fread(octets + count, 1, room - count, file)) > 0;) {
        count += more;
        if (count < room) continue;
        octets = realloc(octets, room *= 2);
        if (!octets) exit(2);
    }
    fclose(file);
    *length = count;
    return octets;
}

static void refused(rtv_status status, size_t at) {
    uint8_t word[64];
    rtv_word(status, word, sizeof word);
    fprintf(stderr, "refused at octet %zu: %s\n", at, (char *)word);
    exit(1);
}

/* The octets that hex digits write; an odd digit stands alone in front. */
static size_t octets_of(const char *digits, uint8_t *octets, size_t room) {
    size_t count = 0, length = strlen(digits);
    for (size_t k = 0; k < length && count < room;) {
        char pair[3] = { 0 };
        size_t take = k == 0 && length % 2 ? 1 : 2;
        memcpy(pair, digits + k, take);
        octets[count++] = (uint8_t)strtoul(pair, NULL, 16);
        k += take;
    }
    return count;
}

int main(int count, char **words) {
    if (count < 3) {
        fprintf(stderr, "revoked LIST SERIAL..\n");
        return 2;
    }
    size_t length = 0, entries = 0, at = 0;
    uint8_t *der = read_file(words[1], &length);

    /* how many entries there are, and then their index */
    rtv_index_row none = RTV_INDEX_ROW_INIT;
    rtv_status status = rtv_index_build(der, length, &none, 0, &entries, &at);
    if (status != RTV_OK) refused(status, at);
    rtv_index_row *rows = malloc((entries + 1) * sizeof *rows);
    if (!rows) return 2;
    rtv_init_index_rows(rows, entries + 1);
    status = rtv_index_build(der, length, rows, entries, &entries, &at);
    if (status != RTV_OK) refused(status, at);

    for (int k = 2; k < count; k++) {
        uint8_t serial[64];
        size_t position = 0, digits = octets_of(words[k], serial, sizeof serial);
        if (rtv_index_find(rows, entries, serial, digits, &position) == RTV_OK)
            printf("%s: entry %zu of %zu\n", words[k], position, entries);
        else
            printf("%s: none of %zu\n", words[k], entries);
    }
    free(rows);
    free(der);
    return 0;
}
