/* inventory FILE..: of each DER certificate, on a line, its subject, its DNS names, the second after which it isn't valid, and its key.
 * cc -O2 -o inventory examples/c/inventory.c $(pkg-config --cflags --libs rushtrivet) */
#include "rushtrivet.h"
#include <stdio.h>
#include <stdlib.h>
#include <string.h>
#include <time.h>

enum { ROOM = 64, NAMES = 256 };

static const uint8_t alternative_names[] = { 0x55, 0x1d, 0x11 }; /* 2.5.29.17 */

static uint8_t buffer[1 << 24];

static size_t read_file(const char *name) {
    FILE *file = fopen(name, "rb");
    if (!file) {
        perror(name);
        exit(2);
    }
    size_t length = fread(buffer, 1, sizeof buffer, file);
    fclose(file);
    return length;
}

static bool is(rtv_bytes window, const uint8_t *octets, size_t length) {
    return window.length == length && memcmp(window.at, octets, length) == 0;
}

/* A text, by its length: it may hold NUL. */
static void put_text(const uint8_t *text, size_t length, size_t room) {
    fwrite(text, 1, length < room ? length : room - 1, stdout);
}

static void put_hosts(rtv_bytes value) {
    static rtv_general_name names[NAMES];
    size_t count = 0, at = 0;
    rtv_init_general_names(names, NAMES);
    if (rtv_read_general_names(value.at, value.length, names, NAMES, &count, &at) != RTV_OK) return;
    for (size_t k = 0; k < count && k < NAMES; k++) {
        if (names[k].tag != 2 || !names[k].readable) continue;
        fputs(" DNS:", stdout);
        fwrite(names[k].value.at, 1, names[k].value.length, stdout);
    }
}

static int inventory(const uint8_t *der, size_t length) {
    rtv_certificate cert = RTV_CERTIFICATE_INIT;
    rtv_extension extensions[ROOM];
    uint8_t text[1024];
    size_t at = 0, text_length = 0;
    rtv_init_extensions(extensions, ROOM);
    rtv_status status = rtv_read_certificate(der, length, false, false, &cert, extensions, ROOM, &at);
    if (status != RTV_OK) {
        rtv_word(status, text, sizeof text);
        printf("refused at octet %zu: %s\n", at, (char *)text);
        return 1;
    }
    if (rtv_name_text(cert.subject.at, cert.subject.length, text, sizeof text, &text_length, &at) == RTV_OK)
        put_text(text, text_length, sizeof text);
    for (size_t k = 0; k < cert.extension_count && k < ROOM; k++)
        if (is(extensions[k].oid, alternative_names, sizeof alternative_names)) put_hosts(extensions[k].value);
    char end[32];
    time_t not_after = (time_t)cert.not_after;
    strftime(end, sizeof end, "%Y-%m-%dT%H:%M:%SZ", gmtime(&not_after));
    printf(" until %s, ", end);
    if (rtv_oid_text(cert.key_algorithm.at, cert.key_algorithm.length, text, sizeof text, &text_length) == RTV_OK)
        put_text(text, text_length, sizeof text);
    printf(" of %zu bits\n", cert.key_size);
    return 0;
}

int main(int count, char **words) {
    int refused = 0;
    for (int k = 1; k < count; k++) refused |= inventory(buffer, read_file(words[k]));
    return refused;
}
