/* oracle FILE..: what the C calls say of each file, a line for each kind, lenient and strict: the tests compare. */
#include "rushtrivet.h"
#include <stdio.h>
#include <stdlib.h>

enum { ROOM = 4096 };

static uint8_t buffer[1 << 20];
static rtv_extension extensions[ROOM];
static rtv_revoked revoked[ROOM];
static rtv_request_attribute attributes[ROOM];

static void hex(rtv_bytes window) {
    putchar(' ');
    putchar('=');
    for (size_t k = 0; k < window.length; k++) printf("%02x", window.at[k]);
}

static void put_extensions(size_t count) {
    for (size_t k = 0; k < count; k++) {
        hex(extensions[k].value);
        printf(" %u", extensions[k].critical);
    }
}

static void certificate(size_t length, bool strict) {
    rtv_certificate found = RTV_CERTIFICATE_INIT;
    size_t at = 0;
    rtv_init_extensions(extensions, ROOM);
    rtv_status status = rtv_read_certificate(buffer, length, strict, strict, &found, extensions, ROOM, &at);
    printf("certificate %d %u %zu", strict, status, at);
    if (status == RTV_OK) {
        printf(" %u %lld %lld %zu %zu", found.version, (long long)found.not_before, (long long)found.not_after,
               found.key_size, found.extension_count);
        hex(found.whole), hex(found.rest), hex(found.signed_part), hex(found.serial), hex(found.issuer), hex(found.subject);
        hex(found.key_info), hex(found.key_bits), hex(found.signature);
        put_extensions(found.extension_count);
    }
    putchar('\n');
}

static void list(size_t length, bool strict) {
    rtv_list found = RTV_LIST_INIT;
    size_t at = 0;
    rtv_init_extensions(extensions, ROOM);
    rtv_init_revoked(revoked, ROOM);
    rtv_status status = rtv_read_list(buffer, length, strict, &found, revoked, ROOM, extensions, ROOM, &at);
    printf("list %d %u %zu", strict, status, at);
    if (status == RTV_OK) {
        printf(" %lld %lld %u %zu %zu", (long long)found.this_update, (long long)found.next_update, found.has_next_update,
               found.revoked_count, found.extension_count);
        hex(found.whole), hex(found.rest), hex(found.signed_part), hex(found.issuer), hex(found.signature);
        put_extensions(found.extension_count);
        for (size_t k = 0; k < found.revoked_count; k++) {
            hex(revoked[k].serial);
            printf(" %lld %zu", (long long)revoked[k].revocation_date, revoked[k].extension_count);
        }
    }
    putchar('\n');
}

static void request(size_t length, bool strict) {
    rtv_request found = RTV_REQUEST_INIT;
    size_t at = 0;
    rtv_init_request_attributes(attributes, ROOM);
    rtv_status status = rtv_read_request(buffer, length, strict, &found, attributes, ROOM, &at);
    printf("request %d %u %zu", strict, status, at);
    if (status == RTV_OK) {
        printf(" %u %zu %zu", found.version, found.key_size, found.attribute_count);
        hex(found.whole), hex(found.rest), hex(found.signed_part), hex(found.subject), hex(found.key_info);
        hex(found.key_bits), hex(found.signature);
        for (size_t k = 0; k < found.attribute_count; k++) hex(attributes[k].value);
    }
    putchar('\n');
}

int main(int count, char **words) {
    for (int k = 1; k < count; k++) {
        FILE *file = fopen(words[k], "rb");
        if (!file) return 2;
        size_t length = fread(buffer, 1, sizeof buffer, file);
        fclose(file);
        for (int strict = 0; strict < 2; strict++) {
            certificate(length, strict);
            list(length, strict);
            request(length, strict);
        }
    }
    return 0;
}
