/* read_all CERTIFICATES [OUT]: reads the certificates (DER, one behind another) of a file with the values of their extensions, and then writes
 * the octets of the file OUT to standard output. Status 1 where one isn't read, 3 where a file can't be. */
#include <stdio.h>
#include <stdlib.h>
#include <rushtrivet.h>

static uint8_t *octets_of(const char *path, size_t *length) {
    FILE *file = fopen(path, "rb");
    if (!file || fseek(file, 0, SEEK_END)) exit(3);
    *length = (size_t)ftell(file);
    rewind(file);
    uint8_t *octets = malloc(*length + 1);
    if (!octets || fread(octets, 1, *length, file) != *length) exit(3);
    fclose(file);
    return octets;
}

int main(int count, char **words) {
    size_t left = 0, length = 0, at = 0;
    const uint8_t *rest = octets_of(words[1], &left);
    while (left) {
        rtv_certificate certificate = RTV_CERTIFICATE_INIT;
        if (rtv_read_certificate(rest, left, true, false, &certificate, NULL, 0, &at) != RTV_OK) return 1;
        rest = certificate.rest.at;
        left = certificate.rest.length;
    }
    if (count > 2) {
        const uint8_t *out = octets_of(words[2], &length);
        return fwrite(out, 1, length, stdout) == length ? 0 : 3;
    }
    return 0;
}
