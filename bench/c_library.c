/* Times calls of rushtrivet.h, beside OpenSSL and mbedTLS where bench/c_library found them (WITH_OPENSSL, WITH_MBEDTLS).
   c_library FILE..                          certificates, in DER, and what stands in them
   c_library --index LIST ASKED EXPECTED     the serials of the list ASKED on LIST; EXPECTED has a line for each, its position or -1
   A row is the least of ROUNDS rounds in processor time; the rounds of rows that stand beside each other take turns. */
#define _GNU_SOURCE
#include "rushtrivet.h"
#include <stdio.h>
#include <stdlib.h>
#include <string.h>
#include <time.h>
#ifdef WITH_OPENSSL
#include <openssl/x509.h>
#include <openssl/x509v3.h>
#endif
#ifdef WITH_MBEDTLS
#define MBEDTLS_ALLOW_PRIVATE_ACCESS
#include <mbedtls/x509_crl.h>
#include <mbedtls/x509_crt.h>
#endif

enum { ROUNDS = 25, ROWS = 64, SCANS = 200 };
static const double ROUND = 20e6; /* the least time of a round, in nanoseconds */

static double now(void) { struct timespec t; clock_gettime(CLOCK_PROCESS_CPUTIME_ID, &t); return t.tv_sec * 1e9 + t.tv_nsec; }
static void stop(const char *why, const char *name) { fprintf(stderr, "c_library: %s: %s\n", name, why); exit(2); }
static void *room(size_t size) { void *at = calloc(size ? size : 1, 1); if (!at) stop("out of memory", "room"); return at; }

/* What is read: a file, and the windows in it that rows are about. */
typedef struct { uint8_t *bytes; size_t size; rtv_bytes subject, names; } item;

static item read_file(const char *name) {
    FILE *from = fopen(name, "rb");
    item it = { 0 };
    if (!from || fseek(from, 0, SEEK_END)) stop("can't be read", name);
    it.size = (size_t)ftell(from);
    rewind(from);
    it.bytes = room(it.size);
    if (fread(it.bytes, 1, it.size, from) != it.size) stop("can't be read", name);
    fclose(from);
    return it;
}

/* ---- rows: `true` where the item was taken. A sum keeps the compiler from leaving a call out. */

typedef bool (*row)(const item *);
static volatile size_t sum;

static bool certificate(const item *it) {
    static rtv_certificate found = RTV_CERTIFICATE_INIT;
    static rtv_extension rows[ROWS];
    static bool begun;
    size_t at;
    if (!begun) rtv_init_extensions(rows, ROWS), begun = true;
    if (rtv_read_certificate(it->bytes, it->size, false, false, &found, rows, ROWS, &at) != RTV_OK) return false;
    sum += found.extension_count;
    return true;
}

static bool names(const item *it) {
    static rtv_general_name rows[256];
    static bool begun;
    size_t count, at;
    if (!begun) rtv_init_general_names(rows, 256), begun = true;
    if (!it->names.length || rtv_read_general_names(it->names.at, it->names.length, rows, 256, &count, &at) != RTV_OK) return false;
    sum += count;
    return true;
}

static bool text(const item *it) {
    uint8_t text[1024];
    size_t length, at;
    if (rtv_name_text(it->subject.at, it->subject.length, text, sizeof text, &length, &at) != RTV_OK) return false;
    sum += length;
    return true;
}

static bool report(const item *it) {
    static uint8_t line[1 << 18];
    size_t length;
    if (rtv_json(it->bytes, it->size, RTV_A_CERTIFICATE, false, line, sizeof line, &length) != RTV_OK) return false;
    sum += length;
    return true;
}

#ifdef WITH_OPENSSL
static bool openssl_certificate(const item *it) {
    const unsigned char *at = it->bytes;
    X509 *found = d2i_X509(NULL, &at, (long)it->size);
    if (!found) return false;
    sum += (size_t)X509_get_ext_count(found);
    X509_free(found);
    return true;
}

static bool openssl_names(const item *it) {
    const unsigned char *at = it->names.at;
    GENERAL_NAMES *found = it->names.length ? d2i_GENERAL_NAMES(NULL, &at, (long)it->names.length) : NULL;
    if (!found) return false;
    sum += (size_t)sk_GENERAL_NAME_num(found);
    GENERAL_NAMES_free(found);
    return true;
}

/* Its name is decoded before, in the time too. */
static bool openssl_text(const item *it) {
    char text[1024];
    const unsigned char *at = it->subject.at;
    X509_NAME *found = d2i_X509_NAME(NULL, &at, (long)it->subject.length);
    if (!found) return false;
    sum += strlen(X509_NAME_oneline(found, text, sizeof text));
    X509_NAME_free(found);
    return true;
}
#endif

#ifdef WITH_MBEDTLS
static bool mbedtls_certificate(const item *it) {
    mbedtls_x509_crt found;
    mbedtls_x509_crt_init(&found);
    bool taken = mbedtls_x509_crt_parse_der_nocopy(&found, it->bytes, it->size) == 0;
    sum += found.raw.len;
    mbedtls_x509_crt_free(&found);
    return taken;
}
#endif

static double round_of(row read, item *const *items, size_t count) {
    size_t passes = 0;
    double start = now(), time;
    do {
        for (size_t k = 0; k < count; k++) read(items[k]);
        passes++;
        time = now() - start;
    } while (time < ROUND);
    return time / (double)passes / (double)count;
}

typedef struct { const char *name; row read; } named;

/* Over the items that all rows take. */
static void rows_beside(const char *what, const named *rows, size_t n, item *all, size_t count) {
    item **items = room(count * sizeof *items);
    size_t taken = 0, bytes = 0;
    for (size_t k = 0; k < count; k++) {
        bool by_all = true;
        for (size_t r = 0; r < n; r++) by_all = by_all && rows[r].read(&all[k]);
        if (by_all) items[taken++] = &all[k], bytes += all[k].size;
    }
    printf("%s: %zu items", what, taken);
    if (!taken) { putchar('\n'); free(items); return; }
    printf(", in files of %zu bytes on the average\n", bytes / taken);
    double *least = room(n * sizeof *least);
    for (size_t r = 0; r < n; r++) least[r] = 1e300;
    for (int k = 0; k < ROUNDS; k++)
        for (size_t r = 0; r < n; r++) {
            double one = round_of(rows[r].read, items, taken);
            if (one < least[r]) least[r] = one;
        }
    for (size_t r = 0; r < n; r++) printf("  %-28s %10.0f ns an item, %6.2f of the first\n", rows[r].name, least[r], least[r] / least[0]);
    free(least);
    free(items);
}

/* ---- look-ups */

static rtv_list list_of(const item *it, rtv_revoked **rows) {
    rtv_list found = RTV_LIST_INIT;
    rtv_revoked none = RTV_REVOKED_INIT;
    rtv_extension no_extension;
    size_t at;
    rtv_init_extensions(&no_extension, 1);
    if (rtv_read_list(it->bytes, it->size, false, &found, &none, 0, &no_extension, 0, &at) != RTV_OK) stop("no list", "--index");
    if (rows) {
        *rows = room(found.revoked_count * sizeof **rows);
        rtv_init_revoked(*rows, found.revoked_count);
        if (rtv_read_list(it->bytes, it->size, false, &found, *rows, found.revoked_count, &no_extension, 0, &at) != RTV_OK) stop("no list", "--index");
    }
    return found;
}

static void put(const char *name, double ns, const char *of) { printf("  %-44s %12.0f ns %s\n", name, ns, of); }

static void index_rows(const char *list_name, const char *asked_name, const char *expected_name) {
    item list = read_file(list_name), asked = read_file(asked_name);
    rtv_revoked *serials;
    size_t n = list_of(&asked, &serials).revoked_count, entries = list_of(&list, NULL).revoked_count, count, at, hits = 0, wrong = 0;
    rtv_index_row *rows = room(entries * sizeof *rows);
    size_t *expected = room(n * sizeof *expected);
    FILE *from = fopen(expected_name, "r");
    for (size_t k = 0; k < n; k++) {
        long long position;
        if (!from || fscanf(from, "%lld", &position) != 1) stop("doesn't say all positions", expected_name);
        expected[k] = position < 0 ? SIZE_MAX : (size_t)position;
        hits += position >= 0;
    }
    fclose(from);
    printf("a list of %zu bytes with %zu entries; %zu serials are looked up, %zu of them are on it\n", list.size, entries, n, hits);
    rtv_init_index_rows(rows, entries);
    double build = 1e300, find = 1e300, start;
    for (int r = 0; r < 5; r++) {
        start = now();
        if (rtv_index_build(list.bytes, list.size, rows, entries, &count, &at) != RTV_OK) stop("no index", list_name);
        double one = now() - start;
        if (one < build) build = one;
        start = now();
        for (size_t k = 0; k < n; k++) {
            size_t position = SIZE_MAX;
            rtv_status status = rtv_index_find(rows, count, serials[k].serial.at, serials[k].serial.length, &position);
            wrong += (status != RTV_OK && status != RTV_NOT_FOUND) || position != expected[k];
        }
        one = (now() - start) / (double)n;
        if (one < find) find = one;
    }
    put("rtv_index_build (the list is read too)", build, "a list");
    put("rtv_index_find", find, "a serial");
#ifdef WITH_OPENSSL
    ASN1_INTEGER **numbers = room(n * sizeof *numbers);
    for (size_t k = 0; k < n; k++) {
        BIGNUM *number = BN_bin2bn(serials[k].serial.at, (int)serials[k].serial.length, NULL);
        numbers[k] = BN_to_ASN1_INTEGER(number, NULL);
        BN_free(number);
    }
    double read = 1e300, first = 1e300, next = 1e300;
    for (int r = 0; r < 3; r++) {
        const unsigned char *front = list.bytes;
        X509_REVOKED *entry;
        start = now();
        X509_CRL *crl = d2i_X509_CRL(NULL, &front, (long)list.size);
        double one = now() - start;
        if (!crl) stop("OpenSSL doesn't read it", list_name);
        if (one < read) read = one;
        start = now();
        sum += (size_t)X509_CRL_get0_by_serial(crl, &entry, numbers[0]);
        one = now() - start;
        if (one < first) first = one;
        start = now();
        for (size_t k = 0; k < n; k++) wrong += (X509_CRL_get0_by_serial(crl, &entry, numbers[k]) != 0) != (expected[k] != SIZE_MAX);
        one = (now() - start) / (double)n;
        if (one < next) next = one;
        X509_CRL_free(crl);
    }
    for (size_t k = 0; k < n; k++) ASN1_INTEGER_free(numbers[k]);
    free(numbers);
    put("OpenSSL, d2i_X509_CRL", read, "a list");
    put("OpenSSL, the first look-up, which sorts", first, "a list");
    put("OpenSSL, X509_CRL_get0_by_serial", next, "a serial");
#endif
#ifdef WITH_MBEDTLS
    double parse = 1e300, scan = 1e300;
    size_t scans = n < SCANS ? n : SCANS;
    for (int r = 0; r < 3; r++) {
        mbedtls_x509_crl crl;
        mbedtls_x509_crt certificate_with;
        mbedtls_x509_crl_init(&crl);
        mbedtls_x509_crt_init(&certificate_with);
        start = now();
        if (mbedtls_x509_crl_parse_der(&crl, list.bytes, list.size) != 0) stop("mbedTLS doesn't read it", list_name);
        double one = now() - start;
        if (one < parse) parse = one;
        start = now();
        for (size_t k = 0; k < scans; k++) {
            certificate_with.serial = (mbedtls_x509_buf){ .p = (unsigned char *)serials[k].serial.at, .len = serials[k].serial.length };
            wrong += (mbedtls_x509_crt_is_revoked(&certificate_with, &crl) != 0) != (expected[k] != SIZE_MAX);
        }
        one = (now() - start) / (double)scans;
        if (one < scan) scan = one;
        mbedtls_x509_crl_free(&crl);
    }
    put("mbedTLS, mbedtls_x509_crl_parse_der", parse, "a list");
    put("mbedTLS, mbedtls_x509_crt_is_revoked, a scan", scan, "a serial");
#endif
    printf("  wrong answers: %zu\n", wrong);
    free(expected);
    free(rows);
    free(serials);
    free(list.bytes);
    free(asked.bytes);
    if (wrong) exit(1);
}

int main(int argc, char **argv) {
    if (argc == 5 && !strcmp(argv[1], "--index")) {
        index_rows(argv[2], argv[3], argv[4]);
        return 0;
    }
    static const uint8_t alternative_names[] = { 0x55, 0x1d, 0x11 };
    size_t count = (size_t)(argc - 1);
    item *items = room(count * sizeof *items);
    for (size_t k = 0; k < count; k++) {
        rtv_certificate found = RTV_CERTIFICATE_INIT;
        rtv_extension rows[ROWS];
        size_t at;
        items[k] = read_file(argv[k + 1]);
        rtv_init_extensions(rows, ROWS);
        if (rtv_read_certificate(items[k].bytes, items[k].size, false, false, &found, rows, ROWS, &at) != RTV_OK) continue;
        items[k].subject = found.subject;
        for (size_t e = 0; e < found.extension_count && e < ROWS; e++)
            if (rows[e].oid.length == sizeof alternative_names && !memcmp(rows[e].oid.at, alternative_names, sizeof alternative_names))
                items[k].names = rows[e].value;
    }
    const named certificates[] = {
        { "rtv_read_certificate", certificate },
#ifdef WITH_OPENSSL
        { "OpenSSL, d2i_X509", openssl_certificate },
#endif
#ifdef WITH_MBEDTLS
        { "mbedTLS, .._parse_der_nocopy", mbedtls_certificate },
#endif
    };
    const named alternatives[] = {
        { "rtv_read_general_names", names },
#ifdef WITH_OPENSSL
        { "OpenSSL, d2i_GENERAL_NAMES", openssl_names },
#endif
    };
    const named texts[] = {
        { "rtv_name_text", text },
#ifdef WITH_OPENSSL
        { "OpenSSL, X509_NAME_oneline", openssl_text },
#endif
    };
    const named reports[] = { { "rtv_json", report } };
    rows_beside("certificates", certificates, sizeof certificates / sizeof *certificates, items, count);
    rows_beside("alternative names", alternatives, sizeof alternatives / sizeof *alternatives, items, count);
    rows_beside("texts of subjects", texts, sizeof texts / sizeof *texts, items, count);
    rows_beside("reports of certificates", reports, 1, items, count);
    return 0;
}
