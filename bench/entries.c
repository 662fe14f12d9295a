/* Times look-ups of serials on a list of N entries that stays in its octets, in a mapped file, beside a search in C and other libraries.
   entries FILE N plain|reasons   writes the list into FILE, and prints a row for each reader
   Serials are of 16 octets in no order, one of each thousand equal to an earlier one; all of them are asked for in another order, a million at
   most, and then as many that aren't on the list. Each answer is compared with that of the search in C. Times are the least of ROUNDS rounds, by
   the clock of the process; what is held is what malloc counts. */
#define _GNU_SOURCE
#include <fcntl.h>
#include <malloc.h>
#include <stdbool.h>
#include <stdint.h>
#include <stdio.h>
#include <stdlib.h>
#include <string.h>
#include <sys/mman.h>
#include <time.h>
#include <unistd.h>
#ifdef WITH_OPENSSL
#include <openssl/x509.h>
#endif
#ifdef WITH_MBEDTLS
#include <mbedtls/x509_crl.h>
#include <mbedtls/x509_crt.h>
#endif
#ifdef WITH_GNUTLS
#include <gnutls/x509.h>
#endif

/* The library: a slice crosses as a pointer and a length. */
bool x509_bench_list(const uint8_t *, size_t), x509_bench_list_entries(const uint8_t *, size_t);
bool x509_bench_look_up_entries(const uint8_t *, size_t, const uint8_t *asked, size_t, size_t *found, size_t);
bool x509_bench_look_up_kept(const uint8_t *, size_t, const uint8_t *asked, size_t, size_t *found, size_t);

enum { SERIAL = 16, ROUNDS = 5, MARKS = 8, MOST_ASKED = 1000000, MOST_KEPT = 1000000, MOST_GNUTLS = 100000, MOST_GNUTLS_REASONS = 1000, SCANS = 100 };

static void stop(const char *why) { fprintf(stderr, "entries: %s\n", why); exit(2); }
static void *room(size_t size) { void *at = malloc(size ? size : 1); if (!at) stop("out of memory"); return at; }
static double now(void) { struct timespec t; clock_gettime(CLOCK_PROCESS_CPUTIME_ID, &t); return t.tv_sec * 1e9 + t.tv_nsec; }
static size_t held(void) { struct mallinfo2 all = mallinfo2(); return all.uordblks + all.hblkhd; }

static struct { double time; size_t held; } marks[MARKS];
static int marked;
void x509_bench_mark(void) { if (marked < MARKS) { marks[marked].held = held(); marks[marked].time = now(); marked++; } }

static uint64_t state = 88172645463325252u;
static uint64_t next_number(void) { state ^= state << 13; state ^= state >> 7; state ^= state << 17; return state; }
static void make_serial(uint8_t *at) {
    for (int k = 0; k < SERIAL; k += 8) { uint64_t number = next_number(); memcpy(at + k, &number, 8); }
    at[0] = (uint8_t)(1 + at[0] % 127);
}

/* ---- the list (RFC 5280, section 5) */

static size_t put_header(uint8_t *at, uint8_t identifier, size_t length) {
    size_t octets = 0;
    at[0] = identifier;
    if (length < 0x80) { at[1] = (uint8_t)length; return 2; }
    for (size_t rest = length; rest; rest >>= 8) octets++;
    at[1] = (uint8_t)(0x80 | octets);
    for (size_t k = 0; k < octets; k++) at[2 + k] = (uint8_t)(length >> 8 * (octets - 1 - k));
    return 2 + octets;
}
static const uint8_t ALGORITHM[] = { 0x30, 0x0a, 0x06, 0x08, 0x2a, 0x86, 0x48, 0xce, 0x3d, 0x04, 0x03, 0x02 };
static const uint8_t FRONT[] = { 0x02, 0x01, 0x01, 0x30, 0x0a, 0x06, 0x08, 0x2a, 0x86, 0x48, 0xce, 0x3d, 0x04, 0x03, 0x02, 0x30, 0x0d, 0x31, 0x0b, 0x30, 0x09,
    0x06, 0x03, 0x55, 0x04, 0x03, 0x0c, 0x02, 'C', 'A', 0x17, 0x0d, '2', '4', '0', '4', '0', '1', '0', '0', '0', '0', '0', '0', 'Z' };
static const uint8_t BACK[] = { 0x03, 0x09, 0x00, 1, 2, 3, 4, 5, 6, 7, 8 };
static const uint8_t DATE[] = { 0x17, 0x0d, '2', '4', '0', '4', '0', '1', '0', '0', '0', '0', '0', '0', 'Z' };
static const uint8_t REASON[] = { 0x30, 0x0c, 0x30, 0x0a, 0x06, 0x03, 0x55, 0x1d, 0x15, 0x04, 0x03, 0x0a, 0x01, 0x01 };

static size_t entry_size; /* all are of one size */
static void write_list(const char *name, size_t n, bool reasons, const uint8_t *serials) {
    size_t contents = 2 + SERIAL + sizeof DATE + (reasons ? sizeof REASON : 0), entries, signed_size, size;
    uint8_t head[3][16], entry[64];
    entry_size = put_header(entry, 0x30, contents) + contents;
    size_t entries_head = put_header(head[2], 0x30, entries = n * entry_size);
    size_t signed_head = put_header(head[1], 0x30, signed_size = sizeof FRONT + entries_head + entries);
    size_t list_head = put_header(head[0], 0x30, size = signed_head + signed_size + sizeof ALGORITHM + sizeof BACK);
    (void)size;
    FILE *to = fopen(name, "wb");
    if (!to) stop("the list can't be written");
    fwrite(head[0], 1, list_head, to); fwrite(head[1], 1, signed_head, to); fwrite(FRONT, 1, sizeof FRONT, to); fwrite(head[2], 1, entries_head, to);
    for (size_t k = 0; k < n; k++) {
        size_t at = put_header(entry, 0x30, contents);
        at += put_header(entry + at, 0x02, SERIAL);
        memcpy(entry + at, serials + k * SERIAL, SERIAL); at += SERIAL;
        memcpy(entry + at, DATE, sizeof DATE); at += sizeof DATE;
        if (reasons) { memcpy(entry + at, REASON, sizeof REASON); at += sizeof REASON; }
        fwrite(entry, 1, at, to);
    }
    fwrite(ALGORITHM, 1, sizeof ALGORITHM, to); fwrite(BACK, 1, sizeof BACK, to);
    if (fclose(to)) stop("the list can't be written");
}

/* ---- the search in C: serials beside each other, each with its position */

typedef struct { uint8_t serial[SERIAL]; size_t position; } row;
static int by_serial(const void *a, const void *b) {
    const row *x = a, *y = b;
    int order = memcmp(x->serial, y->serial, SERIAL);
    return order ? order : (x->position > y->position) - (x->position < y->position);
}
static size_t search(const row *rows, size_t n, const uint8_t *serial) {
    size_t first = 0, size = n;
    while (size) {
        size_t half = size / 2;
        if (memcmp(rows[first + half].serial, serial, SERIAL) < 0) { first += half + 1; size -= half + 1; } else size = half;
    }
    return first < n && !memcmp(rows[first].serial, serial, SERIAL) ? rows[first].position : SIZE_MAX;
}

/* ---- rows */

static void put(const char *name, double read, double ready, size_t bytes, double hit, double miss, double floor) {
    printf("  %-44s", name);
    if (read) printf(" %9.2f", read / 1e6); else printf(" %9s", "-");
    if (ready) printf(" %9.2f", ready / 1e6); else printf(" %9s", "-");
    if (bytes) printf(" %11.1f", (double)bytes / 1e3); else printf(" %11s", "-");
    if (hit) printf(" %9.0f %9.0f %6.2f\n", hit, miss, hit / floor); else printf(" %9s %9s %6s\n", "-", "-", "-");
}
static double least(double a, double b) { return !a || b < a ? b : a; }

typedef struct { const uint8_t *at; size_t size, n, count; const uint8_t *asked[2]; size_t *expected[2], *found; size_t wrong; } list;
typedef bool (*looked)(const uint8_t *, size_t, const uint8_t *, size_t, size_t *, size_t);

/* What the library answers: positions, or offsets of entries that are all of one size. */
static void compare(list *it, int which, size_t size) {
    for (size_t k = 0; k < it->count; k++) it->wrong += it->found[k] != (it->expected[which][k] == SIZE_MAX ? SIZE_MAX : it->expected[which][k] * size);
}
static void ours_in_octets(list *it, double floor) {
    double time[MARKS] = { 0 }, miss = 0, miss_whole = 0;
    size_t bytes = 0, kept = 0;
    for (int r = 0; r < ROUNDS; r++) for (int which = 0; which < 2; which++) {
        marked = 0;
        if (!x509_bench_look_up_entries(it->at, it->size, it->asked[which], it->count * SERIAL, it->found, it->count) || marked != 7) stop("look-ups failed");
        compare(it, which, entry_size);
        for (int m = 1; m < 5; m++) time[m] = least(time[m], marks[m].time - marks[m - 1].time);
        for (int m = 5; m < 7; m++) {
            double one = (marks[m].time - marks[m - 1].time) / (double)it->count;
            if (!which) time[m] = least(time[m], one); else if (m == 5) miss = least(miss, one); else miss_whole = least(miss_whole, one);
        }
        bytes = marks[2].held - marks[1].held;
        kept = marks[3].held - marks[2].held;
    }
    put("EntriesIndex: build, find_counted", time[1], time[1] + time[2], bytes, time[5], miss, floor);
    put("  the same, find: the entry is read", 0, 0, 0, time[6], miss_whole, floor);
    put("  from_bytes, of a file of so many bytes", time[1], time[1] + time[4], kept, 0, 0, floor);
}
static void ours_kept(list *it, double floor) {
    double time[MARKS] = { 0 }, miss = 0;
    size_t bytes = 0, of_list = 0;
    for (int r = 0; r < ROUNDS; r++) for (int which = 0; which < 2; which++) {
        marked = 0;
        if (!x509_bench_look_up_kept(it->at, it->size, it->asked[which], it->count * SERIAL, it->found, it->count) || marked != 4) stop("look-ups failed");
        compare(it, which, 1);
        for (int m = 1; m < 3; m++) time[m] = least(time[m], marks[m].time - marks[m - 1].time);
        double one = (marks[3].time - marks[2].time) / (double)it->count;
        if (!which) time[3] = least(time[3], one); else miss = least(miss, one);
        of_list = marks[1].held - marks[0].held;
        bytes = marks[2].held - marks[0].held;
    }
    put("RevocationIndex: list and index are held", time[1], time[1] + time[2], bytes, time[3], miss, floor);
    put("  of it the list", 0, 0, of_list, 0, 0, floor);
}
#ifdef WITH_OPENSSL
static void openssl(list *it, double floor) {
    ASN1_INTEGER **numbers[2];
    double read = 0, first = 0, time[2] = { 0 };
    size_t bytes = 0;
    for (int which = 0; which < 2; which++) {
        numbers[which] = room(it->count * sizeof **numbers);
        for (size_t k = 0; k < it->count; k++) {
            numbers[which][k] = ASN1_INTEGER_new();
            if (!numbers[which][k] || !ASN1_STRING_set(numbers[which][k], it->asked[which] + k * SERIAL, SERIAL)) stop("out of memory");
        }
    }
    for (int r = 0; r < 2; r++) {
        const unsigned char *front = it->at;
        X509_REVOKED *entry;
        size_t before = held();
        double start = now();
        X509_CRL *crl = d2i_X509_CRL(NULL, &front, (long)it->size);
        if (!crl) stop("OpenSSL doesn't read it");
        read = least(read, now() - start);
        start = now();
        X509_CRL_get0_by_serial(crl, &entry, numbers[0][0]);
        first = least(first, now() - start);
        bytes = held() - before;
        for (int which = 0; which < 2; which++) {
            start = now();
            for (size_t k = 0; k < it->count; k++)
                it->wrong += (X509_CRL_get0_by_serial(crl, &entry, numbers[which][k]) != 0) != (it->expected[which][k] != SIZE_MAX);
            time[which] = least(time[which], (now() - start) / (double)it->count);
        }
        X509_CRL_free(crl);
    }
    for (int which = 0; which < 2; which++) { for (size_t k = 0; k < it->count; k++) ASN1_INTEGER_free(numbers[which][k]); free(numbers[which]); }
    put("OpenSSL, X509_CRL_get0_by_serial", read, read + first, bytes, time[0], time[1], floor);
}
#endif
#ifdef WITH_MBEDTLS
static void mbedtls(list *it, double floor) {
    double read = 0, time[2] = { 0 };
    size_t bytes = 0, scans = it->count < SCANS ? it->count : SCANS;
    for (int r = 0; r < 2; r++) {
        mbedtls_x509_crl crl;
        mbedtls_x509_crt asked;
        mbedtls_x509_crl_init(&crl);
        mbedtls_x509_crt_init(&asked);
        size_t before = held();
        double start = now();
        if (mbedtls_x509_crl_parse_der(&crl, it->at, it->size)) stop("mbedTLS doesn't read it");
        read = least(read, now() - start);
        bytes = held() - before;
        for (int which = 0; which < 2; which++) {
            start = now();
            for (size_t k = 0; k < scans; k++) {
                asked.serial = (mbedtls_x509_buf){ .p = (unsigned char *)it->asked[which] + k * SERIAL, .len = SERIAL };
                it->wrong += (mbedtls_x509_crt_is_revoked(&asked, &crl) != 0) != (it->expected[which][k] != SIZE_MAX);
            }
            time[which] = least(time[which], (now() - start) / (double)scans);
        }
        mbedtls_x509_crl_free(&crl);
    }
    put("mbedTLS, which copies the list; a scan", read, read, bytes, time[0], time[1], floor);
}
#endif
#ifdef WITH_X509_PARSER
void *x509_peer_read(const uint8_t *, size_t);
void x509_peer_free(void *);
size_t x509_peer_find(const void *, const uint8_t *, size_t);
static void x509_parser(list *it, double floor) {
    double read = 0, time[2] = { 0 };
    size_t bytes = 0, scans = it->count < SCANS ? it->count : SCANS;
    for (int r = 0; r < 2; r++) {
        size_t before = held();
        double start = now();
        void *crl = x509_peer_read(it->at, it->size);
        if (!crl) stop("x509-parser doesn't read it");
        read = least(read, now() - start);
        bytes = held() - before;
        for (int which = 0; which < 2; which++) {
            start = now();
            for (size_t k = 0; k < scans; k++) it->wrong += x509_peer_find(crl, it->asked[which] + k * SERIAL, SERIAL) != it->expected[which][k];
            time[which] = least(time[which], (now() - start) / (double)scans);
        }
        x509_peer_free(crl);
    }
    put("x509-parser, which has no look-up; a scan", read, read, bytes, time[0], time[1], floor);
}
#endif
#ifdef WITH_GNUTLS
static void gnutls(list *it) {
    double read = 0;
    size_t bytes = 0;
    for (int r = 0; r < 2; r++) {
        gnutls_x509_crl_t crl;
        gnutls_datum_t all = { (unsigned char *)it->at, (unsigned)it->size };
        size_t before = held();
        double start = now();
        if (gnutls_x509_crl_init(&crl) < 0 || gnutls_x509_crl_import(crl, &all, GNUTLS_X509_FMT_DER) < 0) stop("GnuTLS doesn't read it");
        read = least(read, now() - start);
        bytes = held() - before;
        if (gnutls_x509_crl_get_crt_count(crl) != (int)it->n) stop("GnuTLS reads another count");
        gnutls_x509_crl_deinit(crl);
    }
    put("GnuTLS, which has no look-up", read, read, bytes, 0, 0, 1);
}
#endif

static double time_of(bool (*read)(const uint8_t *, size_t), const list *it) {
    double time = 0;
    for (int r = 0; r < ROUNDS; r++) {
        double start = now();
        if (!read(it->at, it->size)) stop("the list isn't read");
        time = least(time, now() - start);
    }
    return time;
}

int main(int argc, char **argv) {
    if (argc != 4) stop("usage: entries FILE N plain|reasons");
    size_t n = strtoull(argv[2], NULL, 10);
    bool reasons = !strcmp(argv[3], "reasons");
    if (!n || (!reasons && strcmp(argv[3], "plain"))) stop("usage: entries FILE N plain|reasons");
    state ^= n;
    uint8_t *serials = room(n * SERIAL);
    for (size_t k = 0; k < n; k++) {
        if (k % 1000 == 999) memcpy(serials + k * SERIAL, serials + next_number() % k * SERIAL, SERIAL);
        else make_serial(serials + k * SERIAL);
    }
    write_list(argv[1], n, reasons, serials);
    row *rows = room(n * sizeof *rows);
    for (size_t k = 0; k < n; k++) { memcpy(rows[k].serial, serials + k * SERIAL, SERIAL); rows[k].position = k; }
    double start = now();
    qsort(rows, n, sizeof *rows, by_serial);
    double sorted = now() - start;

    list it = { .n = n, .count = n < MOST_ASKED ? n : MOST_ASKED };
    uint8_t *hits = room(it.count * SERIAL), *misses = room(it.count * SERIAL);
    for (size_t k = 0; k < it.count; k++) { /* a part of a shuffle */
        size_t other = k + next_number() % (n - k);
        uint8_t one[SERIAL];
        memcpy(one, serials + other * SERIAL, SERIAL);
        memcpy(serials + other * SERIAL, serials + k * SERIAL, SERIAL);
        memcpy(serials + k * SERIAL, one, SERIAL);
        memcpy(hits + k * SERIAL, one, SERIAL);
        do make_serial(misses + k * SERIAL); while (search(rows, n, misses + k * SERIAL) != SIZE_MAX);
    }
    free(serials);
    it.asked[0] = hits; it.asked[1] = misses;
    it.found = room(it.count * sizeof *it.found);
    double time[2] = { 0 };
    for (int which = 0; which < 2; which++) {
        it.expected[which] = room(it.count * sizeof *it.found);
        for (int r = 0; r < ROUNDS; r++) {
            start = now();
            for (size_t k = 0; k < it.count; k++) it.expected[which][k] = search(rows, n, it.asked[which] + k * SERIAL);
            time[which] = least(time[which], (now() - start) / (double)it.count);
        }
    }
    free(rows);

    int from = open(argv[1], O_RDONLY);
    off_t size = from < 0 ? -1 : lseek(from, 0, SEEK_END);
    it.size = (size_t)size;
    if (size <= 0 || (it.at = mmap(NULL, it.size, PROT_READ, MAP_PRIVATE | MAP_POPULATE, from, 0)) == MAP_FAILED) stop("the list can't be mapped");
    printf("%zu entries, %s, %zu bytes; %zu serials asked\n", n, reasons ? "each with a reason" : "without reasons", it.size, it.count);
    printf("  %-44s %9s %9s %11s %9s %9s %6s\n", "", "read, ms", "ready, ms", "held, kB", "found, ns", "not, ns", "of C");
    put("C, serials of 16 octets sorted, by halves", 0, sorted, n * sizeof *rows, time[0], time[1], time[0]);
    ours_in_octets(&it, time[0]);
    double without = time_of(x509_bench_list_entries, &it);
    if (n <= MOST_KEPT) {
        double keeping = time_of(x509_bench_list, &it);
        printf("  reading: no entry kept %.2f ms, all kept %.2f ms: %.2f of it\n", without / 1e6, keeping / 1e6, without / keeping);
        ours_kept(&it, time[0]);
#ifdef WITH_OPENSSL
        openssl(&it, time[0]);
#endif
#ifdef WITH_MBEDTLS
        mbedtls(&it, time[0]);
#endif
#ifdef WITH_X509_PARSER
        x509_parser(&it, time[0]);
#endif
    } else printf("  reading: no entry kept %.2f ms\n", without / 1e6);
#ifdef WITH_GNUTLS
    if (n <= (reasons ? MOST_GNUTLS_REASONS : MOST_GNUTLS)) gnutls(&it); /* its time grows as a square */
#endif
    printf("  wrong answers: %zu\n", it.wrong);
    return it.wrong != 0;
}
