/* Times the readers over files, look-ups on a list, and a validator.
   bench FILE..                          a row for each reader, over the files that it reads
   bench --look-ups LIST ASKED EXPECTED  the serials of the list ASKED on LIST; EXPECTED has a line for each, its position or -1
   bench --validate N FILE..             the validator of extensions over certificates with N identifiers each, a row for each
   RUSHTRIVET_LIBRARY names the C library, which has a row of its own then.
   A row is the least of ROUNDS rounds, all in one process. */
#define _GNU_SOURCE
#include "rushtrivet.h"
#include <dlfcn.h>
#include <malloc.h>
#include <stdbool.h>
#include <stdint.h>
#include <stdio.h>
#include <stdlib.h>
#include <string.h>
#include <time.h>

/* The library: a slice crosses as a pointer and a length. */
bool x509_bench_shallow(const uint8_t *, size_t), x509_bench_deep(const uint8_t *, size_t), x509_bench_strict(const uint8_t *, size_t),
    x509_bench_list(const uint8_t *, size_t), x509_bench_request(const uint8_t *, size_t), x509_bench_validate(const uint8_t *, size_t);
size_t x509_bench_text(const uint8_t *, size_t, uint32_t times), x509_bench_entries(const uint8_t *, size_t);
bool x509_bench_look_up(const uint8_t *, size_t, const uint8_t *asked, size_t, size_t *found, size_t, size_t *scanned, size_t);

enum { ROUNDS = 25, TEXTS = 64, SCANS = 10000, MARKS = 6 };
static const double ROUND = 20e6; /* the least time of a round, in nanoseconds */

/* ---- memory: the linker leads the program's requests here (--wrap) */

static uint64_t requests;
static bool weighing; /* whether what is held is counted, which takes time */
static int64_t held;
void *__real_malloc(size_t), *__real_realloc(void *, size_t);
void __real_free(void *);
static void weigh(void *at, int sign) { if (weighing && at) held += sign * (int64_t)malloc_usable_size(at); }
void *__wrap_malloc(size_t size) { requests++; void *at = __real_malloc(size); weigh(at, 1); return at; }
void __wrap_free(void *at) { weigh(at, -1); __real_free(at); }
void *__wrap_realloc(void *from, size_t size) {
    requests++;
    weigh(from, -1);
    void *at = __real_realloc(from, size);
    weigh(at ? at : from, 1);
    return at;
}

/* ---- time */

/* The processor time of the process, since the machine may be shared. It takes a system call, so a short stretch between two marks goes by the
   clock on the wall, and the least of the rounds is taken for each file. */
static clockid_t clock_used = CLOCK_PROCESS_CPUTIME_ID;
static double now(void) { struct timespec t; clock_gettime(clock_used, &t); return t.tv_sec * 1e9 + t.tv_nsec; }

static struct { double time; uint64_t requests; int64_t held; } marks[MARKS];
static int marked;
void x509_bench_mark(void) {
    if (marked < MARKS) { marks[marked].requests = requests; marks[marked].held = held; marks[marked].time = now(); marked++; }
}

/* ---- files */

typedef struct { uint8_t *bytes; size_t size, entries; const char *name; } file;
static void stop(const char *why, const char *name) { fprintf(stderr, "bench: %s: %s\n", name, why); exit(2); }
static void *room(size_t size) { void *at = calloc(size ? size : 1, 1); if (!at) stop("out of memory", "room"); return at; }
static file read_file(const char *name) {
    FILE *from = fopen(name, "rb");
    if (!from) stop("can't be opened", name);
    file it = {.name = name};
    for (size_t space = 0;;) {
        if (it.size == space) { space = space ? 2 * space : 4096; it.bytes = realloc(it.bytes, space); if (!it.bytes) stop("out of memory", name); }
        size_t more = fread(it.bytes + it.size, 1, space - it.size, from);
        if (!more) break;
        it.size += more;
    }
    if (ferror(from)) stop("can't be read", name);
    fclose(from);
    return it;
}

/* ---- the floor: a walk over the headers of all elements of the first one, into each constructed one; 0 where it comes to no header */

static __attribute__((noinline)) size_t walk(const uint8_t *bytes, size_t size) {
    size_t at = 0, end = size, count = 0;
    while (at < end) {
        size_t left = end - at, head = 2, length;
        const uint8_t *header = bytes + at;
        if (left < 2 || (header[0] & 0x1f) == 0x1f) return 0;
        length = header[1];
        if (length >= 0x80) {
            size_t octets = length & 0x7f;
            if (octets == 0 || octets > 4 || left < 2 + octets) return 0;
            length = 0;
            for (size_t k = 0; k < octets; k++) length = length << 8 | header[2 + k];
            head += octets;
        }
        if (length > left - head) return 0;
        if (count++ == 0) end = head + length;
        at += header[0] & 0x20 ? head : head + length;
    }
    return count;
}
static bool floor_row(const uint8_t *bytes, size_t size) {
    size_t count = walk(bytes, size);
    __asm__ volatile("" : : "r"(count));
    return count != 0;
}

/* ---- rows over files */

typedef bool (*reader)(const uint8_t *, size_t);
static uint64_t read_all(reader read, file *const *files, size_t count) {
    uint64_t accepted = 0;
    for (size_t k = 0; k < count; k++) accepted += read(files[k]->bytes, files[k]->size);
    return accepted;
}
/* The time of one round, for an item. */
static double round_of(reader read, file *const *files, size_t count) {
    size_t passes = 0;
    double start = now(), time;
    do { read_all(read, files, count); passes++; time = now() - start; } while (time < ROUND);
    return time / (double)passes / (double)count;
}
static void heading(void) {
    printf("%-34s %7s %9s %9s %9s %9s\n", "", "items", "ns/item", "ns/byte", "requests", "x floor");
}
static void row(const char *name, size_t items, double time, double bytes, double asked, double floor) {
    printf("%-34s %7zu %9.0f ", name, items, time);
    if (bytes > 0) printf("%9.2f ", time / bytes); else printf("%9s ", "-");
    if (asked >= 0) printf("%9.1f ", asked); else printf("%9s ", "-");
    if (floor > 0) printf("%9.1f\n", time / floor); else printf("%9s\n", "-");
}
static void reader_row(const char *name, reader read, file *files, size_t count) {
    file **taken = room(count * sizeof *taken);
    size_t items = 0, bytes = 0, lost = 0;
    for (size_t k = 0; k < count; k++) if (read(files[k].bytes, files[k].size)) {
        taken[items++] = &files[k];
        bytes += files[k].size;
        lost += !walk(files[k].bytes, files[k].size);
    }
    if (!items) { printf("%-34s %7d\n", name, 0); free(taken); return; }
    double floor = 1e300, time = 1e300;
    for (int k = 0; k < ROUNDS; k++) {
        double one = round_of(floor_row, taken, items);
        if (one < floor) floor = one;
        one = round_of(read, taken, items);
        if (one < time) time = one;
    }
    uint64_t before = requests;
    read_all(read, taken, items);
    double asked = (double)(requests - before) / (double)items, size = (double)bytes / (double)items;
    row(name, items, time, size, asked, floor);
    row("  flat walk of the same", items, floor, size, 0, floor);
    if (lost) printf("  (of these, the walk came to no header in %zu)\n", lost);
    free(taken);
}

/* ---- the C library, loaded beside: its own requests for memory aren't led here */

enum { ROWS = 64 };
static rtv_status (*c_call)(const uint8_t *, size_t, bool, bool, rtv_certificate *, rtv_extension *, size_t, size_t *);
static bool c_certificate(const uint8_t *bytes, size_t size) {
    static rtv_certificate found = RTV_CERTIFICATE_INIT;
    static rtv_extension rows[ROWS];
    static bool begun;
    size_t at;
    if (!begun) rtv_init_extensions(rows, ROWS), begun = true;
    return c_call(bytes, size, false, false, &found, rows, ROWS, &at) == RTV_OK;
}
/* The C call and the call that it stands on, in turns. */
static void c_row(file *files, size_t count) {
    const char *name = getenv("RUSHTRIVET_LIBRARY");
    void *library = name && *name ? dlopen(name, RTLD_NOW | RTLD_LOCAL) : NULL;
    if (!library) { printf("%-34s %s\n", "certificate, by the C library", "RUSHTRIVET_LIBRARY names none"); return; }
    *(void **)&c_call = dlsym(library, "rtv_read_certificate");
    if (!c_call) stop("has no rtv_read_certificate", name);
    file **taken = room(count * sizeof *taken);
    size_t items = 0, bytes = 0;
    for (size_t k = 0; k < count; k++) if (c_certificate(files[k].bytes, files[k].size)) {
        taken[items++] = &files[k];
        bytes += files[k].size;
        if (!x509_bench_shallow(files[k].bytes, files[k].size)) stop("is taken by the C library alone", files[k].name);
    }
    double own = 1e300, time = 1e300;
    for (int k = 0; items && k < ROUNDS; k++) {
        double one = round_of(x509_bench_shallow, taken, items);
        if (one < own) own = one;
        one = round_of(c_certificate, taken, items);
        if (one < time) time = one;
    }
    if (items) {
        row("certificate, by the C library", items, time, (double)bytes / (double)items, -1, 0);
        printf("  of the shallow reading of the same, in turns: %.2f\n", time / own);
    }
    free(taken);
}

/* ---- rows between marks: for each file the least of the rounds */

static void text_row(file *files, size_t count) {
    size_t items = 0;
    double sum = 0, letters = 0, asked = 0;
    for (size_t k = 0; k < count; k++) {
        double least = 1e300;
        size_t length = 0;
        for (int r = 0; r < ROUNDS; r++) {
            marked = 0;
            length = x509_bench_text(files[k].bytes, files[k].size, TEXTS);
            if (marked == 2 && marks[1].time - marks[0].time < least) least = marks[1].time - marks[0].time;
        }
        if (marked != 2) continue;
        items++; sum += least / TEXTS; letters += (double)length;
        asked += (double)(marks[1].requests - marks[0].requests) / TEXTS;
    }
    if (items) row("subject as text (bytes of the text)", items, sum / (double)items, letters / (double)items, asked / (double)items, 0);
}
static void index_rows(file *files, size_t count) {
    size_t lists = 0, entries = 0, most = 0, differing = 0;
    double build = 0, find = 0, scan = 0, asked = 0;
    for (size_t k = 0; k < count; k++) {
        size_t n = x509_bench_entries(files[k].bytes, files[k].size);
        if (!n) continue;
        double b = 1e300, f = 1e300, s = 1e300;
        size_t *found = room(n * sizeof *found), *scanned = room(n * sizeof *scanned), sample = n < SCANS ? n : SCANS;
        for (int r = 0; r < ROUNDS; r++) {
            marked = 0;
            if (!x509_bench_look_up(files[k].bytes, files[k].size, files[k].bytes, files[k].size, found, n, scanned, sample)) stop("look-ups failed", files[k].name);
            double one = marks[2].time - marks[1].time;
            if (one < b) b = one;
            one = (marks[3].time - marks[2].time) / (double)n;
            if (one < f) f = one;
            one = (marks[4].time - marks[3].time) / (double)sample;
            if (one < s) s = one;
        }
        for (size_t j = 0; j < n; j++) differing += (j < sample && found[j] != scanned[j]) || found[j] > j;
        lists++; entries += n; build += b; find += f * (double)n; scan += s * (double)n;
        asked += (double)(marks[2].requests - marks[1].requests);
        if (n > most) most = n;
        free(found); free(scanned);
    }
    if (!lists) return;
    printf("%zu lists have entries: %.1f on the average, %zu at the most; each serial is looked up on its own list\n", lists, (double)entries / (double)lists, most);
    row("  index, build", lists, build / (double)lists, 0, asked / (double)lists, 0);
    row("  index, find", entries, find / (double)entries, 0, 0, 0);
    row("  scan, find_revoked", entries, scan / (double)entries, 0, 0, 0);
    printf("  answers of index and scan that differ: %zu\n", differing);
    if (differing) exit(1);
}

/* ---- look-ups on one list */

static void look_ups(const char *list_name, const char *asked_name, const char *expected_name) {
    file list = read_file(list_name), asked = read_file(asked_name);
    size_t n = x509_bench_entries(asked.bytes, asked.size), sample = n < SCANS ? n : SCANS;
    if (!n) stop("no list with entries", asked_name);
    size_t *expected = room(n * sizeof *expected), *found = room(n * sizeof *found), *scanned = room(n * sizeof *scanned), hits = 0;
    FILE *from = fopen(expected_name, "r");
    for (size_t k = 0; k < n; k++) {
        long long position;
        if (!from || fscanf(from, "%lld", &position) != 1) stop("doesn't say all positions", expected_name);
        expected[k] = position < 0 ? SIZE_MAX : (size_t)position;
        hits += position >= 0;
    }
    fclose(from);
    weighing = true;
    double least[MARKS] = {0};
    int64_t of_list = 0, of_index = 0;
    for (int r = 0; r < 5; r++) {
        marked = 0;
        size_t scans = r ? 0 : sample; /* the scan once: it takes long */
        if (!x509_bench_look_up(list.bytes, list.size, asked.bytes, asked.size, found, n, scanned, scans)) stop("look-ups failed", list_name);
        for (int m = 1; m < 5 && (m < 4 || !r); m++) {
            double one = marks[m].time - marks[m - 1].time;
            if (!r || one < least[m]) least[m] = one;
        }
        of_list = marks[1].held - marks[0].held;
        of_index = marks[2].held - marks[1].held;
    }
    size_t wrong = 0, scanned_wrong = 0;
    for (size_t k = 0; k < n; k++) { wrong += found[k] != expected[k]; if (k < sample) scanned_wrong += scanned[k] != expected[k]; }
    printf("list: %zu bytes, %zu entries; asked: %zu serials, %zu of them on the list\n", list.size, x509_bench_entries(list.bytes, list.size), n, hits);
    printf("  read                %10.4f s, %12lld bytes held\n", least[1] / 1e9, (long long)of_list);
    printf("  index, build        %10.4f s, %12lld bytes held\n", least[2] / 1e9, (long long)of_index);
    printf("  index, find         %10.0f ns a serial; wrong answers: %zu of %zu\n", least[3] / (double)n, wrong, n);
    printf("  scan, find_revoked  %10.0f ns a serial; wrong answers: %zu of %zu\n", least[4] / (double)sample, scanned_wrong, sample);
    if (wrong || scanned_wrong) exit(1);
}

/* ---- a validator over certificates with many identifiers */

static void validate_rows(const char *count, char **names, size_t files) {
    size_t n = strtoull(count, NULL, 10);
    if (!n) stop("no count of identifiers", count);
    printf("%zu identifiers\n", n);
    for (size_t k = 0; k < files; k++) {
        file it = read_file(names[k]);
        double read = 1e300, time = 1e300;
        for (int r = 0; r < ROUNDS; r++) {
            marked = 0;
            if (!x509_bench_validate(it.bytes, it.size)) stop("isn't read, or isn't sound", it.name);
            double one = marks[1].time - marks[0].time;
            if (one < read) read = one;
            one = marks[2].time - marks[1].time;
            if (one < time) time = one;
        }
        const char *slash = strrchr(it.name, '/');
        printf("  %-16s %9zu bytes: read %11.0f ns; validate %11.0f ns, %7.1f ns an identifier, %7llu requests\n", slash ? slash + 1 : it.name, it.size,
            read, time, time / (double)n, (unsigned long long)(marks[2].requests - marks[1].requests));
        free(it.bytes);
    }
}

int main(int argc, char **argv) {
    if (argc > 3 && !strcmp(argv[1], "--validate")) {
        clock_used = CLOCK_MONOTONIC;
        validate_rows(argv[2], argv + 3, (size_t)argc - 3);
        return 0;
    }
    if (argc == 5 && !strcmp(argv[1], "--look-ups")) { look_ups(argv[2], argv[3], argv[4]); return 0; }
    size_t count = (size_t)(argc - 1), bytes = 0;
    file *files = room(count * sizeof *files);
    for (size_t k = 0; k < count; k++) { files[k] = read_file(argv[k + 1]); bytes += files[k].size; }
    printf("%zu files, %zu bytes; each row over the files that its reader takes, the least of %d rounds\n", count, bytes, ROUNDS);
    heading();
    reader_row("certificate, shallow", x509_bench_shallow, files, count);
    c_row(files, count);
    reader_row("certificate, deep", x509_bench_deep, files, count);
    reader_row("certificate, strict", x509_bench_strict, files, count);
    reader_row("list", x509_bench_list, files, count);
    reader_row("request", x509_bench_request, files, count);
    clock_used = CLOCK_MONOTONIC;
    text_row(files, count);
    index_rows(files, count);
    return 0;
}
