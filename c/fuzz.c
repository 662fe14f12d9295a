/* For libFuzzer: every call of rushtrivet.h over one input, over the windows that were read in it, and over the input as if it were each of
 * these. What the header promises and can be seen from outside is looked at: a status that isn't RTV_OK leaves all results as they were, *at is in the buffer,
 * windows too, rows behind those that are told are left alone, another room changes nothing but how many rows are written, strict takes only
 * what loose takes with the same answer, a look-up by the index answers as the scan does, a text with less room is the front of the whole.
 * clang -g -O1 -fsanitize=fuzzer,address,undefined -fno-sanitize-recover=all -Iinclude -o fuzz c/fuzz.c build/lib/librushtrivet.a
 *
 * The library is not built with the fuzzer's counters, so what its calls told counts for libFuzzer instead (`told`). Nor does AddressSanitizer
 * see inside of it: octets that are read stand in front of a page that can't be read, and rows have more rows behind them. At the end it writes
 * which statuses each call told, and how often. */
#define _GNU_SOURCE
#include "rushtrivet.h"
#include <stdio.h>
#include <stdlib.h>
#include <string.h>
#include <sys/mman.h>
#include <unistd.h>

enum { ROOM = 12, BEHIND = 2, ALL = ROOM + BEHIND, MOST = 1 << 20, MARK = 0x5a, TOLD = 1 << 13 };

static void must(bool holds, const char *call, const char *what) {
    if (holds) return;
    fprintf(stderr, "fuzz: %s: %s\n", call, what);
    abort();
}

/* ---- octets */

/* Where a copy of the octets ends in front of a page that can't be read. A copy in a higher room leaves those in lower ones. */
static const uint8_t *alone(unsigned room, const uint8_t *octets, size_t length) {
    static uint8_t *rooms[3];
    if (!rooms[room]) {
        size_t page = (size_t)sysconf(_SC_PAGESIZE);
        uint8_t *it = mmap(NULL, MOST + page, PROT_READ | PROT_WRITE, MAP_PRIVATE | MAP_ANONYMOUS, -1, 0);
        must(it != MAP_FAILED && mprotect(it + MOST, page, PROT_NONE) == 0, "mmap", "no memory");
        rooms[room] = it;
    }
    return memcpy(rooms[room] + MOST - length, octets, length);
}

static bool same(rtv_bytes one, rtv_bytes other) {
    return one.length == other.length && memcmp(one.at, other.at, one.length) == 0;
}

/* ---- results of any kind: windows stand first in every struct of the header, and numbers behind them */

typedef struct {
    size_t size, windows, used; /* used: without what pads the end */
} kind;

#define KIND(type, windows, last) { sizeof(type), windows, offsetof(type, last) + sizeof(((type *)0)->last) }
#define NONE { 0, 0, 0 }

typedef struct {
    _Alignas(16) uint8_t octets[ALL * 80]; /* no row is larger than 80 octets, and no struct than all rows */
} memory;

static const uint8_t elsewhere[3] = "abc";

static rtv_bytes *windows_of(memory *it, kind of, size_t row) { return (rtv_bytes *)(void *)(it->octets + row * of.size); }

static void fill(memory *it, kind of, size_t rows) {
    memset(it->octets, MARK, rows * of.size);
    for (size_t k = 0; k < rows; k++)
        for (size_t w = 0; w < of.windows; w++) windows_of(it, of, k)[w] = (rtv_bytes){ elsewhere, sizeof elsewhere };
}

static bool is_filled(const memory *it, kind of, size_t from, size_t to) {
    memory one;
    fill(&one, of, 1);
    for (size_t k = from; k < to; k++)
        if (memcmp(it->octets + k * of.size, one.octets, of.used) != 0) return false;
    return true;
}

/* Whether the rows say the same, window by window, though they were read in different buffers. */
static bool says_the_same(memory *one, memory *other, kind of, size_t rows) {
    for (size_t k = 0; k < rows; k++) {
        size_t place = k * of.size, numbers = of.windows * sizeof(rtv_bytes);
        for (size_t w = 0; w < of.windows; w++)
            if (!same(windows_of(one, of, k)[w], windows_of(other, of, k)[w])) return false;
        if (memcmp(one->octets + place + numbers, other->octets + place + numbers, of.used - numbers) != 0) return false;
    }
    return true;
}

/* ---- one call: what it gets, and what it tells */

typedef struct {
    const uint8_t *der;
    size_t length, room[2], position;
    bool deep, strict;
    memory head, rows[2];
    size_t count[2], at;
} call;

typedef struct {
    const char *name;
    rtv_status (*ask)(call *);
    kind head, rows[2];
} reader;

/* Which call told which status, where and how many: libFuzzer keeps inputs that bring something new here. */
__attribute__((section("__libfuzzer_extra_counters"), used, aligned(64))) static uint8_t told[TOLD];

static struct {
    const char *name;
    uint64_t times[64];
} tallies[32];

static void count(const char *name, rtv_status status) {
    size_t k = 0;
    while (tallies[k].name && tallies[k].name != name) k++;
    must(status < 64 && k < 31, name, "a status that is none");
    tallies[k].name = name;
    tallies[k].times[status]++;
}

static void put_tallies(void) {
    for (size_t k = 0; tallies[k].name; k++) {
        fprintf(stderr, "told by %s:", tallies[k].name);
        for (int status = 0; status < 64; status++)
            if (tallies[k].times[status]) fprintf(stderr, " %d (%llu)", status, (unsigned long long)tallies[k].times[status]);
        fputc('\n', stderr);
    }
}

int LLVMFuzzerInitialize(int *words, char ***at) {
    (void)words;
    (void)at;
    return atexit(put_tallies);
}

static void tell(const char *name, rtv_status status, size_t first, size_t second) {
    count(name, status);
    uint64_t hash = 14695981039346656037u;
    for (; *name; name++) hash = (hash ^ (uint8_t)*name) * 1099511628211u;
    hash = (hash ^ status) * 1099511628211u;
    hash = (hash ^ (first < 96 ? first : 96)) * 1099511628211u;
    hash = (hash ^ (second < 8 ? second : 8)) * 1099511628211u;
    told[(hash >> 20) % TOLD] = 1;
}

static void look_at_status(const char *name, rtv_status status, size_t at, size_t before, size_t length) {
    uint8_t words[64];
    size_t whole = rtv_word(status, words, sizeof words);
    must(status != RTV_OUT_OF_MEMORY, name, "memory is wanting");
    must(status == RTV_OK || status == RTV_NOT_FOUND ? at == before : at <= length, name, "an octet that is none");
    must(whole > 0 && whole < sizeof words && words[whole] == 0 && strcmp((char *)words, "unknown") != 0, name, "a status without words");
}

static bool is_within(const call *it, rtv_bytes window) {
    if (window.at == NULL || window.length == 0) return window.at != NULL;
    return window.at >= it->der && window.at <= it->der + it->length && window.length <= (size_t)(it->der + it->length - window.at);
}

static rtv_status ask(const reader *by, call *it) {
    const size_t before = (size_t)MARK << 40;
    must(by->head.size <= sizeof(memory) && ALL * by->rows[0].size <= sizeof(memory) && ALL * by->rows[1].size <= sizeof(memory), by->name, "no room");
    fill(&it->head, by->head, by->head.size ? 1 : 0);
    for (int run = 0; run < 2; run++) fill(&it->rows[run], by->rows[run], ALL);
    it->count[0] = it->count[1] = it->at = before;
    rtv_status status = by->ask(it);
    look_at_status(by->name, status, it->at, before, it->length);
    if (status != RTV_OK) {
        must(!by->head.size || is_filled(&it->head, by->head, 0, 1), by->name, "a struct that a refusal changed");
        for (int run = 0; run < 2; run++) must(is_filled(&it->rows[run], by->rows[run], 0, ALL), by->name, "a row that a refusal changed");
        must(it->count[0] == before && it->count[1] == before, by->name, "a count that a refusal changed");
        tell(by->name, status, it->at, 0);
        return status;
    }
    size_t heads = by->head.size ? 1 : 0;
    for (int run = -1; run < 2; run++) {
        kind of = run < 0 ? by->head : by->rows[run];
        memory *in = run < 0 ? &it->head : &it->rows[run];
        size_t written = run < 0 ? heads : it->count[run] < it->room[run] ? it->count[run] : it->room[run];
        if (!of.size) continue;
        for (size_t k = 0; k < written; k++)
            for (size_t w = 0; w < of.windows; w++) must(is_within(it, windows_of(in, of, k)[w]), by->name, "a window outside");
        if (run >= 0) must(is_filled(in, of, written, ALL), by->name, "a row behind the last");
    }
    tell(by->name, status, it->count[0] == before ? 0 : it->count[0], it->count[1] == before ? 0 : it->count[1]);
    return status;
}

/* The same call with other rooms tells the same, and writes the first of the same rows. */
static rtv_status ask_with_rooms(const reader *by, call *it) {
    it->room[0] = it->room[1] = ROOM;
    rtv_status status = ask(by, it);
    size_t rooms[][2] = { { 0, 0 }, { 1, 0 }, { 0, 1 }, { it->count[0], it->count[1] } };
    for (size_t k = 0; k < sizeof rooms / sizeof *rooms; k++) {
        call other = { .der = it->der, .length = it->length, .position = it->position, .deep = it->deep, .strict = it->strict };
        if (!by->rows[1].size && k == 2) continue;
        for (int run = 0; run < 2; run++) other.room[run] = rooms[k][run] < ROOM ? rooms[k][run] : ROOM;
        must(ask(by, &other) == status && other.at == it->at, by->name, "another status with another room");
        must(other.count[0] == it->count[0] && other.count[1] == it->count[1], by->name, "another count with another room");
        must(!by->head.size || says_the_same(&it->head, &other.head, by->head, 1), by->name, "another answer with another room");
        for (int run = 0; run < 2 && status == RTV_OK; run++) {
            size_t both = it->count[run] < other.room[run] ? it->count[run] : other.room[run];
            must(says_the_same(&it->rows[run], &other.rows[run], by->rows[run], both), by->name, "other rows with another room");
        }
        if (status != RTV_OK) break;
    }
    return status;
}

/* ---- the readers of the header */

static rtv_status certificate(call *it) {
    rtv_certificate *head = (void *)it->head.octets;
    rtv_status status = rtv_read_certificate(it->der, it->length, it->deep, it->strict, head, (void *)it->rows[0].octets, it->room[0], &it->at);
    if (status == RTV_OK) it->count[0] = head->extension_count;
    return status;
}

static rtv_status list(call *it) {
    rtv_list *head = (void *)it->head.octets;
    rtv_status status = rtv_read_list(it->der, it->length, it->strict, head, (void *)it->rows[0].octets, it->room[0],
                                      (void *)it->rows[1].octets, it->room[1], &it->at);
    if (status == RTV_OK) it->count[0] = head->revoked_count, it->count[1] = head->extension_count;
    return status;
}

static rtv_status request(call *it) {
    rtv_request *head = (void *)it->head.octets;
    rtv_status status = rtv_read_request(it->der, it->length, it->strict, head, (void *)it->rows[0].octets, it->room[0], &it->at);
    if (status == RTV_OK) it->count[0] = head->attribute_count;
    return status;
}

static rtv_status entry_extensions(call *it) {
    return rtv_read_entry_extensions(it->der, it->length, (void *)it->rows[0].octets, it->room[0], &it->count[0], &it->at);
}

static rtv_status name(call *it) {
    return rtv_read_name(it->der, it->length, (void *)it->rows[0].octets, it->room[0], &it->count[0], &it->at);
}

static rtv_status general_names(call *it) {
    return rtv_read_general_names(it->der, it->length, (void *)it->rows[0].octets, it->room[0], &it->count[0], &it->at);
}

static rtv_status key_usage(call *it) { return rtv_read_key_usage(it->der, it->length, (void *)it->head.octets, &it->at); }

static rtv_status basic_constraints(call *it) { return rtv_read_basic_constraints(it->der, it->length, (void *)it->head.octets, &it->at); }

static rtv_status extended_key_usage(call *it) {
    rtv_extended_key_usage *head = (void *)it->head.octets;
    rtv_status status = rtv_read_extended_key_usage(it->der, it->length, head, (void *)it->rows[0].octets, it->room[0], &it->at);
    if (status == RTV_OK) it->count[0] = head->other_count;
    return status;
}

static rtv_status key_identifier(call *it) { return rtv_read_key_identifier(it->der, it->length, (void *)it->head.octets, &it->at); }

static rtv_status authority_key(call *it) {
    rtv_authority_key *head = (void *)it->head.octets;
    rtv_status status = rtv_read_authority_key(it->der, it->length, head, (void *)it->rows[0].octets, it->room[0], &it->at);
    if (status == RTV_OK) it->count[0] = head->issuer_count;
    return status;
}

static rtv_status policies(call *it) {
    return rtv_read_policies(it->der, it->length, (void *)it->rows[0].octets, it->room[0], &it->count[0], &it->at);
}

static rtv_status qualifiers(call *it) {
    return rtv_read_qualifiers(it->der, it->length, it->position, (void *)it->rows[0].octets, it->room[0], &it->count[0], &it->at);
}

static rtv_status policy_qualifiers(call *it) {
    return rtv_read_policy_qualifiers(it->der, it->length, (void *)it->rows[0].octets, it->room[0], &it->count[0], &it->at);
}

static rtv_status accesses(call *it) {
    return rtv_read_accesses(it->der, it->length, (void *)it->rows[0].octets, it->room[0], &it->count[0], &it->at);
}

static rtv_status distribution_point(call *it) {
    rtv_distribution_point *head = (void *)it->head.octets;
    rtv_status status = rtv_read_distribution_point(it->der, it->length, it->position, head, (void *)it->rows[0].octets, it->room[0],
                                                    (void *)it->rows[1].octets, it->room[1], &it->at);
    if (status == RTV_OK) it->count[0] = head->name_count, it->count[1] = head->issuer_count;
    return status;
}

static rtv_status distribution_points(call *it) {
    return rtv_read_distribution_points(it->der, it->length, (void *)it->rows[0].octets, it->room[0], &it->count[0], &it->at);
}

static rtv_status point_names(call *it) {
    return rtv_read_point_names(it->der, it->length, (void *)it->rows[0].octets, it->room[0], &it->count[0], &it->at);
}

static rtv_status point_issuers(call *it) {
    return rtv_read_point_issuers(it->der, it->length, (void *)it->rows[0].octets, it->room[0], &it->count[0], &it->at);
}

static rtv_status name_constraints(call *it) {
    rtv_name_constraints *head = (void *)it->head.octets;
    rtv_status status = rtv_read_name_constraints(it->der, it->length, head, (void *)it->rows[0].octets, it->room[0],
                                                  (void *)it->rows[1].octets, it->room[1], &it->at);
    if (status == RTV_OK) it->count[0] = head->permitted_count, it->count[1] = head->excluded_count;
    return status;
}

static rtv_status timestamps(call *it) {
    return rtv_read_timestamps(it->der, it->length, (void *)it->rows[0].octets, it->room[0], &it->count[0], &it->at);
}

static rtv_status rsa_key(call *it) { return rtv_read_rsa_key(it->der, it->length, (void *)it->head.octets, &it->at); }

#define GENERAL_NAME KIND(rtv_general_name, 2, readable)

static const reader a_certificate = { "certificate", certificate, KIND(rtv_certificate, 11, version), { KIND(rtv_extension, 2, critical), NONE } };
static const reader a_list = { "list", list, KIND(rtv_list, 7, has_version),
                               { KIND(rtv_revoked, 1, has_reason), KIND(rtv_extension, 2, critical) } };
static const reader a_request = { "request", request, KIND(rtv_request, 9, version), { KIND(rtv_request_attribute, 2, value), NONE } };
static const reader some_entry_extensions = { "extensions of entries", entry_extensions, NONE, { KIND(rtv_entry_extension, 2, critical), NONE } };
static const reader a_name = { "name", name, NONE, { KIND(rtv_attribute, 2, tag), NONE } };
static const reader some_names = { "general names", general_names, NONE, { GENERAL_NAME, NONE } };
static const reader some_policies = { "policies", policies, NONE, { KIND(rtv_policy, 1, qualifier_count), NONE } };
static const reader some_qualifiers = { "qualifiers", qualifiers, NONE, { KIND(rtv_qualifier, 2, value), NONE } };
static const reader a_point = { "distribution point", distribution_point, KIND(rtv_distribution_point, 0, has_issuer), { GENERAL_NAME, GENERAL_NAME } };
static const reader readers[] = {
    { "key usage", key_usage, { sizeof(uint32_t), 0, sizeof(uint32_t) }, { NONE, NONE } },
    { "basic constraints", basic_constraints, KIND(rtv_basic_constraints, 0, path_length), { NONE, NONE } },
    { "extended key usage", extended_key_usage, KIND(rtv_extended_key_usage, 0, ocsp_signing), { KIND(rtv_bytes, 1, length), NONE } },
    { "key identifier", key_identifier, KIND(rtv_bytes, 1, length), { NONE, NONE } },
    { "authority key", authority_key, KIND(rtv_authority_key, 2, has_serial), { GENERAL_NAME, NONE } },
    { "qualifiers of policies", policy_qualifiers, NONE, { KIND(rtv_policy_qualifier, 2, policy), NONE } },
    { "distribution points", distribution_points, NONE, { KIND(rtv_distribution_point, 0, has_issuer), NONE } },
    { "names of points", point_names, NONE, { KIND(rtv_point_name, 2, point), NONE } },
    { "issuers of points", point_issuers, NONE, { KIND(rtv_point_name, 2, point), NONE } },
    { "accesses", accesses, NONE, { KIND(rtv_access, 3, location.readable), NONE } },
    { "name constraints", name_constraints, KIND(rtv_name_constraints, 0, has_excluded), { GENERAL_NAME, GENERAL_NAME } },
    { "timestamps", timestamps, NONE, { KIND(rtv_timestamp, 3, signature_algorithm), NONE } },
    { "RSA key", rsa_key, KIND(rtv_rsa_key, 2, exponent), { NONE, NONE } },
};

/* ---- texts */

typedef rtv_status (*writer)(const uint8_t *, size_t, uint8_t *, size_t, size_t *, size_t *);

static rtv_status hex_text(const uint8_t *it, size_t length, uint8_t *text, size_t room, size_t *whole, size_t *at) {
    (void)at;
    return rtv_hex_text(it, length, text, room, whole);
}

static rtv_status oid_text(const uint8_t *it, size_t length, uint8_t *text, size_t room, size_t *whole, size_t *at) {
    (void)at;
    return rtv_oid_text(it, length, text, room, whole);
}

/* The text in `text`, which has room for `room` octets; with less room its front, with a NUL behind it, and no octet behind that. */
static rtv_status write_text(const char *name, writer by, const uint8_t *it, size_t length, uint8_t *text, size_t room, size_t *whole, size_t *at) {
    const size_t before = (size_t)MARK << 40;
    uint8_t less[64];
    *whole = *at = before;
    memset(text, MARK, room);
    rtv_status status = by(it, length, text, room, whole, at);
    look_at_status(name, status, *at, before, length);
    size_t written = *whole < room ? *whole : room - 1;
    if (status != RTV_OK)
        must(*whole == before && text[0] == MARK, name, "a text that a refusal changed");
    else
        must(text[written] == 0, name, "no NUL behind a text");
    for (size_t k = 0; k < sizeof less; k = 2 * k + 1) {
        size_t length_again = before, at_again = before, front = *whole < k ? *whole : k ? k - 1 : 0;
        memset(less, MARK, sizeof less);
        must(by(it, length, less, k, &length_again, &at_again) == status && at_again == *at, name, "another status with another room");
        must(length_again == *whole, name, "another length with another room");
        if (status == RTV_OK && k) must(memcmp(less, text, front < written ? front : written) == 0 && less[front] == 0, name, "another text");
        for (size_t n = status == RTV_OK && k ? front + 1 : 0; n < sizeof less; n++) must(less[n] == MARK, name, "an octet behind a text");
    }
    tell(name, status, status == RTV_OK ? *whole : *at, 0);
    return status;
}

static void texts(const uint8_t *it, size_t length) {
    static uint8_t text[3 * 4096 + 8];
    size_t whole, at;
    if (length <= 4096) {
        write_text("hex text", hex_text, it, length, text, sizeof text, &whole, &at);
        must(whole == (length ? 3 * length - 1 : 0), "hex text", "another length than that of the octets");
        for (size_t k = 0; k < length; k++) {
            char digits[4];
            snprintf(digits, sizeof digits, "%02x", it[k]);
            must(memcmp(text + 3 * k, digits, 2) == 0 && text[3 * k + 2] == (k + 1 < length ? ':' : 0), "hex text", "other digits");
        }
    }
    write_text("identifier text", oid_text, it, length, text, sizeof text, &whole, &at);
}

/* ---- what stands in objects */

/* A Name, and its text: both are told, or refused alike. */
static void look_at_name(const uint8_t *it, size_t length) {
    static uint8_t text[4096];
    size_t whole, at;
    call found = { .der = it, .length = length };
    rtv_status status = ask_with_rooms(&a_name, &found);
    must(write_text("name text", rtv_name_text, it, length, text, sizeof text, &whole, &at) == status && at == found.at, "name text",
         "another status than that of the name");
    size_t relative = 0;
    for (size_t k = 0; status == RTV_OK && k < found.count[0] && k < ROOM; k++) {
        const rtv_attribute *row = (const rtv_attribute *)(void *)found.rows[0].octets + k;
        must(row->relative >= relative && row->relative <= relative + 1 && (k || !row->relative), "name", "a relative name out of order");
        relative = row->relative;
    }
}

static void look_at_names(const uint8_t *it, size_t length) {
    call found = { .der = it, .length = length };
    if (ask_with_rooms(&some_names, &found) != RTV_OK) return;
    for (size_t k = 0; k < found.count[0] && k < ROOM; k++) {
        rtv_general_name row = ((const rtv_general_name *)(void *)found.rows[0].octets)[k];
        must(row.readable <= 1, "general names", "a flag that is none");
        must(!row.readable || row.tag <= 8, "general names", "a kind that is none");
        if (row.readable && row.tag == 4) look_at_name(alone(2, row.value.at, row.value.length), row.value.length);
    }
}

/* The parts of a value that are asked for by their position: as many as are told, and then none. */
static void look_at_positions(const uint8_t *it, size_t length) {
    call found = { .der = it, .length = length };
    rtv_status status = ask_with_rooms(&some_policies, &found);
    for (size_t k = 0; k <= ROOM; k++) {
        call part = { .der = it, .length = length, .position = k };
        rtv_status of_part = ask_with_rooms(&some_qualifiers, &part);
        if (status != RTV_OK) {
            must(of_part == status && part.at == found.at, "qualifiers", "another refusal than that of the policies");
            break;
        }
        must(of_part == (k < found.count[0] ? RTV_OK : RTV_NOT_FOUND), "qualifiers", "a policy too many or too few");
        if (of_part != RTV_OK) break;
        if (k < ROOM)
            must(((const rtv_policy *)(void *)found.rows[0].octets)[k].qualifier_count == part.count[0], "qualifiers", "another count");
    }
    for (size_t k = 0; k < 4; k++) {
        call part = { .der = it, .length = length, .position = k };
        if (ask_with_rooms(&a_point, &part) != RTV_OK) break;
        const rtv_distribution_point *point = (const void *)part.head.octets;
        must(point->name_kind <= 2 && point->has_reasons <= 1 && point->has_issuer <= 1, "distribution point", "a flag that is none");
        must(point->has_reasons || !point->reasons, "distribution point", "reasons of none");
    }
}

/* Octets that may be the value of any extension, or a key. */
static void look_at_value(const uint8_t *octets, size_t length) {
    const uint8_t *it = alone(1, octets, length);
    for (size_t k = 0; k < sizeof readers / sizeof *readers; k++) {
        call found = { .der = it, .length = length };
        ask_with_rooms(&readers[k], &found);
    }
    look_at_names(it, length);
    look_at_positions(it, length);
    look_at_name(it, length);
    texts(it, length);
}

/* ---- objects */

/* Loose and strict, deep or not; and the object alone, which tells the same. Whether loose and strict (deep) take it. */
static void look_at_object(const reader *by, const uint8_t *der, size_t length, call *loose, bool taken[2]) {
    *loose = (call){ .der = der, .length = length };
    taken[0] = ask_with_rooms(by, loose) == RTV_OK;
    for (int way = 1; way < 4; way++) {
        if (by != &a_certificate && way & 1) continue;
        call other = { .der = der, .length = length, .deep = way & 1, .strict = way & 2 };
        bool well = ask_with_rooms(by, &other) == RTV_OK;
        if (other.strict)
            must(taken[0] || !well, by->name, "strict takes what loose refuses");
        else
            must(taken[0] == well && other.at == loose->at, by->name, "deep and shallow differ");
        taken[1] = well;
        if (!well) continue;
        must(says_the_same(&loose->head, &other.head, by->head, 1), by->name, "another answer in another way");
        for (int run = 0; run < 2; run++) {
            must(loose->count[run] == other.count[run], by->name, "another count in another way");
            size_t both = loose->count[run] < ROOM ? loose->count[run] : ROOM;
            must(!by->rows[run].size || says_the_same(&loose->rows[run], &other.rows[run], by->rows[run], both), by->name, "other rows in another way");
        }
    }
    if (!taken[0]) return;
    rtv_bytes *windows = windows_of(&loose->head, by->head, 0), whole = windows[0], rest = windows[1], part = windows[2];
    must(whole.at == der && whole.length + rest.length == length && (!rest.length || rest.at == der + whole.length), by->name, "a rest that is none");
    must(part.at >= whole.at && part.at + part.length <= whole.at + whole.length, by->name, "a signed part outside");
    call again = { .der = alone(1, whole.at, whole.length), .length = whole.length, .room = { ROOM, ROOM } };
    must(ask(by, &again) == RTV_OK && !windows_of(&again.head, by->head, 0)[1].length, by->name, "an object that isn't one alone");
    windows_of(&again.head, by->head, 0)[1] = rest;
    must(says_the_same(&loose->head, &again.head, by->head, 1), by->name, "another answer alone");
}

static void look_at_rows(const memory *rows, size_t count) {
    const rtv_extension *row = (const void *)rows->octets;
    for (size_t k = 0; k < count && k < ROOM; k++) {
        must(row[k].critical <= 1, "extensions", "a flag that is none");
        texts(row[k].oid.at, row[k].oid.length);
        look_at_value(row[k].value.at, row[k].value.length);
    }
}

static rtv_bytes unsigned_number(rtv_bytes it) {
    while (it.length && !*it.at) it.at++, it.length--;
    return it;
}

/* A serial, by the scan and by the index, where there is one; and by the rows themselves, where all of them are there. */
static void look_up(call *it, const rtv_index_row *index, size_t entries, rtv_bytes serial) {
    static const kind row_kind = KIND(rtv_revoked, 1, has_reason);
    const size_t before = (size_t)MARK << 40;
    memory found;
    size_t scanned = before, indexed = before, at = before, expected = 0;
    fill(&found, row_kind, 1);
    rtv_status status = rtv_find_revoked(it->der, it->length, serial.at, serial.length, (void *)found.octets, &scanned, &at);
    must(status == RTV_OK || status == RTV_NOT_FOUND, "look-up", "a list that is none now");
    must(at == before, "look-up", "an octet that is none");
    if (status != RTV_OK) must(scanned == before && is_filled(&found, row_kind, 0, 1), "look-up", "a result of none");
    if (index) {
        must(rtv_index_find(index, entries, serial.at, serial.length, &indexed) == status && indexed == scanned, "look-up", "index and scan differ");
        const rtv_revoked *rows = (const void *)it->rows[0].octets;
        while (expected < entries && !same(unsigned_number(rows[expected].serial), unsigned_number(serial))) expected++;
        must(status == RTV_OK ? scanned == expected : expected == entries, "look-up", "another entry");
    }
    if (status == RTV_OK && scanned < ROOM) {
        memory row;
        memcpy(row.octets, it->rows[0].octets + scanned * row_kind.size, row_kind.size);
        must(says_the_same(&row, &found, row_kind, 1), "look-up", "another row");
    }
    tell("look-up", status, scanned, 0);
}

static void look_at_index(call *it) {
    static const kind row_kind = KIND(rtv_index_row, 1, position);
    const size_t before = (size_t)MARK << 40;
    static memory rows;
    size_t entries = it->count[0], count = 0, at = before;
    for (size_t room = 0; room <= ROOM; room += ROOM) {
        fill(&rows, row_kind, ALL);
        count = before;
        must(rtv_index_build(it->der, it->length, (void *)rows.octets, room, &count, &at) == RTV_OK && count == entries && at == before,
             "index", "another count than the list's");
        must(is_filled(&rows, row_kind, count <= room ? count : 0, ALL), "index", "a row that isn't its own");
    }
    const rtv_index_row *index = entries <= ROOM ? (const rtv_index_row *)(void *)rows.octets : NULL;
    for (size_t k = 1; index && k < entries; k++) {
        rtv_bytes one = index[k - 1].serial, other = index[k].serial;
        must(is_within(it, one) && is_within(it, other), "index", "a window outside");
        int order = one.length != other.length ? (one.length < other.length ? -1 : 1) : memcmp(one.at, other.at, one.length);
        must(order < 0 || (order == 0 && index[k - 1].position < index[k].position), "index", "rows out of order");
    }
    for (size_t k = 0; k < entries && k < ROOM; k++) look_up(it, index, entries, ((const rtv_revoked *)(void *)it->rows[0].octets)[k].serial);
    for (size_t length = 0; length < 3; length++) look_up(it, index, entries, (rtv_bytes){ it->der + it->length - length, length });
}

/* The extensions of entries: those that the rows of the entries count, in order. */
static void look_at_entry_extensions(const call *it) {
    static call found;
    const rtv_revoked *entries = (const void *)it->rows[0].octets;
    found = (call){ .der = it->der, .length = it->length };
    must(ask_with_rooms(&some_entry_extensions, &found) == RTV_OK, "extensions of entries", "a list that is none now");
    const rtv_entry_extension *rows = (const void *)found.rows[0].octets;
    size_t next = 0;
    for (size_t entry = 0; entry < it->count[0] && entry < ROOM; entry++) {
        must(entries[entry].has_reason < 2 && (entries[entry].has_reason || !entries[entry].reason), "reason", "a reason that isn't there");
        for (size_t k = 0; k < entries[entry].extension_count; k++, next++)
            if (next < ROOM) {
                must(next < found.count[0] && rows[next].entry == entry && rows[next].critical < 2, "extensions of entries", "another entry");
                look_at_value(rows[next].value.at, rows[next].value.length);
            }
    }
    if (it->count[0] <= ROOM) must(next == found.count[0], "extensions of entries", "another count");
}

/* The path to the octet of a refusal: a text without an octet 0, of which the fronts are written where there is less room. */
static void look_at_path(const uint8_t *der, size_t length, uint32_t kind, size_t octet) {
    uint8_t text[512], less[8];
    size_t whole = 0, again = 0;
    memset(text, MARK, sizeof text);
    memset(less, MARK, sizeof less);
    must(rtv_field_path(der, length, kind, octet, text, sizeof text, &whole) == RTV_OK && whole < sizeof text, "path", "another status, or a text that long");
    must(text[whole] == 0 && !memchr(text, 0, whole) && text[whole + 1] == MARK, "path", "a text that is none");
    must(rtv_field_path(der, length, kind, octet, less, 4, &again) == RTV_OK && again == whole, "path", "another path with another room");
    must(memcmp(less, text, whole < 3 ? whole : 3) == 0 && less[whole < 3 ? whole : 3] == 0 && less[4] == MARK, "path", "another front");
    tell("path", RTV_OK, whole, octet);
}

/* The lenient rules and the refused values of an object: none of the first where a strict reader takes it, and one at least where that alone
 * refuses it; another room changes nothing but how many rows are written. */
static void look_at_findings(const uint8_t *der, size_t length, uint32_t kind, const bool taken[2]) {
    const size_t before = (size_t)MARK << 40, none = SIZE_MAX / 0xff * MARK; /* every octet a MARK */
    rtv_lenient_use uses[ALL], fewer[ALL];
    rtv_refused_value values[ALL], few[ALL];
    size_t used = before, again = before, refused = before;
    uint8_t text[32];
    memset(uses, MARK, sizeof uses), memset(fewer, MARK, sizeof fewer);
    memset(values, MARK, sizeof values), memset(few, MARK, sizeof few);
    must(rtv_leniencies(der, length, kind, uses, ROOM, &used) == RTV_OK && rtv_leniencies(der, length, kind, fewer, 1, &again) == RTV_OK, "rules",
         "another status");
    must(used == again && (!taken[0] || (used == 0) == taken[1]), "rules", "rules of what is strict, or none of what isn't");
    for (size_t k = 0; k < ALL; k++) {
        bool there = k < used && k < ROOM;
        must(there == (uses[k].at != none), "rules", "a row too many, or too few");
        if (!there) continue;
        must(uses[k].at <= length && rtv_rule_word(uses[k].rule, text, sizeof text) < sizeof text, "rules", "a rule that is none");
        must(strcmp((char *)text, "unknown") != 0, "rules", "a rule without a name");
        must((fewer[k].at == none) == (k > 0) && (k > 0 || fewer[k].at == uses[k].at), "rules", "another row with another room");
        tell("rules", RTV_OK, uses[k].rule, k);
    }
    must(rtv_refused_values(der, length, kind, values, ROOM, &refused) == RTV_OK && rtv_refused_values(der, length, kind, few, 1, &again) == RTV_OK,
         "refused values", "another status");
    must(refused == again, "refused values", "another count with another room");
    for (size_t k = 0; k < ALL; k++) {
        bool there = k < refused && k < ROOM;
        must(there == (values[k].at != none), "refused values", "a row too many, or too few");
        if (!there) continue;
        must(values[k].value_at <= values[k].at && values[k].at <= values[k].value_at + values[k].value_length, "refused values", "an octet outside");
        must(values[k].value_at + values[k].value_length <= length, "refused values", "a value outside");
        must((few[k].at == none) == (k > 0) && (k > 0 || few[k].at == values[k].at), "refused values", "another row with another room");
        look_at_status("refused values", values[k].status, values[k].at, before, length);
    }
}

/* The line of each kind: written where a reader takes the object, in its way, and else it says why none does. */
static void look_at_reports(const uint8_t *der, size_t length, bool taken[3][2]) {
    static uint8_t line[MOST], less[256];
    for (uint32_t kind = RTV_ANY; kind <= RTV_A_REQUEST; kind++)
        for (int strict = 0; strict < 2; strict++) {
            size_t whole = 0, again = 0;
            bool any = taken[0][strict] || taken[1][strict] || taken[2][strict];
            rtv_status status = rtv_json(der, length, kind, strict, line, sizeof line, &whole);
            must(status == ((kind ? taken[kind - 1][strict] : any) ? RTV_OK : RTV_NOT_FOUND), "report", "another status than the reader's");
            must(whole && line[0] == '{', "report", "no line");
            if (whole < sizeof line) must(line[whole - 1] == '}' && line[whole] == 0 && !memchr(line, '\n', whole), "report", "a line that is none");
            memset(less, MARK, sizeof less);
            must(rtv_json(der, length, kind, strict, less, 100, &again) == status && again == whole, "report", "another status with another room");
            must(less[whole < 100 ? whole : 99] == 0 && memcmp(less, line, whole < 100 ? whole : 99) == 0, "report", "another line");
            must(less[100] == MARK, "report", "an octet behind a line");
            tell("report", status, kind, (size_t)strict);
        }
}

int LLVMFuzzerTestOneInput(const uint8_t *data, size_t length) {
    static call it; /* of each object, the loose answer */
    bool taken[3][2];
    if (length > MOST / 4) return 0;
    must(rtv_version() == RTV_VERSION, "version", "another version than the header's");
    const uint8_t *der = alone(0, data, length);

    look_at_object(&a_certificate, der, length, &it, taken[0]);
    if (taken[0][0]) {
        const rtv_certificate *found = (const void *)it.head.octets;
        rtv_bytes names[] = { found->subject, found->issuer };
        for (size_t k = 0; k < 2; k++) look_at_name(alone(1, names[k].at, names[k].length), names[k].length);
        look_at_value(found->key_bits.at, found->key_bits.length);
        texts(found->serial.at, found->serial.length);
        texts(found->key_algorithm.at, found->key_algorithm.length);
        look_at_rows(&it.rows[0], it.count[0]);
    }
    look_at_object(&a_list, der, length, &it, taken[1]);
    if (taken[1][0]) {
        look_at_index(&it);
        look_at_rows(&it.rows[1], it.count[1]);
        look_at_entry_extensions(&it);
    } else {
        const size_t before = (size_t)MARK << 40;
        rtv_index_row row = RTV_INDEX_ROW_INIT;
        rtv_revoked entry = RTV_REVOKED_INIT;
        size_t count = before, at = before;
        if (it.at <= length) look_at_path(der, length, RTV_A_LIST, it.at);
        rtv_status status = rtv_index_build(der, length, &row, 1, &count, &at);
        look_at_status("index", status, at, before, length);
        must(status != RTV_OK && count == before && at == it.at, "index", "another refusal than the list's");
        at = before;
        must(rtv_find_revoked(der, length, der, 0, &entry, &count, &at) == status && at == it.at && count == before, "look-up",
             "another refusal than the list's");
    }
    look_at_object(&a_request, der, length, &it, taken[2]);
    if (taken[2][0])
        for (size_t k = 0; k < it.count[0] && k < ROOM; k++) {
            rtv_request_attribute row = ((const rtv_request_attribute *)(void *)it.rows[0].octets)[k];
            texts(row.oid.at, row.oid.length);
            look_at_value(row.value.at, row.value.length);
        }
    for (uint32_t kind = RTV_A_CERTIFICATE; kind <= RTV_A_REQUEST; kind++) look_at_findings(der, length, kind, taken[kind - 1]);
    look_at_reports(der, length, taken);
    look_at_value(der, length);
    return 0;
}
