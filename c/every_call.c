/* every_call SEED COUNT FILE..: calls every function of rushtrivet.h over each file as it is, over its fronts, and over COUNT changed ones,
 * with no room, room for one, and for more; four threads do the same over one buffer. It looks at what holds of every answer, and is built
 * with sanitizers: windows lie in the buffer, what was refused left its results alone, and a look-up answers as the index does. */
#include "rushtrivet.h"
#include <pthread.h>
#include <stdio.h>
#include <stdlib.h>
#include <string.h>

enum { ROOM = 16, THREADS = 4 };

static void must(bool holds, const char *what) {
    if (holds) return;
    fprintf(stderr, "every_call: %s\n", what);
    abort();
}

static void within(const uint8_t *der, size_t length, rtv_bytes it) {
    must(it.length == 0 || (it.at >= der && it.at + it.length <= der + length), "a window outside of the buffer");
}

static void told(rtv_status status, size_t at, size_t before, size_t length) {
    uint8_t words[48];
    bool refused = status != RTV_OK && status != RTV_OUT_OF_MEMORY && status != RTV_NOT_FOUND;
    must(refused ? at <= length : at == before, "an octet that is none");
    must(rtv_word(status, words, sizeof words) > 0 && strcmp((char *)words, "unknown") != 0, "a status without words");
    rtv_word(status, words, 1);
    must(words[0] == 0, "a text without its end");
    rtv_word(status, words, 0);
}

static void texts(const uint8_t *it, size_t length) {
    uint8_t text[32], more[32];
    size_t whole = 0, other = 0, at = 9;
    rtv_status status;
    for (size_t room = 0; room <= sizeof text; room += room ? sizeof text - 1 : 1) {
        status = rtv_name_text(it, length, text, room, &whole, &at);
        told(status, at, 9, length);
        rtv_hex_text(it, length, text, room, &whole);
        must(whole == (length ? 3 * length - 1 : 0), "a hex text of another length");
        rtv_oid_text(it, length, text, room, &whole);
        whole = other = 77777;
        status = rtv_oid_word(it, length, text, room, &whole, more, room, &other);
        must(status == RTV_OK || status == RTV_NOT_FOUND || status == RTV_OUT_OF_MEMORY, "a word of another status");
        must((status == RTV_OK) == (whole != 77777) && (status == RTV_OK) == (other != 77777), "a word that is none");
        if (status == RTV_OK && room > 0) must(text[whole < room ? whole : room - 1] == 0 && more[other < room ? other : room - 1] == 0, "a text without its end");
        at = 9;
    }
}

static void values(const uint8_t *it, size_t length) {
    rtv_general_name names[ROOM];
    rtv_attribute attributes[ROOM];
    rtv_basic_constraints constraints = { 7, 7, 7 };
    rtv_rsa_key key = RTV_RSA_KEY_INIT;
    uint32_t usage = 0;
    rtv_status status;
    for (size_t room = 0; room <= ROOM; room += room ? ROOM - 1 : 1) {
        size_t count = 0, at = 9;
        rtv_init_general_names(names, ROOM);
        rtv_init_attributes(attributes, ROOM);
        status = rtv_read_general_names(it, length, names, room, &count, &at);
        told(status, at, 9, length);
        for (size_t k = 0; k < count && k < room; k++) within(it, length, names[k].value), within(it, length, names[k].id);
        at = 9;
        count = 0;
        status = rtv_read_name(it, length, attributes, room, &count, &at);
        told(status, at, 9, length);
        for (size_t k = 0; k < count && k < room; k++) within(it, length, attributes[k].value), within(it, length, attributes[k].oid);
    }
    size_t at = 9;
    status = rtv_read_key_usage(it, length, &usage, &at);
    told(status, at, 9, length);
    at = 9;
    if (rtv_read_basic_constraints(it, length, &constraints, &at) != RTV_OK) must(constraints.ca == 7, "a result of a refusal");
    at = 9;
    status = rtv_read_rsa_key(it, length, &key, &at);
    told(status, at, 9, length);
    within(it, length, key.modulus);
    within(it, length, key.exponent);
    texts(it, length);
}

/* The other values: what each tells of octets of any kind, with no room, room for one, and for more. */
static void others(const uint8_t *it, size_t length) {
    rtv_general_name names[ROOM], more[ROOM];
    rtv_bytes oids[ROOM], id = RTV_NO_BYTES;
    rtv_policy policies[ROOM];
    rtv_qualifier qualifiers[ROOM];
    rtv_policy_qualifier placed[ROOM];
    rtv_distribution_point points[ROOM];
    rtv_point_name point_names[ROOM];
    rtv_access accesses[ROOM];
    rtv_timestamp timestamps[ROOM];
    for (size_t room = 0; room <= ROOM; room += room ? ROOM - 1 : 1) {
        rtv_authority_key key = RTV_AUTHORITY_KEY_INIT;
        rtv_extended_key_usage usage = { 0, 7, 0, 0, 0, 0, 0, 0 };
        rtv_name_constraints constraints = { 0, 0, 7, 0 };
        size_t count = 0, at = 9;
        rtv_init_general_names(names, ROOM);
        rtv_init_general_names(more, ROOM);
        rtv_init_bytes(oids, ROOM);
        rtv_init_policies(policies, ROOM);
        rtv_init_qualifiers(qualifiers, ROOM);
        rtv_init_policy_qualifiers(placed, ROOM);
        rtv_init_point_names(point_names, ROOM);
        rtv_init_accesses(accesses, ROOM);
        rtv_init_timestamps(timestamps, ROOM);
        rtv_status status = rtv_read_extended_key_usage(it, length, &usage, oids, room, &at);
        told(status, at, 9, length);
        must((status == RTV_OK) == (usage.any != 7), "a result of a refusal");
        for (size_t k = 0; k < usage.other_count && k < room; k++) within(it, length, oids[k]);
        at = 9;
        status = rtv_read_key_identifier(it, length, &id, &at);
        told(status, at, 9, length);
        within(it, length, id);
        at = 9;
        status = rtv_read_authority_key(it, length, &key, names, room, &at);
        told(status, at, 9, length);
        within(it, length, key.serial);
        at = 9;
        status = rtv_read_policies(it, length, policies, room, &count, &at);
        told(status, at, 9, length);
        for (size_t k = 0; k < count && k < 4; k++) {
            size_t all = 0;
            must(rtv_read_qualifiers(it, length, k, qualifiers, room, &all, &at) == RTV_OK, "a policy without qualifiers");
            for (size_t n = 0; n < all && n < room; n++) within(it, length, qualifiers[n].value);
        }
        if (status == RTV_OK) must(rtv_read_qualifiers(it, length, count, qualifiers, room, &count, &at) == RTV_NOT_FOUND, "a policy too many");
        at = 9;
        count = 0;
        rtv_status again = rtv_read_policy_qualifiers(it, length, placed, room, &count, &at);
        told(again, at, 9, length);
        must(again == status, "two readings of one value");
        for (size_t k = 0; k < count && k < room; k++) within(it, length, placed[k].value);
        at = 9;
        count = 0;
        status = rtv_read_accesses(it, length, accesses, room, &count, &at);
        told(status, at, 9, length);
        for (size_t k = 0; k < count && k < room; k++) within(it, length, accesses[k].location.value);
        for (size_t k = 0; k < 4; k++) {
            rtv_distribution_point point = { 0, 0, 7, 0, 0, 0 };
            at = 9;
            status = rtv_read_distribution_point(it, length, k, &point, names, room, more, room, &at);
            told(status, at, 9, length);
            must((status == RTV_OK) == (point.name_kind != 7), "a result of a refusal");
        }
        at = 9;
        count = 0;
        status = rtv_read_distribution_points(it, length, points, room, &count, &at);
        told(status, at, 9, length);
        at = 9;
        count = 0;
        again = rtv_read_point_names(it, length, point_names, room, &count, &at);
        told(again, at, 9, length);
        must(again == status, "two readings of one value");
        for (size_t k = 0; k < count && k < room; k++) within(it, length, point_names[k].name.value);
        at = 9;
        count = 0;
        again = rtv_read_point_issuers(it, length, point_names, room, &count, &at);
        told(again, at, 9, length);
        must(again == status, "two readings of one value");
        for (size_t k = 0; k < count && k < room; k++) within(it, length, point_names[k].name.value);
        at = 9;
        status = rtv_read_name_constraints(it, length, &constraints, names, room, more, room, &at);
        told(status, at, 9, length);
        must((status == RTV_OK) == (constraints.has_permitted != 7), "a result of a refusal");
        at = 9;
        count = 0;
        status = rtv_read_timestamps(it, length, timestamps, room, &count, &at);
        told(status, at, 9, length);
        for (size_t k = 0; k < count && k < room; k++) within(it, length, timestamps[k].log_id), within(it, length, timestamps[k].signature);
    }
}

/* The values of policies, of lists and of Netscape, likewise. */
static void rules(const uint8_t *it, size_t length) {
    rtv_policy_mapping mappings[ROOM];
    rtv_general_name names[ROOM];
    for (size_t room = 0; room <= ROOM; room += room ? ROOM - 1 : 1) {
        rtv_policy_constraints constraints = { 7, 0, 7, 0 };
        rtv_issuing_distribution_point point = { 0, 7, 0, 0, 0, 0, 0, 0 };
        size_t count = 0, at = 9;
        rtv_init_policy_mappings(mappings, ROOM);
        rtv_init_general_names(names, ROOM);
        rtv_status status = rtv_read_policy_constraints(it, length, &constraints, &at);
        told(status, at, 9, length);
        must((status == RTV_OK) == (constraints.has_require_explicit_policy != 7), "a result of a refusal");
        at = 9;
        status = rtv_read_policy_mappings(it, length, mappings, room, &count, &at);
        told(status, at, 9, length);
        for (size_t k = 0; k < count && k < room; k++) within(it, length, mappings[k].issuer_domain_policy), within(it, length, mappings[k].subject_domain_policy);
        at = 9;
        status = rtv_read_issuing_distribution_point(it, length, &point, names, room, &at);
        told(status, at, 9, length);
        must((status == RTV_OK) == (point.name_kind != 7), "a result of a refusal");
        for (size_t k = 0; k < point.name_count && k < room; k++) within(it, length, names[k].value), within(it, length, names[k].id);
    }
    rtv_bytes octets = RTV_NO_BYTES;
    uint32_t bits = 77777;
    int64_t date = 77777;
    size_t at = 9;
    rtv_status status = rtv_read_inhibit_any_policy(it, length, &bits, &at);
    told(status, at, 9, length);
    at = 9;
    bits = 77777;
    status = rtv_read_reason_code(it, length, &bits, &at);
    told(status, at, 9, length);
    must(status == RTV_OK ? bits <= 10 : bits == 77777, "a reason that is none");
    at = 9;
    bits = 77777;
    status = rtv_read_ns_cert_type(it, length, &bits, &at);
    told(status, at, 9, length);
    must(status == RTV_OK ? bits < 256 : bits == 77777, "a type that is none");
    at = 9;
    status = rtv_read_invalidity_date(it, length, &date, &at);
    told(status, at, 9, length);
    must(status == RTV_OK || date == 77777, "a result of a refusal");
    at = 9;
    status = rtv_read_crl_number(it, length, &octets, &at);
    told(status, at, 9, length);
    within(it, length, octets);
    must(octets.length == 0 || octets.at[0] != 0, "a number with a zero in front");
    at = 9;
    status = rtv_read_ns_comment(it, length, &octets, &at);
    told(status, at, 9, length);
    must(status == RTV_OK || status == RTV_OUT_OF_MEMORY || at == 0, "a comment that is refused elsewhere");
    within(it, length, octets);
}

static void key_info(const uint8_t *it, size_t length) {
    rtv_key_info read = RTV_KEY_INFO_INIT;
    size_t at = 9;
    read.unused_bits = 77;
    rtv_status status = rtv_read_key_info(it, length, &read, &at);
    told(status, at, 9, length);
    must((status == RTV_OK) == (read.unused_bits != 77), "a result of a refusal");
    within(it, length, read.algorithm);
    within(it, length, read.parameters);
    within(it, length, read.bits);
}

/* As many lines as messages, each of a level; a small room has the front of the same text. */
static void validation(const uint8_t *der, size_t length) {
    static _Thread_local uint8_t lines[1 << 16];
    uint8_t front[8];
    for (size_t room = 0; room <= sizeof front; room += room ? sizeof front - 1 : 1) {
        size_t whole = 77777, other = 77777, at = 9;
        uint32_t sound = 7;
        rtv_status status = rtv_validate(der, length, lines, sizeof lines, &whole, &sound, &at);
        told(status, at, 9, length);
        must(status == RTV_OK ? sound <= 1 : sound == 7 && whole == 77777, "a result of a refusal");
        must(rtv_validate(der, length, front, room, &other, &sound, &at) == status && other == whole, "another answer");
        if (status != RTV_OK) return;
        size_t shown = whole < room ? whole : room ? room - 1 : 0;
        must(memcmp(front, lines, shown) == 0 && (room == 0 || front[shown] == 0), "another front");
        for (size_t k = 0; k < whole && whole < sizeof lines; k++) {
            bool begins = k == 0 || lines[k - 1] == '\n';
            must(!begins || memcmp(lines + k, "warning: ", 9) == 0 || memcmp(lines + k, "error: ", 7) == 0, "a line that is no message");
            must(lines[k] >= 32 || lines[k] == '\n', "a control in a line");
        }
        must(whole == 0 || whole >= sizeof lines || lines[whole - 1] == '\n', "a line without its end");
    }
}

static void report(const uint8_t *der, size_t length) {
    static _Thread_local uint8_t line[1 << 16];
    for (uint32_t kind = RTV_ANY; kind <= RTV_A_REQUEST; kind++) {
        size_t whole = 0;
        rtv_status status = rtv_json(der, length, kind, false, line, sizeof line, &whole);
        must(status == RTV_OK || status == RTV_NOT_FOUND || status == RTV_OUT_OF_MEMORY, "a report of another status");
        if (whole && whole < sizeof line) must(line[0] == '{' && line[whole - 1] == '}' && line[whole] == 0, "a line that is none");
        rtv_json(der, length, kind, true, line, 1, &whole);
        rtv_json(der, length, kind, true, line, 0, &whole);
    }
}

static void every_value(const uint8_t *it, size_t length) {
    values(it, length);
    others(it, length);
    rules(it, length);
    key_info(it, length);
}

/* The path to octets of each kind of object, whatever stands there: the whole text's length with any room, and none of an unknown kind. */
static void paths(const uint8_t *der, size_t length) {
    for (uint32_t kind = 0; kind < 5; kind++)
        for (size_t octet = 0; octet < length + 3; octet = 2 * octet + 1) {
            uint8_t text[64] = { 0 };
            size_t whole = 77777, again = 77777;
            rtv_status status = rtv_field_path(der, length, kind, octet, text, sizeof text, &whole);
            must(status == (kind % 4 ? RTV_OK : RTV_NOT_FOUND), "a kind that is none");
            must(rtv_field_path(der, length, kind, octet, text, 0, &again) == status && again == whole, "another path with another room");
            must((status == RTV_OK) == (whole != 77777), "a result of a refusal");
            must(strlen((char *)text) == (status != RTV_OK ? 0 : whole < sizeof text ? whole : sizeof text - 1), "a path of another length");
        }
}

/* What is told of an object beside its fields, with no room, room for one, and for more. A strict reader takes what uses no rule, and no more. */
static void findings(const uint8_t *der, size_t length, uint32_t kind) {
    rtv_lenient_use uses[ROOM];
    rtv_refused_value values[ROOM];
    uint8_t text[32];
    size_t whole;
    bool taken = rtv_json(der, length, kind, false, text, sizeof text, &whole) == RTV_OK;
    bool strictly = rtv_json(der, length, kind, true, text, sizeof text, &whole) == RTV_OK;
    for (size_t room = 0; room <= ROOM; room += room ? ROOM - 1 : 1) {
        size_t used = 77777, refused = 77777;
        rtv_init_lenient_uses(uses, ROOM);
        rtv_init_refused_values(values, ROOM);
        rtv_status status = rtv_leniencies(der, length, kind, uses, room, &used);
        must(status == (kind % 4 ? RTV_OK : RTV_NOT_FOUND), "a kind that is none");
        must(rtv_refused_values(der, length, kind, values, room, &refused) == status, "another status of a kind");
        must((status == RTV_OK) == (used != 77777) && (status == RTV_OK) == (refused != 77777), "a result of a refusal");
        if (status != RTV_OK) continue;
        must(!taken || (used == 0) == strictly, "rules of what is strict, or none of what isn't");
        for (size_t k = 0; k < used && k < room; k++) {
            must(uses[k].at <= length, "a rule outside of the buffer");
            must(rtv_rule_word(uses[k].rule, text, sizeof text) < sizeof text && strcmp((char *)text, "unknown") != 0, "a rule without a name");
        }
        for (size_t k = 0; k < refused && k < room; k++) {
            must(values[k].value_at <= values[k].at && values[k].at <= values[k].value_at + values[k].value_length, "a refusal outside of its value");
            must(values[k].value_at + values[k].value_length <= length, "a value outside of the buffer");
            told(values[k].status, values[k].at, 9, length);
        }
        for (size_t k = room; k < ROOM; k++) must(uses[k].rule == 0 && values[k].status == RTV_OK, "a row behind those there is room for");
    }
}

static void certificate(const uint8_t *der, size_t length) {
    rtv_extension rows[ROOM];
    bool taken[2] = { false, false };
    for (int way = 0; way < 4; way++) {
        for (size_t room = 0; room <= ROOM; room += room ? ROOM - 1 : 1) {
            rtv_certificate it = RTV_CERTIFICATE_INIT;
            size_t at = 9;
            it.version = 77;
            rtv_init_extensions(rows, ROOM);
            rtv_status status = rtv_read_certificate(der, length, way & 1, way & 2, &it, rows, room, &at);
            told(status, at, 9, length);
            if (status != RTV_OK) {
                must(it.version == 77 && it.whole.length == 0, "a result of a refusal");
                continue;
            }
            taken[way >> 1] = true;
            must(it.whole.at == der && it.rest.at == der + it.whole.length, "a rest that is none");
            within(der, length, it.signed_part);
            for (size_t k = 0; k < it.extension_count && k < room; k++) {
                within(der, length, rows[k].oid);
                within(der, length, rows[k].value);
                if (room == ROOM && way == 0) every_value(rows[k].value.at, rows[k].value.length);
            }
            if (room == 0 && way == 0) values(it.subject.at, it.subject.length), values(it.key_bits.at, it.key_bits.length);
            if (room == 0 && way == 0) key_info(it.key_info.at, it.key_info.length), validation(der, length);
        }
    }
    must(taken[0] || !taken[1], "strict takes what loose refuses");
}

/* The extensions of the first entries that have a row: as many as their rows say, and in order. */
static void entry_extensions(const uint8_t *der, size_t length, size_t room, const rtv_revoked *revoked, size_t entries) {
    rtv_entry_extension rows[ROOM];
    size_t at = 9, count = 0, next = 0;
    rtv_init_entry_extensions(rows, ROOM);
    must(rtv_read_entry_extensions(der, length, rows, room, &count, &at) == RTV_OK && at == 9, "a list that is none now");
    for (size_t entry = 0; entry < entries && entry < room; entry++)
        for (size_t k = 0; k < revoked[entry].extension_count; k++, next++) {
            if (next >= room) return;
            must(next < count && rows[next].entry == entry && rows[next].critical < 2, "an extension of another entry");
            within(der, length, rows[next].oid);
            within(der, length, rows[next].value);
            if (room == ROOM) every_value(rows[next].value.at, rows[next].value.length);
        }
    must(entries > room || next == count, "another count of extensions");
}

/* The entries of a list one by one: as many as it counts, the first as its rows have them, and nothing behind the last. */
static void entries(const uint8_t *der, size_t length, const rtv_revoked *revoked, size_t rows, size_t all) {
    rtv_bytes left = RTV_NO_BYTES;
    size_t at = 9, count = 0;
    must(rtv_read_entries(der, length, &left, &count, &at) == RTV_OK && at == 9 && count == all, "entries of another list");
    for (size_t k = 0; k < count; k++) {
        rtv_revoked row = RTV_REVOKED_INIT;
        rtv_extension extensions[2];
        rtv_init_extensions(extensions, 2);
        within(der, length, left);
        must(rtv_read_entry(left.at, left.length, &row, extensions, 2, &left, &at) == RTV_OK && at == 9, "an entry that is none");
        if (k < rows)
            must(row.serial.at == revoked[k].serial.at && row.revocation_date == revoked[k].revocation_date && row.reason == revoked[k].reason
                     && row.extension_count == revoked[k].extension_count, "another entry");
        for (size_t e = 0; e < row.extension_count && e < 2; e++) within(der, length, extensions[e].value);
    }
    must(left.length == 0, "octets behind the last entry");
}

static void list(const uint8_t *der, size_t length) {
    rtv_revoked revoked[ROOM];
    rtv_extension rows[ROOM];
    for (size_t room = 0; room <= ROOM; room += room ? ROOM - 1 : 1) {
        rtv_list it = RTV_LIST_INIT;
        size_t at = 9;
        rtv_init_revoked(revoked, ROOM);
        rtv_init_extensions(rows, ROOM);
        rtv_status status = rtv_read_list(der, length, false, &it, revoked, room, rows, room, &at);
        told(status, at, 9, length);
        if (status != RTV_OK) return;
        rtv_index_row index[ROOM];
        size_t count = 0, first = 0, second = 0;
        rtv_init_index_rows(index, ROOM);
        status = rtv_index_build(der, length, index, room, &count, &at);
        told(status, at, 9, length);
        must(count == it.revoked_count, "an index of another count");
        for (size_t k = 0; k < count && count <= room; k++) {
            rtv_revoked found = RTV_REVOKED_INIT;
            rtv_bytes serial = revoked[k].serial;
            must(rtv_index_find(index, count, serial.at, serial.length, &first) == RTV_OK, "a serial that the index lacks");
            must(rtv_find_revoked(der, length, serial.at, serial.length, &found, &second, &at) == RTV_OK && first == second,
                 "another position");
        }
        for (size_t k = 0; k < it.revoked_count && k < room; k++) within(der, length, revoked[k].serial);
        entry_extensions(der, length, room, revoked, it.revoked_count);
        if (room == ROOM) entries(der, length, revoked, ROOM, it.revoked_count);
        for (size_t k = 0; k < it.extension_count && k < room; k++) every_value(rows[k].value.at, rows[k].value.length);
    }
}

static void request(const uint8_t *der, size_t length) {
    rtv_request_attribute rows[ROOM];
    for (size_t room = 0; room <= ROOM; room += room ? ROOM - 1 : 1) {
        rtv_request it = RTV_REQUEST_INIT;
        size_t at = 9;
        rtv_status status;
        rtv_init_request_attributes(rows, ROOM);
        status = rtv_read_request(der, length, false, &it, rows, room, &at);
        told(status, at, 9, length);
        within(der, length, it.signed_part);
        for (size_t k = 0; k < it.attribute_count && k < room; k++) within(der, length, rows[k].value);
    }
}

static void all(const uint8_t *der, size_t length) {
    certificate(der, length);
    paths(der, length);
    list(der, length);
    request(der, length);
    report(der, length);
    for (uint32_t kind = 0; kind < 5; kind++) findings(der, length, kind);
    if (length < 256) every_value(der, length), validation(der, length);
}

/* The octets in memory of their own length, so that a read beyond them is seen. */
static void alone(const uint8_t *from, size_t length) {
    uint8_t *copy = malloc(length ? length : 1);
    if (!copy) exit(3);
    memcpy(copy, from, length);
    all(copy, length);
    free(copy);
}

struct shared {
    const uint8_t *der;
    size_t length;
};

static void *reads(void *given) {
    const struct shared *it = given;
    all(it->der, it->length);
    return NULL;
}

static void together(const uint8_t *der, size_t length) {
    struct shared it = { der, length };
    pthread_t threads[THREADS];
    for (int k = 0; k < THREADS; k++) must(pthread_create(&threads[k], NULL, reads, &it) == 0, "no thread");
    for (int k = 0; k < THREADS; k++) pthread_join(threads[k], NULL);
}

static uint64_t seed;

static uint64_t next(void) {
    seed ^= seed << 13;
    seed ^= seed >> 7;
    return seed ^= seed << 17;
}

int main(int count, char **words) {
    static uint8_t room[1 << 20];
    if (count < 4) return fprintf(stderr, "usage: every_call SEED COUNT FILE..\n"), 2;
    seed = strtoull(words[1], NULL, 10) | 1;
    uint64_t changed = strtoull(words[2], NULL, 10);
    must(rtv_version() == RTV_VERSION, "another version");
    alone(room, 0);
    for (int k = 3; k < count; k++) {
        FILE *file = fopen(words[k], "rb");
        if (!file) return perror(words[k]), 2;
        size_t length = fread(room, 1, sizeof room, file);
        fclose(file);
        alone(room, length);
        together(room, length);
        for (uint64_t n = changed / (uint64_t)(count - 3); length && n > 0; n--) {
            size_t place = next() % length;
            uint8_t octet = room[place];
            room[place] = (uint8_t)(next() % 3 ? next() : octet + 1U);
            alone(room, next() % 4 ? length : next() % length);
            room[place] = octet;
        }
    }
    printf("%d files\n", count - 3);
    return 0;
}
