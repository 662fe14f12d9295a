/* every_field FILE..: reads each file as a certificate, a list and a request, and writes every field of every struct of
 * rushtrivet.h, a line a field. What it writes is stored: a field that was moved in the header would show another value. */
#include "rushtrivet.h"
#include <inttypes.h>
#include <stdio.h>
#include <stdlib.h>

enum { ROOM = 32 };

static const uint8_t *buffer;

static void octets(const char *name, rtv_bytes it) {
    printf("  %s %zu+%zu", name, it.length ? rtv_offset(buffer, it) : 0, it.length);
    for (size_t k = 0; k < it.length && k < 8; k++) printf(" %02x", it.at[k]);
    putchar('\n');
}

static void number(const char *name, uint64_t it) { printf("  %s %" PRIu64 "\n", name, it); }

static void time_of(const char *name, int64_t it) { printf("  %s %" PRId64 "\n", name, it); }

/* A text of at most so many octets, those that aren't printed as dots. */
static void text(const char *name, rtv_status status, const uint8_t *it, size_t length, size_t room) {
    printf("  %s %" PRIu32 " %zu ", name, status, length);
    for (size_t k = 0; status == RTV_OK && k < length && k + 1 < room; k++) putchar(it[k] < 32 || it[k] > 126 ? '.' : it[k]);
    putchar('\n');
}

/* The names of the fields that lead to where a window begins. */
static void path(const uint8_t *der, size_t length, uint32_t kind, rtv_bytes window) {
    uint8_t room[128];
    size_t written = 0, at = rtv_offset(der, window);
    rtv_status status = rtv_field_path(der, length, kind, at, room, sizeof room, &written);
    number("octet", at);
    text("path", status, room, written, sizeof room);
}

/* What is told of an object beside its fields. */
static void findings(const uint8_t *der, size_t length, uint32_t kind) {
    rtv_lenient_use uses[ROOM];
    rtv_refused_value values[ROOM];
    uint8_t room[32];
    size_t used = 0, refused = 0;
    rtv_init_lenient_uses(uses, ROOM);
    rtv_init_refused_values(values, ROOM);
    if (rtv_leniencies(der, length, kind, uses, ROOM, &used) != RTV_OK) return;
    number("leniencies", used);
    for (size_t k = 0; k < used && k < ROOM; k++) {
        number("at", uses[k].at);
        text("rule", RTV_OK, room, rtv_rule_word(uses[k].rule, room, sizeof room), sizeof room);
    }
    if (rtv_refused_values(der, length, kind, values, ROOM, &refused) != RTV_OK) return;
    number("refused_values", refused);
    for (size_t k = 0; k < refused && k < ROOM; k++) {
        number("at", values[k].at);
        number("value_at", values[k].value_at);
        number("value_length", values[k].value_length);
        number("status", values[k].status);
    }
}

static bool told(const char *what, rtv_status status, size_t at) {
    uint8_t words[64];
    if (status == RTV_OK) return printf("%s\n", what) > 0;
    rtv_word(status, words, sizeof words);
    printf("%s: %" PRIu32 " %s at %zu\n", what, status, (char *)words, at);
    return false;
}

static void name(const char *what, rtv_bytes it) {
    rtv_attribute rows[ROOM];
    uint8_t room[256];
    size_t count = 0, at = 0, length = 0;
    rtv_init_attributes(rows, ROOM);
    octets(what, it);
    rtv_status status = rtv_name_text(it.at, it.length, room, sizeof room, &length, &at);
    text("text", status, room, length, sizeof room);
    if (rtv_read_name(it.at, it.length, rows, ROOM, &count, &at) != RTV_OK) return;
    number("attributes", count);
    for (size_t k = 0; k < count && k < ROOM; k++) {
        octets("oid", rows[k].oid);
        octets("value", rows[k].value);
        number("relative", rows[k].relative);
        number("tag", rows[k].tag);
    }
}

static void oid(const char *what, rtv_bytes it) {
    uint8_t room[64], description[64];
    size_t length = 0, whole = 0;
    octets(what, it);
    rtv_status status = rtv_oid_text(it.at, it.length, room, sizeof room, &length);
    text("text", status, room, length, sizeof room);
    length = 0;
    status = rtv_oid_word(it.at, it.length, room, sizeof room, &length, description, sizeof description, &whole);
    text("word", status, room, length, sizeof room);
    text("description", status, description, whole, sizeof description);
}

static void general_name(rtv_general_name it) {
    octets("id", it.id);
    octets("value", it.value);
    number("tag", it.tag);
    number("readable", it.readable);
}

static void general_names(const char *what, const rtv_general_name *rows, size_t count) {
    number(what, count);
    for (size_t k = 0; k < count && k < ROOM; k++) general_name(rows[k]);
}

static void policies(rtv_bytes it) {
    rtv_policy rows[ROOM];
    rtv_qualifier qualifiers[ROOM];
    size_t count = 0, more = 0, at = 0;
    rtv_init_policies(rows, ROOM);
    if (rtv_read_policies(it.at, it.length, rows, ROOM, &count, &at) != RTV_OK) return;
    number("policies", count);
    for (size_t k = 0; k < count && k < ROOM; k++) {
        octets("oid", rows[k].oid);
        number("qualifier_count", rows[k].qualifier_count);
        rtv_init_qualifiers(qualifiers, ROOM);
        if (rtv_read_qualifiers(it.at, it.length, k, qualifiers, ROOM, &more, &at) != RTV_OK) continue;
        for (size_t n = 0; n < more && n < ROOM; n++) {
            octets("oid", qualifiers[n].oid);
            octets("value", qualifiers[n].value);
        }
    }
}

static void policy_qualifiers(rtv_bytes it) {
    rtv_policy_qualifier rows[ROOM];
    size_t count = 0, at = 0;
    rtv_init_policy_qualifiers(rows, ROOM);
    if (rtv_read_policy_qualifiers(it.at, it.length, rows, ROOM, &count, &at) != RTV_OK) return;
    number("qualifiers", count);
    for (size_t k = 0; k < count && k < ROOM; k++) {
        number("policy", rows[k].policy);
        octets("oid", rows[k].oid);
        octets("value", rows[k].value);
    }
}

static void policy_rules(rtv_bytes it) {
    rtv_policy_constraints constraints = { 7, 7, 7, 7 };
    rtv_policy_mapping rows[ROOM];
    uint32_t skip_certs = 0;
    size_t count = 0, at = 0;
    rtv_init_policy_mappings(rows, ROOM);
    if (rtv_read_policy_constraints(it.at, it.length, &constraints, &at) == RTV_OK) {
        number("has_require_explicit_policy", constraints.has_require_explicit_policy);
        number("require_explicit_policy", constraints.require_explicit_policy);
        number("has_inhibit_policy_mapping", constraints.has_inhibit_policy_mapping);
        number("inhibit_policy_mapping", constraints.inhibit_policy_mapping);
    }
    if (rtv_read_inhibit_any_policy(it.at, it.length, &skip_certs, &at) == RTV_OK) number("skip_certs", skip_certs);
    if (rtv_read_policy_mappings(it.at, it.length, rows, ROOM, &count, &at) != RTV_OK) return;
    number("mappings", count);
    for (size_t k = 0; k < count && k < ROOM; k++) {
        octets("issuer_domain_policy", rows[k].issuer_domain_policy);
        octets("subject_domain_policy", rows[k].subject_domain_policy);
    }
}

/* Of the extensions of lists and of their entries. */
static void list_values(rtv_bytes it) {
    rtv_issuing_distribution_point point = { 7, 7, 7, 7, 7, 7, 7, 7 };
    rtv_general_name names[ROOM];
    rtv_bytes crl_number = RTV_NO_BYTES;
    uint32_t reason = 0;
    int64_t date = 0;
    size_t at = 0;
    rtv_init_general_names(names, ROOM);
    if (rtv_read_crl_number(it.at, it.length, &crl_number, &at) == RTV_OK) octets("crl_number", crl_number);
    if (rtv_read_reason_code(it.at, it.length, &reason, &at) == RTV_OK) number("reason", reason);
    if (rtv_read_invalidity_date(it.at, it.length, &date, &at) == RTV_OK) time_of("invalidity_date", date);
    if (rtv_read_issuing_distribution_point(it.at, it.length, &point, names, ROOM, &at) != RTV_OK) return;
    number("name_kind", point.name_kind);
    general_names("name_count", names, point.name_count);
    number("only_user_certs", point.only_user_certs);
    number("only_ca_certs", point.only_ca_certs);
    number("has_reasons", point.has_reasons);
    number("reasons", point.reasons);
    number("indirect_crl", point.indirect_crl);
    number("only_attribute_certs", point.only_attribute_certs);
}

static void netscape(rtv_bytes it) {
    rtv_bytes comment = RTV_NO_BYTES;
    uint32_t bits = 0;
    size_t at = 0;
    if (rtv_read_ns_cert_type(it.at, it.length, &bits, &at) == RTV_OK) number("ns_cert_type", bits);
    if (rtv_read_ns_comment(it.at, it.length, &comment, &at) == RTV_OK) octets("ns_comment", comment);
}

static void points(rtv_bytes it) {
    rtv_general_name names[ROOM], issuer[ROOM];
    size_t at = 0;
    for (size_t k = 0;; k++) {
        rtv_distribution_point point = { 7, 7, 7, 7, 7, 7 };
        rtv_init_general_names(names, ROOM);
        rtv_init_general_names(issuer, ROOM);
        if (rtv_read_distribution_point(it.at, it.length, k, &point, names, ROOM, issuer, ROOM, &at) != RTV_OK) return;
        number("name_kind", point.name_kind);
        general_names("name_count", names, point.name_count);
        number("has_reasons", point.has_reasons);
        number("reasons", point.reasons);
        number("has_issuer", point.has_issuer);
        general_names("issuer_count", issuer, point.issuer_count);
    }
}

static void point_names(const char *what, const rtv_point_name *rows, size_t count) {
    number(what, count);
    for (size_t k = 0; k < count && k < ROOM; k++) {
        number("point", rows[k].point);
        general_name(rows[k].name);
    }
}

static void all_points(rtv_bytes it) {
    rtv_distribution_point rows[ROOM];
    rtv_point_name names[ROOM];
    size_t count = 0, at = 0;
    if (rtv_read_distribution_points(it.at, it.length, rows, ROOM, &count, &at) != RTV_OK) return;
    number("points", count);
    for (size_t k = 0; k < count && k < ROOM; k++) {
        number("name_kind", rows[k].name_kind);
        number("name_count", rows[k].name_count);
        number("has_reasons", rows[k].has_reasons);
        number("reasons", rows[k].reasons);
        number("has_issuer", rows[k].has_issuer);
        number("issuer_count", rows[k].issuer_count);
    }
    rtv_init_point_names(names, ROOM);
    if (rtv_read_point_names(it.at, it.length, names, ROOM, &count, &at) == RTV_OK) point_names("names of points", names, count);
    rtv_init_point_names(names, ROOM);
    if (rtv_read_point_issuers(it.at, it.length, names, ROOM, &count, &at) == RTV_OK) point_names("issuers of points", names, count);
}

static void timestamps(rtv_bytes it) {
    rtv_timestamp rows[ROOM];
    size_t count = 0, at = 0;
    rtv_init_timestamps(rows, ROOM);
    if (rtv_read_timestamps(it.at, it.length, rows, ROOM, &count, &at) != RTV_OK) return;
    number("timestamps", count);
    for (size_t k = 0; k < count && k < ROOM; k++) {
        octets("log_id", rows[k].log_id);
        number("timestamp", rows[k].timestamp);
        octets("extensions", rows[k].extensions);
        octets("signature", rows[k].signature);
        number("version", rows[k].version);
        number("hash_algorithm", rows[k].hash_algorithm);
        number("signature_algorithm", rows[k].signature_algorithm);
    }
}

static void keys(rtv_bytes it) {
    rtv_general_name names[ROOM];
    rtv_authority_key key = RTV_AUTHORITY_KEY_INIT;
    rtv_bytes id = RTV_NO_BYTES;
    size_t at = 0;
    rtv_init_general_names(names, ROOM);
    if (rtv_read_key_identifier(it.at, it.length, &id, &at) == RTV_OK) octets("key_identifier", id);
    if (rtv_read_authority_key(it.at, it.length, &key, names, ROOM, &at) != RTV_OK) return;
    number("has_key_identifier", key.has_key_identifier);
    octets("key_identifier", key.key_identifier);
    number("has_issuer", key.has_issuer);
    general_names("issuer_count", names, key.issuer_count);
    number("has_serial", key.has_serial);
    octets("serial", key.serial);
}

static void usages(rtv_bytes it) {
    rtv_bytes others[ROOM];
    rtv_extended_key_usage usage = { 7, 7, 7, 7, 7, 7, 7, 7 };
    size_t at = 0;
    rtv_init_bytes(others, ROOM);
    if (rtv_read_extended_key_usage(it.at, it.length, &usage, others, ROOM, &at) != RTV_OK) return;
    number("any", usage.any);
    number("server_auth", usage.server_auth);
    number("client_auth", usage.client_auth);
    number("code_signing", usage.code_signing);
    number("email_protection", usage.email_protection);
    number("time_stamping", usage.time_stamping);
    number("ocsp_signing", usage.ocsp_signing);
    number("other_count", usage.other_count);
    for (size_t k = 0; k < usage.other_count && k < ROOM; k++) octets("other", others[k]);
}

static void accesses(rtv_bytes it) {
    rtv_access rows[ROOM];
    size_t count = 0, at = 0;
    rtv_init_accesses(rows, ROOM);
    if (rtv_read_accesses(it.at, it.length, rows, ROOM, &count, &at) != RTV_OK) return;
    number("accesses", count);
    for (size_t k = 0; k < count && k < ROOM; k++) {
        octets("method", rows[k].method);
        general_name(rows[k].location);
    }
}

static void constraints_of(rtv_bytes it) {
    rtv_general_name permitted[ROOM], excluded[ROOM];
    rtv_name_constraints names = { 7, 7, 7, 7 };
    size_t at = 0;
    rtv_init_general_names(permitted, ROOM);
    rtv_init_general_names(excluded, ROOM);
    if (rtv_read_name_constraints(it.at, it.length, &names, permitted, ROOM, excluded, ROOM, &at) != RTV_OK) return;
    number("has_permitted", names.has_permitted);
    general_names("permitted_count", permitted, names.permitted_count);
    number("has_excluded", names.has_excluded);
    general_names("excluded_count", excluded, names.excluded_count);
}

/* The value of an extension, by every reader that takes it: those of other types take some too. */
static void value(rtv_bytes it) {
    rtv_general_name rows[ROOM];
    rtv_basic_constraints constraints = { 7, 7, 7 };
    size_t count = 0, at = 0;
    uint32_t usage = 0;
    rtv_init_general_names(rows, ROOM);
    if (rtv_read_general_names(it.at, it.length, rows, ROOM, &count, &at) == RTV_OK && count) general_names("names", rows, count);
    usages(it);
    keys(it);
    policies(it);
    policy_qualifiers(it);
    policy_rules(it);
    accesses(it);
    points(it);
    all_points(it);
    constraints_of(it);
    timestamps(it);
    list_values(it);
    netscape(it);
    if (rtv_read_key_usage(it.at, it.length, &usage, &at) == RTV_OK) number("usage", usage);
    if (rtv_read_basic_constraints(it.at, it.length, &constraints, &at) == RTV_OK) {
        number("ca", constraints.ca);
        number("has_path_length", constraints.has_path_length);
        number("path_length", constraints.path_length);
    }
}

static void extensions(const rtv_extension *rows, size_t count) {
    number("extension_count", count);
    for (size_t k = 0; k < count && k < ROOM; k++) {
        oid("oid", rows[k].oid);
        octets("value", rows[k].value);
        number("critical", rows[k].critical);
        value(rows[k].value);
    }
}

static void key(rtv_bytes info, rtv_bytes algorithm, rtv_bytes bits, size_t size) {
    rtv_rsa_key rsa = RTV_RSA_KEY_INIT;
    rtv_key_info read = RTV_KEY_INFO_INIT;
    size_t at = 0;
    octets("key_info", info);
    oid("key_algorithm", algorithm);
    octets("key_bits", bits);
    number("key_size", size);
    rtv_status status = rtv_read_key_info(info.at, info.length, &read, &at);
    if (told("key info", status, at)) {
        octets("algorithm", read.algorithm);
        number("has_parameters", read.has_parameters);
        octets("parameters", read.parameters);
        number("parameters_tag", read.parameters_tag);
        octets("bits", read.bits);
        number("unused_bits", read.unused_bits);
    }
    if (rtv_read_rsa_key(bits.at, bits.length, &rsa, &at) != RTV_OK) return;
    octets("modulus", rsa.modulus);
    octets("exponent", rsa.exponent);
}

/* What the validators tell, line by line. */
static void validation(const uint8_t *der, size_t length) {
    static uint8_t lines[1 << 14];
    size_t whole = 0, at = 0;
    uint32_t sound = 7;
    rtv_status status = rtv_validate(der, length, lines, sizeof lines, &whole, &sound, &at);
    if (!told("validation", status, at)) return;
    number("sound", sound);
    number("length", whole);
    fputs((const char *)lines, stdout);
}

static void certificate(const uint8_t *der, size_t length) {
    rtv_certificate it = RTV_CERTIFICATE_INIT;
    rtv_extension rows[ROOM];
    uint8_t room[128];
    size_t at = 0, written = 0;
    rtv_init_extensions(rows, ROOM);
    rtv_status status = rtv_read_certificate(der, length, true, false, &it, rows, ROOM, &at);
    if (!told("certificate", status, at)) return;
    octets("whole", it.whole);
    octets("rest", it.rest);
    octets("signed_part", it.signed_part);
    octets("serial", it.serial);
    status = rtv_hex_text(it.serial.at, it.serial.length, room, sizeof room, &written);
    text("hex", status, room, written, sizeof room);
    name("issuer", it.issuer);
    name("subject", it.subject);
    key(it.key_info, it.key_algorithm, it.key_bits, it.key_size);
    oid("signature_algorithm", it.signature_algorithm);
    number("signature_kind", rtv_signature_kind(it.signature_algorithm.at, it.signature_algorithm.length));
    octets("signature", it.signature);
    findings(der, length, RTV_A_CERTIFICATE);
    time_of("not_before", it.not_before);
    time_of("not_after", it.not_after);
    number("version", it.version);
    rtv_bytes fields[] = { it.whole, it.signed_part, it.serial, it.issuer, it.subject, it.key_info, it.key_algorithm, it.key_bits, it.signature_algorithm,
                           it.signature };
    for (size_t k = 0; k < sizeof fields / sizeof *fields; k++) path(der, length, RTV_A_CERTIFICATE, fields[k]);
    for (size_t k = 0; k < it.extension_count && k < ROOM; k++) path(der, length, RTV_A_CERTIFICATE, rows[k].value);
    extensions(rows, it.extension_count);
    status = rtv_read_certificate(der, length, true, true, &it, rows, ROOM, &at);
    told("certificate, strict", status, at);
    validation(der, length);
}

static void look_ups(const uint8_t *der, size_t length, const rtv_revoked *revoked, size_t count) {
    rtv_index_row *rows = calloc(count + 1, sizeof *rows);
    rtv_revoked found = RTV_REVOKED_INIT;
    size_t at = 0, all = 0, first = 0;
    if (!rows) return;
    rtv_init_index_rows(rows, count);
    if (rtv_index_build(der, length, rows, count, &all, &at) == RTV_OK) {
        number("indexed", all);
        for (size_t k = 0; k < all && k < ROOM; k++) {
            octets("serial", rows[k].serial);
            number("position", rows[k].position);
        }
        for (size_t k = 0; k < count && k < ROOM; k++) {
            rtv_bytes serial = revoked[k].serial;
            rtv_status status = rtv_index_find(rows, all, serial.at, serial.length, &first);
            number("found", status);
            number("at", first);
            status = rtv_find_revoked(der, length, serial.at, serial.length, &found, &first, &at);
            number("scanned", status);
            number("at", first);
            time_of("revocation_date", found.revocation_date);
            number("has_reason", found.has_reason);
            number("reason", found.reason);
        }
        number("absent", rtv_index_find(rows, all, (const uint8_t *)"\x7f\x01\x02", 3, &first));
    }
    free(rows);
}

static void entry_extensions(const uint8_t *der, size_t length) {
    rtv_entry_extension rows[ROOM];
    size_t at = 0, count = 0;
    rtv_init_entry_extensions(rows, ROOM);
    rtv_status status = rtv_read_entry_extensions(der, length, rows, ROOM, &count, &at);
    if (!told("extensions of entries", status, at)) return;
    number("count", count);
    for (size_t k = 0; k < count && k < ROOM; k++) {
        number("entry", rows[k].entry);
        oid("oid", rows[k].oid);
        number("critical", rows[k].critical);
        value(rows[k].value);
    }
}

/* The entries one by one. */
static void entries(const uint8_t *der, size_t length) {
    rtv_bytes left = RTV_NO_BYTES;
    size_t at = 0, count = 0;
    if (!told("entries", rtv_read_entries(der, length, &left, &count, &at), at)) return;
    octets("entries", left);
    number("count", count);
    for (size_t k = 0; k < ROOM && left.length > 0; k++) {
        rtv_revoked row = RTV_REVOKED_INIT;
        rtv_extension rows[ROOM];
        rtv_init_extensions(rows, ROOM);
        if (!told("entry", rtv_read_entry(left.at, left.length, &row, rows, ROOM, &left, &at), at)) return;
        octets("serial", row.serial);
        time_of("revocation_date", row.revocation_date);
        number("has_reason", row.has_reason);
        number("reason", row.reason);
        number("extension_count", row.extension_count);
        for (size_t e = 0; e < row.extension_count && e < ROOM; e++) octets("oid", rows[e].oid), octets("value", rows[e].value);
        octets("behind", left);
    }
}

static void list(const uint8_t *der, size_t length) {
    rtv_list it = RTV_LIST_INIT;
    rtv_revoked revoked[ROOM];
    rtv_extension rows[ROOM];
    size_t at = 0;
    rtv_init_revoked(revoked, ROOM);
    rtv_init_extensions(rows, ROOM);
    rtv_status status = rtv_read_list(der, length, false, &it, revoked, ROOM, rows, ROOM, &at);
    if (!told("list", status, at)) return;
    octets("whole", it.whole);
    octets("rest", it.rest);
    octets("signed_part", it.signed_part);
    name("issuer", it.issuer);
    oid("signed_algorithm", it.signed_algorithm);
    oid("signature_algorithm", it.signature_algorithm);
    number("signature_kind", rtv_signature_kind(it.signature_algorithm.at, it.signature_algorithm.length));
    octets("signature", it.signature);
    findings(der, length, RTV_A_LIST);
    time_of("this_update", it.this_update);
    number("has_next_update", it.has_next_update);
    time_of("next_update", it.next_update);
    number("has_version", it.has_version);
    number("version", it.version);
    number("revoked_count", it.revoked_count);
    for (size_t k = 0; k < it.revoked_count && k < ROOM; k++) {
        octets("serial", revoked[k].serial);
        time_of("revocation_date", revoked[k].revocation_date);
        number("extension_count", revoked[k].extension_count);
        number("has_reason", revoked[k].has_reason);
        number("reason", revoked[k].reason);
    }
    rtv_bytes fields[] = { it.signed_part, it.issuer, it.signed_algorithm, it.signature_algorithm, it.signature };
    for (size_t k = 0; k < sizeof fields / sizeof *fields; k++) path(der, length, RTV_A_LIST, fields[k]);
    for (size_t k = 0; k < it.revoked_count && k < ROOM; k++) path(der, length, RTV_A_LIST, revoked[k].serial);
    for (size_t k = 0; k < it.extension_count && k < ROOM; k++) path(der, length, RTV_A_LIST, rows[k].oid);
    entry_extensions(der, length);
    entries(der, length);
    extensions(rows, it.extension_count);
    if (it.revoked_count <= ROOM) look_ups(der, length, revoked, it.revoked_count);
    status = rtv_read_list(der, length, true, &it, revoked, ROOM, rows, ROOM, &at);
    told("list, strict", status, at);
}

static void request(const uint8_t *der, size_t length) {
    rtv_request it = RTV_REQUEST_INIT;
    rtv_request_attribute rows[ROOM];
    size_t at = 0;
    rtv_init_request_attributes(rows, ROOM);
    rtv_status status = rtv_read_request(der, length, false, &it, rows, ROOM, &at);
    if (!told("request", status, at)) return;
    octets("whole", it.whole);
    octets("rest", it.rest);
    octets("signed_part", it.signed_part);
    name("subject", it.subject);
    key(it.key_info, it.key_algorithm, it.key_bits, it.key_size);
    oid("signature_algorithm", it.signature_algorithm);
    number("signature_kind", rtv_signature_kind(it.signature_algorithm.at, it.signature_algorithm.length));
    octets("signature", it.signature);
    findings(der, length, RTV_A_REQUEST);
    number("version", it.version);
    rtv_bytes fields[] = { it.signed_part, it.subject, it.key_info, it.key_bits, it.signature_algorithm, it.signature };
    for (size_t k = 0; k < sizeof fields / sizeof *fields; k++) path(der, length, RTV_A_REQUEST, fields[k]);
    for (size_t k = 0; k < it.attribute_count && k < ROOM; k++) path(der, length, RTV_A_REQUEST, rows[k].value);
    number("attribute_count", it.attribute_count);
    for (size_t k = 0; k < it.attribute_count && k < ROOM; k++) {
        oid("oid", rows[k].oid);
        octets("value", rows[k].value);
    }
    status = rtv_read_request(der, length, true, &it, rows, ROOM, &at);
    told("request, strict", status, at);
}

static void report(const uint8_t *der, size_t length) {
    static uint8_t line[1 << 16];
    size_t written = 0;
    rtv_status status = rtv_json(der, length, RTV_ANY, false, line, sizeof line, &written);
    printf("report %" PRIu32 " %zu %.80s\n", status, written, written ? (const char *)line : "");
}

/* Values of extensions that no struct has a window of, or that the examples lack. */
static void alone(void) {
    static const struct {
        const char *name;
        size_t length;
        uint8_t octets[24];
    } samples[] = {
        { "a reason", 3, { 0x0a, 0x01, 0x06 } },
        { "a reason without a name", 3, { 0x0a, 0x01, 0x07 } },
        { "an invalidity date", 17, "\x18\x0f" "20270102030405Z" },
        { "a number with a zero in front", 5, { 0x02, 0x03, 0x00, 0x80, 0x01 } },
        { "the number 0", 3, { 0x02, 0x01, 0x00 } },
        { "a comment without a header", 5, "hello" },
        { "an IA5String and more", 8, "\x16\x04" "abcdEF" },
        { "a point relative to the issuer's", 17, { 0x30, 0x0f, 0xa0, 0x0d, 0xa1, 0x0b, 0x31, 0x09, 0x30, 0x07, 0x06, 0x03, 0x55, 0x04, 0x03, 0x0c, 0x00 } },
    };
    /* with a serial that has a zero too many, critical by the basic rules, and a key usage that is cut short */
    static const uint8_t refused[] = {
        0x30, 0x59, 0x30, 0x4f, 0xa0, 0x03, 0x02, 0x01, 0x02, 0x02, 0x02, 0x00, 0x02, 0x30, 0x03, 0x06, 0x01, 0x2a, 0x30, 0x00, 0x30, 0x1e, 0x17, 0x0d,
        0x37, 0x30, 0x30, 0x31, 0x30, 0x31, 0x30, 0x30, 0x30, 0x30, 0x30, 0x30, 0x5a, 0x17, 0x0d, 0x34, 0x39, 0x31, 0x32, 0x33, 0x31, 0x32, 0x33, 0x35,
        0x39, 0x35, 0x39, 0x5a, 0x30, 0x00, 0x30, 0x08, 0x30, 0x03, 0x06, 0x01, 0x2a, 0x03, 0x01, 0x00, 0xa3, 0x11, 0x30, 0x0f, 0x30, 0x0d, 0x06, 0x03,
        0x55, 0x1d, 0x0f, 0x01, 0x01, 0x01, 0x04, 0x03, 0x03, 0x02, 0x07, 0x30, 0x03, 0x06, 0x01, 0x2a, 0x03, 0x01, 0x00,
    };
    for (size_t k = 0; k < sizeof samples / sizeof *samples; k++) {
        buffer = samples[k].octets;
        printf("%s\n", samples[k].name);
        value((rtv_bytes){ samples[k].octets, samples[k].length });
    }
    buffer = refused;
    printf("a certificate with a value that can't be read\n");
    findings(refused, sizeof refused, RTV_A_CERTIFICATE);
}

int main(int count, char **words) {
    static uint8_t room[1 << 20];
    printf("version %s\n", rtv_version() == RTV_VERSION ? "of the header" : "another");
    alone();
    for (int k = 1; k < count; k++) {
        FILE *file = fopen(words[k], "rb");
        if (!file) return perror(words[k]), 2;
        size_t length = fread(room, 1, sizeof room, file);
        fclose(file);
        buffer = room;
        printf("%s\n", words[k]);
        certificate(room, length);
        list(room, length);
        request(room, length);
        report(room, length);
    }
    return 0;
}
