/* rushtrivet.h: certificates, lists of revoked certificates, requests and the values in them, read from DER.
 *
 * A call reads one buffer of the caller's and returns a status: RTV_OK, or why the octets were refused. Results go into structs and
 * arrays of the caller's. Windows (rtv_bytes) in them point into the buffer that was read, or are empty: they are good as long as that
 * buffer is, and nothing has to be freed. The library keeps nothing between two calls, so any threads may call at once, over one buffer
 * too. It takes memory by malloc while it reads, and gives it back before it returns.
 *
 * Where the octets are refused, *at is the offset of the octet at which they are; with every other status *at is as it was. Unless the
 * status is RTV_OK, all results are as they were (but the line of rtv_json()).
 *
 * What a caller owes (nothing checks it; RTV_.._INIT and the rtv_init_..() below serve for the first two):
 *  - no pointer is NULL, not even with a length or a count of 0 (write RTV_EMPTY, or any address);
 *  - a struct or a row that is handed in for a result holds some valid value: begin with RTV_CERTIFICATE_INIT, rtv_init_extensions() ..,
 *    or with what an earlier call wrote there;
 *  - results do not overlap the buffer that is read, or one another;
 *  - the octets of a buffer do not change while a call reads them;
 *  - a bool is 0 or 1;
 *  - no call from a signal handler, or in the forked child of a process with threads.
 *
 * Lengths and offsets are octets, times are seconds since 1970-01-01T00:00:00Z, rounded down.
 *
 * The window of a Name or of a SubjectPublicKeyInfo begins at its header and ends behind the last part of it that was read. Octets that
 * are no part of it may follow inside the element: a lenient rule passes over them, and a strict reading refuses them. Then the window is
 * shorter than its header says, rtv_read_name(), rtv_name_text() and rtv_read_key_info() refuse it, and two such windows may be equal
 * where the elements are not.
 *
 * Link with librushtrivet (pkg-config rushtrivet); of the archive -Wl,--gc-sections leaves out what is never called.
 */
#ifndef RUSHTRIVET_H
#define RUSHTRIVET_H

#include <stdbool.h>
#include <stddef.h>
#include <stdint.h>

#ifdef __cplusplus
extern "C" {
#endif

/* ---- version: ten thousand for the first number, a hundred for the second, one for the third */

#define RTV_VERSION 200 /* 0.2.0 */

/* The version of the library that is linked. */
uint32_t rtv_version(void);

/* ---- statuses */

typedef uint32_t rtv_status;

enum {
    RTV_OK = 0,
    RTV_INCOMPLETE = 1,         /* the octets end too early */
    RTV_OUT_OF_MEMORY = 2,      /* malloc refused: nothing is said of the octets */
    RTV_GENERIC = 3,            /* strict: a lenient rule would be needed */
    RTV_INVALID_VERSION = 4,
    RTV_INVALID_SERIAL = 5,
    RTV_INVALID_ALGORITHM = 6,
    RTV_INVALID_NAME = 7,
    RTV_INVALID_DATE = 8,
    RTV_INVALID_KEY_INFO = 9,
    RTV_INVALID_SUBJECT_UID = 10,
    RTV_INVALID_ISSUER_UID = 11,
    RTV_INVALID_EXTENSIONS = 12,
    RTV_INVALID_ATTRIBUTES = 13,
    RTV_DUPLICATE_EXTENSIONS = 14,
    RTV_DUPLICATE_ATTRIBUTES = 15,
    RTV_INVALID_SIGNATURE = 16,
    RTV_INVALID_SIGNED_PART = 17,
    RTV_INVALID_REVOKED = 18,
    RTV_INVALID_CERTIFICATE = 19,
    RTV_INVALID_NUMBER = 22,
    RTV_DER_TAG = 32,           /* an element has another tag than the one that was wanted, or a misspelled one */
    RTV_DER_LENGTH = 33,
    RTV_DER_TYPE = 34,
    RTV_DER_VALUE = 35,
    RTV_DER_CONSTRAINT = 36,    /* a value that is not spelled as DER spells it */
    RTV_LIST_CUT_SHORT = 40,
    RTV_LIST_TRAILING = 41,
    RTV_LIST_EMPTY = 42,
    RTV_LIST_MAPPING = 43,
    RTV_NOT_FOUND = 50          /* what was looked up isn't there; the buffer was read */
};

/* ---- windows */

/* Octets of the buffer that was read. */
typedef struct rtv_bytes {
    const uint8_t *at;          /* never NULL */
    size_t length;
} rtv_bytes;

#define RTV_EMPTY ((const uint8_t *)"")
#define RTV_NO_BYTES { RTV_EMPTY, 0 }

/* Where a window that is not empty begins in the buffer that was read. */
static inline size_t rtv_offset(const uint8_t *buffer, rtv_bytes window) { return (size_t)(window.at - buffer); }

/* ---- certificates */

typedef struct rtv_certificate {
    rtv_bytes whole;                /* the certificate */
    rtv_bytes rest;                 /* what stands behind it in the buffer: yours to judge */
    rtv_bytes signed_part;          /* the octets that the signature is over, with their header */
    rtv_bytes serial;               /* contents of the INTEGER, as they stand: rtv_hex_text() */
    rtv_bytes issuer;               /* a Name: rtv_name_text(), rtv_read_name() */
    rtv_bytes subject;              /* a Name */
    rtv_bytes key_info;             /* SubjectPublicKeyInfo, with its header: what key pins hash, where a strict reading takes it */
    rtv_bytes key_algorithm;        /* contents of the identifier, as 2a 86 48 ..: rtv_oid_text() */
    rtv_bytes key_bits;             /* octets of the BIT STRING, without the count of unused bits */
    rtv_bytes signature_algorithm;  /* contents of the identifier outside the signed part */
    rtv_bytes signature;            /* octets of the BIT STRING */
    int64_t not_before;
    int64_t not_after;              /* the certificate is valid at this very second */
    size_t key_size;                /* bits of an RSA modulus or of a coordinate; of a DSA key, of its octets; 0: not known */
    size_t extension_count;
    uint32_t version;               /* as it is written: 0 is the first, 2 the third */
} rtv_certificate;

#define RTV_CERTIFICATE_INIT { RTV_NO_BYTES, RTV_NO_BYTES, RTV_NO_BYTES, RTV_NO_BYTES, RTV_NO_BYTES, RTV_NO_BYTES, \
    RTV_NO_BYTES, RTV_NO_BYTES, RTV_NO_BYTES, RTV_NO_BYTES, RTV_NO_BYTES, 0, 0, 0, 0, 0 }

typedef struct rtv_extension {
    rtv_bytes oid;              /* contents of the identifier */
    rtv_bytes value;            /* contents of the OCTET STRING */
    uint32_t critical;          /* 0 or 1 */
} rtv_extension;

/* Reads the certificate at the front of the buffer. The first `room` extensions are written, in order; certificate->extension_count says
 * how many there are. deep: the values of extensions are read too, which makes a difference only to what strict takes. strict: what
 * needed one of the reader's lenient rules is RTV_GENERIC, at octet 0: rtv_leniencies() tells the rules, and where they are used. */
rtv_status rtv_read_certificate(const uint8_t *der, size_t length, bool deep, bool strict,
                                rtv_certificate *certificate, rtv_extension *extensions, size_t room, size_t *at);

/* ---- lists of revoked certificates */

typedef struct rtv_list {
    rtv_bytes whole;                /* the list */
    rtv_bytes rest;                 /* what stands behind it in the buffer */
    rtv_bytes signed_part;          /* the octets that the signature is over, with their header */
    rtv_bytes issuer;               /* a Name */
    rtv_bytes signed_algorithm;     /* contents of the identifier of the signature's algorithm inside the signed part */
    rtv_bytes signature_algorithm;  /* the same outside of it */
    rtv_bytes signature;            /* octets of the BIT STRING */
    int64_t this_update;
    int64_t next_update;            /* 0 where has_next_update is */
    size_t revoked_count;
    size_t extension_count;
    uint32_t has_next_update;       /* 0 or 1 */
    uint32_t version;               /* as it is written: 1 is the second; 0 where has_version is */
    uint32_t has_version;           /* 0 or 1 */
} rtv_list;

#define RTV_LIST_INIT { RTV_NO_BYTES, RTV_NO_BYTES, RTV_NO_BYTES, RTV_NO_BYTES, RTV_NO_BYTES, RTV_NO_BYTES, RTV_NO_BYTES, \
    0, 0, 0, 0, 0, 0, 0 }

typedef struct rtv_revoked {
    rtv_bytes serial;           /* contents of the INTEGER */
    int64_t revocation_date;
    size_t extension_count;     /* extensions of the entry that can't be read count as none */
    uint32_t reason;            /* why, as rtv_read_reason_code(); 0 where has_reason is */
    uint32_t has_reason;        /* 0 where the first extension of that type can't be read, or there is none; else 1 */
} rtv_revoked;

#define RTV_REVOKED_INIT { RTV_NO_BYTES, 0, 0, 0, 0 }

/* Reads the list at the front of the buffer. The first entries and the first extensions of the list are written, as far as there is
 * room; list->revoked_count and list->extension_count say how many there are. strict: as of a certificate. */
rtv_status rtv_read_list(const uint8_t *der, size_t length, bool strict, rtv_list *list,
                         rtv_revoked *revoked, size_t revoked_room, rtv_extension *extensions, size_t extension_room,
                         size_t *at);

typedef struct rtv_entry_extension {
    rtv_bytes oid;              /* contents of the identifier */
    rtv_bytes value;            /* contents of the OCTET STRING */
    size_t entry;               /* the position of its entry on the list, from 0 on */
    uint32_t critical;          /* 0 or 1 */
} rtv_entry_extension;

/* Reads the list at the front of the buffer. The first extensions of its entries are written, entry by entry and in order, as far as there
 * is room; *count is that of all. Extensions of an entry that can't be read are none. */
rtv_status rtv_read_entry_extensions(const uint8_t *der, size_t length, rtv_entry_extension *rows, size_t room, size_t *count,
                                     size_t *at);

/* Lists of any length. Reads the list at the front of the buffer whole and keeps none of its entries: *entries are the octets in which they
 * stand, one behind another and nothing behind the last, *count is how many there are. No memory grows with the list. */
rtv_status rtv_read_entries(const uint8_t *der, size_t length, rtv_bytes *entries, size_t *count, size_t *at);

/* Reads the entry at the front of the buffer: first of *entries, then of what stands *behind, until nothing is left. The first `room`
 * extensions of the entry are written; row->extension_count says how many there are. */
rtv_status rtv_read_entry(const uint8_t *der, size_t length, rtv_revoked *row, rtv_extension *extensions, size_t room,
                          rtv_bytes *behind, size_t *at);

/* Reads the list at the front of the buffer, and looks the serial up on it, as an unsigned number: writes the first such entry and its
 * position among all entries, from 0 on, or returns RTV_NOT_FOUND. */
rtv_status rtv_find_revoked(const uint8_t *der, size_t length, const uint8_t *serial, size_t serial_length,
                            rtv_revoked *row, size_t *position, size_t *at);

/* An index of a list, for many look-ups: a row for each entry, in order of the serials. */
typedef struct rtv_index_row {
    rtv_bytes serial;           /* contents of the INTEGER without octets 0 in front */
    size_t position;            /* of its entry on the list, from 0 on */
} rtv_index_row;

#define RTV_INDEX_ROW_INIT { RTV_NO_BYTES, 0 }

/* Reads the list at the front of the buffer and writes its index. *count is that of the entries: call with room 0 first, and again with
 * so many rows. Where there is room for fewer, no row is written. The rows need the buffer as long as they are used. */
rtv_status rtv_index_build(const uint8_t *der, size_t length, rtv_index_row *rows, size_t room, size_t *count, size_t *at);

/* Looks the serial up in the `count` rows of an index, as an unsigned number: the position of the first such entry on the list, or
 * RTV_NOT_FOUND. */
rtv_status rtv_index_find(const rtv_index_row *rows, size_t count, const uint8_t *serial, size_t serial_length, size_t *position);

/* ---- certification requests */

typedef struct rtv_request {
    rtv_bytes whole;                /* the request */
    rtv_bytes rest;                 /* what stands behind it in the buffer */
    rtv_bytes signed_part;          /* the octets that the signature is over, with their header */
    rtv_bytes subject;              /* a Name */
    rtv_bytes key_info;             /* SubjectPublicKeyInfo, with its header */
    rtv_bytes key_algorithm;        /* contents of the identifier */
    rtv_bytes key_bits;             /* octets of the BIT STRING */
    rtv_bytes signature_algorithm;  /* contents of the identifier */
    rtv_bytes signature;            /* octets of the BIT STRING */
    size_t key_size;                /* bits; 0: not known */
    size_t attribute_count;
    uint32_t version;               /* as it is written: 0 is the first */
} rtv_request;

#define RTV_REQUEST_INIT { RTV_NO_BYTES, RTV_NO_BYTES, RTV_NO_BYTES, RTV_NO_BYTES, RTV_NO_BYTES, RTV_NO_BYTES, RTV_NO_BYTES, \
    RTV_NO_BYTES, RTV_NO_BYTES, 0, 0, 0 }

typedef struct rtv_request_attribute {
    rtv_bytes oid;              /* contents of the identifier */
    rtv_bytes value;            /* its values: the whole SET, with its header */
} rtv_request_attribute;

/* Reads the request at the front of the buffer. The first `room` attributes are written, in order; request->attribute_count says how
 * many there are. strict: as of a certificate. */
rtv_status rtv_read_request(const uint8_t *der, size_t length, bool strict, rtv_request *request,
                            rtv_request_attribute *attributes, size_t room, size_t *at);

/* ---- names */

typedef struct rtv_attribute {
    rtv_bytes oid;              /* contents of the identifier of its type */
    rtv_bytes value;            /* contents of its value, as they stand */
    size_t relative;            /* the number of the relative name that it stands in, from 0 on */
    uint32_t tag;               /* the number of the tag of its value, whatever its class, as 12 UTF8String, 19 PrintableString */
} rtv_attribute;

/* Reads the Name at the front of the buffer. The first `room` attributes are written, in order; *count says how many there are. */
rtv_status rtv_read_name(const uint8_t *name, size_t length, rtv_attribute *attributes, size_t room, size_t *count, size_t *at);

/* ---- values of extensions, from their octets */

/* tag: 0 other, 1 e-mail, 2 DNS, 3 X.400, 4 directory name, 5 EDI, 6 URI, 7 IP address, 8 registered identifier
 * (RFC 5280, 4.2.1.6). */
typedef struct rtv_general_name {
    rtv_bytes id;               /* of an other name, its identifier; else empty */
    rtv_bytes value;            /* UTF-8 for 1, 2 and 6 (it may hold NUL octets); a Name for 4; for 7 4 or 16 octets, if it is an address */
    uint32_t tag;
    uint32_t readable;          /* 0: the contents are none of the tag's; value has them as they stand */
} rtv_general_name;

/* The value of a subjectAltName or an issuerAltName extension. The first `room` names are written; *count says how many there are. */
rtv_status rtv_read_general_names(const uint8_t *value, size_t length, rtv_general_name *names, size_t room, size_t *count,
                                  size_t *at);

/* keyUsage: bit k of *usage is bit k of the BIT STRING: 0 digital signature, 1 non-repudiation, 2 key encipherment, 3 data encipherment,
 * 4 key agreement, 5 certificates, 6 lists, 7 encipher only, 8 decipher only (RFC 5280, 4.2.1.3). */
rtv_status rtv_read_key_usage(const uint8_t *value, size_t length, uint32_t *usage, size_t *at);

typedef struct rtv_basic_constraints {
    uint32_t ca;                /* 0 or 1 */
    uint32_t has_path_length;   /* 0 or 1 */
    uint32_t path_length;       /* 0 where has_path_length is */
} rtv_basic_constraints;

/* basicConstraints (RFC 5280, 4.2.1.9). */
rtv_status rtv_read_basic_constraints(const uint8_t *value, size_t length, rtv_basic_constraints *constraints, size_t *at);

/* 1 where the use is named, and else 0. */
typedef struct rtv_extended_key_usage {
    size_t other_count;         /* uses that have no field here */
    uint32_t any;               /* 2.5.29.37.0 */
    uint32_t server_auth;       /* 1.3.6.1.5.5.7.3.1, and so on */
    uint32_t client_auth;
    uint32_t code_signing;
    uint32_t email_protection;
    uint32_t time_stamping;
    uint32_t ocsp_signing;
} rtv_extended_key_usage;

/* extKeyUsage (RFC 5280, 4.2.1.12). The first `room` identifiers of other uses are written, in the order in which they are first seen,
 * each once; usages->other_count says how many there are. */
rtv_status rtv_read_extended_key_usage(const uint8_t *value, size_t length, rtv_extended_key_usage *usages,
                                       rtv_bytes *others, size_t room, size_t *at);

/* subjectKeyIdentifier (RFC 5280, 4.2.1.2). */
rtv_status rtv_read_key_identifier(const uint8_t *value, size_t length, rtv_bytes *id, size_t *at);

typedef struct rtv_authority_key {
    rtv_bytes key_identifier;   /* empty where has_key_identifier is 0 */
    rtv_bytes serial;           /* contents of the INTEGER; empty where has_serial is 0 */
    size_t issuer_count;        /* names of the issuer of the key's certificate */
    uint32_t has_key_identifier;
    uint32_t has_issuer;
    uint32_t has_serial;
} rtv_authority_key;

#define RTV_AUTHORITY_KEY_INIT { RTV_NO_BYTES, RTV_NO_BYTES, 0, 0, 0, 0 }

/* authorityKeyIdentifier (RFC 5280, 4.2.1.1). The first `room` names of the issuer are written. */
rtv_status rtv_read_authority_key(const uint8_t *value, size_t length, rtv_authority_key *key,
                                  rtv_general_name *issuer, size_t room, size_t *at);

typedef struct rtv_policy {
    rtv_bytes oid;              /* contents of the identifier */
    size_t qualifier_count;
} rtv_policy;

/* certificatePolicies (RFC 5280, 4.2.1.4). The first `room` policies are written; *count says how many there are. */
rtv_status rtv_read_policies(const uint8_t *value, size_t length, rtv_policy *policies, size_t room, size_t *count, size_t *at);

typedef struct rtv_qualifier {
    rtv_bytes oid;              /* contents of the identifier of its kind */
    rtv_bytes value;            /* the octets behind the identifier */
} rtv_qualifier;

/* The qualifiers of the policy at `position`, from 0 on, in the same value; RTV_NOT_FOUND where there is no such policy. */
rtv_status rtv_read_qualifiers(const uint8_t *value, size_t length, size_t position, rtv_qualifier *qualifiers, size_t room,
                               size_t *count, size_t *at);

typedef struct rtv_policy_qualifier {
    rtv_bytes oid;              /* contents of the identifier of its kind */
    rtv_bytes value;            /* the octets behind the identifier */
    size_t policy;              /* the position of its policy, from 0 on */
} rtv_policy_qualifier;

/* The qualifiers of all policies of the same value, policy by policy and in order: the first `room` are written; *count is that of all. */
rtv_status rtv_read_policy_qualifiers(const uint8_t *value, size_t length, rtv_policy_qualifier *qualifiers, size_t room,
                                      size_t *count, size_t *at);

typedef struct rtv_policy_constraints {
    uint32_t has_require_explicit_policy;   /* 0 or 1 */
    uint32_t require_explicit_policy;       /* how many more certificates may follow in a path before each needs a policy */
    uint32_t has_inhibit_policy_mapping;    /* 0 or 1 */
    uint32_t inhibit_policy_mapping;        /* how many more certificates may follow in a path before policies may not be mapped */
} rtv_policy_constraints;

/* policyConstraints (RFC 5280, 4.2.1.11). A number is 0 where it isn't said. */
rtv_status rtv_read_policy_constraints(const uint8_t *value, size_t length, rtv_policy_constraints *constraints, size_t *at);

/* inhibitAnyPolicy (RFC 5280, 4.2.1.14): how many more certificates may follow in a path before anyPolicy is ignored. */
rtv_status rtv_read_inhibit_any_policy(const uint8_t *value, size_t length, uint32_t *skip_certs, size_t *at);

typedef struct rtv_policy_mapping {
    rtv_bytes issuer_domain_policy;     /* contents of the identifier */
    rtv_bytes subject_domain_policy;    /* contents of the identifier */
} rtv_policy_mapping;

/* policyMappings (RFC 5280, 4.2.1.5). The first `room` mappings are written; *count says how many there are. */
rtv_status rtv_read_policy_mappings(const uint8_t *value, size_t length, rtv_policy_mapping *mappings, size_t room, size_t *count,
                                    size_t *at);

typedef struct rtv_access {
    rtv_bytes method;           /* contents of the identifier, as of OCSP or of the issuer's certificates */
    rtv_general_name location;
} rtv_access;

/* authorityInfoAccess and subjectInfoAccess (RFC 5280, 4.2.2). The first `room` accesses are written; *count says how many there are. */
rtv_status rtv_read_accesses(const uint8_t *value, size_t length, rtv_access *accesses, size_t room, size_t *count, size_t *at);

typedef struct rtv_distribution_point {
    size_t name_count;          /* its full names */
    size_t issuer_count;        /* names of the issuer of the list */
    uint32_t name_kind;         /* 0 no name, 1 full names, 2 a name that stands relative to the issuer's */
    uint32_t has_reasons;
    uint32_t reasons;           /* bit k is bit k of the BIT STRING; 0 where has_reasons is */
    uint32_t has_issuer;
} rtv_distribution_point;

/* The point at `position`, from 0 on, of cRLDistributionPoints or freshestCRL (RFC 5280, 4.2.1.13): the first of its full names, and the
 * first of the issuer's. RTV_NOT_FOUND where there is no such point. */
rtv_status rtv_read_distribution_point(const uint8_t *value, size_t length, size_t position, rtv_distribution_point *point,
                                       rtv_general_name *names, size_t name_room,
                                       rtv_general_name *issuer, size_t issuer_room, size_t *at);

/* All points of the same value, in order: the first `room` are written; *count is that of all. */
rtv_status rtv_read_distribution_points(const uint8_t *value, size_t length, rtv_distribution_point *points, size_t room,
                                        size_t *count, size_t *at);

typedef struct rtv_point_name {
    rtv_general_name name;
    size_t point;               /* the position of its point, from 0 on */
} rtv_point_name;

/* The full names of all points of the same value, point by point and in order, and those of the issuers of their lists: the first `room`
 * are written; *count is that of all. */
rtv_status rtv_read_point_names(const uint8_t *value, size_t length, rtv_point_name *names, size_t room, size_t *count, size_t *at);
rtv_status rtv_read_point_issuers(const uint8_t *value, size_t length, rtv_point_name *names, size_t room, size_t *count, size_t *at);

typedef struct rtv_issuing_distribution_point {
    size_t name_count;          /* its full names */
    uint32_t name_kind;         /* 0 no name, 1 full names, 2 a name that stands relative to the issuer's */
    uint32_t only_user_certs;   /* 0 or 1, as the flags below */
    uint32_t only_ca_certs;
    uint32_t has_reasons;
    uint32_t reasons;           /* bit k is bit k of the BIT STRING; 0 where has_reasons is */
    uint32_t indirect_crl;      /* the list holds certificates of other issuers too */
    uint32_t only_attribute_certs;
} rtv_issuing_distribution_point;

/* issuingDistributionPoint of a list (RFC 5280, 5.2.5): the first `room` of its full names. A field that can't be read is as one that is
 * absent, and what can't be read hides the fields behind it: where a list's scope matters, read the list strictly first. */
rtv_status rtv_read_issuing_distribution_point(const uint8_t *value, size_t length, rtv_issuing_distribution_point *point,
                                               rtv_general_name *names, size_t room, size_t *at);

typedef struct rtv_name_constraints {
    size_t permitted_count;
    size_t excluded_count;
    uint32_t has_permitted;
    uint32_t has_excluded;
} rtv_name_constraints;

/* nameConstraints (RFC 5280, 4.2.1.10): the first of the names at the roots of the permitted subtrees and of the excluded ones. */
rtv_status rtv_read_name_constraints(const uint8_t *value, size_t length, rtv_name_constraints *constraints,
                                     rtv_general_name *permitted, size_t permitted_room,
                                     rtv_general_name *excluded, size_t excluded_room, size_t *at);

typedef struct rtv_timestamp {
    rtv_bytes log_id;           /* 32 octets: the SHA-256 hash of the log's key */
    rtv_bytes extensions;
    rtv_bytes signature;
    uint64_t timestamp;         /* milliseconds since 1970, in UTC without leap seconds */
    uint32_t version;           /* 0 is the first */
    uint32_t hash_algorithm;    /* 4: SHA-256 */
    uint32_t signature_algorithm; /* 1: RSA, 3: ECDSA */
} rtv_timestamp;

/* Signed certificate timestamps (RFC 6962, 3.3). The first `room` are written; *count says how many there are. */
rtv_status rtv_read_timestamps(const uint8_t *value, size_t length, rtv_timestamp *timestamps, size_t room, size_t *count, size_t *at);

/* cRLNumber and deltaCRLIndicator (RFC 5280, 5.2.3 and 5.2.4): the octets of the number without octets 0 in front; of 0 there is none. */
rtv_status rtv_read_crl_number(const uint8_t *value, size_t length, rtv_bytes *number, size_t *at);

/* cRLReason of an entry: 0 unspecified, 1 key compromise, 2 CA compromise, 3 affiliation changed, 4 superseded, 5 cessation of operation,
 * 6 on hold, 8 removed from the list, 9 privilege withdrawn, 10 AA compromise (RFC 5280, 5.3.1). 7, which has no name, is read too. */
rtv_status rtv_read_reason_code(const uint8_t *value, size_t length, uint32_t *reason, size_t *at);

/* invalidityDate of an entry (RFC 5280, 5.3.2). */
rtv_status rtv_read_invalidity_date(const uint8_t *value, size_t length, int64_t *date, size_t *at);

/* netscape-cert-type: bit k of *bits is bit k of the BIT STRING: 0 TLS client, 1 TLS server, 2 mail, 3 objects, 5 CA for TLS, 6 CA for
 * mail, 7 CA for objects. */
rtv_status rtv_read_ns_cert_type(const uint8_t *value, size_t length, uint32_t *bits, size_t *at);

/* netscape-comment: the text of an IA5String, in UTF-8; or the whole value, where none stands there and the value is UTF-8. It may hold
 * any octet of such a text's, NUL too. */
rtv_status rtv_read_ns_comment(const uint8_t *value, size_t length, rtv_bytes *comment, size_t *at);

/* ---- keys and their algorithms */

typedef struct rtv_key_info {
    rtv_bytes algorithm;        /* contents of the identifier */
    rtv_bytes parameters;       /* contents of the algorithm's parameters; empty where has_parameters is 0 */
    rtv_bytes bits;             /* octets of the BIT STRING, without the count of unused bits */
    uint32_t has_parameters;    /* 0 where there are none, or none that can be read */
    uint32_t parameters_tag;    /* the number of their tag, whatever its class, as 5 NULL, 6 OBJECT IDENTIFIER; 0 where has_parameters is */
    uint32_t unused_bits;       /* 0 to 7: how many low bits of the last octet are no part of the key */
} rtv_key_info;

#define RTV_KEY_INFO_INIT { RTV_NO_BYTES, RTV_NO_BYTES, RTV_NO_BYTES, 0, 0, 0 }

/* The SubjectPublicKeyInfo at the front of the buffer (RFC 5280, 4.1.2.7), as key_info of a certificate or of a request. That window may
 * end before the element does (above): then it is refused here. */
rtv_status rtv_read_key_info(const uint8_t *key_info, size_t length, rtv_key_info *info, size_t *at);

/* The kind of signature that an algorithm makes, by the contents of its identifier, as signature_algorithm of a certificate, a list or a
 * request: 1 RSA, 2 RSASSA-PSS, 3 RSAES-OAEP, 4 DSA, 5 ECDSA, 6 Ed25519 (RFC 4055, RFC 3279, RFC 8410); 0 where it is none of these. */
uint32_t rtv_signature_kind(const uint8_t *oid, size_t length);

/* ---- keys, from the octets of their bits */

typedef struct rtv_rsa_key {
    rtv_bytes modulus;          /* contents of the INTEGER: an octet 0 stands first where the top bit of the next is set */
    rtv_bytes exponent;         /* contents of the INTEGER */
} rtv_rsa_key;

#define RTV_RSA_KEY_INIT { RTV_NO_BYTES, RTV_NO_BYTES }

/* The key in the bits of a key whose algorithm is RSA's (RFC 8017, A.1.1). */
rtv_status rtv_read_rsa_key(const uint8_t *bits, size_t length, rtv_rsa_key *key, size_t *at);

/* ---- texts: as much as has room, with a NUL behind it; the length that is told is that of the whole, without NUL */

/* The words of a status, as "invalid length". Returns their length. */
size_t rtv_word(rtv_status status, uint8_t *text, size_t room);

/* A Name, as "C=FR, CN=www.example.com". Nothing is escaped: it may hold any octet of the name's, NUL too, so print it by its length.
 * Where the text of a value can't be read it is "<X509Error: Invalid X.509 name>", and rtv_read_name() still gives the octets. */
rtv_status rtv_name_text(const uint8_t *name, size_t length, uint8_t *text, size_t room, size_t *text_length, size_t *at);

/* Octets as "01:02:ff". The status is RTV_OK or RTV_OUT_OF_MEMORY. */
rtv_status rtv_hex_text(const uint8_t *octets, size_t length, uint8_t *text, size_t room, size_t *text_length);

/* The identifier with these contents, as "1.2.840.113549"; octets that are none in hex. RTV_OK or RTV_OUT_OF_MEMORY. */
rtv_status rtv_oid_text(const uint8_t *oid, size_t length, uint8_t *text, size_t room, size_t *text_length);

/* What the registry of identifiers calls the one with these contents: its short name, as "commonName", and its description. RTV_NOT_FOUND
 * where it has no entry. The registry is made anew at each call: keep what it answers. */
rtv_status rtv_oid_word(const uint8_t *oid, size_t length, uint8_t *name, size_t name_room, size_t *name_length,
                        uint8_t *description, size_t description_room, size_t *description_length);

/* ---- reports */

/* Reads the certificate at the front of the buffer, deep and not strict, and writes what is wrong with it beyond its grammar: a line a
 * message, "warning: .." or "error: ..", first of its structure and then of its extensions, each in the order in which the validator
 * tells it. A character of a message that could forge a line is written by its number, as "\u{a}". *sound is 1 where both
 * validators find it sound, with warnings or not, and else 0; no signature is checked. */
rtv_status rtv_validate(const uint8_t *der, size_t length, uint8_t *text, size_t room, size_t *text_length, uint32_t *sound, size_t *at);

enum { RTV_ANY = 0, RTV_A_CERTIFICATE = 1, RTV_A_LIST = 2, RTV_A_REQUEST = 3 };

/* All that is said of the object at the front of the buffer, as one line of JSON without a newline: of a certificate, a list or a request
 * by its kind, or of the first of these that it is (RTV_ANY). strict: an object that needs a lenient rule is refused. RTV_NOT_FOUND where
 * no reader of the kind takes it: here the line is written all the same, and says why each refuses it. The text is UTF-8; where room is
 * too small for the whole line, its front is written, which is no JSON. */
rtv_status rtv_json(const uint8_t *der, size_t length, uint32_t kind, bool strict, uint8_t *text, size_t room, size_t *text_length);

/* The names of the fields that lead to an octet of the object at the front of the buffer, as "tbsCertificate.validity.notAfter" or
 * "tbsCertificate.extensions[3].extnValue.basicConstraints.cA": what stands at *at of a refusal, as far as headers can be read up to there.
 * kind: RTV_A_CERTIFICATE, RTV_A_LIST or RTV_A_REQUEST; RTV_NOT_FOUND for another. Members of a list are numbered from 0, and of a general
 * name the alternative stands behind: "subjectAltName[0].dNSName". The text is empty where the octet lies in no member of the object. */
rtv_status rtv_field_path(const uint8_t *der, size_t length, uint32_t kind, size_t octet, uint8_t *text, size_t room, size_t *text_length);

/* ---- what a strict reading would refuse, and values that can't be read */

/* A lenient rule by which an object is taken, as docs/GRAMMAR.md names them. */
typedef struct rtv_lenient_use {
    size_t at;     /* the octet of the object at which it is used */
    uint32_t rule; /* RTV_RULE_..: rtv_rule_word() */
} rtv_lenient_use;

enum {
    RTV_RULE_BYTES_BEHIND = 1,         /* octets behind the fields of a structure, or behind the value in an extension */
    RTV_RULE_WRAPPER_BY_NUMBER = 2,    /* extensions or attributes in a wrapper that has only the number of one */
    RTV_RULE_ANY_SERIAL = 3,           /* a serial that is no INTEGER of DER */
    RTV_RULE_BASIC_TRUTH = 4,          /* critical by the basic rules */
    RTV_RULE_UNREADABLE_FIELD = 5,     /* a field that may be absent and can't be read */
    RTV_RULE_ATTRIBUTE_BY_NUMBERS = 6, /* a request's attribute, or its values, by their numbers alone */
    RTV_RULE_CHOICE_BY_NUMBER = 7,     /* the name of a distribution point by its number alone */
    RTV_RULE_UNREADABLE_NAME = 8,      /* a general name that can't be read */
    RTV_RULE_TIMESTAMPS_BEHIND = 9,    /* octets behind the timestamps that can be read */
    RTV_RULE_INSIDE = 10               /* one of these in the element, at an octet that isn't told */
};

/* The lenient rules that the object at the front of the buffer uses, in order, in the values of extensions too: none where a strict and deep
 * reading takes it, and one at least where that alone refuses it. kind: RTV_A_CERTIFICATE, RTV_A_LIST or RTV_A_REQUEST; RTV_NOT_FOUND for another. */
rtv_status rtv_leniencies(const uint8_t *der, size_t length, uint32_t kind, rtv_lenient_use *uses, size_t room, size_t *count);

/* The name of a rule, as "any_serial"; "unknown" where none has the number. Returns its length. */
size_t rtv_rule_word(uint32_t rule, uint8_t *text, size_t room);

/* A value of an extension that can't be read. */
typedef struct rtv_refused_value {
    size_t at;           /* the octet of the object at which it is refused */
    size_t value_at;     /* the first octet of the value in the object, and how many it has: what an extension's window shows */
    size_t value_length;
    rtv_status status;   /* why: RTV_DER_TAG ..; rtv_word() */
} rtv_refused_value;

/* The values of extensions that can't be read, of the object at the front of the buffer, in order: of a list those of its entries too, of a
 * request those of the extensions that it asks for. An object is read in spite of them. kind: as in rtv_leniencies(). */
rtv_status rtv_refused_values(const uint8_t *der, size_t length, uint32_t kind, rtv_refused_value *values, size_t room, size_t *count);

/* ---- rows that hold some valid value */

static inline void rtv_init_bytes(rtv_bytes *rows, size_t count) {
    static const rtv_bytes none = RTV_NO_BYTES;
    for (size_t k = 0; k < count; k++) rows[k] = none;
}

static inline void rtv_init_extensions(rtv_extension *rows, size_t count) {
    static const rtv_extension none = { RTV_NO_BYTES, RTV_NO_BYTES, 0 };
    for (size_t k = 0; k < count; k++) rows[k] = none;
}

static inline void rtv_init_revoked(rtv_revoked *rows, size_t count) {
    static const rtv_revoked none = RTV_REVOKED_INIT;
    for (size_t k = 0; k < count; k++) rows[k] = none;
}

static inline void rtv_init_entry_extensions(rtv_entry_extension *rows, size_t count) {
    static const rtv_entry_extension none = { RTV_NO_BYTES, RTV_NO_BYTES, 0, 0 };
    for (size_t k = 0; k < count; k++) rows[k] = none;
}

static inline void rtv_init_index_rows(rtv_index_row *rows, size_t count) {
    static const rtv_index_row none = RTV_INDEX_ROW_INIT;
    for (size_t k = 0; k < count; k++) rows[k] = none;
}

static inline void rtv_init_request_attributes(rtv_request_attribute *rows, size_t count) {
    static const rtv_request_attribute none = { RTV_NO_BYTES, RTV_NO_BYTES };
    for (size_t k = 0; k < count; k++) rows[k] = none;
}

static inline void rtv_init_attributes(rtv_attribute *rows, size_t count) {
    static const rtv_attribute none = { RTV_NO_BYTES, RTV_NO_BYTES, 0, 0 };
    for (size_t k = 0; k < count; k++) rows[k] = none;
}

static inline void rtv_init_general_names(rtv_general_name *rows, size_t count) {
    static const rtv_general_name none = { RTV_NO_BYTES, RTV_NO_BYTES, 0, 0 };
    for (size_t k = 0; k < count; k++) rows[k] = none;
}

static inline void rtv_init_policies(rtv_policy *rows, size_t count) {
    static const rtv_policy none = { RTV_NO_BYTES, 0 };
    for (size_t k = 0; k < count; k++) rows[k] = none;
}

static inline void rtv_init_qualifiers(rtv_qualifier *rows, size_t count) {
    static const rtv_qualifier none = { RTV_NO_BYTES, RTV_NO_BYTES };
    for (size_t k = 0; k < count; k++) rows[k] = none;
}

static inline void rtv_init_policy_qualifiers(rtv_policy_qualifier *rows, size_t count) {
    static const rtv_policy_qualifier none = { RTV_NO_BYTES, RTV_NO_BYTES, 0 };
    for (size_t k = 0; k < count; k++) rows[k] = none;
}

static inline void rtv_init_policy_mappings(rtv_policy_mapping *rows, size_t count) {
    static const rtv_policy_mapping none = { RTV_NO_BYTES, RTV_NO_BYTES };
    for (size_t k = 0; k < count; k++) rows[k] = none;
}

static inline void rtv_init_accesses(rtv_access *rows, size_t count) {
    static const rtv_access none = { RTV_NO_BYTES, { RTV_NO_BYTES, RTV_NO_BYTES, 0, 0 } };
    for (size_t k = 0; k < count; k++) rows[k] = none;
}

static inline void rtv_init_point_names(rtv_point_name *rows, size_t count) {
    static const rtv_point_name none = { { RTV_NO_BYTES, RTV_NO_BYTES, 0, 0 }, 0 };
    for (size_t k = 0; k < count; k++) rows[k] = none;
}

static inline void rtv_init_timestamps(rtv_timestamp *rows, size_t count) {
    static const rtv_timestamp none = { RTV_NO_BYTES, RTV_NO_BYTES, RTV_NO_BYTES, 0, 0, 0, 0 };
    for (size_t k = 0; k < count; k++) rows[k] = none;
}

static inline void rtv_init_lenient_uses(rtv_lenient_use *rows, size_t count) {
    static const rtv_lenient_use none = { 0, 0 };
    for (size_t k = 0; k < count; k++) rows[k] = none;
}

static inline void rtv_init_refused_values(rtv_refused_value *rows, size_t count) {
    static const rtv_refused_value none = { 0, 0, 0, 0 };
    for (size_t k = 0; k < count; k++) rows[k] = none;
}

#ifdef __cplusplus
}
#endif

#endif
