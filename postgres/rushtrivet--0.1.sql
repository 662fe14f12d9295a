\echo Use "create extension rushtrivet" to load this file. \quit

-- Octets that are refused give NULL, or no rows: only x509_json and x509_refusal say why.

create function x509_json(octets bytea) returns jsonb
    language c immutable strict parallel safe cost 2000 as 'MODULE_PATHNAME';
comment on function x509_json(bytea) is 'all that the report says of a certificate, a list or a request, or why it is refused';

create function x509_is_certificate(octets bytea) returns boolean
    language c immutable strict parallel safe cost 50 as 'MODULE_PATHNAME';
create function x509_refusal(octets bytea) returns text
    language c immutable strict parallel safe cost 50 as 'MODULE_PATHNAME';
comment on function x509_refusal(bytea) is 'why the octets are no certificate, and at which octet; NULL where they are one';

create function x509_subject(octets bytea) returns text
    language c immutable strict parallel safe cost 80 as 'MODULE_PATHNAME';
create function x509_issuer(octets bytea) returns text
    language c immutable strict parallel safe cost 80 as 'MODULE_PATHNAME';
create function x509_serial(octets bytea) returns bytea
    language c immutable strict parallel safe cost 50 as 'MODULE_PATHNAME';
comment on function x509_serial(bytea) is 'the contents of the INTEGER, as they stand';
create function x509_serial_number(octets bytea) returns numeric
    language c immutable strict parallel safe cost 60 as 'MODULE_PATHNAME';
create function x509_not_before(octets bytea) returns timestamptz
    language c immutable strict parallel safe cost 50 as 'MODULE_PATHNAME';
create function x509_not_after(octets bytea) returns timestamptz
    language c immutable strict parallel safe cost 50 as 'MODULE_PATHNAME';
create function x509_hosts(octets bytea) returns setof text
    language c immutable strict parallel safe cost 80 rows 3 as 'MODULE_PATHNAME';
create function x509_hosts_array(octets bytea) returns text[]
    language c immutable strict parallel safe cost 80 as 'MODULE_PATHNAME';
create function x509_key_kind(octets bytea) returns text
    language c immutable strict parallel safe cost 60 as 'MODULE_PATHNAME';
create function x509_key_bits(octets bytea) returns integer
    language c immutable strict parallel safe cost 50 as 'MODULE_PATHNAME';
create function x509_signature_hash(octets bytea) returns text
    language c immutable strict parallel safe cost 60 as 'MODULE_PATHNAME';
create function x509_sha256(octets bytea) returns bytea
    language c immutable strict parallel safe cost 100 as 'MODULE_PATHNAME';
comment on function x509_sha256(bytea) is 'of the certificate, without what stands behind it';
create function x509_spki_sha256(octets bytea) returns bytea
    language c immutable strict parallel safe cost 80 as 'MODULE_PATHNAME';
comment on function x509_spki_sha256(bytea) is 'of the SubjectPublicKeyInfo, as key pins have it';
create function x509_extension(octets bytea, oid text) returns bytea
    language c immutable strict parallel safe cost 100 as 'MODULE_PATHNAME';
comment on function x509_extension(bytea, text) is 'the value of the only extension with this identifier in dots; NULL where there is none, or more than one';
create function x509_extended_usages(octets bytea) returns text[]
    language c immutable strict parallel safe cost 80 as 'MODULE_PATHNAME';
create function x509_is_ca(octets bytea) returns boolean
    language c immutable strict parallel safe cost 60 as 'MODULE_PATHNAME';
create function x509_scts(octets bytea, out log_id bytea, out at timestamptz) returns setof record
    language c immutable strict parallel safe cost 80 rows 3 as 'MODULE_PATHNAME';
create function x509_messages(octets bytea, out level text, out message text) returns setof record
    language c immutable strict parallel safe cost 100 rows 2 as 'MODULE_PATHNAME';
comment on function x509_messages(bytea) is 'what the validators tell of the structure and of the extensions, in their order';

create function x509_crl_entries(octets bytea, out serial bytea, out revoked_at timestamptz, out reason text) returns setof record
    language c immutable strict parallel safe cost 1000 rows 1000 as 'MODULE_PATHNAME';
create function x509_crl_find(list bytea, serial bytea, out revoked_at timestamptz, out reason text, out "position" bigint) returns record
    language c immutable strict parallel safe cost 1000 as 'MODULE_PATHNAME';
comment on function x509_crl_find(bytea, bytea) is 'the first entry with this serial, as an unsigned number, and its position from 0 on';
