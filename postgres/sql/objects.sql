-- The files of examples/, and what x509_json and x509_refusal say of them.
create extension rushtrivet;
create table files (name text primary key, hex text, octets bytea);
\copy files (name, hex) from program 'cd "$PG_ABS_SRCDIR/../examples" && for file in *.der corpus/*.der; do echo "$file,$(od -An -v -tx1 "$file" | tr -dc 0-9a-f)"; done' (format csv)
update files set octets = decode(hex, 'hex');
alter table files drop column hex;
insert into files values ('empty', ''), ('a word', 'certificate'), ('zeros', decode(repeat('00', 1000), 'hex')),
    ('behind', (select octets || '\x0500' from files where name = 'www.example.com.der'));

\x off
\pset format unaligned
select name, length(octets), x509_json(octets)->>'kind' as kind, x509_is_certificate(octets) as is, x509_refusal(octets) as refusal
from files order by name collate "C";

-- A refusal is an object too, and says what each reader says.
select x509_json(octets) from files where name in ('empty', 'overlong.der') order by name;
-- All of a certificate.
select jsonb_pretty(x509_json(octets)) from files where name = 'www.example.com.der';
-- What stands behind it is told, and is no part of it.
select x509_json(octets)->'behind' as behind, x509_sha256(octets) = (select sha256(octets) from files where name = 'www.example.com.der') as same
from files where name = 'behind';
-- NUL, in two names.
select x509_json(octets)->'subject'->>'text' as subject from files where name = 'corpus/cert-moxie-nul.der';
select x509_json(octets) @? '$.**.value ? (@ like_regex "u\\{0\\}")' as has_nul from files where name = 'corpus/cert-moxie-nul.der';

-- NULL, in every function.
select x509_json(null) is null and x509_is_certificate(null) is null and x509_refusal(null) is null and x509_subject(null) is null
    and x509_issuer(null) is null and x509_serial(null) is null and x509_serial_number(null) is null and x509_not_before(null) is null
    and x509_not_after(null) is null and x509_hosts_array(null) is null and x509_key_kind(null) is null and x509_key_bits(null) is null
    and x509_signature_hash(null) is null and x509_spki_sha256(null) is null and x509_sha256(null) is null
    and x509_extension(null, '2.5.29.17') is null and x509_extension('', null) is null and x509_extended_usages(null) is null
    and x509_is_ca(null) is null as all_null;
select count(*) from x509_hosts(null);
select count(*) from x509_scts(null);
select count(*) from x509_messages(null);
select count(*) from x509_crl_entries(null);
select revoked_at, reason, position from x509_crl_find(null, '\x01');
select revoked_at, reason, position from x509_crl_find('\x30', null);

-- Every function is immutable, strict and parallel safe.
select count(*), bool_and(provolatile = 'i' and proisstrict and proparallel = 's') as as_told
from pg_proc join pg_depend on pg_depend.objid = pg_proc.oid and deptype = 'e' and classid = 'pg_proc'::regclass
join pg_extension on pg_extension.oid = refobjid and extname = 'rushtrivet';
