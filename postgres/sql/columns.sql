-- What the columns are of each certificate of examples/.
set timezone = 'UTC';
set datestyle = 'ISO';
set bytea_output = 'hex';
\x off
\pset format unaligned
\pset null '(null)'
create view certificates as select name, octets from files where x509_is_certificate(octets) order by name collate "C";
create view others as select name, octets from files where not x509_is_certificate(octets) order by name collate "C";
select name, x509_subject(octets) as subject from certificates;
select name, x509_issuer(octets) as issuer from certificates;
select name, x509_serial(octets) as serial, x509_serial_number(octets) as number from certificates;
select name, x509_not_before(octets) as not_before, x509_not_after(octets) as not_after from certificates;
select name, x509_key_kind(octets) as key, x509_key_bits(octets) as bits, x509_signature_hash(octets) as hash, x509_is_ca(octets) as ca from certificates;
select name, x509_hosts_array(octets) as hosts, x509_extended_usages(octets) as usages from certificates;
select name, x509_sha256(octets) as sha256, x509_spki_sha256(octets) as spki from certificates;
select name, log_id, at from certificates, x509_scts(octets);
select name, level, message from certificates, x509_messages(octets);
select name, x509_extension(octets, '2.5.29.14') as key_identifier, x509_extension(octets, '2.5.29.19') as constraints from certificates;

-- They are what the report's line says.
select count(*),
    count(*) filter (where x509_subject(octets) = j->'subject'->>'text') as subject,
    count(*) filter (where x509_issuer(octets) = j->'issuer'->>'text') as issuer,
    count(*) filter (where encode(x509_serial(octets), 'hex') = j->'serial'->>'raw') as serial,
    count(*) filter (where extract(epoch from x509_not_before(octets)) = (j->'not_before'->>'unix')::bigint) as not_before,
    count(*) filter (where extract(epoch from x509_not_after(octets)) = (j->'not_after'->>'unix')::bigint) as not_after,
    count(*) filter (where to_jsonb(x509_hosts_array(octets)) = j->'hosts') as hosts,
    count(*) filter (where array(select * from x509_hosts(octets)) = x509_hosts_array(octets)) as as_a_set,
    count(*) filter (where x509_key_kind(octets) = j->'key'->>'kind') as kind,
    count(*) filter (where x509_key_bits(octets) is not distinct from (j->'key'->>'size')::integer) as bits,
    count(*) filter (where x509_signature_hash(octets) is not distinct from j->'signature_algorithm'->>'hash') as hash,
    count(*) filter (where to_jsonb(x509_is_ca(octets)) = j->'is_ca') as ca
from (select octets, x509_json(octets) as j from certificates) as each;
-- Extensions, all that have an identifier of their own.
select count(*), count(*) filter (where encode(x509_extension(octets, e->>'oid'), 'hex') = e->>'der') as same
from certificates, jsonb_array_elements(x509_json(octets)->'extensions') as e;
-- Serials by number: as signed numbers of their octets, by another way.
select count(*) from certificates, x509_serial(octets) as s
where x509_serial_number(octets) is distinct from (
    select sum(get_byte(s, k) * 256::numeric ^ (length(s) - 1 - k)) - case when get_byte(s, 0) >= 128 then 256::numeric ^ length(s) else 0 end
    from generate_series(0, length(s) - 1) as k);
-- The server's own hash.
select count(*) from certificates where x509_sha256(octets) <> sha256(substr(octets, 1, length(octets) - (x509_json(octets)->>'behind')::integer));

-- What isn't a certificate has no columns and no rows.
select count(*), count(x509_subject(octets)), count(x509_issuer(octets)), count(x509_serial(octets)), count(x509_serial_number(octets)),
    count(x509_not_before(octets)), count(x509_not_after(octets)), count(x509_hosts_array(octets)), count(x509_key_kind(octets)),
    count(x509_key_bits(octets)), count(x509_signature_hash(octets)), count(x509_spki_sha256(octets)), count(x509_sha256(octets)),
    count(x509_extension(octets, '2.5.29.17')), count(x509_extended_usages(octets)), count(x509_is_ca(octets))
from others;
select count(*) from others, x509_hosts(octets);
select count(*) from others, x509_scts(octets);
select count(*) from others, x509_messages(octets);

-- An extension that stands twice, and one that isn't there.
create function twice(octets bytea) returns bytea immutable language sql as $$
    -- the identifier of the key's, 2.5.29.14, becomes that of the alternative names, 2.5.29.17
    select overlay(octets placing '\x551d11' from position('\x551d0e'::bytea in octets) for 3)
$$;
select x509_is_certificate(twice(octets)) as is, x509_extension(twice(octets), '2.5.29.17') as twice, x509_extension(twice(octets), '2.5.29.14') as none,
    x509_extension(octets, '2.5.29.17') as once, x509_extension(octets, '') as no_identifier, x509_extension(octets, 'subjectAltName') as a_name
from files where name = 'www.example.com.der';

-- Addresses of sixteen octets in place of the names: as the report writes them, and as the server's type inet reads them.
create function with_addresses(octets bytea, a bytea, b bytea) returns bytea immutable language sql as $$
    select overlay(octets placing '\x8710' || a || '\x8710' || b from position('\x820f777777'::bytea in octets) for 36)
$$;
create table addresses as
select k, a, b, with_addresses(octets, a, b) as octets
from files,
    (select k,
        (select string_agg(case when k >> g & 1 = 0 then '\x0000' else substr(sha256(convert_to(k || ' ' || g, 'UTF8')), 1, 2) end, '' order by g) from generate_series(0, 7) as g) as a,
        (select string_agg(case when k >> g & 1 = 0 then '\x00' else '\xff'::bytea end, '' order by g) from generate_series(0, 15) as g) as b
     from generate_series(0, 65535, 7) as k) as each
where name = 'www.example.com.der';
create function inet_of(octets bytea) returns inet immutable language sql as $$
    select string_agg(encode(substr(octets, 1 + 2 * g, 2), 'hex'), ':' order by g)::inet from generate_series(0, 7) as g
$$;
select count(*), count(*) filter (where to_jsonb(x509_hosts_array(octets)) = x509_json(octets)->'hosts') as as_the_report,
    count(*) filter (where (x509_hosts_array(octets))[1]::inet = inet_of(a) and (x509_hosts_array(octets))[2]::inet = inet_of(b)) as as_inet
from addresses;
select x509_hosts_array(octets) from addresses where k in (0, 7, 63, 21805, 65422) order by k;
select x509_hosts_array(with_addresses(octets, '\x00000000000000000000ffffc0000201', '\x20010db8000000000001000000000001')) from files where name = 'www.example.com.der';
drop table addresses;
