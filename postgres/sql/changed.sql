-- 100,000 changed certificates, the same at each run: every function over each of them, without an error.
set timezone = 'UTC';
set datestyle = 'ISO';
set client_min_messages = warning;
\x off
\pset format unaligned
create view originals as
select row_number() over (order by name collate "C") - 1 as number, count(*) over () as count, octets from files
where name <> 'behind' and (x509_is_certificate(octets) or x509_json(octets)->>'kind' <> 'refusal');
-- h are octets that say what is changed: one octet or three, in the front half of the time; a cut; an octet more; a piece twice.
create table changed as
select k, case
        when get_byte(h, 0) % 8 < 4 then set_byte(octets, p1, get_byte(h, 7))
        when get_byte(h, 0) % 8 = 4 then set_byte(set_byte(set_byte(octets, p1, get_byte(h, 7)), p2, get_byte(h, 8)), p3, get_byte(h, 9))
        when get_byte(h, 0) % 8 = 5 then substr(octets, 1, p1)
        when get_byte(h, 0) % 8 = 6 then substr(octets, 1, p1) || substr(h, 10, 1) || substr(octets, p1 + 1)
        else substr(octets, 1, p1) || substr(octets, greatest(1, p1 - get_byte(h, 11))) end as octets
from (select k, octets, h,
        (get_byte(h, 1) * 256 + get_byte(h, 2)) % case when get_byte(h, 10) % 2 = 0 then length(octets) else least(length(octets), 400) end as p1,
        (get_byte(h, 3) * 256 + get_byte(h, 4)) % length(octets) as p2,
        (get_byte(h, 5) * 256 + get_byte(h, 6)) % length(octets) as p3
    from (select k, sha256(convert_to('rushtrivet ' || k, 'UTF8')) as h from generate_series(1, 100000) as k) as seeds
    join originals on number = k % count) as places;
select count(*), sum(length(octets)) as octets from changed;

create table told as select k, octets, x509_json(octets) as j from changed;
select j->>'kind' as kind, count(*) from told group by 1 order by 1;
select count(*) filter (where x509_is_certificate(octets)) as certificates, count(x509_refusal(octets)) as refusals,
    count(*) filter (where x509_is_certificate(octets) = (x509_refusal(octets) is null)) as agree,
    count(*) filter (where x509_is_certificate(octets) = (j->>'kind' = 'certificate')) as as_the_report
from told;
select regexp_replace(x509_refusal(octets), ' at octet [0-9]+$', '') as refusal, count(*) from told group by 1 order by 1;
select count(x509_subject(octets)) as subject, count(distinct x509_subject(octets)) as subjects, count(x509_issuer(octets)) as issuer,
    count(distinct x509_issuer(octets)) as issuers, count(x509_serial(octets)) as serial, count(x509_serial_number(octets)) as number,
    count(x509_not_before(octets)) as not_before, count(x509_not_after(octets)) as not_after, count(x509_hosts_array(octets)) as hosts,
    count(x509_key_kind(octets)) as kind, count(x509_key_bits(octets)) as bits, count(x509_signature_hash(octets)) as hash,
    count(x509_spki_sha256(octets)) as spki, count(x509_sha256(octets)) as sha256, count(x509_extension(octets, '2.5.29.17')) as extension,
    count(x509_extended_usages(octets)) as usages, count(x509_is_ca(octets)) as is_ca, count(*) filter (where x509_is_ca(octets)) as cas
from told;
select count(*) as hosts, count(distinct host) from told, x509_hosts(octets) as host;
select count(*) as scts, count(distinct log_id), min(at), max(at) from told, x509_scts(octets);
select level, count(*), count(distinct message) from told, x509_messages(octets) group by level order by level;
select count(*) as entries, count(reason) as reasons, count(distinct reason) as words from told, x509_crl_entries(octets);
select count(*) as found from told, x509_crl_find(octets, '\x01') as f where f.position is not null;

-- What C says is what the line says: the numbers of rows where not.
select count(*) filter (where x509_subject(octets) is distinct from j->'subject'->>'text') as subject,
    count(*) filter (where x509_issuer(octets) is distinct from j->'issuer'->>'text') as issuer,
    count(*) filter (where encode(x509_serial(octets), 'hex') is distinct from j->'serial'->>'raw') as serial,
    count(*) filter (where extract(epoch from x509_not_before(octets)) is distinct from (j->'not_before'->>'unix')::bigint) as not_before,
    count(*) filter (where extract(epoch from x509_not_after(octets)) is distinct from (j->'not_after'->>'unix')::bigint) as not_after,
    count(*) filter (where to_jsonb(x509_hosts_array(octets)) is distinct from j->'hosts') as hosts,
    count(*) filter (where x509_key_kind(octets) is distinct from j->'key'->>'kind') as kind,
    count(*) filter (where x509_key_bits(octets) is distinct from (j->'key'->>'size')::integer) as bits,
    count(*) filter (where x509_signature_hash(octets) is distinct from j->'signature_algorithm'->>'hash') as hash,
    count(*) filter (where to_jsonb(x509_is_ca(octets)) is distinct from j->'is_ca') as ca
from told where j->>'kind' = 'certificate';
select count(*) from told where j->>'kind' = 'list' and (j->>'entry_count')::bigint <> (select count(*) from x509_crl_entries(octets));

-- Workers answer as one process does.
set parallel_setup_cost = 0;
set parallel_tuple_cost = 0;
set min_parallel_table_scan_size = 0;
explain (costs off) select count(x509_subject(octets)) from changed;
select count(x509_subject(octets)) as subject, count(x509_json(octets)) as line, sum(x509_key_bits(octets)) as bits from changed;
set max_parallel_workers_per_gather = 0;
select count(x509_subject(octets)) as subject, count(x509_json(octets)) as line, sum(x509_key_bits(octets)) as bits from changed;
drop table told, changed;
