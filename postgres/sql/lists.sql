-- Entries of the lists of examples/, and look-ups on them.
set timezone = 'UTC';
set datestyle = 'ISO';
\x off
\pset format unaligned
\pset null '(null)'
select name, count(serial), count(reason), min(revoked_at), max(revoked_at)
from files left join lateral x509_crl_entries(octets) on true where x509_json(octets)->>'kind' = 'list' group by name order by name collate "C";
select serial, revoked_at, reason from files, x509_crl_entries(octets) where name in ('two-revoked.der', 'corpus/crl-pyca-all-reasons.der') order by name, serial;
-- as many as the report counts
select count(*) from files where x509_json(octets)->>'kind' = 'list'
    and (x509_json(octets)->>'entry_count')::bigint <> (select count(*) from x509_crl_entries(octets));
-- of what is no list, none
select count(*) from files, x509_crl_entries(octets) where x509_json(octets)->>'kind' <> 'list';

-- By number: octets 0 in front make no difference.
select s as looked_up, revoked_at, reason, position
from files, (values ('\x01'::bytea), ('\x0001'), ('\xa1b2c3'), ('\x00a1b2c3'), ('\x02'), ('\x'), ('\x00')) as serials (s), x509_crl_find(octets, s)
where name = 'two-revoked.der';
select x509_crl_find(octets, '\x01') is null as none from files where name = 'www.example.com.der';
-- each entry is found where it stands, or where one with its number stands before it
create view entries as
select name, octets, e.* from files, x509_crl_entries(octets) with ordinality as e (serial, revoked_at, reason, number);
select count(*), count(*) filter (where f.position = number - 1) as in_place,
    count(*) filter (where f.position > number - 1 or f.position is null) as astray,
    count(*) filter (where f.position = number - 1 and (f.revoked_at, f.reason) is distinct from (entries.revoked_at, entries.reason)) as other_rows
from entries, x509_crl_find(octets, serial) as f;

-- In the list of columns too, where a set is made for each row.
select name, (x509_crl_entries(octets)).reason from files where name = 'two-revoked.der';
select x509_hosts(octets) from files where name = 'www.example.com.der';
