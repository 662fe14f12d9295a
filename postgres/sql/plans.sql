-- Indexes over columns that are functions of the octets are used.
set timezone = 'UTC';
set datestyle = 'ISO';
create table stored (octets bytea not null);
create function with_serial(octets bytea, k integer) returns bytea immutable language sql as $$
    -- four of the ten octets of the serial
    select overlay(octets placing decode(lpad(to_hex(k), 8, '0'), 'hex') from 17 for 4)
$$;
create function with_host(octets bytea, k integer) returns bytea immutable language sql as $$
    -- the first name's first three octets, www, and the end of the time: 2027 becomes another year
    select overlay(overlay(octets placing convert_to(lpad(k::text, 3, '0'), 'UTF8') from position('\x820f777777'::bytea in octets) + 2 for 3)
        placing convert_to(lpad((k % 50)::text, 2, '0'), 'UTF8') from position('\x170d3237313232343134333130365a'::bytea in octets) + 2 for 2)
$$;
insert into stored select with_host(with_serial(octets, k), k % 1000) from files, generate_series(1, 20000) as k where name = 'www.example.com.der';
create index stored_hosts on stored using gin (x509_hosts_array(octets));
create index stored_end on stored (x509_not_after(octets));
create unique index stored_serial on stored (x509_issuer(octets), x509_serial(octets));
create index stored_subject on stored using hash (x509_subject(octets));
analyze stored;
select count(*), count(distinct x509_serial(octets)), count(distinct x509_not_after(octets)) from stored;
explain (costs off) select count(*) from stored where x509_hosts_array(octets) @> array['123.example.com'];
select count(*) from stored where x509_hosts_array(octets) @> array['123.example.com'];
explain (costs off) select count(*) from stored where x509_not_after(octets) < '2001-01-01 00:00:00+00';
select count(*) from stored where x509_not_after(octets) < '2001-01-01 00:00:00+00';
explain (costs off) select octets from stored where x509_issuer(octets) = 'x' and x509_serial(octets) = '\x01';
set enable_indexscan = off;
set enable_bitmapscan = off;
select count(*) from stored where x509_hosts_array(octets) @> array['123.example.com'];
select count(*) from stored where x509_not_after(octets) < '2001-01-01 00:00:00+00';
drop table stored;
