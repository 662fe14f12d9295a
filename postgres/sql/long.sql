-- Values of many octets.
set client_min_messages = warning;
set timezone = 'UTC';
set datestyle = 'ISO';
create function der(tag bytea, contents bytea) returns bytea immutable language sql as $$
    select tag || case
        when length(contents) < 128 then substr(int4send(length(contents)), 4)
        when length(contents) < 256 then '\x81' || substr(int4send(length(contents)), 4)
        when length(contents) < 65536 then '\x82' || substr(int4send(length(contents)), 3)
        when length(contents) < 16777216 then '\x83' || substr(int4send(length(contents)), 2)
        else '\x84' || int4send(length(contents)) end || contents
$$;
create function long_list(entries integer) returns bytea language sql as $$
    select der('\x30', der('\x30', '\x020101'::bytea || '\x300a06082a8648ce3d040302' || '\x3000' || '\x170d3234303130313030303030305a' || der('\x30', string_agg(
            -- a serial, a time, and of each second one the reason of a key that was lost
            case when k % 2 = 0 then '\x3015'::bytea || '\x0204' || int4send(k) || '\x170d3233303130313030303030305a'
                else '\x3023'::bytea || '\x0204' || int4send(k) || '\x170d3233303130313030303030305a' || '\x300c300a0603551d1504030a0101' end, '' order by k)))
        || '\x300a06082a8648ce3d040302' || '\x030100')
    from generate_series(1, entries) as k
$$;
create table long (octets bytea);
alter table long alter octets set storage external;
insert into long select long_list(2000000);
select length(octets) >= 60000000 as is_long, pg_column_size(octets) >= 60000000 as is_stored_apart, x509_is_certificate(octets), x509_refusal(octets) from long;
select j->>'kind' as kind, j->>'entry_count' as entries from long, x509_json(octets) as j;
select count(*), count(distinct serial), min(revoked_at), max(revoked_at), count(reason), min(reason), max(reason) from long, x509_crl_entries(octets);
select revoked_at, reason, position from long, x509_crl_find(octets, '\x1e847f');
select revoked_at, reason, position from long, x509_crl_find(octets, '\x7fffffff');

-- One set is stopped within a second of its time.
set statement_timeout = '200ms';
do $$
declare
    begun timestamptz := clock_timestamp();
    entries bigint;
begin
    select count(*) into entries from long, x509_crl_entries(octets);
    raise exception 'not stopped: % entries', entries;
exception when query_canceled then
    if clock_timestamp() - begun > interval '1.2 seconds' then
        raise exception 'stopped too late: %', clock_timestamp() - begun;
    end if;
end
$$;
reset statement_timeout;

-- A serial of many octets: one that may have more digits than numeric holds is NULL, and its octets are there.
create function with_serial_octets(octets bytea, serial bytea) returns bytea immutable language sql as $$
    select der('\x30', der('\x30', substr(octets, 9, 5) || der('\x02', serial) || substr(octets, 26, 466)) || substr(octets, 492))
$$;
select length(serial) as octets, length(x509_serial(c)) as there, length(x509_serial_number(c)::text) as characters,
    left(x509_serial_number(c)::text, 12) as front, x509_serial_number(c) % 1000000007 as rest
from files, (values ('\x7f'::bytea), ('\x80'), ('\xff7f'), ('\x0080'), ('\x7fffffffffffffff'), ('\x8000000000000000'), ('\x8000000000000000000000'),
        (decode(repeat('7f', 21), 'hex')), (decode(repeat('a1', 1000), 'hex')), (decode('00' || repeat('ff', 54426), 'hex')),
        (decode('01' || repeat('00', 54426), 'hex'))) as serials (serial),
    with_serial_octets(octets, serial) as c
where name = 'www.example.com.der';
-- the same by powers of 256
select count(*) from files, generate_series(1, 40) as n, lateral (select substr(sha256(int4send(n)) || sha256(int4send(-n)), 1, n) as serial) as s,
    with_serial_octets(octets, serial) as c
where name = 'www.example.com.der' and x509_serial_number(c) is distinct from (
    select sum(get_byte(serial, k) * 256::numeric ^ (n - 1 - k)) - case when get_byte(serial, 0) >= 128 then 256::numeric ^ n else 0 end
    from generate_series(0, n - 1) as k);

-- An extension of 24 MB: its octets, the line, and a line that is longer than jsonb can be.
create function with_extension(octets bytea, value bytea) returns bytea immutable language sql as $$
    select der('\x30', der('\x30', substr(octets, 9, 338) || der('\xa3', der('\x30', der('\x30', '\x06022a03'::bytea || der('\x04', value))))) || substr(octets, 492))
$$;
create table wide as select with_extension(octets, decode(repeat('5a', 24000000), 'hex')) as octets from files where name = 'www.example.com.der';
select x509_is_certificate(octets) as is, x509_refusal(octets), length(x509_extension(octets, '1.2.3')) as extension, x509_subject(octets) as subject,
    length(x509_json(octets)->'extensions'->0->>'der') as digits from wide;
drop table wide;
create table wide as select with_extension(octets, decode(repeat('5a', 140000000), 'hex')) as octets from files where name = 'www.example.com.der';
select x509_is_certificate(octets) as is, length(x509_extension(octets, '1.2.3')) as extension, x509_json(octets)->'kind' as kind,
    x509_json(octets)->'length' as length, x509_key_kind(octets) as key from wide;
drop table wide;
drop table long;
