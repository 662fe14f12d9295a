-- Databases whose encoding isn't UTF-8: a character that they haven't is shown by its number.
set client_min_messages = warning;
create database rushtrivet_latin1 encoding 'LATIN1' locale 'C' template template0;
create database rushtrivet_ascii encoding 'SQL_ASCII' locale 'C' template template0;
\set before :DBNAME
\c rushtrivet_latin1
set client_encoding = 'UTF8';
create extension rushtrivet;
create table files (name text primary key, hex text);
\copy files (name, hex) from program 'cd "$PG_ABS_SRCDIR/../examples" && for file in *.der corpus/*.der; do echo "$file,$(od -An -v -tx1 "$file" | tr -dc 0-9a-f)"; done' (format csv)
create view objects as select name, decode(hex, 'hex') as octets from files order by name collate "C";
\pset format unaligned
select name, x509_subject(octets) as subject from objects where x509_subject(octets) like '%\\u{%';
select count(x509_json(octets)) as lines, count(*) filter (where x509_subject(octets) is distinct from x509_json(octets)->'subject'->>'text') as different,
    count(x509_subject(octets)) as subjects, count(x509_hosts_array(octets)) as hosts
from objects where x509_is_certificate(octets);
select sum((select count(*) from x509_messages(octets)))::integer as messages, sum((select count(*) from x509_crl_entries(octets)))::integer as entries from objects;
\c rushtrivet_ascii
create extension rushtrivet;
create table files (name text primary key, hex text);
\copy files (name, hex) from program 'cd "$PG_ABS_SRCDIR/../examples" && for file in *.der corpus/*.der; do echo "$file,$(od -An -v -tx1 "$file" | tr -dc 0-9a-f)"; done' (format csv)
create view objects as select name, decode(hex, 'hex') as octets from files order by name collate "C";
-- the octets of UTF-8, as they are
select name, encode(convert_to(x509_subject(octets), 'SQL_ASCII'), 'hex') as subject from objects where name = 'corpus/cert-trust-asia.der';
select count(x509_json(octets)) as lines, count(*) filter (where x509_subject(octets) is distinct from x509_json(octets)->'subject'->>'text') as different,
    count(x509_subject(octets)) as subjects, count(x509_hosts_array(octets)) as hosts
from objects where x509_is_certificate(octets);
\c :before
drop database rushtrivet_latin1;
drop database rushtrivet_ascii;
