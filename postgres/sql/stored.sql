-- The columns beside the stored texts of examples/corpus (NAME.txt), which were derived from OpenSSL and from a second reader.
set timezone = 'UTC';
set datestyle = 'ISO';
\x off
\pset format unaligned
create table texts (name text, hex text);
-- (a NUL in a text is written as the extension shows it)
\copy texts from program 'cd "$PG_ABS_SRCDIR/../examples" && for file in corpus/*.txt; do echo "$file,$(sed "s/\x00/\\\\u{0}/g" "$file" | od -An -v -tx1 | tr -dc 0-9a-f)"; done' (format csv)
create view stored_texts as
select files.name, octets, substring(shown from '\$ x509_show cert\n(.*?)\nstatus') as cert, substring(shown from '\$ x509_show crl\n(.*?)\nstatus') as crl
from (select replace(name, '.txt', '.der') as name, convert_from(decode(hex, 'hex'), 'UTF8') as shown from texts) as each join files using (name);
select count(*), count(*) filter (where cert like 'refused: %') as no_certificates, count(*) filter (where crl not like 'refused: %') as lists from stored_texts;

-- Why there is no certificate, in the same words.
select count(*) from stored_texts where cert like 'refused: %' and x509_refusal(octets) not similar to substring(cert from 10) || ' at octet [0-9]+'
    or cert not like 'refused: %' and x509_refusal(octets) is not null;
-- Each line of a certificate: how many there are, and how many differ. A name that has no text is stored as an error, and shown in hex.
select count(*) as certificates,
    count(*) filter (where x509_subject(octets) is distinct from substring(cert from '\nsubject: ([^\n]*)')) as subject,
    count(*) filter (where cert ~ '\nsubject: <X509Error') as subjects_without_text,
    count(*) filter (where x509_issuer(octets) is distinct from substring(cert from '\nissuer: ([^\n]*)')) as issuer,
    count(*) filter (where cert ~ '\nissuer: <X509Error') as issuers_without_text,
    count(*) filter (where encode(x509_serial(octets), 'hex') is distinct from replace(substring(cert from '\nserial: ([^\n]*)'), ':', '')) as serial,
    count(*) filter (where x509_not_before(octets) is distinct from to_timestamp(substring(cert from '\nnot before: ([^\n]*)'), 'Mon DD HH24:MI:SS YYYY TZH:TZM')) as not_before,
    count(*) filter (where x509_not_after(octets) is distinct from to_timestamp(substring(cert from '\nnot after: ([^\n]*)'), 'Mon DD HH24:MI:SS YYYY TZH:TZM')) as not_after
from stored_texts where cert not like 'refused: %';
select name, x509_subject(octets) as subject from stored_texts where cert ~ '\nsubject: <X509Error';
-- Extensions, by their identifiers and lengths.
select count(*) as extensions, count(*) filter (where length(x509_extension(octets, line[1])) is distinct from line[2]::integer) as other_lengths
from stored_texts, regexp_matches(cert, '\nextension: ([^ ]*) [a-z]* ([0-9]*)', 'g') as line where cert not like 'refused: %';
-- Entries of the lists, in order.
select count(*) as entries, count(*) filter (where serial is distinct from decode(replace(line[1], ':', ''), 'hex')
        or revoked_at is distinct from to_timestamp(line[2], 'Mon DD HH24:MI:SS YYYY TZH:TZM')) as other_entries
from stored_texts, lateral (
    select * from (select line, row_number() over () as number from regexp_matches(crl, '\nrevoked: ([^ ]*) ([^\n]*)', 'g') as line) as shown
    full join (select * from x509_crl_entries(octets) with ordinality as e (serial, revoked_at, reason, number)) as read using (number)) as pairs
where crl not like 'refused: %';
drop table texts cascade;
