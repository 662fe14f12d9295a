-- The size of keys on curves, known or not: as the report has it, whatever octets the point has.
\x off
\pset format unaligned
\pset null '(null)'
create function with_key(octets bytea, parameters bytea, length integer) returns bytea immutable language sql as $$
    -- in place of the key info of www.example.com.der, which has 91 octets, one with these parameters and a point of this length
    select der('\x30', der('\x30', substr(octets, 9, at - 9) || der('\x30', der('\x30', '\x06072a8648ce3d0201'::bytea || parameters) ||
        der('\x03', '\x0004'::bytea || decode(repeat('5a', length - 1), 'hex'))) || substr(octets, at + 91, 401 - at)) || substr(octets, 492))
    from position('\x3059301306072a8648ce3d0201'::bytea in octets) as at
$$;
select what, x509_is_certificate(c) as is, x509_key_kind(c) as kind, x509_key_bits(c) as bits,
    x509_key_bits(c) is not distinct from (x509_json(c)->'key'->>'size')::integer as as_the_report
from files, (values (1, 'secp256r1', '\x06082a8648ce3d030107'::bytea, 65), (2, 'secp384r1', '\x06052b81040022', 97),
        (3, 'secp521r1', '\x06052b81040023', 133), (4, 'brainpoolP256r1', '\x06092b2403030208010107', 65),
        (5, 'secp384r1 with a point of secp256r1', '\x06052b81040022', 65), (6, 'another class', '\x86052b81040022', 65),
        (7, 'constructed', '\x26052b81040022', 65), (8, 'a curve that is not known', '\x06032a0304', 65), (9, 'an empty identifier', '\x0600', 65),
        (10, 'no parameters', '', 65), (11, 'NULL', '\x0500', 65)) as keys (number, what, parameters, length),
    with_key(octets, parameters, length) as c
where name = 'www.example.com.der' order by number;
drop function with_key;
