#!/usr/bin/env python3
"""big_list.py N FOLDER: writes a list of revoked certificates (RFC 5280, section 5) with N entries, and what to look up on it.

list.der     the list: random serials of 16 octets, an earlier serial again in one of each thousand entries, no entry with extensions
hits.der     a list of the same serials in another order, and hits.txt the position of the first entry with each, a line for each
misses.der   a list of N serials that are not on the first, and misses.txt a line -1 for each

The same N gives the same files."""
import os
import random
import sys

from der import ALGORITHM, BIT_STRING, INTEGER, NAME as ISSUER, SEQUENCE, UTC_TIME, element

COUNT, FOLDER = int(sys.argv[1]), sys.argv[2]
NUMBERS = random.Random(COUNT)
WHEN, NEXT = element(UTC_TIME, b"240401000000Z"), element(UTC_TIME, b"240501000000Z")


def a_serial():
    """A positive number whose 16 octets have no leading zero."""
    return bytes([NUMBERS.randrange(1, 128)]) + NUMBERS.randbytes(15)


def list_of(serials):
    entries = b"".join(element(SEQUENCE, element(INTEGER, serial), WHEN) for serial in serials)
    signed = element(SEQUENCE, element(INTEGER, b"\x01"), ALGORITHM, ISSUER, WHEN, NEXT, element(SEQUENCE, entries))
    return element(SEQUENCE, signed, ALGORITHM, element(BIT_STRING, b"\x00" + NUMBERS.randbytes(70)))


def write(name, serials, positions):
    with open(f"{FOLDER}/{name}.der", "wb") as file:
        file.write(list_of(serials))
    if positions is not None:
        with open(f"{FOLDER}/{name}.txt", "w", encoding="ascii") as file:
            file.writelines(f"{position}\n" for position in positions)


revoked = []
for number in range(COUNT):
    revoked.append(NUMBERS.choice(revoked) if number % 1000 == 999 else a_serial())
first = {}
for position, serial in enumerate(revoked):
    first.setdefault(serial, position)
hits = NUMBERS.sample(revoked, COUNT)
misses = []
while len(misses) < COUNT:
    serial = a_serial()
    if serial not in first:
        misses.append(serial)
os.makedirs(FOLDER, exist_ok=True)
write("list", revoked, None)
write("hits", hits, [first[serial] for serial in hits])
write("misses", misses, [-1] * COUNT)
