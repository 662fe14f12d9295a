#!/usr/bin/env python3
"""big_certificate.py N FOLDER: writes two certificates (RFC 5280, section 4) with N identifiers each, all different, in no order.

extensions.der   N extensions of types that nobody knows, their values empty
policies.der     one extension with N policies

The same N gives the same files."""
import os
import random
import sys

from der import ALGORITHM, BIT_STRING, INTEGER, NAME, OCTET_STRING, OID, SEQUENCE, UTC_TIME, element

COUNT, FOLDER = int(sys.argv[1]), sys.argv[2]
VERSION, EXTENSIONS = 0xA0, 0xA3
VERSION_3 = element(VERSION, element(INTEGER, b"\x02"))
SERIAL = element(INTEGER, b"\x01")
VALIDITY = element(SEQUENCE, element(UTC_TIME, b"240401000000Z"), element(UTC_TIME, b"250401000000Z"))
KEY_TYPE = element(SEQUENCE, element(OID, bytes.fromhex("2a8648ce3d0201")), element(OID, bytes.fromhex("2a8648ce3d030107")))  # P-256
KEY = element(SEQUENCE, KEY_TYPE, element(BIT_STRING, b"\x00\x04" + bytes(64)))
SIGNATURE = element(BIT_STRING, bytes(71))
POLICIES = element(OID, b"\x55\x1d\x20")


def identifier(number):
    """1.3.6.1.4.1.99999.NUMBER, four octets for the number."""
    octets = bytes(0x80 | number >> shift & 0x7F for shift in (21, 14, 7)) + bytes([number & 0x7F])
    return element(OID, bytes.fromhex("2b06010401868d1f") + octets)


def certificate(extensions):
    fields = element(EXTENSIONS, element(SEQUENCE, extensions))
    signed = element(SEQUENCE, VERSION_3, SERIAL, ALGORITHM, NAME, VALIDITY, NAME, KEY, fields)
    return element(SEQUENCE, signed, ALGORITHM, SIGNATURE)


def write(name, extensions):
    with open(f"{FOLDER}/{name}.der", "wb") as file:
        file.write(certificate(b"".join(extensions)))


# Numbers whose four octets in base 128 begin with no zero.
numbers = random.Random(COUNT).sample(range(1 << 21, 1 << 28), COUNT)
os.makedirs(FOLDER, exist_ok=True)
write("extensions", [element(SEQUENCE, identifier(number), element(OCTET_STRING)) for number in numbers])
policies = element(SEQUENCE, *(element(SEQUENCE, identifier(number)) for number in numbers))
write("policies", [element(SEQUENCE, POLICIES, element(OCTET_STRING, policies))])
