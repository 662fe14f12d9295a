#!/usr/bin/env python3
"""made_certificates.py N [--csv]: N certificates (DER) to standard output, made of the real ones of examples/corpus, a line each.

Of each one by turns these octets are changed, and no length: up to eight at the end of its serial, both times (a begin in
2015 to 2024, and an end 90 to 825 days behind it), and letters: up to eight of each common name of the subject and of the
first label of each DNS name among its alternative names. Signatures don't fit any more. The same N gives the same lines;
certificates whose serial has less than six octets are left out.

As `copy .. from stdin` of PostgreSQL reads a column bytea; with --csv as a table with the columns name and certificate, in base64."""
import base64
import random
import sys
from datetime import datetime, timedelta
from pathlib import Path

CORPUS = Path(__file__).resolve().parent.parent / "examples" / "corpus"
INTEGER, OID, UTC_TIME, GENERALIZED_TIME, SEQUENCE, SET, DNS_NAME = 0x02, 0x06, 0x17, 0x18, 0x30, 0x31, 0x82
COMMON_NAME, ALTERNATIVE_NAMES = b"\x55\x04\x03", b"\x55\x1d\x11"
LETTERS = b"abcdefghijklmnopqrstuvwxyz"


def element(data, at):
    """Identifier, and begin and end of the contents of the element at an offset."""
    identifier, length, begin = data[at], data[at + 1], at + 2
    if length > 128:
        begin += length - 128
        length = int.from_bytes(data[at + 2 : begin], "big")
    return identifier, begin, begin + length


def children(data, begin, end):
    found = []
    while begin < end:
        found.append(element(data, begin))
        begin = found[-1][2]
    return found


def letters(data, begin, end):
    """Offsets of the first eight letters."""
    return [at for at in range(begin, end) if chr(data[at]).isalpha() and data[at] < 128][:8]


class Base:
    """A real certificate, and where in it is what is changed."""

    def __init__(self, data):
        self.data = data
        self.name_letters = []
        _, begin, end = element(data, 0)
        fields = children(data, *children(data, begin, end)[0][1:])
        if fields[0][0] == 0xA0:
            del fields[0]
        serial, _, _, validity, subject, _, *others = fields
        self.serial = range(serial[1] + 2, serial[2])[-8:]
        self.times = children(data, *validity[1:])
        self.in_subject(*subject[1:])
        for wrapper in others:
            if wrapper[0] == 0xA3:
                for extension in children(data, *element(data, wrapper[1])[1:]):
                    self.in_extension(*extension[1:])

    def in_subject(self, begin, end):
        for relative in children(self.data, begin, end):
            for attribute in children(self.data, *relative[1:]):
                kind, value = children(self.data, *attribute[1:])[:2]
                if self.data[kind[1] : kind[2]] == COMMON_NAME:
                    self.name_letters += letters(self.data, *value[1:])

    def in_extension(self, begin, end):
        parts = children(self.data, begin, end)
        if self.data[parts[0][1] : parts[0][2]] != ALTERNATIVE_NAMES:
            return
        for kind, first, last in children(self.data, *element(self.data, parts[-1][1])[1:]):
            if kind == DNS_NAME:
                label = self.data.find(b".", first, last)
                self.name_letters += letters(self.data, first, last if label < 0 else label)

    def made(self, numbers):
        """One with another serial, other times and other names."""
        octets = bytearray(self.data)
        octets[self.serial.start : self.serial.stop] = numbers.randbytes(len(self.serial))
        begin = datetime(2015, 1, 1) + timedelta(seconds=numbers.randrange(10 * 365 * 86400))
        end = begin + timedelta(days=numbers.randrange(90, 826))
        for (kind, first, last), time in zip(self.times, (begin, end)):
            written = time.strftime("%y%m%d%H%M%SZ" if kind == UTC_TIME else "%Y%m%d%H%M%SZ").encode("ascii")
            if len(written) == last - first:
                octets[first:last] = written
        for at, number in zip(self.name_letters, numbers.randbytes(len(self.name_letters))):
            octets[at] = LETTERS[number % 26]
        return bytes(octets)


def main():
    count, csv = int(sys.argv[1]), "--csv" in sys.argv[2:]
    bases = [Base(file.read_bytes()) for file in sorted(CORPUS.glob("cert-*.der"))]
    bases = [base for base in bases if len(base.serial) >= 4]
    numbers = random.Random(count)
    out = sys.stdout.buffer
    if csv:
        out.write(b"name,certificate\n")
    for number in range(count):
        made = bases[number % len(bases)].made(numbers)
        out.write(b"%d,%s\n" % (number, base64.b64encode(made)) if csv else b"\\\\x%s\n" % made.hex().encode("ascii"))


if __name__ == "__main__":
    main()
