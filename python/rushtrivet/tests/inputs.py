"""What the tests read: files of the repository, and DER that is made here."""

from __future__ import annotations

import os
from pathlib import Path
from typing import Dict, List

REPOSITORY = Path(__file__).resolve().parents[3]
HEADER = REPOSITORY / "include" / "rushtrivet.h"


def files() -> Dict[str, bytes]:
    """The files in the folder of the environment variable RUSHTRIVET_EXAMPLES, or in that of the repository."""
    folder = Path(os.environ.get("RUSHTRIVET_EXAMPLES") or REPOSITORY / "examples")
    found = sorted(folder.glob("*.der")) + sorted((folder / "corpus").glob("*.der"))
    return {file.name: file.read_bytes() for file in found}


def der(tag: int, *parts: bytes) -> bytes:
    """An element of DER with these contents."""
    contents = b"".join(parts)
    length = len(contents)
    if length < 128:
        return bytes([tag, length]) + contents
    octets = length.to_bytes((length.bit_length() + 7) // 8, "big")
    return bytes([tag, 128 + len(octets)]) + octets + contents


def sequence(*parts: bytes) -> bytes:
    return der(0x30, *parts)


def oid(*arcs: int) -> bytes:
    """An identifier of small numbers."""
    return der(6, bytes([arcs[0] * 40 + arcs[1], *arcs[2:]]))


def name(*values: bytes) -> bytes:
    """A Name with an attribute 2.5.4.3, each a relative name, of these values with their headers."""
    return sequence(*(der(0x31, sequence(oid(2, 5, 4, 3), value)) for value in values))


def extension(arcs: List[int], value: bytes, critical: bool = False) -> bytes:
    return sequence(oid(*arcs), der(1, b"\xff") if critical else b"", der(4, value))


ALGORITHM = sequence(oid(1, 2, 3))
KEY = sequence(sequence(oid(1, 2, 4)), der(3, b"\0abc"))
BITS = der(3, b"\0signature")
JANUARY = der(23, b"240101000000Z")


def certificate(
    *extensions: bytes,
    serial: bytes = b"\1",
    subject: bytes = sequence(),
    end: bytes = JANUARY,
    version: int = 2,
    key: bytes = KEY,
) -> bytes:
    return sequence(
        sequence(
            der(0xA0, der(2, bytes([version]))),
            der(2, serial),
            ALGORITHM,
            name(der(12, b"issuer")),
            sequence(JANUARY, end),
            subject,
            key,
            der(0xA3, sequence(*extensions)) if extensions else b"",
        ),
        ALGORITHM,
        BITS,
    )


def crl(serials: List[bytes], *extensions: bytes) -> bytes:
    entries = [sequence(der(2, serial), JANUARY) for serial in serials]
    return sequence(
        sequence(
            der(2, b"\1"),
            ALGORITHM,
            name(der(12, b"issuer")),
            JANUARY,
            sequence(*entries) if entries else b"",
            der(0xA0, sequence(*extensions)) if extensions else b"",
        ),
        ALGORITHM,
        BITS,
    )


def request(*attributes: bytes) -> bytes:
    return sequence(
        sequence(der(2, b"\0"), name(der(12, b"subject")), KEY, der(0xA0, *attributes)),
        ALGORITHM,
        BITS,
    )
