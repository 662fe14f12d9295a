"""Extensions that stand outside of an object: the library reads extensions as a part of one, so they are put into the
smallest certificate, and that is read."""

from __future__ import annotations

from functools import lru_cache
from typing import Any, Dict

from ._library import Buffer, Kind, refuse, report, word
from .errors import Refused, Status


def _element(tag: int, *parts: bytes) -> bytes:
    """An element of DER."""
    contents = b"".join(parts)
    length = len(contents)
    if length < 128:
        return bytes([tag, length]) + contents
    octets = length.to_bytes((length.bit_length() + 7) // 8, "big")
    return bytes([tag, 128 + len(octets)]) + octets + contents


def _sequence(*parts: bytes) -> bytes:
    return _element(0x30, *parts)


_ALGORITHM = _sequence(_element(6, b"\x2a\x03"))
_BITS = _element(3, b"\0bits")
_NAME = _sequence(_element(0x31, _sequence(_element(6, b"\x55\x04\x03"), _element(12, b"name"))))
_TIME = _element(23, b"240101000000Z")
_FRONT = (
    _element(0xA0, _element(2, b"\2"))
    + _element(2, b"\1")
    + _ALGORITHM
    + _NAME
    + _sequence(_TIME, _TIME)
    + _NAME
    + _sequence(_ALGORITHM, _BITS)
)


def certificate_with(extensions: bytes) -> bytes:
    """A certificate with these extensions, a whole SEQUENCE."""
    return _sequence(_sequence(_FRONT, _element(0xA3, extensions)), _ALGORITHM, _BITS)


@lru_cache(maxsize=1)
def _statuses() -> Dict[str, int]:
    return {word(status): int(status) for status in Status}


def value_in(oid: bytes, raw: bytes) -> Any:
    """What the report says of the value of an extension (docs/REPORT.md). Refused where it can't be read.

    The report has the words of the refusal, and no octet.
    """
    extension = _sequence(_element(6, oid), _element(4, raw))
    told = report(Buffer(certificate_with(_sequence(extension))), Kind.CERTIFICATE)["extensions"][0]
    if told["kind"] != "refused":
        return told["value"]
    status = _statuses().get(told["value"])
    if status is None:
        raise Refused(int(Status.GENERIC), told["value"], None)
    refuse(status)
