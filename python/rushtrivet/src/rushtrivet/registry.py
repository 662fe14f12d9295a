"""What the library's registry calls object identifiers."""

from __future__ import annotations

from functools import lru_cache
from typing import NamedTuple, Optional

from . import _library
from .oid import ObjectIdentifier


class OidWords(NamedTuple):
    """What an identifier is called."""

    name: str
    """Its short name, as "CN" or "sha256WithRSAEncryption"."""

    description: str
    """What it stands for, in words."""


def _base_128(number: int) -> bytes:
    """An arc as contents have it (X.690, 8.19.2): seven bits an octet, and one that says whether more follow."""
    octets = [number & 127]
    while number > 127:
        number >>= 7
        octets.append(number & 127 | 128)
    return bytes(reversed(octets))


def _contents(oid: ObjectIdentifier) -> bytes:
    """The contents of an identifier. ValueError where its text is none."""
    text = oid.dotted_string
    if "." not in text:
        return bytes.fromhex(text.replace(":", " "))
    first, second, *others = map(int, text.split("."))
    return b"".join(map(_base_128, (40 * first + second, *others)))


@lru_cache(maxsize=1024)
def oid_words(oid: ObjectIdentifier) -> Optional[OidWords]:
    """What the library's registry calls the identifier; None where it doesn't know it. What was asked for is kept."""
    found = _library.oid_words(_contents(oid))
    return found and OidWords(*found)
