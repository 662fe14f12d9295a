"""What can go wrong: the statuses of the C library, and the errors that are raised."""

from __future__ import annotations

from enum import IntEnum
from typing import Optional

from .oid import ObjectIdentifier


class Status(IntEnum):
    """The statuses of the C library, by the names of its header."""

    OK = 0
    INCOMPLETE = 1
    OUT_OF_MEMORY = 2
    GENERIC = 3
    INVALID_VERSION = 4
    INVALID_SERIAL = 5
    INVALID_ALGORITHM = 6
    INVALID_NAME = 7
    INVALID_DATE = 8
    INVALID_KEY_INFO = 9
    INVALID_SUBJECT_UID = 10
    INVALID_ISSUER_UID = 11
    INVALID_EXTENSIONS = 12
    INVALID_ATTRIBUTES = 13
    DUPLICATE_EXTENSIONS = 14
    DUPLICATE_ATTRIBUTES = 15
    INVALID_SIGNATURE = 16
    INVALID_SIGNED_PART = 17
    INVALID_REVOKED = 18
    INVALID_CERTIFICATE = 19
    INVALID_NUMBER = 22
    DER_TAG = 32
    DER_LENGTH = 33
    DER_TYPE = 34
    DER_VALUE = 35
    DER_CONSTRAINT = 36
    LIST_CUT_SHORT = 40
    LIST_TRAILING = 41
    LIST_EMPTY = 42
    LIST_MAPPING = 43
    NOT_FOUND = 50


class Refused(ValueError):
    """The octets were refused. Where memory ran out instead, that is a MemoryError."""

    status: int
    """The number of the status: equal to a member of Status, unless the library is newer than this package."""

    word: str
    """The words of the status, as "invalid length"."""

    at: Optional[int]
    """Where the octets are refused: an offset in the octets that were read; None where none is told."""

    path: Optional[str] = None
    """The names of the fields that lead there, as "tbsCertificate.validity.notAfter", of a certificate, a list or a
    request that was to be loaded; else None."""

    rule: Optional[str] = None
    """The first lenient rule by which it is taken where it isn't to be loaded strictly, as "any_serial": then `at` is where
    that is used, and `lenient_rules()` of the object tells all; None where no reader takes it."""

    def __init__(self, status: int, word: str, at: Optional[int]) -> None:
        super().__init__(status, word, at)
        self.status = status
        self.word = word
        self.at = at

    def __str__(self) -> str:
        if self.at is None:
            return self.word
        place = f"{self.word}, at octet {self.at}" + (f" ({self.path})" if self.path else "")
        return f"{place}: {self.rule}" if self.rule else place


class _OfIdentifier(Exception):
    """An error about an identifier: `oid`."""

    oid: ObjectIdentifier

    def __init__(self, message: str, oid: ObjectIdentifier) -> None:
        super().__init__(message, oid)
        self.oid = oid

    def __str__(self) -> str:
        return str(self.args[0])


class ExtensionNotFound(_OfIdentifier):
    """There is no extension with the identifier `oid`."""


class DuplicateExtension(_OfIdentifier):
    """There is more than one extension with the identifier `oid`, so none of them is the one that was asked for."""


class AttributeNotFound(_OfIdentifier):
    """A request has no attribute with the identifier `oid`."""
