"""Certificates."""

from __future__ import annotations

from datetime import datetime
from enum import Enum
from typing import Any, Callable, List, NamedTuple, Optional, Tuple

from ._library import (
    Buffer,
    Caller,
    CertificateStruct,
    ExtensionRow,
    Kind,
    Memory,
    Number,
    Numbers,
    Octets,
    lib,
    placed,
    refuse,
    whole_text,
)
from ._names import Name
from ._objects import KeyedObject, kept, signed_number, utc
from .errors import Refused
from .extensions import Extensions, read_extensions
from .general_names import dns_names
from .oid import ExtensionOID

_CERTIFICATES = Caller(CertificateStruct, ExtensionRow, 16, "extension_count")
_ANSWERS = Caller(Number)
_ALTERNATIVE_NAMES = b"\x55\x1d\x11"  # 2.5.29.17: no other octets are this identifier


class Version(Enum):
    """The versions of certificates that are in use. The number is as it is written."""

    v1 = 0
    v3 = 2


class Messages(NamedTuple):
    """What the validators of the structure and of the extensions say of a certificate, in their order."""

    accepts: bool
    """Whether both find it sound, with warnings or not."""

    warnings: Tuple[str, ...]
    """A character that could forge a line or hide text is written by its number, as "\\u{a}"; so in errors."""

    errors: Tuple[str, ...]


class Certificate(KeyedObject):
    """A certificate: what stands in it. Nothing is judged, and its signature isn't checked. See load_certificate."""

    _kind = Kind.CERTIFICATE
    _place = _CERTIFICATES.place

    def __init__(self, buffer: Buffer, found: Numbers, extensions: List[Numbers]) -> None:
        super().__init__(buffer, found)
        self._extensions = extensions

    @property
    def version(self) -> Optional[Version]:
        """The version; None where it is neither v1 nor v3: `version_number` tells it."""
        return next((version for version in Version if version.value == self.version_number), None)

    @property
    def version_number(self) -> int:
        """The version as it is written: 0 is v1, 2 is v3."""
        return self._number("version")

    @property
    def serial_number(self) -> int:
        """The serial number: the first bit of its octets is the sign, so a few old ones are negative."""
        return signed_number(self.serial_octets)

    @property
    def serial_octets(self) -> bytes:
        """The octets of the serial number, as they stand."""
        return self._window("serial")

    @kept
    def issuer(self) -> Name:
        """Who issued the certificate."""
        return Name(self._element("issuer"))

    @kept
    def subject(self) -> Name:
        """Of whom the certificate speaks."""
        return Name(self._element("subject"))

    @property
    def not_valid_before_utc(self) -> datetime:
        """The first second of validity, in UTC. ValueError where a datetime can't hold it."""
        return utc(self._number("not_before"))

    @property
    def not_valid_after_utc(self) -> datetime:
        """The last second of validity, in UTC. ValueError where a datetime can't hold it."""
        return utc(self._number("not_after"))

    @property
    def not_valid_before_seconds(self) -> int:
        """The first second of validity, in seconds since 1970-01-01T00:00:00Z."""
        return self._number("not_before")

    @property
    def not_valid_after_seconds(self) -> int:
        """The last second of validity, in seconds since 1970-01-01T00:00:00Z."""
        return self._number("not_after")

    @property
    def tbs_certificate_bytes(self) -> bytes:
        """The octets that the signature is over."""
        return self._window("signed_part")

    @kept
    def extensions(self) -> Extensions:
        """The extensions, in order. Their values are read when they are asked for."""
        return read_extensions(self._buffer, self._extensions)

    @property
    def hosts(self) -> List[str]:
        """The DNS names among the subject's alternative names, as they are written; the subject itself isn't looked at.

        Empty where there is no such extension. DuplicateExtension where there are two, Refused where it can't be read.
        A single name that can't be read isn't among them: the extension's value has it.
        """
        data, base = self._buffer.data, self._buffer.address
        found = [
            (at, length)
            for oid_at, oid_length, at, length, _ in self._extensions
            if oid_length == 3 and data.startswith(_ALTERNATIVE_NAMES, oid_at - base)
        ]
        if not found:
            return []
        if len(found) > 1:
            self.extensions.get_extension_for_oid(ExtensionOID.SUBJECT_ALTERNATIVE_NAME)  # raises
        return dns_names(self._buffer, *found[0])

    def messages(self) -> Messages:
        """What the library's validators say, which look at the rules of RFC 5280 for single fields and for extensions.

        They check no signature and build no chain.
        """
        buffer, answer = self._buffer, _ANSWERS.take()

        def call(text: int, room: int, memory: Memory) -> int:
            status = lib.rtv_validate(
                buffer.address, buffer.length, text, room, memory.counts, answer.head, memory.second
            )
            if status:
                refuse(status, memory.at)
            return memory.count

        told = [line.partition(": ") for line in whole_text(call).decode("utf-8").split("\n")]
        (sound,) = _ANSWERS.head_in(answer)
        _ANSWERS.free.append(answer)
        return Messages(
            sound == 1,
            tuple(message for level, _, message in told if level == "warning"),
            tuple(message for level, _, message in told if level == "error"),
        )

    def __repr__(self) -> str:
        return f"<Certificate(subject={self.subject!r})>"

    def __reduce__(self) -> Tuple[Callable[..., Any], Tuple[bytes]]:
        return load_certificate, (self._buffer.data,)


def load_certificate(data: Octets, *, strict: bool = False) -> Certificate:
    """Reads the certificate (DER) at the front of the octets. Octets behind it are `rest`.

    strict: what needs one of the reader's lenient rules is refused too, in the values of extensions also.
    Raises Refused, or MemoryError.
    """
    buffer = Buffer(data)
    try:
        found, extensions = _CERTIFICATES.ask(
            lambda memory: lib.rtv_read_certificate(
                buffer.address, buffer.length, strict, strict, memory.head, memory.rows, memory.room, memory.second
            )
        )
    except Refused as refused:
        raise placed(refused, buffer, Kind.CERTIFICATE)
    return Certificate(buffer, found, extensions)
