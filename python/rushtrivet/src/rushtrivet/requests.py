"""Requests for certificates."""

from __future__ import annotations

from dataclasses import dataclass
from typing import Any, Callable, List, Tuple

from ._library import (
    Buffer,
    Caller,
    Kind,
    Numbers,
    Octets,
    RequestAttributeRow,
    RequestStruct,
    identifier,
    lib,
    placed,
)
from ._names import Name
from ._objects import Items, KeyedObject, kept
from .errors import AttributeNotFound, Refused
from .extensions import Extension, Extensions
from .oid import ObjectIdentifier

_REQUESTS = Caller(RequestStruct, RequestAttributeRow, 8, "attribute_count")


@dataclass(frozen=True)
class Attribute:
    """An attribute of a request."""

    oid: ObjectIdentifier

    raw: bytes
    """Its values: the whole SET, with its header, as it stands."""


class Attributes(Items[Attribute]):
    """The attributes of a request, in order."""

    def __init__(self, attributes: Tuple[Attribute, ...]) -> None:
        self._attributes = attributes

    def _items(self) -> Tuple[Attribute, ...]:
        return self._attributes

    def get_attribute_for_oid(self, oid: ObjectIdentifier) -> Attribute:
        """The first attribute with that identifier, or AttributeNotFound."""
        for attribute in self:
            if attribute.oid == oid:
                return attribute
        raise AttributeNotFound(f"No {oid} attribute was found", oid)

    def __repr__(self) -> str:
        return f"<Attributes({list(self._attributes)})>"


class CertificateSigningRequest(KeyedObject):
    """A request for a certificate. Its signature isn't checked. See load_csr."""

    _kind = Kind.REQUEST
    _place = _REQUESTS.place

    def __init__(self, buffer: Buffer, found: Numbers, attributes: List[Numbers]) -> None:
        super().__init__(buffer, found)
        self._attributes = attributes

    @property
    def version_number(self) -> int:
        """The version as it is written: 0 is v1."""
        return self._number("version")

    @kept
    def subject(self) -> Name:
        """Who asks for a certificate."""
        return Name(self._element("subject"))

    @property
    def tbs_certrequest_bytes(self) -> bytes:
        """The octets that the signature is over."""
        return self._window("signed_part")

    @kept
    def attributes(self) -> Attributes:
        """The attributes, in order."""
        window = self._buffer.window
        return Attributes(
            tuple(
                Attribute(identifier(window(oid_at, oid_length)), window(at, length))
                for oid_at, oid_length, at, length in self._attributes
            )
        )

    @kept
    def extensions(self) -> Extensions:
        """The extensions that are asked for, in order. Their values are read when they are asked for.

        An attribute that asks for extensions and can't be read asks for none: `attributes` has it.
        """
        return Extensions(
            tuple(
                Extension(ObjectIdentifier(told["oid"]), told["critical"], bytes.fromhex(told["der"]))
                for attribute in self._report["attributes"]
                if attribute["kind"] == "extension_request"
                for told in attribute["value"]
            )
        )

    def __repr__(self) -> str:
        return f"<CertificateSigningRequest(subject={self.subject!r})>"

    def __reduce__(self) -> Tuple[Callable[..., Any], Tuple[bytes]]:
        return load_csr, (self._buffer.data,)


def load_csr(data: Octets, *, strict: bool = False) -> CertificateSigningRequest:
    """Reads the request (DER) at the front of the octets. Octets behind it are `rest`.

    strict: what needs one of the reader's lenient rules is refused too. Raises Refused, or MemoryError.
    """
    buffer = Buffer(data)
    try:
        found, attributes = _REQUESTS.ask(
            lambda memory: lib.rtv_read_request(
                buffer.address, buffer.length, strict, memory.head, memory.rows, memory.room, memory.second
            )
        )
    except Refused as refused:
        raise placed(refused, buffer, Kind.REQUEST)
    return CertificateSigningRequest(buffer, found, attributes)
