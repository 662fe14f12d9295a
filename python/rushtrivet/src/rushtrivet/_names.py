"""Names: of whom a certificate, a list or a request speaks."""

from __future__ import annotations

import re
from dataclasses import dataclass, field
from itertools import groupby
from typing import Any, Callable, Dict, Iterator, List, Mapping, Optional, Tuple, Union

from ._library import AttributeRow, Buffer, Caller, Memory, Octets, identifier, lib, outside, refuse, whole_text
from ._objects import Items, kept
from .oid import NameOID, ObjectIdentifier

_NAMES = Caller(None, AttributeRow, 16)

_ENCODINGS: Dict[int, str] = {
    12: "utf-8",  # UTF8String
    18: "utf-8",  # NumericString
    19: "utf-8",  # PrintableString
    20: "utf-8",  # TeletexString
    22: "utf-8",  # IA5String
    23: "utf-8",  # UTCTime
    24: "utf-8",  # GeneralizedTime
    26: "utf-8",  # VisibleString
    27: "utf-8",  # GeneralString
    28: "utf-32-be",  # UniversalString
    30: "utf-16-be",  # BMPString
}

_SHORT_NAMES: Dict[str, str] = {
    NameOID.COMMON_NAME.dotted_string: "CN",
    NameOID.LOCALITY_NAME.dotted_string: "L",
    NameOID.STATE_OR_PROVINCE_NAME.dotted_string: "ST",
    NameOID.ORGANIZATION_NAME.dotted_string: "O",
    NameOID.ORGANIZATIONAL_UNIT_NAME.dotted_string: "OU",
    NameOID.COUNTRY_NAME.dotted_string: "C",
    NameOID.STREET_ADDRESS.dotted_string: "STREET",
    NameOID.DOMAIN_COMPONENT.dotted_string: "DC",
    NameOID.USER_ID.dotted_string: "UID",
}

_ESCAPED = re.compile(r'[\\"+,;<>\0]')
_UNUSUAL = re.compile(r'^[# ]|[\\"+,;<>\0]| \Z')


def _value(tag: int, raw: bytes) -> Union[str, bytes]:
    encoding = _ENCODINGS.get(tag)
    if encoding is None:
        return raw
    try:
        return raw.decode(encoding)
    except UnicodeDecodeError:
        return raw


def _escaped(value: Union[str, bytes]) -> str:
    """A value as RFC 4514, 2.4 writes it."""
    if isinstance(value, bytes):
        return "#" + value.hex() if value else ""
    if not _UNUSUAL.search(value):
        return value
    value = _ESCAPED.sub(lambda found: "\\" + found[0].replace("\0", "00"), value)
    if value[0] == "#" or (value[0] == " " and len(value) > 1):
        value = "\\" + value
    if value[-1] == " ":
        value = value[:-1] + "\\ "
    return value


@dataclass(frozen=True)
class NameAttribute:
    """An attribute of a name. Two are equal where identifier and value are."""

    oid: ObjectIdentifier
    """The type of the attribute, as NameOID.COMMON_NAME."""

    value: Union[str, bytes]
    """A text where the tag is that of a text and the octets are one; else the octets."""

    raw: bytes = field(compare=False)
    """The octets of the value, as they stand."""

    tag: int = field(compare=False)
    """The number of the value's tag, as 12 for UTF8String."""

    @property
    def rfc4514_attribute_name(self) -> str:
        """The short name of the type as RFC 4514 has it, or its dotted string."""
        return _SHORT_NAMES.get(self.oid.dotted_string, self.oid.dotted_string)

    def rfc4514_string(self, attr_name_overrides: Optional[Mapping[ObjectIdentifier, str]] = None) -> str:
        """The attribute as RFC 4514 writes it, as "CN=www.example.com"; names of types may be given."""
        name = (attr_name_overrides or {}).get(self.oid, self.rfc4514_attribute_name)
        return f"{name}={_escaped(self.value)}"


def attribute_told(told: Mapping[str, Any]) -> NameAttribute:
    """An attribute as the report has it. Of use in this package only."""
    oid, tag, text = ObjectIdentifier(told["oid"]), told["tag"], told["value"]
    if text is None:
        raw = bytes.fromhex(told["hex"])
        return NameAttribute(oid, _value(tag, raw), raw, tag)
    return NameAttribute(oid, text, text.encode(_ENCODINGS.get(tag, "utf-8")), tag)


class RelativeDistinguishedName(Items[NameAttribute]):
    """A relative name: attributes, mostly one. Two are equal where the same attributes stand in them, in any order."""

    def __init__(self, attributes: Tuple[NameAttribute, ...]) -> None:
        self._attributes = attributes

    def _items(self) -> Tuple[NameAttribute, ...]:
        return self._attributes

    def get_attributes_for_oid(self, oid: ObjectIdentifier) -> List[NameAttribute]:
        """The attributes of that type, in order."""
        return [attribute for attribute in self if attribute.oid == oid]

    def rfc4514_string(self, attr_name_overrides: Optional[Mapping[ObjectIdentifier, str]] = None) -> str:
        """The relative name as RFC 4514 writes it, with "+" between attributes."""
        return "+".join(attribute.rfc4514_string(attr_name_overrides) for attribute in self)

    def __eq__(self, other: object) -> bool:
        if not isinstance(other, RelativeDistinguishedName):
            return NotImplemented
        return frozenset(self._attributes) == frozenset(other._attributes)

    def __hash__(self) -> int:
        return hash(frozenset(self._attributes))

    def __repr__(self) -> str:
        return f"<RelativeDistinguishedName({self.rfc4514_string()})>"


class Name:
    """A name: relative names, in order. It goes through their attributes.

    Two names are equal where identifiers and values are, relative name by relative name; to compare the octets, take
    `raw`.
    """

    def __init__(self, raw: Octets) -> None:
        """Reads a whole Name, with its header. Refused where the octets do not begin with one."""
        self._buffer = buffer = Buffer(raw)
        _, self._attributes = _NAMES.ask(
            lambda memory: lib.rtv_read_name(
                buffer.address, buffer.length, memory.rows, memory.room, memory.counts, memory.second
            )
        )

    @kept
    def _rdns(self) -> Tuple[RelativeDistinguishedName, ...]:
        window = self._buffer.window
        made = []
        for _, group in groupby(self._attributes, key=lambda row: row[4]):
            attributes = []
            for oid_at, oid_length, at, length, _, tag in group:
                oid, octets = identifier(window(oid_at, oid_length)), window(at, length)
                attributes.append(NameAttribute(oid, _value(tag, octets), octets, tag))
            made.append(RelativeDistinguishedName(tuple(attributes)))
        return tuple(made)

    @property
    def raw(self) -> bytes:
        """The octets of the Name, with its header, as they stand."""
        return self._buffer.data

    def public_bytes(self) -> bytes:
        """The octets of the Name, as `raw`."""
        return self._buffer.data

    @property
    def rdns(self) -> List[RelativeDistinguishedName]:
        """The relative names, in order. An empty one isn't among them."""
        return list(self._rdns)

    @property
    def text(self) -> str:
        """As "C=FR, CN=www.example.com". Nothing is escaped: this is to be looked at, not to be compared."""
        buffer = self._buffer

        def call(text: int, room: int, memory: Memory) -> int:
            status = lib.rtv_name_text(buffer.address, buffer.length, text, room, memory.counts, memory.second)
            if status:
                refuse(status, memory.at)
            return memory.count

        return whole_text(call).decode("utf-8", "backslashreplace")

    def get_attributes_for_oid(self, oid: ObjectIdentifier) -> List[NameAttribute]:
        """The attributes of that type, in order."""
        return [attribute for attribute in self if attribute.oid == oid]

    def rfc4514_string(self, attr_name_overrides: Optional[Mapping[ObjectIdentifier, str]] = None) -> str:
        """The name as RFC 4514 writes it: the last relative name first, with "," between them, and escapes."""
        if attr_name_overrides or "_rdns" in self.__dict__:
            return ",".join(rdn.rfc4514_string(attr_name_overrides) for rdn in reversed(self._rdns))
        # The same without the objects and without calls of window(), which take longer.
        data, base, end = self._buffer.data, self._buffer.address, self._buffer.address + self._buffer.length
        texts: List[str] = []
        last = -1
        for oid_at, oid_length, at, length, relative, tag in self._attributes:
            if oid_at < base or oid_at + oid_length > end or (length and (at < base or at + length > end)):
                raise outside()
            dotted = identifier(data[oid_at - base : oid_at - base + oid_length]).dotted_string
            value = _value(tag, data[at - base : at - base + length]) if length else ""
            text = f"{_SHORT_NAMES.get(dotted, dotted)}={_escaped(value)}"
            if relative == last:
                texts[-1] += "+" + text
            else:
                texts.append(text)
            last = relative
        return ",".join(reversed(texts))

    def __reduce__(self) -> Tuple[Callable[..., Any], Tuple[bytes]]:
        return Name, (self.raw,)

    def __eq__(self, other: object) -> bool:
        if not isinstance(other, Name):
            return NotImplemented
        return self._rdns == other._rdns

    def __hash__(self) -> int:
        return hash(self._rdns)

    def __iter__(self) -> Iterator[NameAttribute]:
        for rdn in self._rdns:
            yield from rdn

    def __len__(self) -> int:
        return len(self._attributes)

    def __repr__(self) -> str:
        return f"<Name({self.rfc4514_string()})>"
