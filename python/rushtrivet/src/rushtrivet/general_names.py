"""General names: those of alternative names, and wherever else a name of any kind stands (RFC 5280, 4.2.1.6)."""

from __future__ import annotations

import ipaddress
from dataclasses import dataclass
from typing import Any, Dict, Iterable, List, Tuple, Union

from ._library import Buffer, Caller, GeneralNameRow, Numbers, identifier, lib, outside
from ._names import Name
from .oid import ObjectIdentifier

_GENERAL_NAMES = Caller(None, GeneralNameRow, 64)

_KINDS: Dict[int, str] = {
    0: "other name",
    1: "e-mail",
    2: "DNS",
    3: "X.400",
    4: "directory name",
    5: "EDI",
    6: "URI",
    7: "IP address",
    8: "registered identifier",
}


class GeneralName:
    """One of the alternative names: an object of one of the classes below."""

    value: Any
    """What the name says: of which type, the class tells."""

    tag: int
    """The number of the kind, from 0 to 8 (RFC 5280, 4.2.1.6)."""

    @property
    def kind(self) -> str:
        """The kind in words, as "DNS"."""
        return _KINDS.get(self.tag, "unknown")


@dataclass(frozen=True)
class OtherName(GeneralName):
    """A name of a kind that an identifier tells. The value is its octets."""

    type_id: ObjectIdentifier
    value: bytes
    tag: int = 0


@dataclass(frozen=True)
class RFC822Name(GeneralName):
    """An e-mail address."""

    value: str
    tag: int = 1


@dataclass(frozen=True)
class DNSName(GeneralName):
    """The name of a host, as it is written: it may hold any character, NUL too, or be a pattern as "*.a.example"."""

    value: str
    tag: int = 2


@dataclass(frozen=True)
class X400Address(GeneralName):
    """An X.400 address. The value is its octets."""

    value: bytes
    tag: int = 3


@dataclass(frozen=True)
class DirectoryName(GeneralName):
    """A Name."""

    value: Name
    tag: int = 4


@dataclass(frozen=True)
class EDIPartyName(GeneralName):
    """The name of a partner of EDI. The value is its octets."""

    value: bytes
    tag: int = 5


@dataclass(frozen=True)
class UniformResourceIdentifier(GeneralName):
    """A URI, as it is written."""

    value: str
    tag: int = 6


@dataclass(frozen=True)
class IPAddress(GeneralName):
    """An address, of 4 or 16 octets; in name constraints a network."""

    value: Union[ipaddress.IPv4Address, ipaddress.IPv6Address, ipaddress.IPv4Network, ipaddress.IPv6Network]
    tag: int = 7


@dataclass(frozen=True)
class RegisteredID(GeneralName):
    """An object identifier."""

    value: ObjectIdentifier
    tag: int = 8


@dataclass(frozen=True)
class UnreadableName(GeneralName):
    """A name whose octets are none of its kind, as an address of 5 octets. The value is its octets, as they stand."""

    value: bytes
    tag: int


def _general_name(tag: int, readable: bool, oid: bytes, value: bytes) -> GeneralName:
    if not readable:
        return UnreadableName(value, tag)
    if tag == 0:
        return OtherName(identifier(oid), value)
    if tag == 1:
        return RFC822Name(value.decode("utf-8"))
    if tag == 2:
        return DNSName(value.decode("utf-8"))
    if tag == 3:
        return X400Address(value)
    if tag == 4:
        return DirectoryName(Name(value))
    if tag == 5:
        return EDIPartyName(value)
    if tag == 6:
        return UniformResourceIdentifier(value.decode("utf-8"))
    if tag == 7 and len(value) in (4, 16):
        return IPAddress(ipaddress.ip_address(value))
    if tag == 8:
        return RegisteredID(identifier(value))
    return UnreadableName(value, tag)


def _general_name_rows(at: int, length: int) -> List[Numbers]:
    return _GENERAL_NAMES.ask(
        lambda memory: lib.rtv_read_general_names(at, length, memory.rows, memory.room, memory.counts, memory.second)
    )[1]


def names_in(buffer: Buffer, rows: Iterable[Numbers]) -> Tuple[GeneralName, ...]:
    """The names in rows of the library."""
    return tuple(
        _general_name(
            tag,
            readable == 1,
            buffer.window(oid_at, oid_length),
            buffer.element(at, length) if tag == 4 and readable else buffer.window(at, length),
        )
        for oid_at, oid_length, at, length, tag, readable in rows
    )


def general_names(raw: bytes) -> Tuple[GeneralName, ...]:
    buffer = Buffer(raw)
    return names_in(buffer, _general_name_rows(buffer.address, buffer.length))


def dns_names(buffer: Buffer, at: int, length: int) -> List[str]:
    """The names of hosts in a window that is an alternative name, in order. Of use in this package only."""
    found, data, base, end = [], buffer.data, buffer.address, at + length
    for _, _, name_at, name_length, tag, readable in _general_name_rows(at, length):
        if tag != 2 or not readable:
            continue
        if name_length and (name_at < at or name_at + name_length > end):
            raise outside()
        found.append(str(data[name_at - base : name_at - base + name_length], "utf-8") if name_length else "")
    return found


def network(name: GeneralName) -> GeneralName:
    """The name where it is one of name constraints: there an address and its mask are a network (RFC 5280, 4.2.1.10).

    A mask that isn't ones before zeros, or an address that has more than its mask, leaves it unreadable.
    """
    if not isinstance(name, UnreadableName) or name.tag != 7 or len(name.value) not in (8, 32):
        return name
    half = len(name.value) // 2
    bits = int.from_bytes(name.value[half:], "big")
    ones = bin(bits).count("1")
    try:
        found = ipaddress.ip_network((name.value[:half], ones))
    except ValueError:
        return name
    return IPAddress(found) if int(found.netmask) == bits else name
