"""Lists of revoked certificates, and their index."""

from __future__ import annotations

from bisect import bisect_left
from dataclasses import dataclass, field
from datetime import datetime
from typing import Any, Callable, Iterator, List, Optional, Sequence, Tuple, Union, overload

from ._library import (
    Buffer,
    Caller,
    EntryExtensionRow,
    ExtensionRow,
    IndexRow,
    Kind,
    ListStruct,
    Memory,
    Numbers,
    Octets,
    RevokedRow,
    lib,
    placed,
    refuse,
)
from ._names import Name
from ._objects import SignedObject, kept, serial_contents, signed_number, utc
from .errors import Refused, Status
from .extensions import Extensions, read_extensions
from .values import ReasonFlags, reason_of

_LISTS = Caller(ListStruct, ExtensionRow, 8, "extension_count")
_ENTRIES = Caller(ListStruct, RevokedRow, 0, "revoked_count")
_INDEXES = Caller(None, IndexRow)
_ENTRY = Caller(RevokedRow)
_ENTRY_EXTENSIONS = Caller(None, EntryExtensionRow)
_POSITION = Caller()


@dataclass(frozen=True)
class RevokedCertificate:
    """An entry of a list."""

    serial_octets: bytes
    """The octets of the serial number, as they stand."""

    revocation_seconds: int
    """When the certificate was revoked, in seconds since 1970-01-01T00:00:00Z."""

    extension_count: int
    """How many extensions the entry has; extensions that can't be read count as none."""

    raw_extensions: bytes = field(default=b"", repr=False)
    """The extensions: the whole SEQUENCE, with its header, as it stands; empty where there are none."""

    reason_code: Optional[int] = None
    """The number of the reason (RFC 5280, 5.3.1); None where none is told, or none that can be read."""

    _read: Optional[Callable[[], Extensions]] = field(default=None, repr=False, compare=False)

    @kept
    def extensions(self) -> Extensions:
        """The extensions, in order, as CRLReason. Their values are read when they are asked for.

        Those of all entries of the list are read when they are first asked for of one.
        """
        return self._read() if self._read else Extensions(())

    @property
    def reason(self) -> Optional[ReasonFlags]:
        """Why the certificate was revoked; None where that isn't told, or its number has no name."""
        return None if self.reason_code is None else reason_of(self.reason_code)

    def __reduce__(self) -> Tuple[Callable[..., Any], Tuple[Any, ...]]:
        told = (self.serial_octets, self.revocation_seconds, self.extension_count, self.raw_extensions)
        return _entry_with, (*told, self.reason_code, self.extensions)  # not the whole list

    @property
    def serial_number(self) -> int:
        """The serial number: the first bit of its octets is the sign."""
        return signed_number(self.serial_octets)

    @property
    def revocation_date_utc(self) -> datetime:
        """When the certificate was revoked, in UTC. ValueError where a datetime can't hold it."""
        return utc(self.revocation_seconds)


def _entry_with(
    serial: bytes, seconds: int, count: int, raw: bytes, reason: Optional[int], extensions: Extensions
) -> RevokedCertificate:
    """An entry with extensions that were read."""
    return RevokedCertificate(serial, seconds, count, raw, reason, lambda: extensions)


class _EntryNumbers(Sequence[int]):
    """Of each extension of the entries of a list, in order, the position of its entry."""

    def __init__(self, rows: Memory, count: int) -> None:
        self.rows = rows
        self._count = count

    def __len__(self) -> int:
        return self._count

    def __getitem__(self, position: Any) -> Any:
        return _ENTRY_EXTENSIONS.row_in(self.rows, position)[4]


class CertificateRevocationList(SignedObject):
    """A list of revoked certificates: its entries, in order. Its signature isn't checked. See load_crl."""

    _kind = Kind.LIST
    _place = _LISTS.place

    def __init__(self, buffer: Buffer, found: Numbers, extensions: List[Numbers], strict: bool) -> None:
        super().__init__(buffer, found)
        self._extensions = extensions
        self._strict = strict

    @property
    def version_number(self) -> Optional[int]:
        """The version as it is written: 1 is v2; None where none is written, which means v1."""
        return self._number("version") if self._number("has_version") else None

    @kept
    def issuer(self) -> Name:
        """Who issued the list."""
        return Name(self._element("issuer"))

    @property
    def last_update_utc(self) -> datetime:
        """When the list was made, in UTC. ValueError where a datetime can't hold it."""
        return utc(self._number("this_update"))

    @property
    def next_update_utc(self) -> Optional[datetime]:
        """When the next list is due, in UTC; None where it isn't told. ValueError where a datetime can't hold it."""
        return utc(self._number("next_update")) if self._number("has_next_update") else None

    @property
    def last_update_seconds(self) -> int:
        """When the list was made, in seconds since 1970-01-01T00:00:00Z."""
        return self._number("this_update")

    @property
    def next_update_seconds(self) -> Optional[int]:
        """When the next list is due, in seconds since 1970-01-01T00:00:00Z; None where it isn't told."""
        return self._number("next_update") if self._number("has_next_update") else None

    @property
    def tbs_certlist_bytes(self) -> bytes:
        """The octets that the signature is over."""
        return self._window("signed_part")

    @kept
    def extensions(self) -> Extensions:
        """The extensions of the list, in order. Their values are read when they are asked for."""
        return read_extensions(self._buffer, self._extensions)

    def get_revoked_certificate_by_serial_number(self, serial: Union[int, Octets]) -> Optional[RevokedCertificate]:
        """The first entry with that serial number, a number or its octets; None where there is none.

        The octets are compared as unsigned numbers, so that an entry whose issuer left out an octet 0 in front is
        found. The whole list is read each time: for many look-ups, make an Index.
        """
        buffer, wanted, memory = self._buffer, Buffer(serial_contents(serial)), _ENTRY.take()
        status = lib.rtv_find_revoked(
            buffer.address, buffer.length, wanted.address, wanted.length, memory.head, memory.counts, memory.second
        )
        if status and status != Status.NOT_FOUND:
            refuse(status, memory.at)
        found = None if status else self._entry(memory.count, _ENTRY.head_in(memory))
        _ENTRY.free.append(memory)
        return found

    @kept
    def _rows(self) -> Memory:
        """A row for each entry, of 48 octets: read when the first entry is asked for."""
        buffer, strict = self._buffer, self._strict

        def call(memory: Memory) -> Any:
            entries = (memory.rows, memory.room)
            none = (memory.head, 0)
            return lib.rtv_read_list(buffer.address, buffer.length, strict, memory.head, *entries, *none, memory.second)

        return _ENTRIES.hold(call, len(self))[0]

    @kept
    def _entry_extensions(self) -> _EntryNumbers:
        """A row for each extension of an entry, of 48 octets: read when those of an entry are asked for."""
        buffer = self._buffer
        found = _ENTRY_EXTENSIONS.hold(
            lambda memory: lib.rtv_read_entry_extensions(
                buffer.address, buffer.length, memory.rows, memory.room, memory.counts, memory.second
            ),
            0,
        )
        return _EntryNumbers(*found)

    def _extensions_of(self, position: int, count: int) -> Extensions:
        """Those of the entry at a position, which has so many."""
        first = bisect_left(self._entry_extensions, position)
        rows = [_ENTRY_EXTENSIONS.row_in(self._entry_extensions.rows, row) for row in range(first, first + count)]
        if any(row[4] != position for row in rows):
            raise RuntimeError("the extensions of an entry are others than the library told")
        return read_extensions(self._buffer, [(*row[:4], row[5]) for row in rows])

    def _entry(self, position: int, row: Numbers) -> RevokedCertificate:
        at, length, seconds, count, reason, has_reason = row
        serial, code = self._buffer.window(at, length), reason if has_reason else None
        if not count:
            return RevokedCertificate(serial, seconds, 0, b"", code)
        # behind the serial stands a time, and behind that these; both are longer than six octets
        time = self._buffer.element(at + length, 6)
        extensions = self._buffer.element(at + length + len(time), 6)
        return RevokedCertificate(
            serial, seconds, count, extensions, code, lambda: self._extensions_of(position, count)
        )

    def __len__(self) -> int:
        return self._number("revoked_count")

    def __iter__(self) -> Iterator[RevokedCertificate]:
        """The entries, in order, made one by one."""
        found = self._rows
        for position in range(len(self)):
            yield self._entry(position, _ENTRIES.row_in(found, position))

    @overload
    def __getitem__(self, position: int) -> RevokedCertificate: ...

    @overload
    def __getitem__(self, position: slice) -> List[RevokedCertificate]: ...

    def __getitem__(self, position: Union[int, slice]) -> Union[RevokedCertificate, List[RevokedCertificate]]:
        """The entry at a position, from 0 on, or the entries of a slice."""
        chosen = range(len(self))[position]
        if isinstance(chosen, int):
            return self._entry(chosen, _ENTRIES.row_in(self._rows, chosen))
        return [self._entry(one, _ENTRIES.row_in(self._rows, one)) for one in chosen]

    def __repr__(self) -> str:
        return f"<CertificateRevocationList(issuer={self.issuer!r}, {len(self)} entries)>"

    def __reduce__(self) -> Tuple[Callable[..., Any], Tuple[bytes]]:
        return load_crl, (self._buffer.data,)


class Index:
    """An index of a list, for many look-ups: each takes some twenty steps where the list has a million entries."""

    def __init__(self, crl: Octets) -> None:
        """Reads the list (DER) at the front of the octets. Raises Refused, or MemoryError."""
        self._buffer = buffer = Buffer(crl)
        self._rows, self._count = _INDEXES.hold(
            lambda memory: lib.rtv_index_build(
                buffer.address, buffer.length, memory.rows, memory.room, memory.counts, memory.second
            ),
            0,
        )

    def find(self, serial: Union[int, Octets]) -> Optional[int]:
        """The position of the first entry with that serial number, from 0 on; None where there is none.

        Compared as CertificateRevocationList.get_revoked_certificate_by_serial_number does.
        """
        wanted, memory = Buffer(serial_contents(serial)), _POSITION.take()
        status = lib.rtv_index_find(self._rows.rows, self._count, wanted.address, wanted.length, memory.counts)
        if status and status != Status.NOT_FOUND:
            refuse(status)
        found = None if status else memory.count
        _POSITION.free.append(memory)
        return found

    def __len__(self) -> int:
        return self._count

    def __repr__(self) -> str:
        return f"<Index({self._count} entries)>"

    def __reduce__(self) -> Tuple[Callable[..., Any], Tuple[bytes]]:
        return Index, (self._buffer.data,)


def load_crl(data: Octets, *, strict: bool = False) -> CertificateRevocationList:
    """Reads the list of revoked certificates (DER) at the front of the octets. Octets behind it are `rest`.

    strict: what needs one of the reader's lenient rules is refused too. Raises Refused, or MemoryError.
    """
    buffer = Buffer(data)
    try:
        found, extensions = _LISTS.ask(
            lambda memory: lib.rtv_read_list(
                buffer.address,
                buffer.length,
                strict,
                memory.head,
                memory.head,
                0,
                memory.rows,
                memory.room,
                memory.second,
            )
        )
    except Refused as refused:
        raise placed(refused, buffer, Kind.LIST)
    return CertificateRevocationList(buffer, found, extensions, strict)
