"""The C library: where it is found, its structs and its calls, in the order of its header.

Octets go in as the address of `bytes`, which is never NULL. Windows come out as addresses in them: a Buffer keeps the
octets as long as windows of theirs are used, and copies them out. While a call runs, other threads of the program do
too.

What a call writes into is a Memory. A Caller keeps those that are free, so that a call takes no new one, and no two
calls have the same: not in two threads, and not where a signal's handler calls in between. Structs are read from it as
tuples of numbers by a Layout, which is quicker than field by field.
"""

from __future__ import annotations

import ctypes
import ctypes.util
import json
import os
import struct
from ctypes import POINTER, addressof, c_bool, c_char, c_char_p, c_int64, c_size_t, c_uint32, c_uint64, c_void_p
from enum import IntEnum
from functools import lru_cache
from pathlib import Path
from typing import Any, Callable, Dict, Iterator, List, NoReturn, Optional, Tuple, Type, Union

from .errors import Refused, Status
from .oid import ObjectIdentifier

Octets = Union[bytes, bytearray, memoryview]

HEADER_VERSION = 200
"""The version of the header that this module was written after: 0.2.0."""


# ---- structs


class Bytes(ctypes.Structure):
    """A window: an address in the octets that were read, and a length."""

    _fields_ = [("at", c_void_p), ("length", c_size_t)]


class CertificateStruct(ctypes.Structure):
    """What rtv_read_certificate tells."""

    _fields_ = [
        ("whole", Bytes),
        ("rest", Bytes),
        ("signed_part", Bytes),
        ("serial", Bytes),
        ("issuer", Bytes),
        ("subject", Bytes),
        ("key_info", Bytes),
        ("key_algorithm", Bytes),
        ("key_bits", Bytes),
        ("signature_algorithm", Bytes),
        ("signature", Bytes),
        ("not_before", c_int64),
        ("not_after", c_int64),
        ("key_size", c_size_t),
        ("extension_count", c_size_t),
        ("version", c_uint32),
    ]


class ExtensionRow(ctypes.Structure):
    """An extension of a certificate or of a list."""

    _fields_ = [("oid", Bytes), ("value", Bytes), ("critical", c_uint32)]


class ListStruct(ctypes.Structure):
    """What rtv_read_list tells."""

    _fields_ = [
        ("whole", Bytes),
        ("rest", Bytes),
        ("signed_part", Bytes),
        ("issuer", Bytes),
        ("signed_algorithm", Bytes),
        ("signature_algorithm", Bytes),
        ("signature", Bytes),
        ("this_update", c_int64),
        ("next_update", c_int64),
        ("revoked_count", c_size_t),
        ("extension_count", c_size_t),
        ("has_next_update", c_uint32),
        ("version", c_uint32),
        ("has_version", c_uint32),
    ]


class RevokedRow(ctypes.Structure):
    """An entry of a list."""

    _fields_ = [
        ("serial", Bytes),
        ("revocation_date", c_int64),
        ("extension_count", c_size_t),
        ("reason", c_uint32),
        ("has_reason", c_uint32),
    ]


class EntryExtensionRow(ctypes.Structure):
    """An extension of an entry of a list."""

    _fields_ = [("oid", Bytes), ("value", Bytes), ("entry", c_size_t), ("critical", c_uint32)]


class IndexRow(ctypes.Structure):
    """A row of an index."""

    _fields_ = [("serial", Bytes), ("position", c_size_t)]


class RequestStruct(ctypes.Structure):
    """What rtv_read_request tells."""

    _fields_ = [
        ("whole", Bytes),
        ("rest", Bytes),
        ("signed_part", Bytes),
        ("subject", Bytes),
        ("key_info", Bytes),
        ("key_algorithm", Bytes),
        ("key_bits", Bytes),
        ("signature_algorithm", Bytes),
        ("signature", Bytes),
        ("key_size", c_size_t),
        ("attribute_count", c_size_t),
        ("version", c_uint32),
    ]


class RequestAttributeRow(ctypes.Structure):
    """An attribute of a request."""

    _fields_ = [("oid", Bytes), ("value", Bytes)]


class AttributeRow(ctypes.Structure):
    """An attribute of a name."""

    _fields_ = [("oid", Bytes), ("value", Bytes), ("relative", c_size_t), ("tag", c_uint32)]


class GeneralNameRow(ctypes.Structure):
    """A name of an alternative name."""

    _fields_ = [("id", Bytes), ("value", Bytes), ("tag", c_uint32), ("readable", c_uint32)]


class BasicConstraintsStruct(ctypes.Structure):
    """What rtv_read_basic_constraints tells."""

    _fields_ = [("ca", c_uint32), ("has_path_length", c_uint32), ("path_length", c_uint32)]


class ExtendedKeyUsageStruct(ctypes.Structure):
    """What rtv_read_extended_key_usage tells."""

    _fields_ = [
        ("other_count", c_size_t),
        ("any", c_uint32),
        ("server_auth", c_uint32),
        ("client_auth", c_uint32),
        ("code_signing", c_uint32),
        ("email_protection", c_uint32),
        ("time_stamping", c_uint32),
        ("ocsp_signing", c_uint32),
    ]


class AuthorityKeyStruct(ctypes.Structure):
    """What rtv_read_authority_key tells."""

    _fields_ = [
        ("key_identifier", Bytes),
        ("serial", Bytes),
        ("issuer_count", c_size_t),
        ("has_key_identifier", c_uint32),
        ("has_issuer", c_uint32),
        ("has_serial", c_uint32),
    ]


class PolicyRow(ctypes.Structure):
    """A policy of a certificate."""

    _fields_ = [("oid", Bytes), ("qualifier_count", c_size_t)]


class QualifierRow(ctypes.Structure):
    """A qualifier of a policy."""

    _fields_ = [("oid", Bytes), ("value", Bytes)]


class PolicyQualifierRow(ctypes.Structure):
    """A qualifier, and the position of its policy."""

    _fields_ = [("oid", Bytes), ("value", Bytes), ("policy", c_size_t)]


class AccessRow(ctypes.Structure):
    """An access to more information."""

    _fields_ = [("method", Bytes), ("location", GeneralNameRow)]


class DistributionPointStruct(ctypes.Structure):
    """What is told of a distribution point."""

    _fields_ = [
        ("name_count", c_size_t),
        ("issuer_count", c_size_t),
        ("name_kind", c_uint32),
        ("has_reasons", c_uint32),
        ("reasons", c_uint32),
        ("has_issuer", c_uint32),
    ]


class PointNameRow(ctypes.Structure):
    """A general name, and the position of its distribution point."""

    _fields_ = [("name", GeneralNameRow), ("point", c_size_t)]


class NameConstraintsStruct(ctypes.Structure):
    """What rtv_read_name_constraints tells."""

    _fields_ = [
        ("permitted_count", c_size_t),
        ("excluded_count", c_size_t),
        ("has_permitted", c_uint32),
        ("has_excluded", c_uint32),
    ]


class TimestampRow(ctypes.Structure):
    """A signed certificate timestamp."""

    _fields_ = [
        ("log_id", Bytes),
        ("extensions", Bytes),
        ("signature", Bytes),
        ("timestamp", c_uint64),
        ("version", c_uint32),
        ("hash_algorithm", c_uint32),
        ("signature_algorithm", c_uint32),
    ]


class PolicyConstraintsStruct(ctypes.Structure):
    """What rtv_read_policy_constraints tells."""

    _fields_ = [
        ("has_require_explicit_policy", c_uint32),
        ("require_explicit_policy", c_uint32),
        ("has_inhibit_policy_mapping", c_uint32),
        ("inhibit_policy_mapping", c_uint32),
    ]


class PolicyMappingRow(ctypes.Structure):
    """A mapping of policies."""

    _fields_ = [("issuer_domain_policy", Bytes), ("subject_domain_policy", Bytes)]


class IssuingPointStruct(ctypes.Structure):
    """What rtv_read_issuing_distribution_point tells."""

    _fields_ = [
        ("name_count", c_size_t),
        ("name_kind", c_uint32),
        ("only_user_certs", c_uint32),
        ("only_ca_certs", c_uint32),
        ("has_reasons", c_uint32),
        ("reasons", c_uint32),
        ("indirect_crl", c_uint32),
        ("only_attribute_certs", c_uint32),
    ]


class KeyInfoStruct(ctypes.Structure):
    """What rtv_read_key_info tells."""

    _fields_ = [
        ("algorithm", Bytes),
        ("parameters", Bytes),
        ("bits", Bytes),
        ("has_parameters", c_uint32),
        ("parameters_tag", c_uint32),
        ("unused_bits", c_uint32),
    ]


class RsaKeyStruct(ctypes.Structure):
    """What rtv_read_rsa_key tells."""

    _fields_ = [("modulus", Bytes), ("exponent", Bytes)]


class LenientUseRow(ctypes.Structure):
    """A lenient rule that an object uses."""

    _fields_ = [("at", c_size_t), ("rule", c_uint32)]


class RefusedValueRow(ctypes.Structure):
    """A value of an extension that can't be read."""

    _fields_ = [("at", c_size_t), ("value_at", c_size_t), ("value_length", c_size_t), ("status", c_uint32)]


class Number(ctypes.Structure):
    """What calls tell that tell one number: no struct of the header."""

    _fields_ = [("number", c_uint32)]


class Seconds(ctypes.Structure):
    """What rtv_read_invalidity_date tells: no struct of the header, but a time."""

    _fields_ = [("seconds", c_int64)]


class Window(ctypes.Structure):
    """What calls tell that tell one window, or a row of them."""

    _fields_ = [("window", Bytes)]


STRUCTS: Dict[str, Type[ctypes.Structure]] = {
    "rtv_bytes": Bytes,
    "rtv_certificate": CertificateStruct,
    "rtv_extension": ExtensionRow,
    "rtv_list": ListStruct,
    "rtv_revoked": RevokedRow,
    "rtv_entry_extension": EntryExtensionRow,
    "rtv_index_row": IndexRow,
    "rtv_request": RequestStruct,
    "rtv_request_attribute": RequestAttributeRow,
    "rtv_attribute": AttributeRow,
    "rtv_general_name": GeneralNameRow,
    "rtv_basic_constraints": BasicConstraintsStruct,
    "rtv_extended_key_usage": ExtendedKeyUsageStruct,
    "rtv_authority_key": AuthorityKeyStruct,
    "rtv_policy": PolicyRow,
    "rtv_qualifier": QualifierRow,
    "rtv_policy_qualifier": PolicyQualifierRow,
    "rtv_access": AccessRow,
    "rtv_distribution_point": DistributionPointStruct,
    "rtv_point_name": PointNameRow,
    "rtv_name_constraints": NameConstraintsStruct,
    "rtv_timestamp": TimestampRow,
    "rtv_policy_constraints": PolicyConstraintsStruct,
    "rtv_policy_mapping": PolicyMappingRow,
    "rtv_issuing_distribution_point": IssuingPointStruct,
    "rtv_key_info": KeyInfoStruct,
    "rtv_rsa_key": RsaKeyStruct,
    "rtv_lenient_use": LenientUseRow,
    "rtv_refused_value": RefusedValueRow,
}


# ---- calls

_OCTETS = [c_char_p, c_size_t]
_SIZE = POINTER(c_size_t)
_TEXT = [c_char_p, c_size_t, _SIZE]
_NUMBERS = (c_bool, c_size_t, c_uint32)

CALLS: Dict[str, Tuple[Any, List[Any]]] = {
    "rtv_version": (c_uint32, []),
    "rtv_read_certificate": (
        c_uint32,
        [*_OCTETS, c_bool, c_bool, POINTER(CertificateStruct), POINTER(ExtensionRow), c_size_t, _SIZE],
    ),
    "rtv_read_list": (
        c_uint32,
        [
            *_OCTETS,
            c_bool,
            POINTER(ListStruct),
            POINTER(RevokedRow),
            c_size_t,
            POINTER(ExtensionRow),
            c_size_t,
            _SIZE,
        ],
    ),
    "rtv_find_revoked": (c_uint32, [*_OCTETS, *_OCTETS, POINTER(RevokedRow), _SIZE, _SIZE]),
    "rtv_read_entry_extensions": (c_uint32, [*_OCTETS, POINTER(EntryExtensionRow), c_size_t, _SIZE, _SIZE]),
    "rtv_index_build": (c_uint32, [*_OCTETS, POINTER(IndexRow), c_size_t, _SIZE, _SIZE]),
    "rtv_index_find": (c_uint32, [POINTER(IndexRow), c_size_t, *_OCTETS, _SIZE]),
    "rtv_read_request": (
        c_uint32,
        [*_OCTETS, c_bool, POINTER(RequestStruct), POINTER(RequestAttributeRow), c_size_t, _SIZE],
    ),
    "rtv_read_name": (c_uint32, [*_OCTETS, POINTER(AttributeRow), c_size_t, _SIZE, _SIZE]),
    "rtv_read_general_names": (c_uint32, [*_OCTETS, POINTER(GeneralNameRow), c_size_t, _SIZE, _SIZE]),
    "rtv_read_key_usage": (c_uint32, [*_OCTETS, POINTER(c_uint32), _SIZE]),
    "rtv_read_basic_constraints": (c_uint32, [*_OCTETS, POINTER(BasicConstraintsStruct), _SIZE]),
    "rtv_read_extended_key_usage": (
        c_uint32,
        [*_OCTETS, POINTER(ExtendedKeyUsageStruct), POINTER(Bytes), c_size_t, _SIZE],
    ),
    "rtv_read_key_identifier": (c_uint32, [*_OCTETS, POINTER(Bytes), _SIZE]),
    "rtv_read_authority_key": (
        c_uint32,
        [*_OCTETS, POINTER(AuthorityKeyStruct), POINTER(GeneralNameRow), c_size_t, _SIZE],
    ),
    "rtv_read_policies": (c_uint32, [*_OCTETS, POINTER(PolicyRow), c_size_t, _SIZE, _SIZE]),
    "rtv_read_qualifiers": (c_uint32, [*_OCTETS, c_size_t, POINTER(QualifierRow), c_size_t, _SIZE, _SIZE]),
    "rtv_read_policy_qualifiers": (c_uint32, [*_OCTETS, POINTER(PolicyQualifierRow), c_size_t, _SIZE, _SIZE]),
    "rtv_read_accesses": (c_uint32, [*_OCTETS, POINTER(AccessRow), c_size_t, _SIZE, _SIZE]),
    "rtv_read_distribution_point": (
        c_uint32,
        [
            *_OCTETS,
            c_size_t,
            POINTER(DistributionPointStruct),
            POINTER(GeneralNameRow),
            c_size_t,
            POINTER(GeneralNameRow),
            c_size_t,
            _SIZE,
        ],
    ),
    "rtv_read_distribution_points": (c_uint32, [*_OCTETS, POINTER(DistributionPointStruct), c_size_t, _SIZE, _SIZE]),
    "rtv_read_point_names": (c_uint32, [*_OCTETS, POINTER(PointNameRow), c_size_t, _SIZE, _SIZE]),
    "rtv_read_point_issuers": (c_uint32, [*_OCTETS, POINTER(PointNameRow), c_size_t, _SIZE, _SIZE]),
    "rtv_read_name_constraints": (
        c_uint32,
        [
            *_OCTETS,
            POINTER(NameConstraintsStruct),
            POINTER(GeneralNameRow),
            c_size_t,
            POINTER(GeneralNameRow),
            c_size_t,
            _SIZE,
        ],
    ),
    "rtv_read_timestamps": (c_uint32, [*_OCTETS, POINTER(TimestampRow), c_size_t, _SIZE, _SIZE]),
    "rtv_read_policy_constraints": (c_uint32, [*_OCTETS, POINTER(PolicyConstraintsStruct), _SIZE]),
    "rtv_read_inhibit_any_policy": (c_uint32, [*_OCTETS, POINTER(c_uint32), _SIZE]),
    "rtv_read_policy_mappings": (c_uint32, [*_OCTETS, POINTER(PolicyMappingRow), c_size_t, _SIZE, _SIZE]),
    "rtv_read_crl_number": (c_uint32, [*_OCTETS, POINTER(Bytes), _SIZE]),
    "rtv_read_issuing_distribution_point": (
        c_uint32,
        [*_OCTETS, POINTER(IssuingPointStruct), POINTER(GeneralNameRow), c_size_t, _SIZE],
    ),
    "rtv_read_reason_code": (c_uint32, [*_OCTETS, POINTER(c_uint32), _SIZE]),
    "rtv_read_invalidity_date": (c_uint32, [*_OCTETS, POINTER(c_int64), _SIZE]),
    "rtv_read_ns_cert_type": (c_uint32, [*_OCTETS, POINTER(c_uint32), _SIZE]),
    "rtv_read_ns_comment": (c_uint32, [*_OCTETS, POINTER(Bytes), _SIZE]),
    "rtv_read_key_info": (c_uint32, [*_OCTETS, POINTER(KeyInfoStruct), _SIZE]),
    "rtv_read_rsa_key": (c_uint32, [*_OCTETS, POINTER(RsaKeyStruct), _SIZE]),
    "rtv_signature_kind": (c_uint32, _OCTETS),
    "rtv_word": (c_size_t, [c_uint32, c_char_p, c_size_t]),
    "rtv_name_text": (c_uint32, [*_OCTETS, *_TEXT, _SIZE]),
    "rtv_hex_text": (c_uint32, [*_OCTETS, *_TEXT]),
    "rtv_oid_text": (c_uint32, [*_OCTETS, *_TEXT]),
    "rtv_oid_word": (c_uint32, [*_OCTETS, *_TEXT, *_TEXT]),
    "rtv_validate": (c_uint32, [*_OCTETS, *_TEXT, POINTER(c_uint32), _SIZE]),
    "rtv_json": (c_uint32, [*_OCTETS, c_uint32, c_bool, *_TEXT]),
    "rtv_field_path": (c_uint32, [*_OCTETS, c_uint32, c_size_t, *_TEXT]),
    "rtv_leniencies": (c_uint32, [*_OCTETS, c_uint32, POINTER(LenientUseRow), c_size_t, _SIZE]),
    "rtv_rule_word": (c_size_t, [c_uint32, c_char_p, c_size_t]),
    "rtv_refused_values": (c_uint32, [*_OCTETS, c_uint32, POINTER(RefusedValueRow), c_size_t, _SIZE]),
}
"""The type of the result, and those of the arguments. Pointers are handed over as plain addresses."""


def _file() -> str:
    """Where the shared library is."""
    told = os.environ.get("RUSHTRIVET_LIBRARY")
    if told:
        return told
    here = Path(__file__).resolve()
    beside = here.parent / "librushtrivet.so"
    if beside.is_file():
        return str(beside)
    found = ctypes.util.find_library("rushtrivet")
    if found:
        return found
    if len(here.parents) > 4:
        repository = here.parents[4]
        built = repository / "build" / "lib" / "librushtrivet.so"
        if (repository / "include" / "rushtrivet.h").is_file() and built.is_file():
            return str(built)
    raise ImportError("librushtrivet.so was not found: set RUSHTRIVET_LIBRARY to its path")


def load(file: str) -> ctypes.CDLL:
    """The library in the file, with the types of its calls. ImportError where it is none, or another version."""
    try:
        library = ctypes.CDLL(file)
        for name, (result, arguments) in CALLS.items():
            call = getattr(library, name)
            call.restype = result
            call.argtypes = [argument if argument in _NUMBERS else c_void_p for argument in arguments]
    except (OSError, AttributeError) as error:
        raise ImportError(f"this is not the library that rushtrivet needs: {error}") from error
    version = library.rtv_version()
    if version // 100 != HEADER_VERSION // 100 or version < HEADER_VERSION:
        wanted, found = version_text(HEADER_VERSION), version_text(version)
        raise ImportError(f"rushtrivet needs its library in version {wanted} or a later {wanted[:-2]}, not {found}")
    return library


def version_text(version: int) -> str:
    """The version as a text: 100 is "0.1.0"."""
    return f"{version // 10000}.{version // 100 % 100}.{version % 100}"


lib = load(_file())


# ---- memory


_CODES: Dict[Any, str] = {c_int64: "q", c_uint64: "Q", c_size_t: "N", c_uint32: "I"}  # c_size_t may be c_uint64


class Layout:
    """How a struct stands in memory: it is read as a tuple of numbers; a window has two, address and length."""

    def __init__(self, kind: Type[ctypes.Structure]) -> None:
        self.place: Dict[str, int] = {}
        """Of each field, where its number, or the address of its window, stands in the tuple."""

        self._codes = ""
        self._blank: List[int] = []
        self._add(kind)
        padding = ctypes.sizeof(kind) - struct.calcsize("@" + self._codes)
        self._struct = struct.Struct(f"@{self._codes}{padding}x")
        self.size = self._struct.size
        self.read_at: Callable[[bytearray, int], Tuple[int, ...]] = self._struct.unpack_from
        self.read_all: Callable[[bytearray], Iterator[Tuple[int, ...]]] = self._struct.iter_unpack

    def _add(self, kind: Type[ctypes.Structure]) -> None:
        """The codes of the numbers, and the numbers of a struct that holds valid values: no address in it is NULL."""
        for name, field in kind._fields_:  # type: ignore[misc]
            self.place.setdefault(name, len(self._codes))
            if field is Bytes:
                self._codes += "PN"
                self._blank += [addressof(_EMPTY), 0]
            elif isinstance(field, type(ctypes.Structure)):
                self._add(field)
            else:
                self._codes += _CODES[field]
                self._blank.append(0)

    def blank(self, count: int) -> bytes:
        """So many structs that hold valid values, as the library wants them."""
        return self._struct.pack(*self._blank) * count


_EMPTY = ctypes.create_string_buffer(1)

_NO_STRUCTS: List[Type[ctypes.Structure]] = [Number, Seconds, Window]

LAYOUTS: Dict[Type[ctypes.Structure], Layout] = {
    kind: Layout(kind) for kind in [*STRUCTS.values(), *_NO_STRUCTS] if kind is not Bytes
}

_COUNTS = struct.Struct("@NN")


class Memory:
    """What one call writes into: two numbers, a struct, and rows."""

    __slots__ = ("octets", "room", "counts", "second", "head", "rows", "_view")

    def __init__(self, head: Optional[Layout], row: Optional[Layout], room: int) -> None:
        self.octets = bytearray(_COUNTS.size)
        if head:
            self.octets += head.blank(1)
        first = len(self.octets)
        if row:
            self.octets += row.blank(max(room, 1))
        self.room = room
        self._view = c_char.from_buffer(self.octets)  # nothing moves them as long as it is there
        self.counts = addressof(self._view)
        """The address of the first number: of a count, a length or a position."""
        self.second = self.counts + _COUNTS.size // 2
        """The address of the second number: of the octet of a refusal."""
        self.head = self.counts + _COUNTS.size
        self.rows = self.counts + first

    @property
    def count(self) -> int:
        """The first number."""
        return int(_COUNTS.unpack_from(self.octets)[0])

    @property
    def at(self) -> int:
        """The second number."""
        return int(_COUNTS.unpack_from(self.octets)[1])


Numbers = Tuple[int, ...]
Asked = Callable[[Memory], Any]
"""A call that writes into the memory, and its status."""


class Caller:
    """The memories of one kind of call, which writes a struct of one kind and rows of one kind."""

    def __init__(
        self,
        head: Optional[Type[ctypes.Structure]] = None,
        row: Optional[Type[ctypes.Structure]] = None,
        room: int = 0,
        count: Optional[str] = None,
    ) -> None:
        """room: how many rows there mostly are. count: the field of the struct that tells how many there are, where
        that isn't the first number."""
        self.room = room
        self.free: List[Memory] = []
        self._head = LAYOUTS[head] if head else None
        self._row = LAYOUTS[row] if row else None
        self._count = self._head.place[count] if self._head and count else None
        self._read_head = self._head.read_at if self._head else None
        self._first_row = _COUNTS.size + (self._head.size if self._head else 0)

    @property
    def place(self) -> Dict[str, int]:
        """Where each field of the struct stands in its numbers."""
        return self._head.place if self._head else {}

    def take(self) -> Memory:
        """A memory that no other call has."""
        try:
            return self.free.pop()
        except IndexError:
            return Memory(self._head, self._row, self.room)

    def ask(self, call: Asked, whole: bool = True) -> Tuple[Numbers, List[Numbers]]:
        """The struct and the rows that the call writes. Where there was no room for all rows, it is asked once more, unless
        the first will do: whole is false."""
        memory = self.take()
        while True:
            status = call(memory)
            if status:
                refuse(status, memory.at)
            octets, count = memory.octets, 0
            head = self._read_head(octets, _COUNTS.size) if self._read_head else ()
            if self._row:
                count = _COUNTS.unpack_from(octets)[0] if self._count is None else head[self._count]
            if count <= memory.room:
                break
            if not whole:
                count = memory.room
                break
            memory = Memory(self._head, self._row, count)
        found: List[Numbers] = []
        if self._row and count:
            first = self._first_row
            found = list(self._row.read_all(octets[first : first + count * self._row.size]))
        if memory.room == self.room:
            self.free.append(memory)
        return head, found

    def hold(self, call: Asked, room: int) -> Tuple[Memory, int]:
        """A memory of its own with all rows that the call writes, and how many there are."""
        while True:
            memory = Memory(self._head, self._row, room)
            status = call(memory)
            if status:
                refuse(status, memory.at)
            count = memory.count if self._count is None else self.head_in(memory)[self._count]
            if count <= room:
                return memory, count
            room = count

    def head_in(self, memory: Memory) -> Numbers:
        """The struct in a memory."""
        assert self._head is not None
        return self._head.read_at(memory.octets, _COUNTS.size)

    def row_in(self, memory: Memory, position: int) -> Numbers:
        """A row of a memory that is held."""
        assert self._row is not None
        return self._row.read_at(memory.octets, self._first_row + position * self._row.size)


# ---- octets

_ADDRESS = struct.Struct("@P").unpack


def octets(data: Octets) -> bytes:
    """The octets as `bytes`: a copy, unless they are `bytes`."""
    if type(data) is bytes:
        return data
    if isinstance(data, (bytes, bytearray, memoryview)):
        return bytes(memoryview(data))
    raise TypeError(f"octets must be bytes, bytearray or memoryview, not {type(data).__name__}")


def outside() -> RuntimeError:
    """The error where a window isn't in the octets that were read."""
    return RuntimeError("the library told a window outside of the octets that it read")


class Buffer:
    """Octets that are read, and the address at which they stand."""

    __slots__ = ("data", "address", "length")

    def __init__(self, data: Octets) -> None:
        self.data = data if type(data) is bytes else octets(data)
        self.address: int = _ADDRESS(c_char_p(self.data))[0]
        self.length = len(self.data)

    def __reduce__(self) -> Tuple[Callable[..., Any], Tuple[bytes]]:
        return Buffer, (self.data,)  # in another process, or as a copy, the octets stand elsewhere

    def window(self, at: int, length: int) -> bytes:
        """A copy of the octets of a window. A window that isn't in the octets is an error of the library."""
        if length == 0:
            return b""
        first = at - self.address
        if first < 0 or first + length > self.length:
            raise outside()
        return self.data[first : first + length]

    def element(self, at: int, length: int) -> bytes:
        """A copy of the whole element of DER that begins where the window does, as long as its header tells.

        For names and keys: by a lenient rule the library skips what stands in them behind what it reads, and its
        window ends there. Their octets are wanted whole.
        """
        window = self.window(at, length)
        if len(window) < 2:
            return window
        first, start = window[1], at - self.address
        count = first - 128 if first > 128 else 0
        whole = 2 + count + (int.from_bytes(window[2 : 2 + count], "big") if count else first)
        return window if whole <= length else self.data[start : start + whole]


# ---- texts and statuses

_TEXTS = Caller()


def whole_text(call: Callable[[int, int, Memory], int], room: int = 512) -> bytes:
    """The text that `call(address, room, memory)` writes; it tells the length of the whole."""
    memory = _TEXTS.take()
    while True:
        text = bytearray(room)
        length = call(addressof(c_char.from_buffer(text)), room, memory)
        if length < room:
            _TEXTS.free.append(memory)
            return bytes(text[:length])
        room = length + 1


@lru_cache(maxsize=64)
def word(status: int) -> str:
    """The words of a status."""
    text = whole_text(lambda text, room, _: int(lib.rtv_word(status, text, room)))
    return text.decode("utf-8", "backslashreplace")


@lru_cache(maxsize=16)
def rule_word(rule: int) -> str:
    """The name of a lenient rule."""
    text = whole_text(lambda text, room, _: int(lib.rtv_rule_word(rule, text, room)))
    return text.decode("utf-8", "backslashreplace")


def refuse(status: int, at: Optional[int] = None) -> NoReturn:
    """Raises Refused, or MemoryError for want of memory."""
    if status == Status.OUT_OF_MEMORY:
        raise MemoryError(word(status))
    raise Refused(int(status), word(status), at)


def _oid_text(oid: bytes) -> str:
    buffer = Buffer(oid)

    def call(text: int, room: int, memory: Memory) -> int:
        status = lib.rtv_oid_text(buffer.address, buffer.length, text, room, memory.counts)
        if status:
            refuse(status)
        return memory.count

    return whole_text(call).decode("utf-8", "backslashreplace")


def oid_words(oid: bytes) -> Optional[Tuple[str, str]]:
    """What the registry calls the identifier with these contents, a name and a description; None where it has none."""
    buffer, memory, room = Buffer(oid), _TEXTS.take(), 256
    while True:
        name, description = bytearray(room), bytearray(room)
        status = lib.rtv_oid_word(
            buffer.address,
            buffer.length,
            *(addressof(c_char.from_buffer(name)), room, memory.counts),
            *(addressof(c_char.from_buffer(description)), room, memory.second),
        )
        if status == Status.NOT_FOUND:
            _TEXTS.free.append(memory)
            return None
        if status:
            refuse(status)
        lengths = memory.count, memory.at
        if max(lengths) < room:
            _TEXTS.free.append(memory)
            return name[: lengths[0]].decode("utf-8"), description[: lengths[1]].decode("utf-8")
        room = max(lengths) + 1


@lru_cache(maxsize=1024)
def _short_identifier(oid: bytes) -> ObjectIdentifier:
    return ObjectIdentifier(_oid_text(oid))


def identifier(oid: bytes) -> ObjectIdentifier:
    """The identifier with these contents: of octets that are none, in hex. Short ones that were seen are kept."""
    return _short_identifier(oid) if len(oid) <= 32 else ObjectIdentifier(_oid_text(oid))


# ---- reports


class Kind(IntEnum):
    """The kinds of objects, by their numbers in the header."""

    CERTIFICATE = 1
    LIST = 2
    REQUEST = 3


def field_path(buffer: Buffer, kind: Kind, at: int) -> str:
    """The names of the fields that lead to an octet of the object at the front of the octets, which is of that kind."""

    def call(text: int, room: int, memory: Memory) -> int:
        status = lib.rtv_field_path(buffer.address, buffer.length, kind, at, text, room, memory.counts)
        if status:
            refuse(status)
        return memory.count

    return whole_text(call).decode("utf-8", "backslashreplace")


_RULES = Caller(None, LenientUseRow, 8)


def rules(buffer: Buffer, kind: Kind, whole: bool = True) -> List[Numbers]:
    """The octet and the number of each lenient rule that the object of that kind at the front of the octets uses: of all,
    or of the first alone, eight at most."""
    _, rows = _RULES.ask(
        lambda memory: lib.rtv_leniencies(
            buffer.address, buffer.length, kind, memory.rows, memory.room, memory.counts
        ),
        whole,
    )
    return rows


def placed(refused: Refused, buffer: Buffer, kind: Kind) -> Refused:
    """The refusal at its place, of an object of that kind, which was to stand at the front of the octets: what a strict
    reading alone refuses, at the first rule by which it is taken. With the path that leads there."""
    if refused.status == Status.GENERIC:
        for at, rule in rules(buffer, kind, whole=False)[:1]:
            refused.at, refused.rule = at, rule_word(rule)
    if refused.at is not None:
        refused.path = field_path(buffer, kind, refused.at)
    return refused


def report(buffer: Buffer, kind: Kind) -> Dict[str, Any]:
    """What is said of the object at the front of the octets (docs/REPORT.md), which is of that kind."""

    def call(text: int, room: int, memory: Memory) -> int:
        status = lib.rtv_json(buffer.address, buffer.length, kind, False, text, room, memory.counts)
        if status:
            refuse(status)
        return memory.count

    told: Dict[str, Any] = json.loads(whole_text(call, 1 << 14))
    return told
