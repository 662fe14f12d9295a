"""How the value of an extension is read: each kind by its call of the library.

A name of a point that stands relative to its issuer's is the one thing that comes from the report (docs/REPORT.md),
which takes longer.
"""

from __future__ import annotations

from itertools import islice
from typing import Any, Callable, Dict, FrozenSet, Iterator, List, Optional, Tuple, TypeVar

from ._library import (
    AccessRow,
    AuthorityKeyStruct,
    BasicConstraintsStruct,
    Buffer,
    Caller,
    DistributionPointStruct,
    ExtendedKeyUsageStruct,
    GeneralNameRow,
    IssuingPointStruct,
    NameConstraintsStruct,
    Number,
    Numbers,
    PointNameRow,
    PolicyConstraintsStruct,
    PolicyMappingRow,
    PolicyQualifierRow,
    PolicyRow,
    Seconds,
    TimestampRow,
    Window,
    identifier,
    lib,
)
from ._names import RelativeDistinguishedName, attribute_told
from ._objects import signed_number
from ._wrapped import value_in
from .general_names import GeneralName, general_names, names_in, network
from .oid import ExtendedKeyUsageOID, ExtensionOID, ObjectIdentifier
from .values import (
    AccessDescription,
    AuthorityInformationAccess,
    AuthorityKeyIdentifier,
    BasicConstraints,
    CertificatePolicies,
    CRLDistributionPoints,
    CRLNumber,
    CRLReason,
    DeltaCRLIndicator,
    DistributionPoint,
    ExtendedKeyUsage,
    ExtensionType,
    FreshestCRL,
    InhibitAnyPolicy,
    InvalidityDate,
    IssuerAlternativeName,
    IssuingDistributionPoint,
    KeyUsage,
    NameConstraints,
    NetscapeCertType,
    NetscapeComment,
    PolicyConstraints,
    PolicyInformation,
    PolicyMapping,
    PolicyMappings,
    PolicyQualifier,
    PrecertificateSignedCertificateTimestamps,
    ReasonFlags,
    SignedCertificateTimestamp,
    SubjectAlternativeName,
    SubjectInformationAccess,
    SubjectKeyIdentifier,
)

_NUMBERS = Caller(Number)
_TIMES = Caller(Seconds)
_WINDOWS = Caller(Window)
_CONSTRAINTS = Caller(BasicConstraintsStruct)
_EXTENDED_USAGES = Caller(ExtendedKeyUsageStruct, Window, 8, "other_count")
_AUTHORITY_KEYS = Caller(AuthorityKeyStruct, GeneralNameRow, 4, "issuer_count")
_POLICIES = Caller(None, PolicyRow, 8)
_QUALIFIERS = Caller(None, PolicyQualifierRow, 8)
_POLICY_CONSTRAINTS = Caller(PolicyConstraintsStruct)
_POLICY_MAPPINGS = Caller(None, PolicyMappingRow, 8)
_ACCESSES = Caller(None, AccessRow, 8)
_POINTS = Caller(None, DistributionPointStruct, 4)
_POINT_NAMES = Caller(None, PointNameRow, 8)
_ISSUING_POINTS = Caller(IssuingPointStruct, GeneralNameRow, 8, "name_count")
_PERMITTED = Caller(NameConstraintsStruct, GeneralNameRow, 8, "permitted_count")
_EXCLUDED = Caller(NameConstraintsStruct, GeneralNameRow, 8, "excluded_count")
_TIMESTAMPS = Caller(None, TimestampRow, 8)

_USAGES: Tuple[ObjectIdentifier, ...] = (
    ExtendedKeyUsageOID.ANY_EXTENDED_KEY_USAGE,
    ExtendedKeyUsageOID.SERVER_AUTH,
    ExtendedKeyUsageOID.CLIENT_AUTH,
    ExtendedKeyUsageOID.CODE_SIGNING,
    ExtendedKeyUsageOID.EMAIL_PROTECTION,
    ExtendedKeyUsageOID.TIME_STAMPING,
    ExtendedKeyUsageOID.OCSP_SIGNING,
)
"""In the order of the fields of the library's struct."""

_REASON_BITS: Dict[int, ReasonFlags] = {
    1: ReasonFlags.key_compromise,
    2: ReasonFlags.ca_compromise,
    3: ReasonFlags.affiliation_changed,
    4: ReasonFlags.superseded,
    5: ReasonFlags.cessation_of_operation,
    6: ReasonFlags.certificate_hold,
    7: ReasonFlags.privilege_withdrawn,
    8: ReasonFlags.aa_compromise,
}

_NETSCAPE_TYPES: Dict[int, str] = {
    0: "ssl_client",
    1: "ssl_server",
    2: "smime",
    3: "object_signing",
    4: "reserved",
    5: "ssl_ca",
    6: "smime_ca",
    7: "object_signing_ca",
}

Named = TypeVar("Named")
Call = Callable[..., int]


# ---- what calls have in common: a struct, a row of rows, or both


def _told(caller: Caller, call: Call, raw: bytes) -> Tuple[Buffer, Numbers]:
    """What a call tells of a value in one struct, and the octets that its windows are in."""
    buffer = Buffer(raw)
    found, _ = caller.ask(lambda memory: call(buffer.address, buffer.length, memory.head, memory.second))
    return buffer, found


def _rows(caller: Caller, call: Call, buffer: Buffer) -> List[Numbers]:
    """What a call tells of a value in rows, whose count is told apart."""
    return caller.ask(
        lambda memory: call(buffer.address, buffer.length, memory.rows, memory.room, memory.counts, memory.second)
    )[1]


def _struct_and_rows(caller: Caller, call: Call, raw: bytes) -> Tuple[Buffer, Numbers, List[Numbers]]:
    """What a call tells of a value in a struct and rows."""
    buffer = Buffer(raw)
    found, rows = caller.ask(
        lambda memory: call(buffer.address, buffer.length, memory.head, memory.rows, memory.room, memory.second)
    )
    return buffer, found, rows


def _number(call: Call, raw: bytes) -> int:
    return _told(_NUMBERS, call, raw)[1][0]


def _window(call: Call, raw: bytes) -> bytes:
    buffer, (at, length) = _told(_WINDOWS, call, raw)
    return buffer.window(at, length)


def _crl_number(raw: bytes) -> int:
    return int.from_bytes(_window(lib.rtv_read_crl_number, raw), "big")


def _oid(buffer: Buffer, at: int, length: int) -> ObjectIdentifier:
    return identifier(buffer.window(at, length))


def _set_bits(names: Dict[int, Named], bits: int) -> List[Named]:
    """The names of the bits that are set."""
    return [name for bit, name in names.items() if bits >> bit & 1]


def _reasons(has_reasons: int, reasons: int) -> Optional[FrozenSet[ReasonFlags]]:
    return frozenset(_set_bits(_REASON_BITS, reasons)) if has_reasons else None


# ---- keys and their use


def _extended_key_usage(raw: bytes) -> ExtendedKeyUsage:
    buffer, (_, *named), others = _struct_and_rows(_EXTENDED_USAGES, lib.rtv_read_extended_key_usage, raw)
    known = [usage for usage, is_named in zip(_USAGES, named) if is_named]
    return ExtendedKeyUsage((*known, *(_oid(buffer, *other) for other in others)))


def _basic_constraints(raw: bytes) -> BasicConstraints:
    _, (ca, has_path_length, path_length) = _told(_CONSTRAINTS, lib.rtv_read_basic_constraints, raw)
    return BasicConstraints(ca == 1, path_length if has_path_length else None)


def _authority_key(raw: bytes) -> AuthorityKeyIdentifier:
    buffer, found, issuer = _struct_and_rows(_AUTHORITY_KEYS, lib.rtv_read_authority_key, raw)
    key_at, key, serial_at, serial, _, has_key, has_issuer, has_serial = found
    return AuthorityKeyIdentifier(
        key_identifier=buffer.window(key_at, key) if has_key else None,
        authority_cert_issuer=names_in(buffer, issuer) if has_issuer else None,
        authority_cert_serial_number=signed_number(buffer.window(serial_at, serial)) if has_serial else None,
    )


# ---- policies


def _policies(raw: bytes) -> CertificatePolicies:
    buffer = Buffer(raw)
    found = _rows(_POLICIES, lib.rtv_read_policies, buffer)
    qualifiers = _qualifiers(buffer) if any(count for _, _, count in found) else iter(())
    return CertificatePolicies(
        tuple(PolicyInformation(_oid(buffer, at, length), tuple(islice(qualifiers, count))) for at, length, count in found)
    )


def _qualifiers(buffer: Buffer) -> Iterator[PolicyQualifier]:
    """Those of all policies, in order."""
    for row in _rows(_QUALIFIERS, lib.rtv_read_policy_qualifiers, buffer):
        yield PolicyQualifier(_oid(buffer, *row[:2]), buffer.window(*row[2:4]))


def _policy_constraints(raw: bytes) -> PolicyConstraints:
    _, found = _told(_POLICY_CONSTRAINTS, lib.rtv_read_policy_constraints, raw)
    has_explicit, explicit, has_mapping, mapping = found
    return PolicyConstraints(explicit if has_explicit else None, mapping if has_mapping else None)


def _policy_mappings(raw: bytes) -> PolicyMappings:
    buffer = Buffer(raw)
    found = _rows(_POLICY_MAPPINGS, lib.rtv_read_policy_mappings, buffer)
    return PolicyMappings(tuple(PolicyMapping(_oid(buffer, *row[:2]), _oid(buffer, *row[2:])) for row in found))


# ---- where more is found


def _accesses(raw: bytes) -> Tuple[AccessDescription, ...]:
    buffer = Buffer(raw)
    found = _rows(_ACCESSES, lib.rtv_read_accesses, buffer)
    return tuple(AccessDescription(_oid(buffer, *row[:2]), *names_in(buffer, [row[2:]])) for row in found)


def _relative_name(told: List[Dict[str, Any]]) -> RelativeDistinguishedName:
    """A name that stands relative to an issuer's, as the report has it."""
    return RelativeDistinguishedName(tuple(map(attribute_told, told)))


def _points(raw: bytes) -> Tuple[DistributionPoint, ...]:
    buffer = Buffer(raw)
    found = _rows(_POINTS, lib.rtv_read_distribution_points, buffer)
    names = iter(_rows(_POINT_NAMES, lib.rtv_read_point_names, buffer))
    issuers = iter(_rows(_POINT_NAMES, lib.rtv_read_point_issuers, buffer) if any(row[5] for row in found) else ())
    told = value_in(b"\x55\x1d\x1f", raw) if any(row[2] == 2 for row in found) else ()
    return tuple(
        DistributionPoint(
            full_name=names_in(buffer, [row[:6] for row in islice(names, name_count)]) if name_kind == 1 else None,
            relative_name=_relative_name(told[position]["relative_name"]) if name_kind == 2 else None,
            reasons=_reasons(has_reasons, reasons),
            crl_issuer=names_in(buffer, [row[:6] for row in islice(issuers, issuer_count)]) if has_issuer else None,
        )
        for position, (name_count, issuer_count, name_kind, has_reasons, reasons, has_issuer) in enumerate(found)
    )


def _issuing_point(raw: bytes) -> IssuingDistributionPoint:
    buffer, found, names = _struct_and_rows(_ISSUING_POINTS, lib.rtv_read_issuing_distribution_point, raw)
    _, name_kind, users, authorities, has_reasons, reasons, indirect, attributes = found
    return IssuingDistributionPoint(
        full_name=names_in(buffer, names) if name_kind == 1 else None,
        relative_name=_relative_name(value_in(b"\x55\x1d\x1c", raw)["relative_name"]) if name_kind == 2 else None,
        only_contains_user_certs=users == 1,
        only_contains_ca_certs=authorities == 1,
        only_some_reasons=_reasons(has_reasons, reasons),
        indirect_crl=indirect == 1,
        only_contains_attribute_certs=attributes == 1,
    )


# ---- what else there is


def _name_constraints(raw: bytes) -> NameConstraints:
    buffer = Buffer(raw)
    read, value = lib.rtv_read_name_constraints, (buffer.address, buffer.length)
    (_, _, has_permitted, has_excluded), permitted = _PERMITTED.ask(
        lambda memory: read(*value, memory.head, memory.rows, memory.room, memory.rows, 0, memory.second)
    )
    _, excluded = _EXCLUDED.ask(
        lambda memory: read(*value, memory.head, memory.rows, 0, memory.rows, memory.room, memory.second)
    )
    return NameConstraints(
        _roots(buffer, permitted) if has_permitted else None, _roots(buffer, excluded) if has_excluded else None
    )


def _roots(buffer: Buffer, rows: List[Numbers]) -> Tuple[GeneralName, ...]:
    """The names at the roots of subtrees."""
    return tuple(map(network, names_in(buffer, rows)))


def _timestamp(buffer: Buffer, row: Numbers) -> SignedCertificateTimestamp:
    milliseconds, version, hash_algorithm, signature_algorithm = row[6:]
    return SignedCertificateTimestamp(
        version=version,
        log_id=buffer.window(*row[:2]),
        timestamp_milliseconds=milliseconds,
        extension_bytes=buffer.window(*row[2:4]),
        hash_algorithm=hash_algorithm,
        signature_algorithm=signature_algorithm,
        signature=buffer.window(*row[4:6]),
    )


def _timestamps(raw: bytes) -> PrecertificateSignedCertificateTimestamps:
    buffer = Buffer(raw)
    found = _rows(_TIMESTAMPS, lib.rtv_read_timestamps, buffer)
    return PrecertificateSignedCertificateTimestamps(tuple(_timestamp(buffer, row) for row in found))


def _netscape_cert_type(raw: bytes) -> NetscapeCertType:
    flags = _number(lib.rtv_read_ns_cert_type, raw)
    return NetscapeCertType(flags, tuple(_set_bits(_NETSCAPE_TYPES, flags)))


READERS: Dict[ObjectIdentifier, Callable[[bytes], ExtensionType]] = {
    ExtensionOID.SUBJECT_KEY_IDENTIFIER: lambda raw: SubjectKeyIdentifier(_window(lib.rtv_read_key_identifier, raw)),
    ExtensionOID.AUTHORITY_KEY_IDENTIFIER: _authority_key,
    ExtensionOID.SUBJECT_ALTERNATIVE_NAME: lambda raw: SubjectAlternativeName(general_names(raw)),
    ExtensionOID.ISSUER_ALTERNATIVE_NAME: lambda raw: IssuerAlternativeName(general_names(raw)),
    ExtensionOID.KEY_USAGE: lambda raw: KeyUsage(_number(lib.rtv_read_key_usage, raw)),
    ExtensionOID.EXTENDED_KEY_USAGE: _extended_key_usage,
    ExtensionOID.BASIC_CONSTRAINTS: _basic_constraints,
    ExtensionOID.NAME_CONSTRAINTS: _name_constraints,
    ExtensionOID.CERTIFICATE_POLICIES: _policies,
    ExtensionOID.POLICY_CONSTRAINTS: _policy_constraints,
    ExtensionOID.INHIBIT_ANY_POLICY: lambda raw: InhibitAnyPolicy(_number(lib.rtv_read_inhibit_any_policy, raw)),
    ExtensionOID.POLICY_MAPPINGS: _policy_mappings,
    ExtensionOID.AUTHORITY_INFORMATION_ACCESS: lambda raw: AuthorityInformationAccess(_accesses(raw)),
    ExtensionOID.SUBJECT_INFORMATION_ACCESS: lambda raw: SubjectInformationAccess(_accesses(raw)),
    ExtensionOID.CRL_DISTRIBUTION_POINTS: lambda raw: CRLDistributionPoints(_points(raw)),
    ExtensionOID.FRESHEST_CRL: lambda raw: FreshestCRL(_points(raw)),
    ExtensionOID.PRECERT_SIGNED_CERTIFICATE_TIMESTAMPS: _timestamps,
    ExtensionOID.CRL_NUMBER: lambda raw: CRLNumber(_crl_number(raw)),
    ExtensionOID.DELTA_CRL_INDICATOR: lambda raw: DeltaCRLIndicator(_crl_number(raw)),
    ExtensionOID.ISSUING_DISTRIBUTION_POINT: _issuing_point,
    ExtensionOID.CRL_REASON: lambda raw: CRLReason(_number(lib.rtv_read_reason_code, raw)),
    ExtensionOID.INVALIDITY_DATE: lambda raw: InvalidityDate(_told(_TIMES, lib.rtv_read_invalidity_date, raw)[1][0]),
    ExtensionOID.NETSCAPE_CERT_TYPE: _netscape_cert_type,
    ExtensionOID.NETSCAPE_COMMENT: lambda raw: NetscapeComment(_window(lib.rtv_read_ns_comment, raw).decode("utf-8")),
}
