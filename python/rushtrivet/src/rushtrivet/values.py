"""The values of extensions, as objects."""

from __future__ import annotations

import ipaddress
from dataclasses import dataclass
from datetime import datetime
from enum import Enum
from typing import Any, ClassVar, Dict, FrozenSet, List, Optional, Sequence, Tuple, Type, Union, overload

from ._names import Name, RelativeDistinguishedName
from ._objects import Items, utc, utc_of_milliseconds
from .general_names import (
    DirectoryName,
    DNSName,
    EDIPartyName,
    GeneralName,
    IPAddress,
    OtherName,
    RegisteredID,
    RFC822Name,
    UniformResourceIdentifier,
    UnreadableName,
    X400Address,
)
from .oid import ExtensionOID, ObjectIdentifier


class ExtensionType:
    """The value of an extension: an object of one of the classes below."""

    oid: ClassVar[ObjectIdentifier]
    """The identifier of the extension."""


class _GeneralNames(ExtensionType, Items[GeneralName]):
    names: Tuple[GeneralName, ...]

    def _items(self) -> Tuple[GeneralName, ...]:
        return self.names

    @overload
    def get_values_for_type(
        self, type: Union[Type[DNSName], Type[RFC822Name], Type[UniformResourceIdentifier]]
    ) -> List[str]: ...

    @overload
    def get_values_for_type(self, type: Type[DirectoryName]) -> List[Name]: ...

    @overload
    def get_values_for_type(self, type: Type[RegisteredID]) -> List[ObjectIdentifier]: ...

    @overload
    def get_values_for_type(
        self, type: Type[IPAddress]
    ) -> List[Union[ipaddress.IPv4Address, ipaddress.IPv6Address]]: ...

    @overload
    def get_values_for_type(self, type: Type[OtherName]) -> List[OtherName]: ...

    @overload
    def get_values_for_type(
        self, type: Union[Type[X400Address], Type[EDIPartyName], Type[UnreadableName]]
    ) -> List[bytes]: ...

    def get_values_for_type(self, type: Type[GeneralName]) -> Sequence[Any]:
        """The values of the names of that class, in order; of OtherName the names themselves."""
        found = [name for name in self.names if isinstance(name, type)]
        return found if type is OtherName else [name.value for name in found]


@dataclass(frozen=True)
class SubjectAlternativeName(_GeneralNames):
    """Further names of the subject, in order."""

    oid: ClassVar[ObjectIdentifier] = ExtensionOID.SUBJECT_ALTERNATIVE_NAME
    names: Tuple[GeneralName, ...]


@dataclass(frozen=True)
class IssuerAlternativeName(_GeneralNames):
    """Further names of the issuer, in order."""

    oid: ClassVar[ObjectIdentifier] = ExtensionOID.ISSUER_ALTERNATIVE_NAME
    names: Tuple[GeneralName, ...]


@dataclass(frozen=True)
class KeyUsage(ExtensionType):
    """What the key is for (RFC 5280, 4.2.1.3): a bit for each use."""

    oid: ClassVar[ObjectIdentifier] = ExtensionOID.KEY_USAGE

    bits: int
    """Bit k is bit k of the BIT STRING: 1 is a digital signature, 32 certificates, 64 lists."""

    @property
    def digital_signature(self) -> bool:
        """Bit 0: signatures other than those of certificates and lists."""
        return bool(self.bits & 1)

    @property
    def content_commitment(self) -> bool:
        """Bit 1: signatures that bind (non-repudiation)."""
        return bool(self.bits & 2)

    @property
    def key_encipherment(self) -> bool:
        """Bit 2: keys are enciphered by it."""
        return bool(self.bits & 4)

    @property
    def data_encipherment(self) -> bool:
        """Bit 3: data are enciphered by it."""
        return bool(self.bits & 8)

    @property
    def key_agreement(self) -> bool:
        """Bit 4: keys are agreed on by it."""
        return bool(self.bits & 16)

    @property
    def key_cert_sign(self) -> bool:
        """Bit 5: it signs certificates."""
        return bool(self.bits & 32)

    @property
    def crl_sign(self) -> bool:
        """Bit 6: it signs lists of revoked certificates."""
        return bool(self.bits & 64)

    @property
    def encipher_only(self) -> bool:
        """Bit 7: with bit 4, only to encipher."""
        return bool(self.bits & 128)

    @property
    def decipher_only(self) -> bool:
        """Bit 8: with bit 4, only to decipher."""
        return bool(self.bits & 256)


@dataclass(frozen=True)
class BasicConstraints(ExtensionType):
    """Whether the subject may issue certificates, and how many certificates of issuers may follow."""

    oid: ClassVar[ObjectIdentifier] = ExtensionOID.BASIC_CONSTRAINTS

    ca: bool
    path_length: Optional[int]
    """None where there is no limit."""


@dataclass(frozen=True)
class ExtendedKeyUsage(ExtensionType, Items[ObjectIdentifier]):
    """What else the key is for (RFC 5280, 4.2.1.12), each use once: those of ExtendedKeyUsageOID first, then others."""

    oid: ClassVar[ObjectIdentifier] = ExtensionOID.EXTENDED_KEY_USAGE

    usages: Tuple[ObjectIdentifier, ...]

    def _items(self) -> Tuple[ObjectIdentifier, ...]:
        return self.usages


@dataclass(frozen=True)
class SubjectKeyIdentifier(ExtensionType):
    """What tells the key from others of its subject (RFC 5280, 4.2.1.2)."""

    oid: ClassVar[ObjectIdentifier] = ExtensionOID.SUBJECT_KEY_IDENTIFIER

    digest: bytes

    @property
    def key_identifier(self) -> bytes:
        """The same."""
        return self.digest


@dataclass(frozen=True)
class AuthorityKeyIdentifier(ExtensionType):
    """By which key the certificate or the list was signed (RFC 5280, 4.2.1.1)."""

    oid: ClassVar[ObjectIdentifier] = ExtensionOID.AUTHORITY_KEY_IDENTIFIER

    key_identifier: Optional[bytes]
    authority_cert_issuer: Optional[Tuple[GeneralName, ...]]
    authority_cert_serial_number: Optional[int]
    """The first bit of its octets is the sign."""


@dataclass(frozen=True)
class PolicyQualifier:
    """What is said beside a policy."""

    oid: ObjectIdentifier
    """Its kind, as 1.3.6.1.5.5.7.2.1 for the address of a statement."""

    raw: bytes
    """The octets behind the identifier, as they stand."""


@dataclass(frozen=True)
class PolicyInformation:
    """A policy, and what is said beside it."""

    policy_identifier: ObjectIdentifier
    policy_qualifiers: Tuple[PolicyQualifier, ...]


@dataclass(frozen=True)
class CertificatePolicies(ExtensionType, Items[PolicyInformation]):
    """Under which policies the certificate was issued (RFC 5280, 4.2.1.4), in order."""

    oid: ClassVar[ObjectIdentifier] = ExtensionOID.CERTIFICATE_POLICIES

    policies: Tuple[PolicyInformation, ...]

    def _items(self) -> Tuple[PolicyInformation, ...]:
        return self.policies


@dataclass(frozen=True)
class AccessDescription:
    """How more information is had, and where."""

    access_method: ObjectIdentifier
    access_location: GeneralName


class _InformationAccess(ExtensionType, Items[AccessDescription]):
    descriptions: Tuple[AccessDescription, ...]

    def _items(self) -> Tuple[AccessDescription, ...]:
        return self.descriptions


@dataclass(frozen=True)
class AuthorityInformationAccess(_InformationAccess):
    """Where more is found about the issuer (RFC 5280, 4.2.2.1), in order."""

    oid: ClassVar[ObjectIdentifier] = ExtensionOID.AUTHORITY_INFORMATION_ACCESS

    descriptions: Tuple[AccessDescription, ...]


@dataclass(frozen=True)
class SubjectInformationAccess(_InformationAccess):
    """Where more is found about the subject (RFC 5280, 4.2.2.2), in order."""

    oid: ClassVar[ObjectIdentifier] = ExtensionOID.SUBJECT_INFORMATION_ACCESS

    descriptions: Tuple[AccessDescription, ...]


@dataclass(frozen=True)
class NameConstraints(ExtensionType):
    """Which names certificates below may have (RFC 5280, 4.2.1.10): the roots of subtrees."""

    oid: ClassVar[ObjectIdentifier] = ExtensionOID.NAME_CONSTRAINTS

    permitted_subtrees: Optional[Tuple[GeneralName, ...]]
    excluded_subtrees: Optional[Tuple[GeneralName, ...]]


@dataclass(frozen=True)
class SignedCertificateTimestamp:
    """What a log says of a certificate (RFC 6962, 3.2). Its signature isn't checked."""

    version: int
    """0 is v1."""

    log_id: bytes
    """The SHA-256 hash of the log's key."""

    timestamp_milliseconds: int
    """In milliseconds since 1970-01-01T00:00:00Z."""

    extension_bytes: bytes
    hash_algorithm: int
    """4 is SHA-256 (RFC 5246, 7.4.1.4.1)."""

    signature_algorithm: int
    """1 is RSA, 3 ECDSA."""

    signature: bytes

    @property
    def timestamp_utc(self) -> datetime:
        """The time, in UTC. ValueError where a datetime can't hold it."""
        return utc_of_milliseconds(self.timestamp_milliseconds)


@dataclass(frozen=True)
class PrecertificateSignedCertificateTimestamps(ExtensionType, Items[SignedCertificateTimestamp]):
    """What logs say of the certificate (RFC 6962, 3.3), in order."""

    oid: ClassVar[ObjectIdentifier] = ExtensionOID.PRECERT_SIGNED_CERTIFICATE_TIMESTAMPS

    timestamps: Tuple[SignedCertificateTimestamp, ...]

    def _items(self) -> Tuple[SignedCertificateTimestamp, ...]:
        return self.timestamps


@dataclass(frozen=True)
class PolicyConstraints(ExtensionType):
    """How many certificates may follow before policies have to be named, and before they may not be mapped."""

    oid: ClassVar[ObjectIdentifier] = ExtensionOID.POLICY_CONSTRAINTS

    require_explicit_policy: Optional[int]
    inhibit_policy_mapping: Optional[int]


@dataclass(frozen=True)
class InhibitAnyPolicy(ExtensionType):
    """How many certificates may follow before the policy that stands for any is none."""

    oid: ClassVar[ObjectIdentifier] = ExtensionOID.INHIBIT_ANY_POLICY

    skip_certs: int


@dataclass(frozen=True)
class PolicyMapping:
    """A policy of the issuer's that is held to be equal to one of the subject's."""

    issuer_domain_policy: ObjectIdentifier
    subject_domain_policy: ObjectIdentifier


@dataclass(frozen=True)
class PolicyMappings(ExtensionType, Items[PolicyMapping]):
    """Policies that are held to be equal, in order."""

    oid: ClassVar[ObjectIdentifier] = ExtensionOID.POLICY_MAPPINGS

    mappings: Tuple[PolicyMapping, ...]

    def _items(self) -> Tuple[PolicyMapping, ...]:
        return self.mappings


@dataclass(frozen=True)
class CRLNumber(ExtensionType):
    """The number of a list, which grows from one to the next."""

    oid: ClassVar[ObjectIdentifier] = ExtensionOID.CRL_NUMBER

    crl_number: int


@dataclass(frozen=True)
class DeltaCRLIndicator(ExtensionType):
    """That a list tells changes alone, and the number of the list that it stands on (RFC 5280, 5.2.4)."""

    oid: ClassVar[ObjectIdentifier] = ExtensionOID.DELTA_CRL_INDICATOR

    crl_number: int


class ReasonFlags(Enum):
    """Why a certificate is revoked. The values are the names of RFC 5280."""

    unspecified = "unspecified"
    key_compromise = "keyCompromise"
    ca_compromise = "cACompromise"
    affiliation_changed = "affiliationChanged"
    superseded = "superseded"
    cessation_of_operation = "cessationOfOperation"
    certificate_hold = "certificateHold"
    privilege_withdrawn = "privilegeWithdrawn"
    aa_compromise = "aACompromise"
    remove_from_crl = "removeFromCRL"


@dataclass(frozen=True)
class CRLReason(ExtensionType):
    """Why the certificate of an entry is revoked."""

    oid: ClassVar[ObjectIdentifier] = ExtensionOID.CRL_REASON

    code: int
    """The number of the reason, as it is written (RFC 5280, 5.3.1)."""

    @property
    def reason(self) -> Optional[ReasonFlags]:
        """The reason; None where its number has no name."""
        return reason_of(self.code)


@dataclass(frozen=True)
class InvalidityDate(ExtensionType):
    """Since when the certificate of an entry is held to be invalid."""

    oid: ClassVar[ObjectIdentifier] = ExtensionOID.INVALIDITY_DATE

    invalidity_seconds: int
    """In seconds since 1970-01-01T00:00:00Z."""

    @property
    def invalidity_date_utc(self) -> datetime:
        """The same, in UTC. ValueError where a datetime can't hold it."""
        return utc(self.invalidity_seconds)


@dataclass(frozen=True)
class DistributionPoint:
    """Where a list is to be had, for which reasons, and from whom (RFC 5280, 4.2.1.13)."""

    full_name: Optional[Tuple[GeneralName, ...]]
    relative_name: Optional[RelativeDistinguishedName]
    reasons: Optional[FrozenSet[ReasonFlags]]
    crl_issuer: Optional[Tuple[GeneralName, ...]]


class _DistributionPoints(ExtensionType, Items[DistributionPoint]):
    points: Tuple[DistributionPoint, ...]

    def _items(self) -> Tuple[DistributionPoint, ...]:
        return self.points


@dataclass(frozen=True)
class CRLDistributionPoints(_DistributionPoints):
    """Where lists are to be had that the certificate may stand on, in order."""

    oid: ClassVar[ObjectIdentifier] = ExtensionOID.CRL_DISTRIBUTION_POINTS

    points: Tuple[DistributionPoint, ...]


@dataclass(frozen=True)
class FreshestCRL(_DistributionPoints):
    """Where lists of changes are to be had (RFC 5280, 4.2.1.15), in order."""

    oid: ClassVar[ObjectIdentifier] = ExtensionOID.FRESHEST_CRL

    points: Tuple[DistributionPoint, ...]


@dataclass(frozen=True)
class IssuingDistributionPoint(ExtensionType):
    """Where a list is to be had, and of which certificates it speaks."""

    oid: ClassVar[ObjectIdentifier] = ExtensionOID.ISSUING_DISTRIBUTION_POINT

    full_name: Optional[Tuple[GeneralName, ...]]
    relative_name: Optional[RelativeDistinguishedName]
    only_contains_user_certs: bool
    only_contains_ca_certs: bool
    only_some_reasons: Optional[FrozenSet[ReasonFlags]]
    indirect_crl: bool
    only_contains_attribute_certs: bool


@dataclass(frozen=True)
class NetscapeCertType(ExtensionType):
    """What Netscape's programs held a certificate to be for."""

    oid: ClassVar[ObjectIdentifier] = ExtensionOID.NETSCAPE_CERT_TYPE

    flags: int
    """Bit k is bit k of the BIT STRING."""

    types: Tuple[str, ...]
    """The names of the bits that are set, as "ssl_client", in their order."""


@dataclass(frozen=True)
class NetscapeComment(ExtensionType):
    """A text for people."""

    oid: ClassVar[ObjectIdentifier] = ExtensionOID.NETSCAPE_COMMENT

    comment: str


@dataclass(frozen=True)
class UnrecognizedExtension(ExtensionType):
    """An extension whose value this package doesn't read."""

    oid: ObjectIdentifier  # type: ignore[misc]  # of the class elsewhere, of the object here
    value: bytes
    """The octets of the value, as they stand."""


_REASON_CODES: Dict[int, ReasonFlags] = {
    0: ReasonFlags.unspecified,
    1: ReasonFlags.key_compromise,
    2: ReasonFlags.ca_compromise,
    3: ReasonFlags.affiliation_changed,
    4: ReasonFlags.superseded,
    5: ReasonFlags.cessation_of_operation,
    6: ReasonFlags.certificate_hold,
    8: ReasonFlags.remove_from_crl,
    9: ReasonFlags.privilege_withdrawn,
    10: ReasonFlags.aa_compromise,
}


def reason_of(code: int) -> Optional[ReasonFlags]:
    """The reason of that number; None where it has no name. Of use in this package only."""
    return _REASON_CODES.get(code)
