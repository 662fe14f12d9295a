"""Certificates, lists of revoked certificates and requests (X.509), read from DER by a proved C library.

Names are those of cryptography.x509 where it has them: see load_certificate, load_crl, load_csr, Index and Refused.
"""

from __future__ import annotations

from . import oid
from ._library import lib as _lib
from ._library import version_text as _version_text
from ._names import Name, NameAttribute, RelativeDistinguishedName
from ._objects import (
    HashAlgorithm,
    KeyParameters,
    LenientRule,
    PublicKey,
    RefusedValue,
    RSAPublicNumbers,
    SignatureKind,
)
from .certificates import Certificate, Messages, Version, load_certificate
from .errors import AttributeNotFound, DuplicateExtension, ExtensionNotFound, Refused, Status
from .extensions import Extension, Extensions
from .general_names import (
    DirectoryName,
    DNSName,
    EDIPartyName,
    GeneralName,
    IPAddress,
    OtherName,
    RegisteredID,
    RFC822Name,
    UniformResourceIdentifier,
    UnreadableName,
    X400Address,
)
from .lists import CertificateRevocationList, Index, RevokedCertificate, load_crl
from .oid import (
    AttributeOID,
    ExtendedKeyUsageOID,
    ExtensionOID,
    NameOID,
    ObjectIdentifier,
    PublicKeyAlgorithmOID,
)
from .registry import OidWords, oid_words
from .requests import Attribute, Attributes, CertificateSigningRequest, load_csr
from .values import (
    AccessDescription,
    AuthorityInformationAccess,
    AuthorityKeyIdentifier,
    BasicConstraints,
    CertificatePolicies,
    CRLDistributionPoints,
    CRLNumber,
    CRLReason,
    DeltaCRLIndicator,
    DistributionPoint,
    ExtendedKeyUsage,
    ExtensionType,
    FreshestCRL,
    InhibitAnyPolicy,
    InvalidityDate,
    IssuerAlternativeName,
    IssuingDistributionPoint,
    KeyUsage,
    NameConstraints,
    NetscapeCertType,
    NetscapeComment,
    PolicyConstraints,
    PolicyInformation,
    PolicyMapping,
    PolicyMappings,
    PolicyQualifier,
    PrecertificateSignedCertificateTimestamps,
    ReasonFlags,
    SignedCertificateTimestamp,
    SubjectAlternativeName,
    SubjectInformationAccess,
    SubjectKeyIdentifier,
    UnrecognizedExtension,
)

load_der_x509_certificate = load_certificate
load_der_x509_crl = load_crl
load_der_x509_csr = load_csr

library_version: str = _version_text(_lib.rtv_version())
"""The version of the C library that is in use, as "0.1.0"."""

__all__ = [
    "AccessDescription",
    "Attribute",
    "AttributeNotFound",
    "AttributeOID",
    "Attributes",
    "AuthorityInformationAccess",
    "AuthorityKeyIdentifier",
    "BasicConstraints",
    "CRLDistributionPoints",
    "CRLNumber",
    "CRLReason",
    "Certificate",
    "CertificatePolicies",
    "CertificateRevocationList",
    "CertificateSigningRequest",
    "DNSName",
    "DeltaCRLIndicator",
    "DirectoryName",
    "DistributionPoint",
    "DuplicateExtension",
    "EDIPartyName",
    "ExtendedKeyUsage",
    "ExtendedKeyUsageOID",
    "Extension",
    "ExtensionNotFound",
    "ExtensionOID",
    "ExtensionType",
    "Extensions",
    "FreshestCRL",
    "GeneralName",
    "HashAlgorithm",
    "IPAddress",
    "Index",
    "InhibitAnyPolicy",
    "InvalidityDate",
    "IssuerAlternativeName",
    "IssuingDistributionPoint",
    "KeyParameters",
    "KeyUsage",
    "LenientRule",
    "Messages",
    "Name",
    "NameAttribute",
    "NameConstraints",
    "NameOID",
    "NetscapeCertType",
    "NetscapeComment",
    "ObjectIdentifier",
    "OidWords",
    "OtherName",
    "PolicyConstraints",
    "PolicyInformation",
    "PolicyMapping",
    "PolicyMappings",
    "PolicyQualifier",
    "PrecertificateSignedCertificateTimestamps",
    "PublicKey",
    "PublicKeyAlgorithmOID",
    "RFC822Name",
    "RSAPublicNumbers",
    "ReasonFlags",
    "Refused",
    "RefusedValue",
    "RegisteredID",
    "RelativeDistinguishedName",
    "RevokedCertificate",
    "SignatureKind",
    "SignedCertificateTimestamp",
    "Status",
    "SubjectAlternativeName",
    "SubjectInformationAccess",
    "SubjectKeyIdentifier",
    "UniformResourceIdentifier",
    "UnreadableName",
    "UnrecognizedExtension",
    "Version",
    "X400Address",
    "library_version",
    "load_certificate",
    "load_crl",
    "load_csr",
    "load_der_x509_certificate",
    "load_der_x509_crl",
    "load_der_x509_csr",
    "oid",
    "oid_words",
]
