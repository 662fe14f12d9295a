"""Certificates as rows, for engines that work through millions of them: the columns of the PostgreSQL extension.

read_rows() takes pairs and gives tuples of Python's own types, and needs no engine. What is refused is a row too, and
no error: only want of memory is one.
"""

from __future__ import annotations

import hashlib
import ipaddress
from typing import (
    Any,
    Callable,
    Dict,
    Iterable,
    Iterator,
    List,
    NamedTuple,
    Optional,
    Sequence,
    Tuple,
    Type,
    TypeVar,
    Union,
)

from ._library import Octets
from .certificates import Certificate, load_certificate
from .errors import DuplicateExtension, ExtensionNotFound, Refused
from .extensions import Value
from .general_names import DNSName, GeneralName, IPAddress, UnreadableName
from .oid import ExtendedKeyUsageOID, ExtensionOID, ObjectIdentifier, PublicKeyAlgorithmOID
from .values import BasicConstraints, ExtendedKeyUsage

Source = Tuple[Any, Union[Octets, str, None]]
"""What tells certificates apart, as the name of a file, and the octets; or, where there are none, why not."""

_UNREAD = "<X509Error:"

_USAGE_WORDS: Dict[ObjectIdentifier, str] = {
    ExtendedKeyUsageOID.ANY_EXTENDED_KEY_USAGE: "any",
    ExtendedKeyUsageOID.SERVER_AUTH: "server_auth",
    ExtendedKeyUsageOID.CLIENT_AUTH: "client_auth",
    ExtendedKeyUsageOID.CODE_SIGNING: "code_signing",
    ExtendedKeyUsageOID.EMAIL_PROTECTION: "email_protection",
    ExtendedKeyUsageOID.TIME_STAMPING: "time_stamping",
    ExtendedKeyUsageOID.OCSP_SIGNING: "ocsp_signing",
}


_CURVES: Dict[bytes, int] = {
    bytes.fromhex("301306072a8648ce3d020106082a8648ce3d030107"): 256,  # secp256r1
    bytes.fromhex("301006072a8648ce3d020106052b81040022"): 384,  # secp384r1
    bytes.fromhex("301006072a8648ce3d020106052b81040023"): 521,  # secp521r1
}
"""The bits of a coordinate on the curves that most keys are on, by the AlgorithmIdentifier of their key info."""

_KEY_KINDS: Dict[ObjectIdentifier, str] = {}
_HASHES: Dict[ObjectIdentifier, Optional[str]] = {}
_MOST_WORDS = 256

Word = TypeVar("Word")


def _word_by(words: Dict[ObjectIdentifier, Word], algorithm: ObjectIdentifier, read: Callable[[], Word]) -> Word:
    """A word of the report that goes by this identifier alone: the first that are read are kept."""
    try:
        return words[algorithm]
    except KeyError:
        word = read()
        if len(words) < _MOST_WORDS:
            words[algorithm] = word
        return word


def _name_text(certificate: Certificate, field: str) -> Any:
    """The name's text as the report has it, where octets that are no text are shown by their numbers."""
    try:
        text: str = getattr(certificate, field).text
    except Refused:
        text = _UNREAD
    return certificate._report[field]["text"] if text.startswith(_UNREAD) else text


def _serial_number(certificate: Certificate) -> Optional[str]:
    try:
        return str(certificate.serial_number)
    except ValueError:  # Python prints 4,300 digits
        return None


def _address(octets: bytes) -> str:
    """An address of 4 or 16 octets, as RFC 5952 writes it."""
    address = ipaddress.ip_address(octets)
    mapped = address.ipv4_mapped if isinstance(address, ipaddress.IPv6Address) else None
    return f"::ffff:{mapped}" if mapped else str(address)


def _host(name: GeneralName) -> Optional[str]:
    """What a name says of a host: twice as many octets as an address has are an address and its mask."""
    if isinstance(name, DNSName):
        return name.value
    if isinstance(name, IPAddress) and isinstance(name.value, (ipaddress.IPv4Address, ipaddress.IPv6Address)):
        return _address(name.value.packed)
    if isinstance(name, UnreadableName) and name.tag == 7 and len(name.value) in (8, 32):
        half = len(name.value) // 2
        return f"{_address(name.value[:half])}/{_address(name.value[half:])}"
    return None


def _hosts(certificate: Certificate) -> List[str]:
    """The hosts of all alternative names of the subject, in order."""
    hosts: List[Optional[str]] = []
    for extension in certificate.extensions:
        if extension.oid != ExtensionOID.SUBJECT_ALTERNATIVE_NAME:
            continue
        try:
            hosts += map(_host, extension.value)
        except Refused:
            continue
    return [host for host in hosts if host is not None]


def _only(certificate: Certificate, kind: Type[Value]) -> Optional[Value]:
    """The value of the only extension of that kind; None where it can't be read."""
    try:
        return certificate.extensions.get_extension_for_class(kind).value
    except (ExtensionNotFound, DuplicateExtension, Refused):
        return None


def _extended_usages(certificate: Certificate) -> Optional[List[str]]:
    usages = _only(certificate, ExtendedKeyUsage)
    return None if usages is None else [_USAGE_WORDS.get(usage, usage.dotted_string) for usage in usages]


def _is_ca(certificate: Certificate) -> bool:
    constraints = _only(certificate, BasicConstraints)
    return constraints is not None and constraints.ca


def _key_kind(certificate: Certificate) -> str:
    return _word_by(_KEY_KINDS, certificate.key_algorithm, lambda: certificate.public_key().kind)


def _key_bits(certificate: Certificate) -> Optional[int]:
    """As the report has it: of a key on a curve that is known the curve's, and not those of the point's octets."""
    info = certificate._window("key_info")
    header = 2 if info[1] < 128 else 3
    for algorithm, bits in _CURVES.items():
        if info.startswith(algorithm, header):
            return bits
    is_elliptic = certificate.key_algorithm == PublicKeyAlgorithmOID.EC_PUBLIC_KEY
    return (None if is_elliptic else certificate.key_size) or certificate.public_key().key_size


def _signature_hash(certificate: Certificate) -> Optional[str]:
    def read() -> Optional[str]:
        found = certificate.signature_hash_algorithm
        return found.name if found else None

    algorithm = certificate.signature_algorithm_oid
    # of RSASSA-PSS the parameters say the hash, of all others the identifier
    return read() if algorithm == PublicKeyAlgorithmOID.RSASSA_PSS else _word_by(_HASHES, algorithm, read)


class Column(NamedTuple):
    """A column: what kind of values it has, and how they are read from a certificate."""

    kind: str
    """text, octets, integer, truth or texts."""

    read: Callable[[Certificate], Any]


COLUMNS: Dict[str, Column] = {
    "subject": Column("text", lambda certificate: _name_text(certificate, "subject")),
    "issuer": Column("text", lambda certificate: _name_text(certificate, "issuer")),
    "serial": Column("octets", lambda certificate: certificate.serial_octets),
    "serial_number": Column("text", _serial_number),
    "not_before": Column("integer", lambda certificate: certificate.not_valid_before_seconds),
    "not_after": Column("integer", lambda certificate: certificate.not_valid_after_seconds),
    "hosts": Column("texts", _hosts),
    "key_kind": Column("text", _key_kind),
    "key_bits": Column("integer", _key_bits),
    "signature_hash": Column("text", _signature_hash),
    "sha256": Column("octets", lambda certificate: certificate.fingerprint()),
    "spki_sha256": Column("octets", lambda certificate: hashlib.sha256(certificate._window("key_info")).digest()),
    "extended_usages": Column("texts", _extended_usages),
    "is_ca": Column("truth", _is_ca),
}
"""The columns, in order: each is as the function x509_.. of its name says it (docs/SCALE.md), but for these:
times are seconds since 1970-01-01T00:00:00Z, numbers of serials their decimal digits, and a text may hold NUL."""


def names_of(columns: Optional[Sequence[str]] = None) -> List[str]:
    """The names of a row's members: of its source, of why it was refused, and of these columns, else of all."""
    return ["source", "refusal", *(COLUMNS if columns is None else columns)]


def read_rows(pairs: Iterable[Source], columns: Optional[Sequence[str]] = None) -> Iterator[Tuple[Any, ...]]:
    """A row for each pair, in order, with the members that names_of() names. KeyError where a column isn't in COLUMNS.

    Where the octets are no certificate, `refusal` says why, as "invalid length at octet 14", and all columns are None.
    Raises MemoryError where memory runs out.
    """
    readers = [COLUMNS[name].read for name in names_of(columns)[2:]]
    for source, octets in pairs:
        if octets is None or isinstance(octets, str):
            yield (source, octets or "no octets", *(None for _ in readers))
            continue
        try:
            certificate = load_certificate(octets)
        except Refused as refused:
            yield (source, f"{refused.word} at octet {refused.at}", *(None for _ in readers))
        else:
            yield (source, None, *(read(certificate) for read in readers))
