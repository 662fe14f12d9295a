"""What certificates, lists and requests have in common."""

from __future__ import annotations

import hashlib
from dataclasses import dataclass
from datetime import datetime, timedelta, timezone
from enum import IntEnum
from typing import (
    Any,
    Callable,
    ClassVar,
    Dict,
    Generic,
    Iterator,
    NamedTuple,
    Optional,
    Tuple,
    Type,
    TypeVar,
    Union,
    overload,
)

from ._library import (
    Buffer,
    Caller,
    KeyInfoStruct,
    Kind,
    Numbers,
    Octets,
    RefusedValueRow,
    RsaKeyStruct,
    field_path,
    identifier,
    lib,
    octets,
    report,
    rule_word,
    rules,
    word,
)
from .oid import ObjectIdentifier, PublicKeyAlgorithmOID

_KEY_INFOS = Caller(KeyInfoStruct)
_RSA_KEYS = Caller(RsaKeyStruct)
_REFUSED_VALUES = Caller(None, RefusedValueRow, 8)
_EPOCH = datetime(1970, 1, 1, tzinfo=timezone.utc)


def utc(seconds: int) -> datetime:
    """The time so many seconds after 1970-01-01T00:00:00Z. ValueError where it isn't in the years from 1 to 9999."""
    try:
        return _EPOCH + timedelta(seconds=seconds)
    except OverflowError:
        raise ValueError(f"{seconds} seconds since 1970 are outside of the years 1 to 9999 of a datetime") from None


def utc_of_milliseconds(milliseconds: int) -> datetime:
    """The time so many milliseconds after 1970-01-01T00:00:00Z. ValueError as utc()."""
    return utc(milliseconds // 1000).replace(microsecond=milliseconds % 1000 * 1000)


def signed_number(contents: bytes) -> int:
    """The number in the contents of an INTEGER: the first bit is its sign."""
    return int.from_bytes(contents, "big", signed=True)


def serial_contents(serial: Union[int, Octets]) -> bytes:
    """The contents of the INTEGER of a serial number, as DER writes it; octets are taken as they are."""
    if not isinstance(serial, int):
        return octets(serial)
    bits = (serial if serial >= 0 else serial + 1).bit_length()
    return serial.to_bytes(bits // 8 + 1, "big", signed=True)


Value = TypeVar("Value")
Self = TypeVar("Self", bound="kept[Any]")


class kept(Generic[Value]):
    """An attribute that is made when it is first asked for, as functools.cached_property, but without its lock.

    Two threads may both make it, and make the same.
    """

    def __init__(self, make: Callable[[Any], Value]) -> None:
        self._make = make
        self._name = make.__name__
        self.__doc__ = make.__doc__

    @overload
    def __get__(self: Self, of: None, kind: Type[Any]) -> Self: ...

    @overload
    def __get__(self, of: object, kind: Type[Any]) -> Value: ...

    def __get__(self: Self, of: Any, kind: Type[Any]) -> Any:
        if of is None:
            return self
        value = of.__dict__[self._name] = self._make(of)
        return value


Item = TypeVar("Item")


class Items(Generic[Item]):
    """What stands in a row: its length, one at a position, and all in order."""

    def _items(self) -> Tuple[Item, ...]:
        raise NotImplementedError

    def __iter__(self) -> Iterator[Item]:
        return iter(self._items())

    def __len__(self) -> int:
        return len(self._items())

    def __getitem__(self, position: int) -> Item:
        return self._items()[position]


class RSAPublicNumbers(NamedTuple):
    """The numbers of an RSA key."""

    n: int
    """The modulus."""

    e: int
    """The exponent."""


class KeyParameters(NamedTuple):
    """The parameters of a key's algorithm, as the identifier of a curve."""

    tag: int
    """The number of their tag, whatever its class: 5 is NULL, 6 an identifier, 16 a SEQUENCE."""

    contents: bytes
    """Their octets, without a header."""


@dataclass(frozen=True)
class HashAlgorithm:
    """A hash, as a part of the algorithm of a signature."""

    name: str
    """As hashlib knows it: "sha256"."""


@dataclass(frozen=True)
class PublicKey:
    """What is said of a key. Its octets are the object's `public_key_bytes`."""

    kind: str
    """rsa, ec, ed25519, ed448, x25519, x448, rsa_pss, dsa, gost_r3410_2001, gost_r3410_2012_256, gost_r3410_2012_512 or
    unknown."""

    key_size: Optional[int]
    """In bits, as the report has it; None where it isn't known."""

    curve: Optional[str]
    """The name of an elliptic curve that is known."""


class SignatureKind(IntEnum):
    """What an algorithm of signatures is."""

    UNKNOWN = 0
    RSA = 1
    RSASSA_PSS = 2
    RSAES_OAEP = 3
    DSA = 4
    ECDSA = 5
    ED25519 = 6


class LenientRule(NamedTuple):
    """A lenient rule by which an object is taken: `strict=True` refuses it."""

    rule: str
    """Its name: bytes_behind, wrapper_by_number, any_serial, basic_truth, unreadable_field, attribute_by_numbers,
    choice_by_number, unreadable_name, timestamps_behind, or inside where its octet isn't told."""

    at: int
    """The octet of the object at which it is used, from 0."""

    path: str
    """The names of the fields that lead there, as "tbsCertificate.serialNumber"."""


class RefusedValue(NamedTuple):
    """A value of an extension that can't be read."""

    status: int
    """Why: a number of Status."""

    word: str
    """The words of the status, as "invalid length"."""

    at: int
    """The octet of the object at which it is refused, from 0."""

    path: str
    """The names of the fields that lead there, as "tbsCertificate.extensions[2].extnValue.basicConstraints"."""

    raw: bytes
    """The octets of the value."""


class SignedObject:
    """Octets that were read, and what was found in them."""

    _kind: ClassVar[Kind]
    _place: ClassVar[Dict[str, int]]

    def __init__(self, buffer: Buffer, found: Numbers) -> None:
        self._buffer = buffer
        self._found = found

    def _window(self, field: str) -> bytes:
        place = self._place[field]
        return self._buffer.window(self._found[place], self._found[place + 1])

    def _element(self, field: str) -> bytes:
        place = self._place[field]
        return self._buffer.element(self._found[place], self._found[place + 1])

    def _number(self, field: str) -> int:
        return self._found[self._place[field]]

    def _oid(self, field: str) -> ObjectIdentifier:
        return identifier(self._window(field))

    @kept
    def _report(self) -> Dict[str, Any]:
        return report(self._buffer, self._kind)

    def field_path(self, at: int) -> str:
        """The names of the fields that lead to an octet of the object, as "tbsCertificate.validity.notAfter".

        Empty where it lies in no member of the object.
        """
        return field_path(self._buffer, self._kind, at)

    def lenient_rules(self) -> Tuple[LenientRule, ...]:
        """The lenient rules by which the object is taken, in order: none where `strict=True` takes it too.

        It is read once more for them, and for the path of each from its front.
        """
        return tuple(
            LenientRule(rule_word(rule), at, self.field_path(at)) for at, rule in rules(self._buffer, self._kind)
        )

    def refused_values(self) -> Tuple[RefusedValue, ...]:
        """The values of extensions that can't be read, in order: of a list those of its entries too, of a request those
        that it asks for. It is read once more for them, and for the path of each from its front.
        """
        buffer, kind = self._buffer, self._kind
        _, rows = _REFUSED_VALUES.ask(
            lambda memory: lib.rtv_refused_values(
                buffer.address, buffer.length, kind, memory.rows, memory.room, memory.counts
            )
        )
        return tuple(
            RefusedValue(status, word(status), at, self.field_path(at), buffer.data[first : first + length])
            for at, first, length, status in rows
        )

    def public_bytes(self) -> bytes:
        """The octets of the object (DER), as they were read, without those behind it."""
        return self._window("whole")

    @property
    def rest(self) -> bytes:
        """The octets behind the object: empty where it was all."""
        return self._window("rest")

    @property
    def signature(self) -> bytes:
        """The octets of the signature. It isn't checked."""
        return self._window("signature")

    @property
    def signature_algorithm_oid(self) -> ObjectIdentifier:
        """The algorithm of the signature, as it stands outside of the signed part."""
        return self._oid("signature_algorithm")

    @property
    def signature_kind(self) -> SignatureKind:
        """What that algorithm is."""
        buffer = Buffer(self._window("signature_algorithm"))
        return SignatureKind(lib.rtv_signature_kind(buffer.address, buffer.length))

    @property
    def signature_hash_algorithm(self) -> Optional[HashAlgorithm]:
        """The hash that the signature is over; None where the algorithm isn't known, or has none of its own."""
        told = self._report["signature_algorithm"]["hash"]
        return HashAlgorithm(told) if told else None

    def fingerprint(self, hash_name: str = "sha256") -> bytes:
        """The hash of the object's octets, by a name that hashlib knows. ValueError where it doesn't."""
        return hashlib.new(hash_name, self.public_bytes()).digest()

    def __eq__(self, other: object) -> bool:
        if not isinstance(other, SignedObject) or type(other) is not type(self):
            return NotImplemented
        return self.public_bytes() == other.public_bytes()

    def __hash__(self) -> int:
        return hash(self.public_bytes())


class KeyedObject(SignedObject):
    """An object with a key."""

    @property
    def public_key_bytes(self) -> bytes:
        """The whole SubjectPublicKeyInfo, with its header: what key pins hash."""
        return self._element("key_info")

    @property
    def key_bits(self) -> bytes:
        """The octets of the key itself: of the BIT STRING, without the count of unused bits."""
        return self._window("key_bits")

    @property
    def key_algorithm(self) -> ObjectIdentifier:
        """The algorithm of the key."""
        return self._oid("key_algorithm")

    @property
    def public_key_algorithm_oid(self) -> ObjectIdentifier:
        """The algorithm of the key, as `key_algorithm`."""
        return self.key_algorithm

    @property
    def key_size(self) -> Optional[int]:
        """The bits of an RSA modulus, or of a coordinate of a point; None where it isn't known, as of Ed25519."""
        return self._number("key_size") or None

    @kept
    def key_parameters(self) -> Optional[KeyParameters]:
        """The parameters of the key's algorithm; None where there are none, or none that can be read."""
        buffer = Buffer(self.public_key_bytes)
        found, _ = _KEY_INFOS.ask(
            lambda memory: lib.rtv_read_key_info(buffer.address, buffer.length, memory.head, memory.second)
        )
        _, _, at, length, _, _, has_parameters, tag, _ = found
        return KeyParameters(tag, buffer.window(at, length)) if has_parameters else None

    def public_key(self) -> PublicKey:
        """The kind of the key, its size and its curve."""
        told = self._report["key"]
        return PublicKey(told["kind"], told["size"], told["curve"])

    @kept
    def rsa_public_numbers(self) -> Optional[RSAPublicNumbers]:
        """The numbers of an RSA key; None where the key is another. Refused where it ought to be RSA, and isn't."""
        if self.key_algorithm not in (PublicKeyAlgorithmOID.RSAES_PKCS1_v1_5, PublicKeyAlgorithmOID.RSASSA_PSS):
            return None
        buffer = Buffer(self.key_bits)
        found, _ = _RSA_KEYS.ask(
            lambda memory: lib.rtv_read_rsa_key(buffer.address, buffer.length, memory.head, memory.second)
        )
        modulus, exponent = buffer.window(found[0], found[1]), buffer.window(found[2], found[3])
        return RSAPublicNumbers(n=signed_number(modulus), e=signed_number(exponent))
