"""Extensions of certificates, of lists and of their entries."""

from __future__ import annotations

from dataclasses import dataclass
from functools import cached_property
from typing import Any, Generic, List, Tuple, Type, TypeVar, cast

from ._library import Buffer, Numbers, identifier
from ._objects import Items
from ._readers import READERS
from .errors import DuplicateExtension, ExtensionNotFound
from .oid import ObjectIdentifier
from .values import ExtensionType, UnrecognizedExtension

Value = TypeVar("Value", bound=ExtensionType)


@dataclass(frozen=True)
class Extension(Generic[Value]):
    """An extension of a certificate or of a list."""

    oid: ObjectIdentifier
    critical: bool
    """Whether who doesn't know this extension has to turn the whole down."""

    raw: bytes
    """The octets of the value, as they stand."""

    @cached_property
    def value(self) -> Value:
        """The value, read now: an UnrecognizedExtension where it is of no kind that is read.

        Refused where it is of such a kind, and the octets are none; its `at` is an offset in `raw`.
        """
        reader = READERS.get(self.oid)
        return cast(Value, reader(self.raw) if reader else UnrecognizedExtension(self.oid, self.raw))


class Extensions(Items[Extension[Any]]):
    """Extensions, in order. That one of them can't be read doesn't hide the others."""

    def __init__(self, extensions: Tuple[Extension[Any], ...]) -> None:
        self._extensions = extensions

    def _items(self) -> Tuple[Extension[Any], ...]:
        return self._extensions

    def get_extension_for_oid(self, oid: ObjectIdentifier) -> Extension[Any]:
        """The one extension with that identifier. ExtensionNotFound, or DuplicateExtension where there are more."""
        found = [extension for extension in self if extension.oid == oid]
        if not found:
            raise ExtensionNotFound(f"No {oid} extension was found", oid)
        if len(found) > 1:
            raise DuplicateExtension(f"{len(found)} {oid} extensions were found", oid)
        return found[0]

    def get_extension_for_class(self, extclass: Type[Value]) -> Extension[Value]:
        """The one extension whose value is of that class, as KeyUsage; errors as above. Its value isn't read yet."""
        if extclass is UnrecognizedExtension:
            raise TypeError("there may be many UnrecognizedExtension: ask by identifier")
        return self.get_extension_for_oid(extclass.oid)

    def __repr__(self) -> str:
        return f"<Extensions({list(self._extensions)})>"


def read_extensions(buffer: Buffer, found: List[Numbers]) -> Extensions:
    """The extensions in rows of the library. Of use in this package only."""
    window = buffer.window
    return Extensions(
        tuple(
            Extension(identifier(window(oid_at, oid_length)), critical == 1, window(at, length))
            for oid_at, oid_length, at, length, critical in found
        )
    )
