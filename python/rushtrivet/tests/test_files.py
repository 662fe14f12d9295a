"""Each example file: read, or refused as the call says; with room for no row and for one too."""

import contextlib
import ctypes
import gc
import unittest
from typing import Any, List, Tuple
from unittest import mock

import rushtrivet
from rushtrivet import _library
from rushtrivet._library import lib

from .inputs import files


NONE = 2**64 - 1


def called(kind: str, data: bytes, strict: bool) -> Tuple[int, int]:
    """The status of the call itself, and the octet; -1 where none is told."""
    found, row, at = (ctypes.c_uint64 * 64)(), (ctypes.c_uint64 * 8)(), ctypes.c_size_t(NONE)
    for k in range(len(found)):  # an address that is none of NULL, whatever the field
        found[k] = ctypes.addressof(found)
    rest = (found, row, 0, ctypes.byref(at))
    if kind == "certificate":
        status = lib.rtv_read_certificate(data, len(data), strict, strict, *rest)
    elif kind == "list":
        status = lib.rtv_read_list(data, len(data), strict, found, row, 0, *rest[1:])
    else:
        status = lib.rtv_read_request(data, len(data), strict, *rest)
    return status, -1 if at.value == NONE else at.value


LOADS = {
    "certificate": rushtrivet.load_certificate,
    "list": rushtrivet.load_crl,
    "request": rushtrivet.load_csr,
}


def told(found: Any) -> List[Any]:
    """All that an object tells in rows."""
    result: List[Any] = [found.public_bytes(), found.rest, found.signature]
    if isinstance(found, rushtrivet.CertificateRevocationList):
        result += [list(found), list(found.issuer)]
    else:
        result += [list(found.subject), found.public_key_bytes, found.rsa_public_numbers]
    if isinstance(found, rushtrivet.CertificateSigningRequest):
        return result + [list(found.attributes)]
    for extension in found.extensions:
        result.append(extension)
        try:
            result.append(extension.value)
        except rushtrivet.Refused as refused:
            result.append(str(refused))
    return result


class Files(unittest.TestCase):
    def setUp(self) -> None:
        self.files = files()
        if not self.files:
            self.skipTest("the example files aren't here")

    def test_statuses(self) -> None:
        read = refused = 0
        for name, data in self.files.items():
            for kind, load in LOADS.items():
                for strict in (False, True):
                    status, at = called(kind, data, strict)
                    with self.subTest(name=name, kind=kind, strict=strict):
                        if status == 0:
                            load(data, strict=strict)
                            self.assertEqual(at, -1)
                            read += 1
                        else:
                            with self.assertRaises(rushtrivet.Refused) as caught:
                                load(data, strict=strict)
                            # what strict alone refuses is told at the first rule, and by the call at octet 0
                            rule, first = None, at
                            if status == rushtrivet.Status.GENERIC:
                                self.assertEqual(at, 0)
                                rule, first, _ = load(data).lenient_rules()[0]
                            told_of = caught.exception
                            self.assertEqual((told_of.status, told_of.at, told_of.rule), (status, first, rule))
                            self.assertEqual(told_of.word, _library.word(status))
                            refused += 1
        self.assertGreater(read, 50)
        self.assertGreater(refused, 50)

    def test_rooms(self) -> None:
        """With room for no row or one at first, all rows come as well."""
        callers = [one for one in gc.get_objects() if isinstance(one, _library.Caller)]
        self.assertGreater(len(callers), 8)
        for name, data in self.files.items():
            for load in LOADS.values():
                try:
                    expected = told(load(data))
                except rushtrivet.Refused:
                    continue
                for room in (0, 1):
                    with self.subTest(name=name, room=room), contextlib.ExitStack() as patches:
                        for caller in callers:
                            patches.enter_context(mock.patch.object(caller, "room", room))
                            patches.enter_context(mock.patch.object(caller, "free", []))
                        self.assertEqual(told(load(data)), expected)

    def test_memories(self) -> None:
        """A memory is used again, with another room isn't kept, and is with one call only."""
        caller = _library.Caller(None, _library.IndexRow, 2)
        first, second = caller.take(), caller.take()
        self.assertIsNot(first, second)
        caller.free.append(first)
        self.assertIs(caller.take(), first)

        def call(memory: _library.Memory) -> int:
            self.assertNotIn(memory, caller.free)
            ctypes.c_size_t.from_address(memory.counts).value = 5
            for position in range(min(memory.room, 5)):
                ctypes.c_size_t.from_address(memory.rows + 24 * position + 16).value = position
            return 0

        self.assertEqual([row[2] for row in caller.ask(call)[1]], [0, 1, 2, 3, 4])
        self.assertEqual(caller.free, [])
        memory, count = caller.hold(call, 0)
        self.assertEqual((memory.room, count, caller.row_in(memory, 4)[2]), (5, 5, 4))

    def test_rest(self) -> None:
        for name, data in self.files.items():
            for load in LOADS.values():
                try:
                    whole = load(data).public_bytes()
                except rushtrivet.Refused:
                    continue
                with self.subTest(name=name):
                    for more in (b"", b"behind", data):
                        found = load(whole + more)
                        self.assertEqual((found.public_bytes(), found.rest), (whole, more))
                    for mutable in (bytearray(whole), memoryview(whole)):
                        self.assertEqual(load(mutable), load(whole))
