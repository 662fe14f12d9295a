"""Lists of revoked certificates: their entries, look-ups, and the index."""

import pickle
import types
import unittest

import rushtrivet as x509
from rushtrivet._objects import serial_contents

from .inputs import ALGORITHM, BITS, JANUARY, crl, der, extension, files, name, sequence


def serials(count: int) -> list:
    return [serial_contents(number * 7919 % 1000003) for number in range(count)]


class Lists(unittest.TestCase):
    def test_entries(self) -> None:
        data = crl([b"\5", b"\0\xff", b"\xff", b"\5"])
        found = x509.load_crl(data)
        self.assertEqual(len(found), 4)
        self.assertEqual([entry.serial_number for entry in found], [5, 255, -1, 5])
        self.assertEqual(found[1].serial_octets, b"\0\xff")
        self.assertEqual(found[-1], list(found)[3])
        self.assertEqual(found[1:3], list(found)[1:3])
        self.assertEqual(found[0].revocation_date_utc, found.last_update_utc)
        self.assertIsNone(found.next_update_utc)
        self.assertEqual(found.version_number, 1)
        with self.assertRaises(IndexError):
            found[4]

    def test_iteration(self) -> None:
        wanted = serials(20000)
        found = x509.load_crl(crl(wanted))
        self.assertIsInstance(iter(found), types.GeneratorType)
        self.assertEqual(next(iter(found)).serial_octets, wanted[0])
        self.assertEqual([entry.serial_octets for entry in found], wanted)

    def test_empty(self) -> None:
        found = x509.load_crl(crl([]))
        self.assertEqual((len(found), list(found), list(found.extensions)), (0, [], []))
        self.assertIsNone(found.get_revoked_certificate_by_serial_number(1))
        index = x509.Index(crl([]))
        self.assertEqual((len(index), index.find(1)), (0, None))

    def test_extensions_of_entries(self) -> None:
        """Of many entries with none, one and more extensions each has its own, also where none could be read of one."""
        one = extension([2, 5, 29, 21], der(10, b"\4"))
        other = [extension([2, 5, 99, number], bytes([number])) for number in range(3)]
        bad = sequence(der(2, b"\1"))
        kinds = [b"", sequence(one), sequence(*other), sequence(other[1], one), sequence(bad)]
        entries = [sequence(der(2, bytes([number])), JANUARY, kinds[number % 5]) for number in range(1, 120)]
        signed = sequence(der(2, b"\1"), ALGORITHM, name(der(12, b"issuer")), JANUARY, sequence(*entries))
        found = x509.load_crl(sequence(signed, ALGORITHM, BITS))
        lengths = {0: 0, 1: 1, 2: 3, 3: 2, 4: 0}
        for number, entry in enumerate(found, 1):
            self.assertEqual(entry.serial_number, number)
            self.assertEqual(len(entry.extensions), lengths[number % 5])
            self.assertEqual(entry.reason_code, 4 if number % 5 in (1, 3) else None)
            if entry.extensions:
                self.assertEqual(sequence(*map(self.written, entry.extensions)), entry.raw_extensions)
            by_serial = found.get_revoked_certificate_by_serial_number(number)
            self.assertEqual((by_serial, list(by_serial.extensions)), (entry, list(entry.extensions)))

    def written(self, found: x509.Extension) -> bytes:
        return extension([int(arc) for arc in str(found.oid).split(".")], found.raw, found.critical)

    def test_extensions(self) -> None:
        made = [extension([2, 5, 99, number], bytes([number])) for number in range(60)]
        found = x509.load_crl(crl([b"\1"], *made))
        self.assertEqual([one.raw[0] for one in found.extensions], list(range(60)))
        self.assertEqual(len(found), 1)

    def test_one_look_up(self) -> None:
        found = x509.load_crl(crl([b"\5", b"\0\xff", b"\x80"]))
        for serial in (5, b"\5", b"\0\0\5", bytearray(b"\5")):
            entry = found.get_revoked_certificate_by_serial_number(serial)
            self.assertEqual(entry, found[0])
        self.assertEqual(found.get_revoked_certificate_by_serial_number(255), found[1])
        self.assertEqual(found.get_revoked_certificate_by_serial_number(-128), found[2])
        self.assertEqual(found.get_revoked_certificate_by_serial_number(128), found[2])
        self.assertIsNone(found.get_revoked_certificate_by_serial_number(6))
        with self.assertRaises(TypeError):
            found.get_revoked_certificate_by_serial_number("5")  # type: ignore[arg-type]

    def test_index_beside_the_scan(self) -> None:
        lists = {"made": crl(serials(500) + [b"\7", b"\7", b"\0\xff", b"\xff"])}
        lists.update(files())
        compared = 0
        for name, data in lists.items():
            try:
                found, index = x509.load_crl(data), x509.Index(data)
            except x509.Refused:
                continue
            with self.subTest(name=name):
                self.assertEqual(len(index), len(found))
                first = {}
                for position, entry in enumerate(found):
                    first.setdefault(entry.serial_octets.lstrip(b"\0"), position)
                for entry in found:
                    position = first[entry.serial_octets.lstrip(b"\0")]
                    self.assertEqual(index.find(entry.serial_octets), position)
                    self.assertEqual(index.find(entry.serial_number), position)
                    one = found.get_revoked_certificate_by_serial_number(entry.serial_octets)
                    self.assertEqual(one, found[position])
                    compared += 1
                self.assertIsNone(index.find(b"\1" * 40))
        self.assertGreater(compared, 500)

    def test_index_refuses_as_the_list(self) -> None:
        for data in (b"", b"\x30", crl([b"\1"])[:-1], b"\x05\x00"):
            with self.assertRaises(x509.Refused) as one:
                x509.load_crl(data)
            with self.assertRaises(x509.Refused) as other:
                x509.Index(data)
            self.assertEqual(one.exception.args, other.exception.args)

    def test_pickle(self) -> None:
        data = crl([b"\5"])
        self.assertEqual(list(pickle.loads(pickle.dumps(x509.load_crl(data)))), list(x509.load_crl(data)))
        self.assertEqual(pickle.loads(pickle.dumps(x509.Index(data))).find(5), 0)

    def test_contents_of_serials(self) -> None:
        for number in (0, 1, 127, 128, 255, 256, 2**159, -1, -127, -128, -129, -256):
            octets = serial_contents(number)
            self.assertEqual(int.from_bytes(octets, "big", signed=True), number)
            if len(octets) > 1:
                self.assertNotEqual(int.from_bytes(octets[1:], "big", signed=True), number)
