"""Rows: their columns are what the report says; what is refused, and what isn't there, is a row."""

import ipaddress
import json
import pickle
import unittest
from typing import Any, Dict
from unittest import mock

import rushtrivet as x509
from rushtrivet import _library, rows
from rushtrivet.rows import COLUMNS, names_of, read_rows

from .inputs import certificate, der, extension, files, name, oid, sequence

KINDS = {"text": str, "octets": bytes, "integer": int, "truth": bool, "texts": list}


def row_of(data: Any) -> Dict[str, Any]:
    (row,) = read_rows([("a name", data)])
    return dict(zip(names_of(), row))


def told(data: bytes) -> Dict[str, Any]:
    return _library.report(_library.Buffer(data), _library.Kind.CERTIFICATE)


def hosts_of(*names: bytes) -> Any:
    return certificate(extension([2, 5, 29, 17], sequence(*names)))


class Rows(unittest.TestCase):
    def same(self, data: bytes) -> None:
        """The row is what the report says."""
        row, line = row_of(data), told(data)
        self.assertIsNone(row["refusal"])
        for column in ("subject", "issuer"):
            self.assertEqual(row[column], line[column]["text"])
        self.assertEqual(row["serial"].hex(), line["serial"]["raw"])
        self.assertEqual(row["serial_number"], str(int.from_bytes(row["serial"], "big", signed=True)))
        self.assertEqual((row["not_before"], row["not_after"]), (line["not_before"]["unix"], line["not_after"]["unix"]))
        self.assertEqual((row["hosts"], row["is_ca"]), (line["hosts"], line["is_ca"]))
        self.assertEqual((row["key_kind"], row["key_bits"]), (line["key"]["kind"], line["key"]["size"]))
        self.assertEqual(row["signature_hash"], line["signature_algorithm"]["hash"])
        self.assertEqual(row["sha256"], x509.load_certificate(data).fingerprint("sha256"))
        self.assertEqual(row["spki_sha256"].hex(), line["key"]["sha256"] or row["spki_sha256"].hex())
        usages = [one["value"] for one in line["extensions"] if one["kind"] == "extended_key_usage"]
        expected = None if len(usages) != 1 else usages[0]["purposes"] + [one["oid"] for one in usages[0]["other"]]
        self.assertEqual(row["extended_usages"], expected)

    def test_files(self) -> None:
        read = refused = 0
        for file, data in files().items():
            with self.subTest(file=file):
                try:
                    x509.load_certificate(data)
                except x509.Refused as why:
                    row = row_of(data)
                    self.assertEqual(row["refusal"], f"{why.word} at octet {why.at}")
                    self.assertEqual([row[column] for column in COLUMNS], [None] * len(COLUMNS))
                    refused += 1
                else:
                    self.same(data)
                    read += 1
        if not read:
            self.skipTest("the example files aren't here")
        self.assertGreater(read, 20)
        self.assertGreater(refused, 10)

    def test_types(self) -> None:
        """Plain types, which any engine can carry to another process."""
        for data in files().values():
            row = row_of(data)
            self.assertEqual(pickle.loads(pickle.dumps(row)), row)
            for column, (kind, _) in COLUMNS.items():
                self.assertIn(type(row[column]), (KINDS[kind], type(None)), column)

    def test_hosts(self) -> None:
        four, six = bytes([192, 0, 2, 1]), ipaddress.ip_address("2001:db8::1").packed
        names = (
            der(0x82, b"a.example"),
            der(0x82, b""),
            der(0x82, b"\xff"),
            der(0x81, b"a@b.example"),
            der(0x87, four),
            der(0x87, six),
            der(0x87, bytes(10) + b"\xff\xff" + four),
            der(0x87, four + bytes([255, 255, 255, 0])),
            der(0x87, six + bytes([255] * 8 + [0] * 8)),
            der(0x87, b"12345"),
        )
        data = hosts_of(*names)
        self.same(data)
        self.assertEqual(row_of(data)["hosts"][2:5], ["192.0.2.1", "2001:db8::1", "::ffff:192.0.2.1"])
        for groups in range(256):  # which of the eight are zero
            address = b"".join(b"\0\0" if groups >> k & 1 else bytes([k, 16 + k]) for k in range(8))
            self.same(hosts_of(der(0x87, address)))

    def test_keys(self) -> None:
        """On curves that are known or not, with points that fit or not; of other kinds."""
        elliptic, point = der(6, bytes.fromhex("2a8648ce3d0201")), b"\0\4" + b"Z" * 64
        known = ("06082a8648ce3d030107", "06052b81040022", "06052b81040023", "06092b2403030208010107")
        others = ("86052b81040022", "26052b81040022", "06032a0304", "0600", "0500", "", "06052b8104000a")
        for parameters in known + others:
            for octets in (point, b"\0\4" + b"Z" * 132, b"\0", b"\0\2Z"):
                algorithm = sequence(elliptic, bytes.fromhex(parameters))
                with self.subTest(parameters=parameters, octets=octets):
                    self.same(certificate(key=sequence(algorithm, der(3, octets))))
        long = sequence(sequence(elliptic, bytes.fromhex(known[2])), der(3, b"\0" + b"\4" * 300))
        self.same(certificate(key=long))
        self.assertEqual(row_of(certificate(key=long))["key_bits"], 521)
        rsa = sequence(der(2, b"\0" + b"\xff" * 256), der(2, b"\1\0\1"))
        kinds = ("2a864886f70d010101", "2a864886f70d01010a", "2a8648ce380401", "2b656e", "2b6570", "2b6571", "2a850302")
        for kind in kinds:
            for octets in (b"\0" + rsa, b"\0\2\1\5", b"\0key"):
                key = sequence(sequence(der(6, bytes.fromhex(kind)), der(5)), der(3, octets))
                with self.subTest(kind=kind, octets=octets):
                    self.same(certificate(key=key))

    def test_words_of_algorithms(self) -> None:
        """What is kept of algorithms is what the report says, also where more were seen than are kept."""
        with mock.patch.object(rows, "_MOST_WORDS", 3), mock.patch.object(rows, "_KEY_KINDS", {}):
            for number in range(9):
                self.same(certificate(key=sequence(sequence(oid(1, 2, number)), der(3, b"\0abc"))))
            self.assertEqual(len(rows._KEY_KINDS), 3)

    def test_twice(self) -> None:
        names = extension([2, 5, 29, 17], sequence(der(0x82, b"a")))
        constraints = extension([2, 5, 29, 19], sequence(der(1, b"\xff")))
        usage = extension([2, 5, 29, 37], sequence(oid(1, 2, 3)))
        once = row_of(certificate(names, constraints, usage))
        self.assertEqual((once["hosts"], once["is_ca"], once["extended_usages"]), (["a"], True, ["1.2.3"]))
        twice = row_of(certificate(names, names, constraints, constraints, usage, usage))
        self.assertEqual((twice["hosts"], twice["is_ca"], twice["extended_usages"]), (["a", "a"], False, None))

    def test_values_that_cannot_be_read(self) -> None:
        bad = [extension([2, 5, 29, last], b"\4\0") for last in (17, 19, 37)]
        row = row_of(certificate(*bad))
        self.assertEqual((row["refusal"], row["hosts"], row["is_ca"], row["extended_usages"]), (None, [], False, None))
        long = row_of(certificate(serial=b"\1" * 3000))
        self.assertEqual((len(long["serial"]), long["serial_number"]), (3000, None))
        unread = certificate(subject=name(der(12, b"\xff")))
        self.same(unread)
        self.assertNotIn("X509Error", row_of(unread)["subject"])

    def test_no_octets(self) -> None:
        self.assertEqual(row_of(None)["refusal"], "no octets")
        self.assertEqual(row_of("")["refusal"], "no octets")
        self.assertEqual(row_of("not read")["refusal"], "not read")
        self.assertEqual(row_of(b"")["refusal"], "incomplete at octet 0")
        with self.assertRaises(TypeError):
            row_of(5)

    def test_columns(self) -> None:
        found = list(read_rows([(1, certificate()), (2, b"")], ["not_after", "subject"]))
        self.assertEqual(found, [(1, None, 1704067200, ""), (2, "incomplete at octet 0", None, None)])
        self.assertEqual(names_of(["subject"]), ["source", "refusal", "subject"])
        with self.assertRaises(KeyError):
            list(read_rows([], ["no column"]))
        self.assertEqual(json.loads(json.dumps(names_of()))[2:], list(COLUMNS))


