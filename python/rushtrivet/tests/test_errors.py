"""Refusals and other errors."""

import os
import pickle
import subprocess
import sys
import unittest
from pathlib import Path

import rushtrivet as x509
from rushtrivet import Status, _library

from .inputs import JANUARY, certificate, crl, der, extension, request, sequence

EXTENSION_REQUEST = der(6, bytes.fromhex("2a864886f70d01090e"))
LOADS = (x509.load_certificate, x509.load_crl, x509.load_csr, x509.Index, x509.Name)


class Refusals(unittest.TestCase):
    def test_empty(self) -> None:
        for load in LOADS:
            for nothing in (b"", bytearray(), memoryview(b"")):
                with self.assertRaises(x509.Refused) as caught:
                    load(nothing)
                self.assertEqual(caught.exception.status, Status.INCOMPLETE)
                self.assertEqual((caught.exception.word, caught.exception.at), ("incomplete", 0))

    def test_place(self) -> None:
        data = certificate(end=der(23, b"24"))
        with self.assertRaises(x509.Refused) as caught:
            x509.load_certificate(data)
        refused = caught.exception
        self.assertIsInstance(refused, ValueError)
        self.assertEqual(refused.status, Status.INVALID_DATE)
        self.assertEqual(refused.at, data.index(der(23, b"24")))
        self.assertEqual(refused.path, "tbsCertificate.validity.notAfter")
        self.assertEqual(str(refused), f"{refused.word}, at octet {refused.at} (tbsCertificate.validity.notAfter)")

    def test_paths(self) -> None:
        bad = crl([b"\1"]).replace(JANUARY, der(23, b"24X101000000Z"), 1)
        for load, data, path in ((x509.load_crl, bad, "tbsCertList.thisUpdate"), (x509.load_csr, request()[:-1], "")):
            with self.assertRaises(x509.Refused) as caught:
                load(data)
            self.assertEqual(caught.exception.path, path)
        with self.assertRaises(x509.Refused) as caught:
            x509.Name(b"1")
        self.assertIsNone(caught.exception.path)

    def test_words(self) -> None:
        words = [_library.word(status) for status in Status]
        self.assertEqual(len(set(words)), len(words))
        self.assertTrue(all(words))

    def test_strict(self) -> None:
        lenient = certificate(serial=b"\0\0\1")
        self.assertEqual(x509.load_certificate(lenient).serial_number, 1)
        with self.assertRaises(x509.Refused) as caught:
            x509.load_certificate(lenient, strict=True)
        refused = caught.exception
        at = lenient.index(der(2, b"\0\0\1"))
        self.assertEqual((refused.status, refused.at, refused.rule), (Status.GENERIC, at, "any_serial"))
        self.assertEqual(str(refused), f"generic error, at octet {at} (tbsCertificate.serialNumber): any_serial")
        self.assertEqual(pickle.loads(pickle.dumps(refused)).rule, "any_serial")
        self.assertEqual(x509.load_certificate(certificate(), strict=True).serial_number, 1)
        with self.assertRaises(x509.Refused) as caught:
            x509.load_certificate(lenient[:-1], strict=True)
        self.assertIsNone(caught.exception.rule)
        many = crl([b"\0\0\1"] * 20)
        with self.assertRaises(x509.Refused) as caught:
            x509.load_crl(many, strict=True)
        self.assertEqual((caught.exception.at, caught.exception.rule), (many.index(der(2, b"\0\0\1")), "any_serial"))

    def test_pickle(self) -> None:
        refused = x509.Refused(33, "invalid length", 7)
        refused.path = "tbsCertificate"
        again = pickle.loads(pickle.dumps(refused))
        self.assertEqual((again.status, again.word, again.at, again.path), (33, "invalid length", 7, "tbsCertificate"))
        self.assertEqual(str(x509.Refused(33, "invalid length", None)), "invalid length")
        missing = x509.ExtensionNotFound("none", x509.ExtensionOID.KEY_USAGE)
        self.assertEqual(pickle.loads(pickle.dumps(missing)).oid, missing.oid)

    def test_memory(self) -> None:
        with self.assertRaises(MemoryError):
            _library.refuse(2, 0)
        with self.assertRaises(MemoryError):
            _library.refuse(2)
        with self.assertRaises(x509.Refused) as caught:
            _library.refuse(99, 5)
        self.assertEqual((caught.exception.status, caught.exception.at), (99, 5))
        with self.assertRaises(x509.Refused) as caught:
            _library.refuse(99)
        self.assertIsNone(caught.exception.at)

    def test_rules(self) -> None:
        self.assertEqual(x509.load_certificate(certificate()).lenient_rules(), ())
        self.assertEqual(x509.load_crl(crl([b"\1"])).lenient_rules(), ())
        self.assertEqual(x509.load_csr(request()).lenient_rules(), ())
        serial, truth = der(2, b"\0\0\1"), der(1, b"\1")
        basic = sequence(der(6, b"\x55\x1d\x0e"), truth, der(4, der(4, b"key")))
        data = certificate(basic, serial=b"\0\0\1")
        rules = x509.load_certificate(data).lenient_rules()
        self.assertEqual(
            rules,
            (
                ("any_serial", data.index(serial), "tbsCertificate.serialNumber"),
                ("basic_truth", data.index(truth), "tbsCertificate.extensions[0].critical"),
            ),
        )
        with self.assertRaises(x509.Refused):
            x509.load_certificate(data, strict=True)
        entries = crl([b"\0\0\1"] * 20)
        rules = x509.load_crl(entries).lenient_rules()
        self.assertEqual([entries[rule.at :][:5] for rule in rules], [serial] * 20)
        self.assertEqual(rules[19].path, "tbsCertList.revokedCertificates[19].userCertificate")

    def test_refused_values(self) -> None:
        self.assertEqual(x509.load_certificate(certificate()).refused_values(), ())
        usage = der(3, b"\7\x80")[:-1]
        data = certificate(extension([2, 5, 29, 14], der(4, b"key")), extension([2, 5, 29, 15], usage))
        (refused,) = x509.load_certificate(data).refused_values()
        self.assertEqual((refused.raw, refused.at), (usage, data.index(usage, data.index(b"\x55\x1d\x0f"))))
        self.assertEqual(refused.path, "tbsCertificate.extensions[1].extnValue")
        self.assertEqual((refused.status, refused.word), (Status.INCOMPLETE, "incomplete"))
        many = certificate(*[extension([2, 5, 29, 15], usage)] * 20)
        self.assertEqual([value.raw for value in x509.load_certificate(many).refused_values()], [usage] * 20)
        asked = der(0x31, sequence(extension([2, 5, 29, 15], usage)))
        (refused,) = x509.load_csr(request(sequence(EXTENSION_REQUEST, asked))).refused_values()
        self.assertEqual(refused.raw, usage)

    def test_types(self) -> None:
        for load in LOADS:
            for wrong in ("text", 5, None, [1]):
                with self.assertRaises(TypeError):
                    load(wrong)  # type: ignore[arg-type]

    def test_windows(self) -> None:
        buffer = _library.Buffer(b"abc")
        self.assertEqual(buffer.window(1, 0), b"")
        self.assertEqual(buffer.window(buffer.address + 1, 2), b"bc")
        for at in (1, buffer.address - 1, buffer.address + 3):
            with self.assertRaises(RuntimeError):
                buffer.window(at, 1)


class Library(unittest.TestCase):
    def test_version(self) -> None:
        self.assertRegex(x509.library_version, r"^0\.2\.\d+$")

    def test_other_files(self) -> None:
        for file in ("no/such/file.so", __file__):
            with self.assertRaises(ImportError):
                _library.load(file)

    def test_environment(self) -> None:
        source = str(Path(x509.__file__).parents[1])
        told = subprocess.run(
            [sys.executable, "-c", "import rushtrivet"],
            env={**os.environ, "RUSHTRIVET_LIBRARY": "no/such/file.so", "PYTHONPATH": source},
            capture_output=True,
            text=True,
        )
        self.assertEqual(told.returncode, 1)
        self.assertIn("ImportError", told.stderr)
