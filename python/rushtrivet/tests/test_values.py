"""Values: names, alternative names, usage, constraints, times, serial numbers, many rows."""

import copy
import hashlib
import ipaddress
import pickle
import threading
import unittest
from datetime import datetime, timezone
from typing import Any

import rushtrivet as x509
from rushtrivet import ExtensionOID, NameOID, ObjectIdentifier

from .inputs import (
    ALGORITHM,
    BITS,
    JANUARY,
    KEY,
    certificate,
    crl,
    der,
    extension,
    files,
    name,
    oid,
    request,
    sequence,
)


def with_names(*names: bytes) -> x509.Certificate:
    return x509.load_certificate(certificate(extension([2, 5, 29, 17], sequence(*names))))


class Names(unittest.TestCase):
    def value(self, tag: int, octets: bytes) -> object:
        (attribute,) = x509.Name(name(der(tag, octets)))
        self.assertEqual((attribute.raw, attribute.tag), (octets, tag))
        return attribute.value

    def test_texts(self) -> None:
        for tag in (12, 18, 19, 20, 22, 26):
            self.assertEqual(self.value(tag, b"1234"), "1234")
        self.assertEqual(self.value(12, "Zürich".encode()), "Zürich")
        self.assertEqual(self.value(30, "Zürich".encode("utf-16-be")), "Zürich")
        self.assertEqual(self.value(28, "Zürich".encode("utf-32-be")), "Zürich")

    def test_octets(self) -> None:
        self.assertEqual(self.value(12, b"\xff"), b"\xff")
        self.assertEqual(self.value(20, "Zürich".encode("latin-1")), "Zürich".encode("latin-1"))
        self.assertEqual(self.value(30, b"\0Z\0"), b"\0Z\0")
        self.assertEqual(self.value(3, b"\0abc"), b"\0abc")

    def test_structure(self) -> None:
        first = sequence(oid(2, 5, 4, 3), der(12, b"a,b"))
        second = sequence(oid(2, 5, 4, 10), der(19, b"#c "))
        found = x509.Name(sequence(der(0x31, first, second), der(0x31, first)))
        self.assertEqual([len(rdn) for rdn in found.rdns], [2, 1])
        self.assertEqual(len(found), 3)
        self.assertEqual([a.value for a in found.get_attributes_for_oid(NameOID.COMMON_NAME)], ["a,b", "a,b"])
        self.assertEqual(found.text, "CN=a,b + O=#c , CN=a,b")
        self.assertEqual(found.rfc4514_string(), "CN=a\\,b,CN=a\\,b+O=\\#c\\ ")
        turned = x509.Name(sequence(der(0x31, second, first), der(0x31, first)))
        self.assertEqual(found, turned)
        self.assertEqual(hash(found), hash(turned))
        self.assertNotEqual(found.raw, turned.raw)

    def test_many(self) -> None:
        values = [f"{number}" * 9 for number in range(300)]
        found = x509.Name(name(*(der(12, value.encode()) for value in values)))
        self.assertEqual([attribute.value for attribute in found], values)
        self.assertEqual(found.text, ", ".join(f"CN={value}" for value in values))

    def test_nul(self) -> None:
        self.assertEqual(x509.Name(name(der(12, b"a\0b"))).text, "CN=a\0b")

    def test_short_window(self) -> None:
        """An empty relative name ends what the library reads of a name; the name is there all the same."""
        empty = sequence(der(0x31))
        found = x509.load_certificate(certificate(subject=empty))
        self.assertEqual((list(found.subject), found.subject.raw, found.subject.text), ([], empty, ""))
        long = sequence(der(0x31, sequence(oid(2, 5, 4, 3), der(12, b"a" * 200))), der(0x31))
        found = x509.load_certificate(certificate(subject=long))
        self.assertEqual((len(found.subject), found.subject.raw), (1, long))
        (inner,) = with_names(der(0xA4, long)).extensions[0].value
        self.assertEqual(inner.value.raw, long)


class AlternativeNames(unittest.TestCase):
    def test_kinds(self) -> None:
        directory = name(der(12, b"www"))
        found = with_names(
            der(0xA0, oid(1, 2, 3), der(0xA0, der(12, b"x"))),
            der(0x81, b"a@b.example"),
            der(0x82, b"www.example"),
            der(0x82, b"a\0b"),
            der(0xA4, directory),
            der(0x86, b"https://a.example/"),
            der(0x87, bytes([192, 0, 2, 1])),
            der(0x87, bytes(16)),
            der(0x88, bytes([0x2A, 3])),
        )
        names = found.extensions.get_extension_for_class(x509.SubjectAlternativeName).value
        self.assertEqual([one.tag for one in names], [0, 1, 2, 2, 4, 6, 7, 7, 8])
        self.assertEqual(names[2], x509.DNSName("www.example"))
        self.assertEqual(names[2].kind, "DNS")
        self.assertEqual(names.get_values_for_type(x509.DNSName), ["www.example", "a\0b"])
        self.assertEqual(names.get_values_for_type(x509.RFC822Name), ["a@b.example"])
        self.assertEqual(names.get_values_for_type(x509.UniformResourceIdentifier), ["https://a.example/"])
        addresses = [ipaddress.IPv4Address("192.0.2.1"), ipaddress.IPv6Address("::")]
        self.assertEqual(names.get_values_for_type(x509.IPAddress), addresses)
        self.assertEqual(names.get_values_for_type(x509.DirectoryName), [x509.Name(directory)])
        self.assertEqual(names.get_values_for_type(x509.RegisteredID), [ObjectIdentifier("1.2.3")])
        (other,) = names.get_values_for_type(x509.OtherName)
        self.assertEqual(other.type_id, ObjectIdentifier("1.2.3"))
        self.assertEqual(found.hosts, ["www.example", "a\0b"])

    def test_unreadable(self) -> None:
        found = with_names(der(0x82, b"\xff"), der(0x87, b"12345"), der(0x82, b"good"))
        names = list(found.extensions[0].value)
        self.assertEqual(names[0], x509.UnreadableName(b"\xff", 2))
        self.assertEqual(names[1], x509.UnreadableName(b"12345", 7))
        self.assertEqual(found.hosts, ["good"])

    def test_many(self) -> None:
        hosts = [f"host{number}.example" for number in range(500)]
        self.assertEqual(with_names(*(der(0x82, host.encode()) for host in hosts)).hosts, hosts)

    def test_none_bad_and_two(self) -> None:
        self.assertEqual(x509.load_certificate(certificate()).hosts, [])
        bad = extension([2, 5, 29, 17], b"\x04\x00")
        good = extension([2, 5, 29, 17], sequence(der(0x82, b"a")))
        usage = extension([2, 5, 29, 15], der(3, b"\1\6"))
        found = x509.load_certificate(certificate(bad, usage))
        with self.assertRaises(x509.Refused) as caught:
            found.hosts
        self.assertEqual(caught.exception.at, 0)
        self.assertTrue(found.extensions.get_extension_for_class(x509.KeyUsage).value.key_cert_sign)
        twice = x509.load_certificate(certificate(good, good))
        self.assertEqual(len(twice.extensions), 2)
        with self.assertRaises(x509.DuplicateExtension):
            twice.hosts


class ExtensionValues(unittest.TestCase):
    def test_usage(self) -> None:
        bits = [
            "digital_signature", "content_commitment", "key_encipherment", "data_encipherment", "key_agreement",
            "key_cert_sign", "crl_sign", "encipher_only", "decipher_only",
        ]  # fmt: skip
        for number, bit in enumerate(bits):
            octets = (0x8000 >> number).to_bytes(2, "big")
            contents = bytes([7]) + octets if number == 8 else bytes([7 - number]) + octets[:1]
            found = x509.load_certificate(certificate(extension([2, 5, 29, 15], der(3, contents), True)))
            usage = found.extensions.get_extension_for_oid(ExtensionOID.KEY_USAGE)
            self.assertTrue(usage.critical)
            self.assertEqual([one for one in bits if getattr(usage.value, one)], [bit])

    def test_constraints(self) -> None:
        yes = der(1, b"\xff")
        for value, expected in (
            (sequence(), (False, None)),
            (sequence(yes), (True, None)),
            (sequence(yes, der(2, b"\0")), (True, 0)),
            (sequence(yes, der(2, b"\3")), (True, 3)),
        ):
            found = x509.load_certificate(certificate(extension([2, 5, 29, 19], value)))
            constraints = found.extensions.get_extension_for_class(x509.BasicConstraints).value
            self.assertEqual((constraints.ca, constraints.path_length), expected)

    def test_many(self) -> None:
        made = [extension([2, 5, 99, number % 100, number // 100], bytes([number % 256])) for number in range(260)]
        found = x509.load_certificate(certificate(*made))
        self.assertEqual([one.raw[0] for one in found.extensions], [number % 256 for number in range(260)])
        first = found.extensions[0]
        self.assertEqual(first.value, x509.UnrecognizedExtension(first.oid, b"\0"))
        with self.assertRaises(x509.ExtensionNotFound) as caught:
            found.extensions.get_extension_for_oid(ExtensionOID.KEY_USAGE)
        self.assertEqual(caught.exception.oid, ExtensionOID.KEY_USAGE)
        with self.assertRaises(TypeError):
            found.extensions.get_extension_for_class(x509.UnrecognizedExtension)

    def test_attributes(self) -> None:
        made = [sequence(oid(1, 2, number), der(0x31, der(12, b"value"))) for number in range(60)]
        found = x509.load_csr(request(*made)).attributes
        self.assertEqual([str(one.oid) for one in found], [f"1.2.{number}" for number in range(60)])
        self.assertEqual(found.get_attribute_for_oid(ObjectIdentifier("1.2.59")).raw, der(0x31, der(12, b"value")))
        with self.assertRaises(x509.AttributeNotFound):
            found.get_attribute_for_oid(x509.AttributeOID.CHALLENGE_PASSWORD)


NETSCAPE = bytes.fromhex("6086480186f84201")


class OtherValues(unittest.TestCase):
    """Values that are read by a call of their own each."""

    def value(self, last: int, value: bytes) -> object:
        """The value of an extension 2.5.29 and so on."""
        found = x509.load_certificate(certificate(extension([2, 5, 29, last], value))).extensions[0]
        self.assertEqual(type(found.value).oid, found.oid)
        return found.value

    def test_policies(self) -> None:
        both = sequence(der(0x80, b"\0"), der(0x81, b"\3"))
        self.assertEqual(self.value(36, both), x509.PolicyConstraints(0, 3))
        self.assertEqual(self.value(36, sequence(der(0x81, b"\3"))), x509.PolicyConstraints(None, 3))
        self.assertEqual(self.value(54, der(2, b"\5")), x509.InhibitAnyPolicy(5))
        first, second = ObjectIdentifier("1.2.3"), ObjectIdentifier("1.2.4")
        pair = sequence(oid(1, 2, 3), oid(1, 2, 4))
        mappings = self.value(33, sequence(pair, pair))
        self.assertEqual(list(mappings), [x509.PolicyMapping(first, second)] * 2)
        self.assertEqual((len(mappings), mappings[1].subject_domain_policy), (2, second))

    def test_of_lists(self) -> None:
        self.assertEqual(self.value(20, der(2, b"\1\0")), x509.CRLNumber(256))
        self.assertEqual(self.value(20, der(2, b"\0\xff" + bytes(18))), x509.CRLNumber(255 << 144))
        found = x509.load_crl(crl([b"\1"], extension([2, 5, 29, 20], der(2, b"\7"))))
        self.assertEqual(found.extensions.get_extension_for_class(x509.CRLNumber).value.crl_number, 7)
        for code, reason in ((0, "unspecified"), (1, "key_compromise"), (8, "remove_from_crl"), (10, "aa_compromise")):
            self.assertEqual(self.value(21, der(10, bytes([code]))).reason, x509.ReasonFlags[reason])
        self.assertEqual((self.value(21, der(10, b"\7")).code, self.value(21, der(10, b"\7")).reason), (7, None))
        date = self.value(24, der(24, b"20240101000000Z"))
        self.assertEqual(date.invalidity_date_utc, datetime(2024, 1, 1, tzinfo=timezone.utc))

    def test_issuing_point(self) -> None:
        yes = b"\xff"
        full = der(0xA0, der(0xA0, der(0x86, b"http://a.example/"), der(0xA4, name(der(12, b"www")))))
        found = self.value(28, sequence(full, der(0x81, yes), der(0x83, b"\5\x60"), der(0x84, yes)))
        address, directory = x509.UniformResourceIdentifier("http://a.example/"), x509.Name(name(der(12, b"www")))
        self.assertEqual(found.full_name, (address, x509.DirectoryName(directory)))
        self.assertIsNone(found.relative_name)
        flags = (found.only_contains_user_certs, found.only_contains_ca_certs, found.indirect_crl)
        self.assertEqual((*flags, found.only_contains_attribute_certs), (True, False, True, False))
        reasons = {x509.ReasonFlags.key_compromise, x509.ReasonFlags.ca_compromise}
        self.assertEqual(found.only_some_reasons, reasons)
        attributes = sequence(oid(2, 5, 4, 3), der(30, "Zürich".encode("utf-16-be")))
        self.assertIsNone(self.value(28, sequence(der(0xA0, der(0xA1, attributes)))).relative_name)
        relative = der(0xA0, der(0xA1, der(0x31, attributes)))
        found = self.value(28, sequence(relative, der(0x82, yes), der(0x85, yes)))
        self.assertEqual(found.relative_name.rfc4514_string(), "CN=Zürich")
        (attribute,) = found.relative_name
        self.assertEqual((attribute.tag, attribute.raw), (30, "Zürich".encode("utf-16-be")))
        flags = (found.only_contains_user_certs, found.only_contains_ca_certs, found.indirect_crl)
        self.assertEqual((*flags, found.only_contains_attribute_certs), (False, True, False, True))
        self.assertEqual((found.full_name, found.only_some_reasons), (None, None))

    def test_names(self) -> None:
        """Names of each kind are those that the call for alternative names tells."""
        names = (
            der(0xA0, oid(1, 2, 3), der(0xA0, der(12, b"x"))),
            der(0x81, b"a@b.example"),
            der(0x82, b"www.example"),
            der(0x82, b"\xff"),
            der(0xA3, sequence()),
            der(0xA4, name(der(12, b"www"))),
            der(0xA4, sequence(der(0x31))),
            der(0xA5, der(0x81, der(12, b"x"))),
            der(0x86, b"https://a.example/"),
            der(0x87, bytes([192, 0, 2, 1])),
            der(0x87, bytes(16)),
            der(0x87, b"12345"),
            der(0x88, bytes([0x2A, 3])),
        )
        expected = with_names(*names).extensions[0].value
        point = self.value(28, sequence(der(0xA0, der(0xA0, *names))))
        self.assertEqual(len(expected), 13)
        self.assertEqual(point.full_name, expected.names)

    def test_netscape(self) -> None:
        made = sequence(
            sequence(der(6, NETSCAPE + b"\1"), der(4, der(3, b"\4\xf0"))),
            sequence(der(6, NETSCAPE + b"\x0d"), der(4, der(22, b"a text"))),
        )
        found = x509.load_certificate(certificate(made[2:])).extensions
        kinds = found.get_extension_for_class(x509.NetscapeCertType).value
        self.assertEqual(set(kinds.types), {"ssl_client", "ssl_server", "smime", "object_signing"})
        self.assertEqual(found.get_extension_for_class(x509.NetscapeComment).value.comment, "a text")

    def test_refused(self) -> None:
        for last in (20, 21, 24, 28, 33, 36, 54):
            for bad in (b"", b"\4\0", b"\x30\5"):
                with self.subTest(last=last, bad=bad), self.assertRaises(x509.Refused) as caught:
                    self.value(last, bad)
                refused = caught.exception
                self.assertEqual((refused.at, refused.word), (0, x509._library.word(refused.status)))

    def test_extended_usage(self) -> None:
        uses = [oid(1, 3, 6, 1, 5, 5, 7, 3, 9), oid(1, 2, 3), oid(1, 3, 6, 1, 5, 5, 7, 3, 1), oid(1, 2, 3)]
        found = self.value(37, sequence(*uses))
        named = [x509.ExtendedKeyUsageOID.SERVER_AUTH, x509.ExtendedKeyUsageOID.OCSP_SIGNING]
        self.assertEqual(list(found), [*named, ObjectIdentifier("1.2.3")])
        every = [value for key, value in vars(x509.ExtendedKeyUsageOID).items() if key.isupper()]
        octets = [bytes([0x55, 0x1D, 0x25, 0])] + [bytes([0x2B, 6, 1, 5, 5, 7, 3, last]) for last in (1, 2, 3, 4, 8, 9)]
        self.assertEqual(list(self.value(37, sequence(*(der(6, one) for one in octets)))), every)
        many = [oid(1, 2, number % 100, number // 100) for number in range(300)]
        self.assertEqual(str(self.value(37, sequence(*many))[299]), "1.2.99.2")
        self.assertEqual(len(self.value(37, sequence(oid(1, 2, 3)))), 1)

    def test_key_identifiers(self) -> None:
        found = self.value(14, der(4, b"abc"))
        self.assertEqual((found.digest, found.key_identifier), (b"abc", b"abc"))
        directory = der(0xA4, name(der(12, b"www")))
        whole = sequence(der(0x80, b"key"), der(0xA1, directory, der(0x82, b"a")), der(0x82, b"\xff"))
        names = (x509.DirectoryName(x509.Name(name(der(12, b"www")))), x509.DNSName("a"))
        self.assertEqual(self.value(35, whole), x509.AuthorityKeyIdentifier(b"key", names, -1))
        self.assertEqual(self.value(35, sequence()), x509.AuthorityKeyIdentifier(None, None, None))
        many = [der(0x82, f"host{number}".encode()) for number in range(40)]
        self.assertEqual(len(self.value(35, sequence(der(0xA1, *many))).authority_cert_issuer), 40)

    def test_certificate_policies(self) -> None:
        cps = sequence(der(6, bytes.fromhex("2b06010505070201")), der(22, b"http://a.example"))
        found = self.value(32, sequence(sequence(oid(1, 2, 3)), sequence(oid(1, 2, 4), sequence(cps, cps))))
        self.assertEqual([str(one.policy_identifier) for one in found], ["1.2.3", "1.2.4"])
        qualifier = x509.PolicyQualifier(ObjectIdentifier("1.3.6.1.5.5.7.2.1"), der(22, b"http://a.example"))
        self.assertEqual([one.policy_qualifiers for one in found], [(), (qualifier, qualifier)])
        counts = [1 + number % 9 for number in range(90)]
        many = [sequence(oid(1, 2, number), sequence(*[cps] * count)) for number, count in enumerate(counts)]
        self.assertEqual([len(one.policy_qualifiers) for one in self.value(32, sequence(*many))], counts)

    def test_accesses(self) -> None:
        ocsp = sequence(der(6, bytes.fromhex("2b06010505073001")), der(0x86, b"http://ocsp.example"))
        other = sequence(oid(1, 2, 3), der(0xA4, name(der(12, b"www"))))
        for last, kind in ((1, x509.AuthorityInformationAccess), (11, x509.SubjectInformationAccess)):
            arcs = der(6, bytes.fromhex("2b060105050701") + bytes([last]))
            made = certificate(sequence(arcs, der(4, sequence(*[ocsp, other] * 9))))
            found = x509.load_certificate(made).extensions.get_extension_for_class(kind).value
            self.assertEqual((type(found), len(found)), (kind, 18))
            self.assertEqual(str(found[0].access_method), "1.3.6.1.5.5.7.48.1")
            self.assertEqual(found[16].access_location, x509.UniformResourceIdentifier("http://ocsp.example"))
            self.assertEqual(found[17].access_location, x509.DirectoryName(x509.Name(name(der(12, b"www")))))

    def test_points(self) -> None:
        uri = der(0x86, b"http://a.example/")
        attribute = sequence(oid(2, 5, 4, 3), der(12, b"relative"))
        issuer = [der(0x82, f"host{number}".encode()) for number in range(9)]
        points = [
            sequence(der(0xA0, der(0xA0, uri, uri))),
            sequence(der(0xA0, der(0xA1, der(0x31, attribute))), der(0x81, b"\5\x60")),
            sequence(der(0xA2, *issuer)),
        ]
        for last, kind in ((31, x509.CRLDistributionPoints), (46, x509.FreshestCRL)):
            found = self.value(last, sequence(*points))
            self.assertEqual((type(found), len(found)), (kind, 3))
            address = x509.UniformResourceIdentifier("http://a.example/")
            self.assertEqual(found[0], x509.DistributionPoint((address, address), None, None, None))
            self.assertEqual(found[1].relative_name.rfc4514_string(), "CN=relative")
            self.assertEqual(found[1].reasons, {x509.ReasonFlags.key_compromise, x509.ReasonFlags.ca_compromise})
            self.assertEqual([one.value for one in found[2].crl_issuer], [f"host{number}" for number in range(9)])
            self.assertEqual((found[2].full_name, found[2].relative_name, found[2].reasons), (None, None, None))
            self.assertEqual(len(self.value(last, sequence(points[0]))), 1)

    def test_name_constraints(self) -> None:
        def roots(*names: bytes) -> bytes:
            return b"".join(map(sequence, names))

        four, six = bytes([192, 0, 2, 0, 255, 255, 255, 0]), bytes(16) + bytes([255] * 4 + [0] * 12)
        bad = (bytes([192, 0, 2, 0, 255, 0, 255, 0]), bytes([192, 0, 2, 1, 255, 255, 255, 0]), b"1234")
        permitted = roots(der(0x82, b"a.example"), der(0x87, four), der(0x87, six), *(der(0x87, one) for one in bad))
        found = self.value(30, sequence(der(0xA0, permitted), der(0xA1, roots(*[der(0x82, b"b")] * 20))))
        networks = [ipaddress.ip_network("192.0.2.0/24"), ipaddress.ip_network("::/32")]
        names = [x509.DNSName("a.example"), *map(x509.IPAddress, networks), x509.UnreadableName(bad[0], 7)]
        self.assertEqual(list(found.permitted_subtrees[:5]), [*names, x509.UnreadableName(bad[1], 7)])
        self.assertEqual(found.excluded_subtrees, (x509.DNSName("b"),) * 20)
        only = self.value(30, sequence(der(0xA1, roots(der(0x82, b"b")))))
        self.assertEqual((only.permitted_subtrees, len(only.excluded_subtrees)), (None, 1))

    def test_timestamps(self) -> None:
        def one(milliseconds: int) -> bytes:
            signed = b"\0" + b"L" * 32 + milliseconds.to_bytes(8, "big") + b"\0\2ex" + b"\4\3" + b"\0\3sig"
            return len(signed).to_bytes(2, "big") + signed

        times = [1700000000123, 0, 2**64 - 1] * 5
        told = b"".join(map(one, times))
        octets = der(4, len(told).to_bytes(2, "big") + told)
        arcs = der(6, bytes.fromhex("2b06010401d679020402"))
        found = x509.load_certificate(certificate(sequence(arcs, der(4, octets)))).extensions[0].value
        self.assertEqual([one.timestamp_milliseconds for one in found], times)
        first = found[0]
        self.assertEqual(first.timestamp_utc, datetime(2023, 11, 14, 22, 13, 20, 123000, timezone.utc))
        self.assertEqual((first.version, first.hash_algorithm, first.signature_algorithm), (0, 4, 3))
        self.assertEqual((first.log_id, first.extension_bytes, first.signature), (b"L" * 32, b"ex", b"sig"))
        with self.assertRaises(ValueError):
            found[2].timestamp_utc

    def test_delta(self) -> None:
        self.assertEqual(self.value(27, der(2, b"\1\0")), x509.DeltaCRLIndicator(256))

    def test_as_the_report(self) -> None:
        """What the calls tell of each value of the example files is what the report tells."""
        compared = set()
        for file, data in files().items():
            for load in (x509.load_certificate, x509.load_crl):
                try:
                    found = load(data)
                except x509.Refused:
                    continue
                for extension, told in zip(found.extensions, found._report["extensions"]):
                    with self.subTest(file=file, oid=extension.oid):
                        self.assertEqual(extension.oid.dotted_string, told["oid"])
                        compared.add(self.as_told(extension, told))
        if not compared:
            self.skipTest("the example files aren't here")
        self.assertLessEqual({"policy_constraints", "inhibit_any_policy", "crl_number", "ns_cert_type"}, compared)
        self.assertLessEqual({"issuing_distribution_point", "extended_key_usage", "ns_comment"}, compared)

    def as_told(self, extension: x509.Extension, told: Any) -> str:
        kind, value = told["kind"], told["value"]
        if kind == "refused":
            with self.assertRaises(x509.Refused) as caught:
                extension.value
            self.assertEqual(caught.exception.word, value)
        elif kind == "policy_constraints":
            expected = x509.PolicyConstraints(value["require_explicit_policy"], value["inhibit_policy_mapping"])
            self.assertEqual(extension.value, expected)
        elif kind == "inhibit_any_policy":
            self.assertEqual(extension.value, x509.InhibitAnyPolicy(value["skip_certs"]))
        elif kind == "crl_number":
            self.assertEqual(extension.value, x509.CRLNumber(int(value or "0", 16)))
        elif kind == "ns_cert_type":
            self.assertEqual(extension.value, x509.NetscapeCertType(value["flags"], tuple(value["types"])))
        elif kind == "ns_comment":
            self.assertEqual(extension.value, x509.NetscapeComment(value))
        elif kind == "policy_mappings":
            pairs = [(one["issuer_domain_policy"]["oid"], one["subject_domain_policy"]["oid"]) for one in value]
            mappings = [(str(one.issuer_domain_policy), str(one.subject_domain_policy)) for one in extension.value]
            self.assertEqual(mappings, pairs)
        elif kind == "subject_key_identifier":
            self.assertEqual(extension.value.digest.hex(), value)
        elif kind == "authority_key_identifier":
            key = extension.value.key_identifier
            self.assertEqual(None if key is None else key.hex(), value["key_identifier"])
            self.assertEqual(extension.value.authority_cert_serial_number is None, value["serial"] is None)
        elif kind in ("certificate_policies", "authority_info_access", "crl_distribution_points", "sct_list"):
            self.assertEqual(len(extension.value), len(value))
        elif kind == "extended_key_usage":
            self.assertEqual(len(extension.value), len(value["purposes"]) + len(value["other"]))
        elif kind == "issuing_distribution_point":
            names, point = value["full_name"], extension.value
            self.assertEqual(None if names is None else len(names), point.full_name and len(point.full_name))
            self.assertEqual(value["relative_name"] is None, point.relative_name is None)
            self.assertEqual(value["only_user_certificates"], point.only_contains_user_certs)
            self.assertEqual(value["only_ca_certificates"], point.only_contains_ca_certs)
            self.assertEqual(value["indirect_crl"], point.indirect_crl)
            self.assertEqual(value["only_attribute_certificates"], point.only_contains_attribute_certs)
        return str(kind)

    def test_entries(self) -> None:
        reason = extension([2, 5, 29, 21], der(10, b"\1"))
        date = extension([2, 5, 29, 24], der(24, b"20240101000000Z"), True)
        for time in (JANUARY, der(24, b"20240101000000Z")):
            entries = [
                sequence(der(2, b"\1"), time, sequence(reason, date)),
                sequence(der(2, b"\2"), time),
                sequence(der(2, b"\3" * 200), time, sequence(reason)),
            ]
            signed = sequence(der(2, b"\1"), ALGORITHM, name(der(12, b"issuer")), JANUARY, sequence(*entries))
            found = x509.load_crl(sequence(signed, ALGORITHM, BITS))
            self.assertEqual([len(entry.extensions) for entry in found], [2, 0, 1])
            first = found[0].extensions
            self.assertEqual(first.get_extension_for_class(x509.CRLReason).value.reason.value, "keyCompromise")
            self.assertTrue(first.get_extension_for_class(x509.InvalidityDate).critical)
            self.assertEqual(found[2].raw_extensions, sequence(reason))
            self.assertEqual([entry.reason_code for entry in found], [1, None, 1])
            lost = x509.ReasonFlags.key_compromise
            self.assertEqual([entry.reason for entry in found], [lost, None, lost])
            by_serial = found.get_revoked_certificate_by_serial_number(1)
            self.assertEqual(by_serial.extensions[1].value.invalidity_seconds, 1704067200)
            again = pickle.loads(pickle.dumps(by_serial))
            self.assertEqual((again, again.reason), (found[0], found[0].reason))
            self.assertEqual(list(again.extensions), list(found[0].extensions))
            self.assertLess(len(pickle.dumps(by_serial)), 2000)
            self.assertEqual(list(copy.copy(found[2]).extensions), list(found[2].extensions))

    def test_requested(self) -> None:
        hosts = extension([2, 5, 29, 17], sequence(der(0x82, b"a.example")))
        wish = sequence(der(6, bytes.fromhex("2a864886f70d01090e")), der(0x31, sequence(hosts)))
        found = x509.load_csr(request(wish)).extensions
        names = found.get_extension_for_class(x509.SubjectAlternativeName).value
        self.assertEqual(names.get_values_for_type(x509.DNSName), ["a.example"])
        self.assertEqual(len(x509.load_csr(request()).extensions), 0)

    def test_messages(self) -> None:
        good = x509.load_certificate(certificate()).messages()
        self.assertEqual((good.accepts, good.errors), (True, ()))
        zeros = x509.load_certificate(certificate(serial=b"\0\0\xff")).messages()
        self.assertEqual(set(zeros.warnings) - set(good.warnings), {"Leading zeroes in serial number"})
        names = extension([2, 5, 29, 17], sequence(der(0x82, b"a")))
        twice = x509.load_certificate(certificate(names, names)).messages()
        self.assertFalse(twice.accepts)
        self.assertTrue(twice.errors)

    def test_messages_of_files(self) -> None:
        """Those of the structure's validator, which the report has, are among them, and in the same order."""
        seen = 0
        for file, data in files().items():
            try:
                found = x509.load_certificate(data)
            except x509.Refused:
                continue
            messages, told = found.messages(), found._report["validator"]
            with self.subTest(file=file):
                self.assertEqual(list(messages.warnings[: len(told["warnings"])]), told["warnings"])
                self.assertEqual(list(messages.errors[: len(told["errors"])]), told["errors"])
                self.assertLessEqual(messages.accepts, told["accepts"])
                seen += len(messages.warnings) + len(messages.errors)
        if not files():
            self.skipTest("the example files aren't here")
        self.assertGreater(seen, 10)

    def test_words(self) -> None:
        self.assertEqual(x509.oid_words(NameOID.COMMON_NAME).name, "commonName")
        self.assertEqual(x509.oid_words(x509.PublicKeyAlgorithmOID.RSAES_PKCS1_v1_5).name, "rsaEncryption")
        for unknown in ("1.2.3.4.5", "80:01", "", "2.999.1"):
            self.assertIsNone(x509.oid_words(ObjectIdentifier(unknown)))
        with self.assertRaises(ValueError):
            x509.oid_words(ObjectIdentifier("no identifier"))
        pairs = {"2.5.29.17": "551d11", "1.2.840.113549": "2a864886f70d", "2.999.3": "883703", "0.9.2342": "099226"}
        for arcs, contents in pairs.items():
            self.assertEqual(x509.registry._contents(ObjectIdentifier(arcs)).hex(), contents)
            self.assertEqual(x509._library.identifier(bytes.fromhex(contents)).dotted_string, arcs)

    def test_parameters(self) -> None:
        self.assertIsNone(x509.load_certificate(certificate()).key_parameters)
        key = sequence(sequence(oid(1, 2, 4), der(5)), der(3, b"\0abc"))
        self.assertEqual(x509.load_certificate(certificate(key=key)).key_parameters, (5, b""))
        curve = sequence(sequence(oid(1, 2, 4), oid(1, 2, 3)), der(3, b"\0abc"), der(4, b"junk"))
        self.assertEqual(x509.load_certificate(certificate(key=curve)).key_parameters, (6, b"\x2a\3"))

    def test_signature_kind(self) -> None:
        self.assertEqual(x509.load_certificate(certificate()).signature_kind, x509.SignatureKind.UNKNOWN)
        kinds = {x509.load_certificate(data).signature_kind for data in files().values() if self.is_read(data)}
        if files():
            self.assertLessEqual({x509.SignatureKind.RSA, x509.SignatureKind.ECDSA, x509.SignatureKind.ED25519}, kinds)

    def is_read(self, data: bytes) -> bool:
        try:
            return bool(x509.load_certificate(data))
        except x509.Refused:
            return False

    def test_key(self) -> None:
        found = x509.load_certificate(certificate())
        self.assertEqual(found.public_key(), x509.PublicKey("unknown", None, None))
        self.assertIsNone(found.signature_hash_algorithm)


class Fields(unittest.TestCase):
    def test_times(self) -> None:
        found = x509.load_certificate(certificate(end=der(24, b"99991231235959Z")))
        self.assertEqual(found.not_valid_before_utc, datetime(2024, 1, 1, tzinfo=timezone.utc))
        self.assertEqual(found.not_valid_after_utc, datetime(9999, 12, 31, 23, 59, 59, tzinfo=timezone.utc))
        early = x509.load_certificate(certificate(end=der(24, b"00000101000000Z")))
        self.assertEqual(early.not_valid_after_seconds, -62167219200)
        with self.assertRaisesRegex(ValueError, "years 1 to 9999"):
            early.not_valid_after_utc

    def test_serials(self) -> None:
        for octets, number in ((b"\1", 1), (b"\0\xff", 255), (b"\xff", -1), (b"\x80", -128), (b"\0\0\1", 1)):
            found = x509.load_certificate(certificate(serial=octets))
            self.assertEqual((found.serial_octets, found.serial_number), (octets, number))

    def test_versions(self) -> None:
        for number, version in ((0, x509.Version.v1), (2, x509.Version.v3), (1, None), (7, None)):
            found = x509.load_certificate(certificate(version=number))
            self.assertEqual((found.version, found.version_number), (version, number))

    def test_key(self) -> None:
        found = x509.load_certificate(certificate())
        self.assertEqual(found.public_key_bytes, KEY)
        self.assertEqual((found.key_bits, found.key_algorithm.dotted_string), (b"abc", "1.2.4"))
        self.assertIsNone(found.key_size)
        self.assertIsNone(found.rsa_public_numbers)

    def test_whole_key(self) -> None:
        """Octets that the library skips in a SubjectPublicKeyInfo belong to it all the same."""
        key = sequence(sequence(oid(1, 2, 4)), der(3, b"\0abc"), der(4, b"junk"))
        found = x509.load_certificate(certificate(key=key))
        self.assertEqual((found.public_key_bytes, found.key_bits), (key, b"abc"))
        with self.assertRaises(x509.Refused):
            x509.load_certificate(certificate(key=key), strict=True)

    def test_object(self) -> None:
        data = certificate()
        found = x509.load_certificate(data)
        self.assertEqual(found.fingerprint(), hashlib.sha256(data).digest())
        self.assertEqual(found.fingerprint("sha1"), hashlib.sha1(data).digest())
        with self.assertRaises(ValueError):
            found.fingerprint("no such hash")
        self.assertEqual(found, x509.load_certificate(data + b"rest"))
        self.assertNotEqual(found, x509.load_certificate(certificate(serial=b"\2")))
        self.assertEqual(len({found, x509.load_certificate(data)}), 1)
        for again in (pickle.loads(pickle.dumps(found)), copy.copy(found), copy.deepcopy(found)):
            self.assertEqual(again.subject.raw, found.subject.raw)
            self.assertEqual(again, found)
        for again in (pickle.loads(pickle.dumps(found.issuer)), copy.copy(found.issuer), copy.deepcopy(found.issuer)):
            self.assertEqual((again, again.text), (found.issuer, "CN=issuer"))

    def test_threads(self) -> None:
        data = certificate(*(extension([2, 5, 29, 17], sequence(der(0x82, b"a.example"))) for _ in range(1)))
        shared = x509.load_certificate(data)
        found = []

        def work() -> None:
            for _ in range(50):
                found.append((x509.load_certificate(data).hosts, shared.hosts, shared.issuer.text))

        threads = [threading.Thread(target=work) for _ in range(8)]
        for thread in threads:
            thread.start()
        for thread in threads:
            thread.join()
        self.assertEqual(found, [(["a.example"], ["a.example"], "CN=issuer")] * 400)
