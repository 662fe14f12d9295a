"""Beside cryptography, where that is installed: on all files that both read, both say the same."""

import dataclasses
import unittest
import warnings
from typing import Any, Callable, List, Optional, Set

import rushtrivet

from .inputs import files

try:
    from cryptography import x509
except ImportError:
    x509 = None  # type: ignore[assignment]

try:
    from cryptography.hazmat.primitives import hashes, serialization
    from cryptography.hazmat.primitives.asymmetric import ec, rsa
except ImportError:
    pass


def both(mine: Callable[[bytes], Any], other: Callable[[bytes], Any], data: bytes) -> Optional[Any]:
    """What both say; None where one refuses."""
    try:
        return mine(data), other(data)
    except (ValueError, x509.InvalidVersion):
        return None


def values(name: Any) -> Optional[List[Any]]:
    return [(attribute.oid.dotted_string, attribute.value) for attribute in name]


@unittest.skipIf(x509 is None, "cryptography isn't installed")
@unittest.skipUnless(hasattr(getattr(x509, "Certificate", None), "not_valid_after_utc"), "cryptography is older than 42")
class Beside(unittest.TestCase):
    def setUp(self) -> None:
        self.seen: Set[str] = set()
        self.files = files()
        if not self.files:
            self.skipTest("the example files aren't here")
        caught = warnings.catch_warnings()
        caught.__enter__()
        self.addCleanup(caught.__exit__, None, None, None)
        warnings.simplefilter("ignore")

    def asked(self, ask: Callable[[], Any]) -> Optional[Any]:
        """What cryptography says, or None where it raises: some of it is read only when it is asked for."""
        try:
            return ask()
        except Exception:
            return None

    def same_name(self, mine: Any, ask: Callable[[], Any]) -> int:
        theirs = self.asked(ask)
        if theirs is None:
            return 0
        self.assertEqual(values(mine), values(theirs))
        self.assertEqual([len(rdn) for rdn in mine.rdns], [len(rdn) for rdn in theirs.rdns])
        self.assertEqual(mine.rfc4514_string(), theirs.rfc4514_string())
        return 1

    def same_names(self, mine: Any, theirs: Any) -> None:
        for one in ("DNSName", "RFC822Name", "UniformResourceIdentifier"):
            self.assertEqual(
                mine.get_values_for_type(getattr(rushtrivet, one)), theirs.get_values_for_type(getattr(x509, one))
            )
        self.assertEqual(mine.get_values_for_type(rushtrivet.IPAddress), theirs.get_values_for_type(x509.IPAddress))
        inner = theirs.get_values_for_type(x509.DirectoryName)
        self.assertEqual(
            [values(name) for name in mine.get_values_for_type(rushtrivet.DirectoryName)],
            [values(name) for name in inner],
        )

    def same_extensions(self, mine: Any, ask: Callable[[], Any]) -> int:
        theirs = self.asked(ask)
        if theirs is None:
            return 0
        self.assertEqual(
            [(one.oid.dotted_string, one.critical) for one in mine],
            [(one.oid.dotted_string, one.critical) for one in theirs],
        )
        for one, other in zip(mine, theirs):
            value = other.value
            if isinstance(value, (x509.SubjectAlternativeName, x509.IssuerAlternativeName)):
                self.assertEqual(type(one.value).__name__, type(value).__name__)
                self.same_names(one.value, value)
            elif isinstance(value, x509.BasicConstraints):
                self.assertEqual((one.value.ca, one.value.path_length), (value.ca, value.path_length))
            elif isinstance(value, x509.KeyUsage):
                for use in ("digital_signature", "content_commitment", "key_encipherment", "data_encipherment",
                            "key_agreement", "key_cert_sign", "crl_sign"):  # fmt: skip
                    self.assertEqual(getattr(one.value, use), getattr(value, use))
                if value.key_agreement:
                    self.assertEqual(one.value.encipher_only, value.encipher_only)
                    self.assertEqual(one.value.decipher_only, value.decipher_only)
            elif isinstance(value, x509.UnrecognizedExtension):
                self.assertEqual(one.raw, value.value)
            elif isinstance(value, (x509.PolicyConstraints, x509.InhibitAnyPolicy, x509.CRLNumber)):
                self.same_fields(one.value, value)
            elif isinstance(value, x509.ExtendedKeyUsage):
                self.assertEqual({str(use) for use in one.value}, {use.dotted_string for use in value})
                self.seen.add("ExtendedKeyUsage")
            elif isinstance(value, x509.SubjectKeyIdentifier):
                self.assertEqual(one.value.digest, value.digest)
                self.seen.add("SubjectKeyIdentifier")
            elif isinstance(value, x509.AuthorityKeyIdentifier):
                self.same_authority(one.value, value)
            elif isinstance(value, x509.CertificatePolicies):
                self.same_policies(one.value, value)
            elif isinstance(value, (x509.AuthorityInformationAccess, x509.SubjectInformationAccess)):
                self.assertEqual(type(one.value).__name__, type(value).__name__)
                methods = [each.access_method.dotted_string for each in value]
                self.assertEqual([str(each.access_method) for each in one.value], methods)
                self.same_general_names(
                    [each.access_location for each in one.value], [each.access_location for each in value]
                )
                self.seen.add(type(one.value).__name__)
            elif isinstance(value, (x509.CRLDistributionPoints, x509.FreshestCRL)):
                self.same_points(one.value, value)
            elif isinstance(value, x509.NameConstraints):
                self.same_general_names(one.value.permitted_subtrees, value.permitted_subtrees)
                self.same_general_names(one.value.excluded_subtrees, value.excluded_subtrees)
                self.seen.add("NameConstraints")
            elif isinstance(value, x509.PrecertificateSignedCertificateTimestamps):
                self.assertEqual(
                    [(each.log_id, each.timestamp_utc.replace(tzinfo=None)) for each in one.value],
                    [(each.log_id, each.timestamp) for each in value],
                )
                self.seen.add("PrecertificateSignedCertificateTimestamps")
            elif isinstance(value, x509.DeltaCRLIndicator):
                self.same_fields(one.value, value)
            elif isinstance(value, x509.IssuingDistributionPoint):
                self.same_point(one.value, value)
        return len(mine)

    def same_general_names(self, mine: Any, theirs: Any) -> None:
        """The same names, in the same order; None where there are none."""
        self.assertEqual(mine is None, theirs is None)
        self.assertEqual(len(mine or ()), len(theirs or ()))
        for one, other in zip(mine or (), theirs or ()):
            self.assertEqual(type(one).__name__, type(other).__name__)
            if isinstance(one, rushtrivet.DirectoryName):
                self.assertEqual(values(one.value), values(other.value))
            elif isinstance(one, rushtrivet.OtherName):
                self.assertEqual(str(one.type_id), other.type_id.dotted_string)
            else:
                self.assertEqual(str(one.value), str(getattr(other.value, "dotted_string", other.value)))

    def same_authority(self, mine: Any, theirs: Any) -> None:
        self.assertEqual(mine.key_identifier, theirs.key_identifier)
        self.assertEqual(mine.authority_cert_serial_number, theirs.authority_cert_serial_number)
        self.same_general_names(mine.authority_cert_issuer, theirs.authority_cert_issuer)
        self.seen.add("AuthorityKeyIdentifier")

    def same_policies(self, mine: Any, theirs: Any) -> None:
        self.assertEqual(
            [(str(one.policy_identifier), len(one.policy_qualifiers)) for one in mine],
            [(one.policy_identifier.dotted_string, len(one.policy_qualifiers or ())) for one in theirs],
        )
        self.seen.add("CertificatePolicies")

    def same_points(self, mine: Any, theirs: Any) -> None:
        self.assertEqual(len(mine), len(theirs))
        for one, other in zip(mine, theirs):
            self.same_general_names(one.full_name, other.full_name)
            self.same_general_names(one.crl_issuer, other.crl_issuer)
            if one.relative_name is not None:  # the library reads it only with the header of a SET
                self.assertEqual(values(one.relative_name), values(other.relative_name))
            mine_reasons, reasons = [
                None if each is None else {flag.value for flag in each} for each in (one.reasons, other.reasons)
            ]
            self.assertEqual(mine_reasons, reasons)
        self.seen.add(type(mine).__name__)

    def same_fields(self, mine: Any, theirs: Any) -> None:
        """The fields of my class have the same values in theirs."""
        self.assertEqual(type(mine).__name__, type(theirs).__name__)
        for field in dataclasses.fields(mine):
            self.assertEqual(getattr(mine, field.name), getattr(theirs, field.name), field.name)
        self.seen.add(type(mine).__name__)

    def same_point(self, mine: Any, theirs: Any) -> None:
        for flag in ("only_contains_user_certs", "only_contains_ca_certs", "indirect_crl",
                     "only_contains_attribute_certs"):  # fmt: skip
            self.assertEqual(getattr(mine, flag), getattr(theirs, flag), flag)
        reasons = [None if one is None else {flag.value for flag in one} for one in
                   (mine.only_some_reasons, theirs.only_some_reasons)]  # fmt: skip
        self.assertEqual(*reasons)
        self.same_general_names(mine.full_name, theirs.full_name)
        if mine.relative_name is not None:  # the library reads it only with the header of a SET
            self.assertEqual(values(mine.relative_name), values(theirs.relative_name))
        self.seen.add(type(mine).__name__)

    def same_entry(self, entry: Any, theirs: Any) -> None:
        mine = entry.extensions
        self.assertEqual(
            [(one.oid.dotted_string, one.critical) for one in mine],
            [(one.oid.dotted_string, one.critical) for one in theirs],
        )
        for one, other in zip(mine, theirs):
            if isinstance(other.value, x509.CRLReason):
                self.assertEqual(one.value.reason.value, other.value.reason.value)
                self.assertEqual(entry.reason, one.value.reason)
                self.seen.add("CRLReason")
            elif isinstance(other.value, x509.InvalidityDate):
                date = other.value.invalidity_date
                self.assertEqual(one.value.invalidity_date_utc.replace(tzinfo=None), date)
                self.seen.add("InvalidityDate")

    def same_hash(self, mine: Any, theirs: Any) -> None:
        told = self.asked(lambda: theirs.signature_hash_algorithm)
        if told is not None:
            self.assertEqual(mine.signature_hash_algorithm.name, told.name)
            self.seen.add("hash")

    def same_key(self, mine: Any, theirs: Any) -> int:
        key = self.asked(theirs.public_key)
        if key is None:
            return 0
        if isinstance(key, rsa.RSAPublicKey):
            numbers = key.public_numbers()
            self.assertEqual(mine.rsa_public_numbers, (numbers.n, numbers.e))
            if mine.key_size is not None:  # the library has no size for keys of RSASSA-PSS
                self.assertEqual(mine.key_size, key.key_size)
            self.assertIn(mine.public_key().kind, ("rsa", "rsa_pss"))
            self.assertEqual(mine.public_key().key_size, key.key_size)
        elif isinstance(key, ec.EllipticCurvePublicKey):
            self.assertEqual(mine.key_size, (key.key_size + 7) // 8 * 8)
            self.assertEqual(mine.public_key(), rushtrivet.PublicKey("ec", key.key_size, key.curve.name))
        return 1

    def test_certificates(self) -> None:
        read = names = extensions = keys = 0
        for file, data in self.files.items():
            pair = both(rushtrivet.load_certificate, x509.load_der_x509_certificate, data)
            if pair is None:
                continue
            mine, theirs = pair
            with self.subTest(file=file):
                read += 1
                self.assertEqual(mine.version and mine.version.name, theirs.version.name)
                self.assertEqual(mine.serial_number, theirs.serial_number)
                self.assertEqual(mine.not_valid_before_utc, theirs.not_valid_before_utc)
                self.assertEqual(mine.not_valid_after_utc, theirs.not_valid_after_utc)
                names += self.same_name(mine.subject, lambda theirs=theirs: theirs.subject)
                names += self.same_name(mine.issuer, lambda theirs=theirs: theirs.issuer)
                extensions += self.same_extensions(mine.extensions, lambda theirs=theirs: theirs.extensions)
                keys += self.same_key(mine, theirs)
                self.same_hash(mine, theirs)
                self.assertEqual(mine.signature, theirs.signature)
                self.assertEqual(
                    mine.signature_algorithm_oid.dotted_string, theirs.signature_algorithm_oid.dotted_string
                )
                self.assertEqual(
                    mine.public_key_algorithm_oid.dotted_string, theirs.public_key_algorithm_oid.dotted_string
                )
                self.assertEqual(mine.tbs_certificate_bytes, theirs.tbs_certificate_bytes)
                self.assertEqual(mine.fingerprint(), theirs.fingerprint(hashes.SHA256()))
                self.assertEqual(mine.public_bytes(), theirs.public_bytes(serialization.Encoding.DER))
                found = self.asked(
                    lambda theirs=theirs: theirs.extensions.get_extension_for_class(
                        x509.SubjectAlternativeName
                    ).value.get_values_for_type(x509.DNSName)
                )
                if found is not None:
                    self.assertEqual(mine.hosts, found)
        self.assertTrue(read > 20 and names > 40 and extensions > 100 and keys > 20, (read, names, extensions, keys))
        kinds = {"PolicyConstraints", "InhibitAnyPolicy", "ExtendedKeyUsage", "SubjectKeyIdentifier", "hash"}
        kinds |= {"AuthorityKeyIdentifier", "CertificatePolicies", "AuthorityInformationAccess", "NameConstraints"}
        kinds |= {"CRLDistributionPoints", "PrecertificateSignedCertificateTimestamps"}
        self.assertLessEqual(kinds, self.seen)

    def test_lists(self) -> None:
        read = 0
        for file, data in self.files.items():
            pair = both(rushtrivet.load_crl, x509.load_der_x509_crl, data)
            if pair is None:
                continue
            mine, theirs = pair
            with self.subTest(file=file):
                read += 1
                self.same_name(mine.issuer, lambda theirs=theirs: theirs.issuer)
                self.assertEqual(mine.last_update_utc, theirs.last_update_utc)
                self.assertEqual(mine.next_update_utc, theirs.next_update_utc)
                self.assertEqual(len(mine), len(theirs))
                self.assertEqual(
                    [(entry.serial_number, entry.revocation_date_utc) for entry in mine],
                    [(entry.serial_number, entry.revocation_date_utc) for entry in theirs],
                )
                self.same_extensions(mine.extensions, lambda theirs=theirs: theirs.extensions)
                self.assertEqual(mine.signature, theirs.signature)
                self.assertEqual(mine.tbs_certlist_bytes, theirs.tbs_certlist_bytes)
                self.same_hash(mine, theirs)
                for one, other in zip(mine, theirs):
                    self.same_entry(one, other.extensions)
                for entry in theirs:
                    found = mine.get_revoked_certificate_by_serial_number(entry.serial_number)
                    self.assertEqual(found.serial_number, entry.serial_number)
        self.assertGreater(read, 5)
        kinds = {"CRLNumber", "CRLReason", "InvalidityDate", "IssuingDistributionPoint", "hash"}
        self.assertLessEqual(kinds, self.seen)

    def test_requests(self) -> None:
        read = 0
        for file, data in self.files.items():
            pair = both(rushtrivet.load_csr, x509.load_der_x509_csr, data)
            if pair is None:
                continue
            mine, theirs = pair
            with self.subTest(file=file):
                read += 1
                self.same_name(mine.subject, lambda theirs=theirs: theirs.subject)
                self.same_key(mine, theirs)
                self.assertEqual(mine.signature, theirs.signature)
                self.assertEqual(mine.tbs_certrequest_bytes, theirs.tbs_certrequest_bytes)
                attributes = self.asked(lambda theirs=theirs: list(theirs.attributes))
                if attributes is not None:
                    self.assertEqual(
                        [one.oid.dotted_string for one in mine.attributes],
                        [one.oid.dotted_string for one in attributes],
                    )
                self.same_hash(mine, theirs)
                self.same_extensions(mine.extensions, lambda theirs=theirs: theirs.extensions)
        self.assertGreater(read, 5)
