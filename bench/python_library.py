#!/usr/bin/env python3
"""python_library.py FILE..: what it takes from Python to load a certificate (DER), and to read its subject, its hosts and its end,
by the package rushtrivet and by cryptography, over the files that both read and that name hosts.

The least of ROUNDS rounds in processor time for each file; the rounds of both take turns. Both have to tell the same."""
import sys
import time
import warnings

import cryptography
from cryptography import x509

import rushtrivet

ROUNDS, TIMES = 40, 100
END = "not_valid_after_utc" if hasattr(x509.Certificate, "not_valid_after_utc") else "not_valid_after"


def load(data):
    return rushtrivet.load_certificate(data)


def load_beside(data):
    return x509.load_der_x509_certificate(data)


def read(data):
    certificate = rushtrivet.load_certificate(data)
    return certificate.subject.rfc4514_string(), certificate.hosts, certificate.not_valid_after_utc


def read_beside(data):
    certificate = x509.load_der_x509_certificate(data)
    names = certificate.extensions.get_extension_for_class(x509.SubjectAlternativeName).value
    return certificate.subject.rfc4514_string(), names.get_values_for_type(x509.DNSName), getattr(certificate, END)


def same(data):
    """Whether both read it, and what they tell is the same."""
    try:
        mine, theirs = read(data), read_beside(data)
    except (ValueError, x509.ExtensionNotFound, x509.DuplicateExtension):
        return False
    if not mine[1]:
        return False
    if mine[:2] != theirs[:2] or mine[2].replace(tzinfo=None) != theirs[2].replace(tzinfo=None):
        sys.exit(f"they differ: {mine} {theirs}")
    return True


def least(calls, data):
    """The least of each call's rounds, in nanoseconds."""
    found = [float("inf")] * len(calls)
    for _ in range(ROUNDS):
        for number, call in enumerate(calls):
            start = time.process_time_ns()
            for _ in range(TIMES):
                call(data)
            found[number] = min(found[number], (time.process_time_ns() - start) / TIMES)
    return found


def main():
    warnings.simplefilter("ignore")
    files = []
    for name in sys.argv[1:]:
        with open(name, "rb") as file:
            files.append(file.read())
    files = [data for data in files if same(data)]
    python = ".".join(map(str, sys.version_info[:3]))
    print(f"CPython {python}, cryptography {cryptography.__version__}: {len(files)} certificates that both read, with hosts")
    if not files:
        return
    for what, calls in (("load", (load, load_beside)), ("load, subject, hosts and end", (read, read_beside))):
        rows = [least(calls, data) for data in files]
        mine, theirs = (sum(row[number] for row in rows) / len(rows) / 1e3 for number in (0, 1))
        print(f"  {what:30} {mine:7.1f} us, cryptography {theirs:7.1f} us: {mine / theirs:.2f} of it")


if __name__ == "__main__":
    main()
