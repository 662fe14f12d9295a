"""inventory.py FILE..: of each DER certificate, on a line, its subject, its DNS names, its end, and its key.

Set PYTHONPATH to python/rushtrivet/src, or install the package. The exit code is 1 where a file was refused.
"""

from __future__ import annotations

import sys
from pathlib import Path
from typing import List

import rushtrivet


def shown(text: str) -> str:
    """The text on one line: what can't be printed is escaped."""
    return "".join(
        character if character.isprintable() else character.encode("unicode_escape").decode("ascii")
        for character in text
    )


def hosts_of(certificate: rushtrivet.Certificate) -> str:
    try:
        return " ".join(f"DNS:{host}" for host in certificate.hosts)
    except (rushtrivet.Refused, rushtrivet.DuplicateExtension) as error:
        return f"no names: {error}"


def end_of(certificate: rushtrivet.Certificate) -> str:
    try:
        return certificate.not_valid_after_utc.isoformat()
    except ValueError:
        return f"second {certificate.not_valid_after_seconds}"


def line_of(certificate: rushtrivet.Certificate) -> str:
    """What is said of a certificate."""
    bits = f" of {certificate.key_size} bits" if certificate.key_size else ""
    words = [
        certificate.subject.text,
        hosts_of(certificate),
        f"until {end_of(certificate)}",
        f"{certificate.key_algorithm}{bits}",
    ]
    return shown("; ".join(word for word in words if word))


def main(files: List[str]) -> int:
    if hasattr(sys.stdout, "reconfigure"):
        sys.stdout.reconfigure(errors="backslashreplace")
    code = 0
    for file in files:
        try:
            print(line_of(rushtrivet.load_certificate(Path(file).read_bytes())))
        except rushtrivet.Refused as refused:
            print(f"{shown(file)}: refused at octet {refused.at}: {refused.word}")
            code = 1
        except OSError as error:
            print(f"{shown(file)}: {error.strerror}", file=sys.stderr)
            code = 2
    return code


if __name__ == "__main__":
    sys.exit(main(sys.argv[1:]))
