"""What the package says of each file is what a C program says that calls the library by its header."""

import os
import shutil
import subprocess
import tempfile
import unittest
from pathlib import Path
from typing import Any, List

import rushtrivet
from rushtrivet import _library

from .inputs import HEADER, files


def window(found: Any, field: str, whole: bytes) -> bytes:
    """The window that the library told of a name or of a key: `whole`, or its front."""
    told: bytes = found._window(field)
    assert whole.startswith(told), field
    return told


def octets(*windows: bytes) -> List[str]:
    return ["=" + window.hex() for window in windows]


def line_of(kind: str, data: bytes, strict: bool) -> str:
    load: Any = {
        "certificate": rushtrivet.load_certificate,
        "list": rushtrivet.load_crl,
        "request": rushtrivet.load_csr,
    }[kind]
    words: List[Any] = [kind, int(strict)]
    try:
        found = load(data, strict=strict)
    except rushtrivet.Refused as refused:
        # the call itself tells what strict alone refuses at octet 0
        return " ".join(map(str, [*words, refused.status, 0 if refused.rule else refused.at]))
    words += [0, 0]
    extensions = []
    if kind != "request":
        for extension in found.extensions:
            extensions += [*octets(extension.raw), int(extension.critical)]
    if kind == "certificate":
        words += [found.version_number, found.not_valid_before_seconds, found.not_valid_after_seconds]
        words += [found.key_size or 0, len(found.extensions)]
        words += octets(found.public_bytes(), found.rest, found.tbs_certificate_bytes, found.serial_octets)
        words += octets(window(found, "issuer", found.issuer.raw))
        words += octets(window(found, "subject", found.subject.raw))
        words += octets(window(found, "key_info", found.public_key_bytes))
        words += octets(found.key_bits, found.signature)
        words += extensions
    elif kind == "list":
        words += [found.last_update_seconds, found.next_update_seconds or 0]
        words += [int(found.next_update_seconds is not None), len(found), len(found.extensions)]
        words += octets(found.public_bytes(), found.rest, found.tbs_certlist_bytes)
        words += octets(window(found, "issuer", found.issuer.raw), found.signature)
        words += extensions
        for entry in found:
            words += [*octets(entry.serial_octets), entry.revocation_seconds, entry.extension_count]
    else:
        words += [found.version_number, found.key_size or 0, len(found.attributes)]
        words += octets(found.public_bytes(), found.rest, found.tbs_certrequest_bytes)
        words += octets(window(found, "subject", found.subject.raw))
        words += octets(window(found, "key_info", found.public_key_bytes), found.key_bits, found.signature)
        words += octets(*(attribute.raw for attribute in found.attributes))
    return " ".join(map(str, words))


@unittest.skipUnless(HEADER.is_file() and shutil.which("cc"), "the header or a C compiler isn't here")
@unittest.skipUnless(Path(_library.lib._name).is_file(), "the library was found by name only")
class Oracle(unittest.TestCase):
    def test_files(self) -> None:
        inputs = list(files().values())
        if not inputs:
            self.skipTest("the example files aren't here")
        inputs += [b"", b"\x30", b"\x30\x00"]
        inputs += [data + b"rest" for data in inputs] + [data[:-1] for data in inputs if data]
        library = Path(_library.lib._name).resolve()
        with tempfile.TemporaryDirectory() as folder:
            program = Path(folder) / "oracle"
            source = Path(__file__).with_name("oracle.c")
            subprocess.run(["cc", f"-I{HEADER.parent}", "-o", str(program), str(source), str(library)], check=True)
            names = []
            for number, data in enumerate(inputs):
                file = Path(folder) / str(number)
                file.write_bytes(data)
                names.append(str(file))
            path = {**os.environ, "LD_LIBRARY_PATH": str(library.parent)}
            told = subprocess.run([str(program), *names], check=True, capture_output=True, text=True, env=path).stdout
        expected = told.splitlines()
        found = [
            line_of(kind, data, strict)
            for data in inputs
            for strict in (False, True)
            for kind in ("certificate", "list", "request")
        ]
        self.assertEqual(len(found), len(expected))
        for one, other in zip(found, expected):
            self.assertEqual(one, other)
        self.assertGreater(sum(" 0 0 " in line for line in expected), 50)
