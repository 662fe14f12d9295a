"""The structs, the calls and the statuses are those of the header, which may have more of them."""

import ctypes
import re
import shutil
import subprocess
import tempfile
import unittest
from ctypes import POINTER, c_bool, c_char_p, c_int64, c_size_t, c_uint32, c_uint64, c_void_p
from pathlib import Path

from rushtrivet import Status, _library

from .inputs import HEADER

FIELDS = {
    "const uint8_t *": c_void_p,
    "size_t ": c_size_t,
    "int64_t ": c_int64,
    "uint32_t ": c_uint32,
    "uint64_t ": c_uint64,
    "rtv_status ": c_uint32,
    "rtv_bytes ": _library.Bytes,
    "rtv_general_name ": _library.GeneralNameRow,
}

ARGUMENTS = {
    "const uint8_t *": c_char_p,
    "uint8_t *": c_char_p,
    "size_t ": c_size_t,
    "size_t *": POINTER(c_size_t),
    "uint32_t *": POINTER(c_uint32),
    "bool ": c_bool,
    "int64_t *": POINTER(c_int64),
    "rtv_status ": c_uint32,
    "uint32_t ": c_uint32,
}


def argument(words: str) -> object:
    """The type of an argument; the words themselves where this package has none for them."""
    row = re.fullmatch(r"(?:const )?(rtv_\w+) \*", words)
    if row and row[1] in _library.STRUCTS:
        return POINTER(_library.STRUCTS[row[1]])
    return ARGUMENTS.get(words, words)


@unittest.skipUnless(HEADER.is_file(), "the header isn't here")
class Header(unittest.TestCase):
    def setUp(self) -> None:
        self.text = re.sub(r"/\*.*?\*/", "", HEADER.read_text(), flags=re.S)

    def test_version(self) -> None:
        self.assertIn(f"#define RTV_VERSION {_library.HEADER_VERSION} ", self.text)

    def test_structs(self) -> None:
        found = {}
        for name, body in re.findall(r"typedef struct (\w+) \{(.*?)\} \w+;", self.text, re.S):
            fields = re.findall(r"([\w ]+[ *])(\w+);", body)
            found[name] = [(field, FIELDS.get(kind.lstrip(), kind)) for kind, field in fields]
        for name, struct in _library.STRUCTS.items():
            self.assertEqual(found[name], list(struct._fields_), name)

    def test_calls(self) -> None:
        found = {}
        pattern = r"^(uint32_t|size_t|rtv_status) (rtv_\w+)\((.*?)\);"
        for result, name, arguments in re.findall(pattern, self.text, re.S | re.M):
            words = [] if arguments == "void" else re.split(r",\s*", arguments)
            kinds = [argument(re.sub(r"\w+$", "", word)) for word in words]
            found[name] = (c_size_t if result == "size_t" else c_uint32, kinds)
        for name, call in _library.CALLS.items():
            self.assertEqual(found[name], call, name)

    def test_statuses(self) -> None:
        found = {name: int(number) for name, number in re.findall(r"^    RTV_(\w+) = (\d+)", self.text, re.M)}
        self.assertEqual({name: found.get(name) for name in Status.__members__}, dict(Status.__members__))

    @unittest.skipUnless(shutil.which("cc"), "there is no C compiler")
    def test_places(self) -> None:
        lines, expected = [], []
        for name, struct in _library.STRUCTS.items():
            lines.append(f'printf("{name} %zu\\n", sizeof({name}));')
            expected.append(f"{name} {ctypes.sizeof(struct)}")
            for field, _ in struct._fields_:
                lines.append(f'printf("{name}.{field} %zu\\n", offsetof({name}, {field}));')
                expected.append(f"{name}.{field} {getattr(struct, field).offset}")
        source = '#include "rushtrivet.h"\n#include <stdio.h>\nint main(void) {\n' + "\n".join(lines) + "\n}\n"
        with tempfile.TemporaryDirectory() as folder:
            program, file = Path(folder) / "places", Path(folder) / "places.c"
            file.write_text(source)
            subprocess.run(["cc", f"-I{HEADER.parent}", "-o", str(program), str(file)], check=True)
            told = subprocess.run([str(program)], check=True, capture_output=True, text=True).stdout
        self.assertEqual(told.splitlines(), expected)
