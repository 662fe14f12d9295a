"""The programs of the page and the example run; what is public has words; the library is found where the page says."""

import inspect
import os
import re
import shutil
import subprocess
import sys
import tempfile
import unittest
from pathlib import Path
from typing import List, Optional

import rushtrivet
from rushtrivet import _library

from .inputs import REPOSITORY, files

PAGE = REPOSITORY / "docs" / "PYTHON.md"
INVENTORY = REPOSITORY / "examples" / "python" / "inventory.py"
SOURCE = Path(rushtrivet.__file__).resolve().parents[1]
LIBRARY = Path(_library.lib._name)


def run(
    arguments: List[str], source: Path = SOURCE, library: Optional[str] = str(LIBRARY)
) -> "subprocess.CompletedProcess[str]":
    env = {**os.environ, "PYTHONPATH": str(source), "PYTHONIOENCODING": "utf-8"}
    env.pop("RUSHTRIVET_LIBRARY", None)
    if library:
        env["RUSHTRIVET_LIBRARY"] = library
    return subprocess.run([sys.executable, *arguments], env=env, capture_output=True, text=True, encoding="utf-8")


class Words(unittest.TestCase):
    def test_names(self) -> None:
        self.assertEqual(sorted(rushtrivet.__all__), sorted(set(rushtrivet.__all__)))
        for name in rushtrivet.__all__:
            item = getattr(rushtrivet, name)
            if not (inspect.isclass(item) or inspect.isfunction(item)):
                continue
            with self.subTest(name=name):
                self.assertFalse((item.__doc__ or f"{name}(").startswith(f"{name}("), "no words of its own")
                for member, value in vars(item).items() if inspect.isclass(item) else ():
                    public = not member.startswith("_") and (callable(value) or hasattr(value, "__get__"))
                    if public and not isinstance(value, rushtrivet.ObjectIdentifier):
                        self.assertTrue(getattr(value, "__doc__", None), member)

    def test_no_state(self) -> None:
        for module in ("_names", "values", "certificates", "lists", "requests"):
            for name, value in vars(sys.modules[f"rushtrivet.{module}"]).items():
                if not name.startswith("__"):
                    self.assertNotIsInstance(value, (list, set, bytearray), f"{module}.{name}")


class Programs(unittest.TestCase):
    def setUp(self) -> None:
        data = files().get("www.example.com.der")
        if data is None:
            self.skipTest("the example files aren't here")
        folder = tempfile.TemporaryDirectory()
        self.addCleanup(folder.cleanup)
        self.good, self.bad = Path(folder.name) / "good.der", Path(folder.name) / "bad.der"
        self.good.write_bytes(data)
        self.bad.write_bytes(data[:100])

    @unittest.skipUnless(PAGE.is_file(), "the page isn't here")
    def test_first_program(self) -> None:
        program = re.findall(r"```python\n(.*?)```", PAGE.read_text(encoding="utf-8"), re.S)[0]
        told = run(["-c", program, str(self.good), str(self.bad)])
        self.assertEqual(told.stderr, "")
        first, second = told.stdout.splitlines()
        self.assertEqual(first, "2027-12-24 14:31:06+00:00 www.example.com example.com")
        self.assertEqual(second, f"{self.bad}: incomplete, at octet 0")

    @unittest.skipUnless(INVENTORY.is_file(), "the example isn't here")
    def test_inventory(self) -> None:
        told = run([str(INVENTORY), str(self.good), str(self.bad)])
        self.assertEqual((told.stderr, told.returncode), ("", 1))
        first, second = told.stdout.splitlines()
        self.assertIn("CN=www.example.com; DNS:www.example.com DNS:example.com; until 2027-12-24T14:31:06", first)
        self.assertEqual(second, f"{self.bad}: refused at octet 0: incomplete")
        self.assertEqual(run([str(INVENTORY), str(self.bad) + ".none"]).returncode, 2)


@unittest.skipUnless(LIBRARY.is_file(), "the library was found by name only")
class Places(unittest.TestCase):
    """A copy of the package finds the library beside it, or in the repository around it."""

    def found(self, source: Path) -> str:
        told = run(["-c", "from rushtrivet import _library; print(_library.lib._name)"], source, None)
        self.assertEqual(told.stderr, "")
        return told.stdout.strip()

    def test_beside(self) -> None:
        with tempfile.TemporaryDirectory() as folder:
            package = Path(folder).resolve() / "rushtrivet"
            shutil.copytree(SOURCE / "rushtrivet", package)
            shutil.copy(LIBRARY, package / "librushtrivet.so")
            self.assertEqual(self.found(package.parent), str(package / "librushtrivet.so"))

    def test_repository(self) -> None:
        if _library.ctypes.util.find_library("rushtrivet"):
            self.skipTest("the library is installed")
        with tempfile.TemporaryDirectory() as folder:
            top = Path(folder).resolve()
            shutil.copytree(SOURCE / "rushtrivet", top / "python" / "rushtrivet" / "src" / "rushtrivet")
            (top / "build" / "lib").mkdir(parents=True)
            shutil.copy(LIBRARY, top / "build" / "lib" / "librushtrivet.so")
            told = run(["-c", "import rushtrivet"], top / "python" / "rushtrivet" / "src", None)
            self.assertIn("ImportError: librushtrivet.so was not found", told.stderr)
            (top / "include").mkdir()
            (top / "include" / "rushtrivet.h").touch()
            expected = top / "build" / "lib" / "librushtrivet.so"
            self.assertEqual(self.found(top / "python" / "rushtrivet" / "src"), str(expected))
