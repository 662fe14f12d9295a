"""Data frames by Dask, where that is installed: the same rows, wherever they come from and however many workers."""

import base64
import csv
import importlib.util
import tempfile
import unittest
from pathlib import Path
from typing import Any, List

from rushtrivet.rows import COLUMNS, names_of, read_rows

from .inputs import certificate, files

try:
    import dask
    import dask.bag
    import dask.dataframe
    import pandas

    from rushtrivet import dask as over
except ImportError:
    dask = None  # type: ignore[assignment]


def plain(frame: Any) -> List[Any]:
    """The rows with None for what isn't there."""
    rows = frame.astype(object).where(frame.notna(), None).itertuples(index=False, name=None)
    return sorted(rows, key=lambda row: str(row[0]))


@unittest.skipIf(dask is None, "dask and pandas aren't installed")
class Frames(unittest.TestCase):
    def setUp(self) -> None:
        folder = tempfile.TemporaryDirectory()
        self.addCleanup(folder.cleanup)
        self.folder = Path(folder.name)
        self.data = {**files(), "made": certificate(), "empty": b"", "cut": certificate()[:-1]}
        self.expected = sorted(read_rows(self.data.items()), key=lambda row: row[0])

    def table(self) -> Path:
        """A table in base64, in one row in lines."""
        file = self.folder / "table.csv"
        with open(file, "w", newline="", encoding="ascii") as opened:
            writer = csv.writer(opened)
            writer.writerow(["number", "name", "certificate"])
            for number, (name, data) in enumerate(self.data.items()):
                text = base64.encodebytes(data) if name == "made" else base64.b64encode(data)
                writer.writerow([number, name, text.decode("ascii")])
        return file

    def test_frame(self) -> None:
        frame = over.frame_of(self.data.items())
        self.assertEqual(list(frame.columns), names_of())
        self.assertEqual(plain(frame), self.expected)
        nothing = over.frame_of(())
        self.assertEqual((len(nothing), list(nothing.dtypes)), (0, list(frame.dtypes)))
        kinds = {"text": "string", "integer": "Int64", "truth": "boolean", "octets": "object", "texts": "object"}
        for column, (kind, _) in COLUMNS.items():
            self.assertEqual(str(frame.dtypes[column]), kinds[kind], column)

    def test_files(self) -> None:
        for name, data in self.data.items():
            (self.folder / name).write_bytes(data)
        paths = [self.folder / name for name in self.data]
        bag = over.certificates_in_files([*paths, self.folder / "none"], partition_size=7)
        table = over.read_certificates(bag)
        self.assertEqual(table.npartitions, -(-(len(paths) + 1) // 7))
        found = table.compute(scheduler="synchronous")
        self.assertEqual(list(found.dtypes), list(table.dtypes))
        rows = plain(found)
        expected = [(str(self.folder / row[0]), *row[1:]) for row in self.expected]
        missing = (str(self.folder / "none"), "not read: No such file or directory", *(None for _ in COLUMNS))
        self.assertEqual(rows, sorted([*expected, missing], key=lambda row: row[0]))

    def test_no_files(self) -> None:
        self.assertEqual(len(over.read_certificates(over.certificates_in_files([]))), 0)

    def test_base64(self) -> None:
        read = dask.dataframe.read_csv(self.table(), dtype=str, blocksize=None)
        found = over.read_certificates(over.certificates_in_column(read, "certificate", "name")).compute()
        rows = plain(found)
        # of no octets there is no text, and pandas has no empty text in a table
        expected = [(row[0], "no octets", *row[2:]) if row[0] == "empty" else row for row in self.expected]
        self.assertEqual(rows, expected)

    def test_octets_and_no_base64(self) -> None:
        values = [certificate(), bytearray(certificate()), "MA", "M=", "caf\u00e9", None, float("nan"), "MAA="]
        frame = pandas.DataFrame({"name": [str(k) for k in range(len(values))], "octets": values})
        read = dask.dataframe.from_pandas(frame, npartitions=3)
        found = over.read_certificates(over.certificates_in_column(read, "octets", "name"), ["is_ca"])
        refusals = [row[1] for row in plain(found.compute(scheduler="synchronous"))]
        self.assertEqual(refusals[:2] + refusals[2:7], [None, None, *["no base64"] * 3, "no octets", "no octets"])
        self.assertRegex(refusals[7], "at octet")

    @unittest.skipUnless(importlib.util.find_spec("pyarrow"), "pyarrow isn't installed: no Parquet")
    def test_parquet(self) -> None:
        pandas.DataFrame({"name": list(self.data), "certificate": list(self.data.values())}).to_parquet(
            self.folder / "table.parquet"
        )
        read = dask.dataframe.read_parquet(self.folder / "table.parquet")
        table = over.read_certificates(over.certificates_in_column(read, "certificate", "name"))
        self.assertEqual(plain(table.compute()), self.expected)
        table.to_parquet(self.folder / "out")
        self.assertEqual(len(pandas.read_parquet(self.folder / "out")), len(self.data))

    @unittest.skipUnless(importlib.util.find_spec("distributed"), "distributed isn't installed: no workers")
    def test_workers(self) -> None:
        from distributed import Client

        bag = dask.bag.from_sequence(self.data.items(), npartitions=5)
        for workers in (1, 2):
            with Client(n_workers=workers, threads_per_worker=1, dashboard_address=None) as client:
                self.assertEqual(len(client.scheduler_info()["workers"]), workers)
                self.assertEqual(plain(over.read_certificates(bag).compute()), self.expected)
