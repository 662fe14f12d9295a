"""inventory.py [--workers N] [--octets COLUMN] [--source COLUMN] [--out FOLDER] FILE..: an inventory by Dask.

FILEs are certificates (DER), or tables, .csv or .parquet, with certificates in base64 (in Parquet also as octets) in
the column that --octets names, and in that of --source what tells them apart. It writes how many there are, what was
refused and why, which kinds of keys they have, who issued most of them, and which end first; with --out the whole table
too, in Parquet where pyarrow is there, else in CSV with octets in hex.

Set PYTHONPATH to python/rushtrivet/src, or install the package. The workers are processes of this machine; for those of
a cluster write Client("tcp://HOST:8786").
"""

from __future__ import annotations

import argparse
from importlib.util import find_spec
from pathlib import Path
from typing import List

import dask
import dask.bag
import dask.dataframe
import pandas
from distributed import Client

from rushtrivet.dask import certificates_in_column, certificates_in_files, read_certificates
from rushtrivet.rows import COLUMNS

OCTETS = [name for name, column in COLUMNS.items() if column.kind == "octets"]
TEXTS = [name for name, column in COLUMNS.items() if column.kind == "texts"]


def bag_of(files: List[str], octets: str, source: str) -> dask.bag.Bag:
    """All certificates of the files."""
    bags = []
    csv = [file for file in files if file.endswith(".csv")]
    parquet = [file for file in files if file.endswith(".parquet")]
    others = [file for file in files if file not in csv and file not in parquet]
    if others:
        bags.append(certificates_in_files(others))
    if csv:
        table = dask.dataframe.read_csv(csv, usecols=[source, octets], dtype=str, blocksize="16MB")
        bags.append(certificates_in_column(table, octets, source))
    if parquet:
        table = dask.dataframe.read_parquet(parquet, columns=[source, octets])
        bags.append(certificates_in_column(table, octets, source))
    return dask.bag.concat(bags)


def end_of(seconds: int) -> str:
    """A time as text; what pandas can't hold, as seconds."""
    moment = pandas.to_datetime(seconds, unit="s", utc=True, errors="coerce")
    return f"second {seconds}" if moment is pandas.NaT else moment.strftime("%Y-%m-%dT%H:%M:%SZ")


def summary(table: dask.dataframe.DataFrame) -> List[str]:
    """The lines of the summary: the table is read once for all of them."""
    refusals = table.refusal.str.replace(r" at octet \d+$", "", regex=True).value_counts()
    keys = table.assign(key=table.key_kind + " " + table.key_bits.astype("string").fillna("")).key.value_counts()
    issuers = table.issuer.value_counts()
    ends = table[["not_after", "source"]].dropna().nsmallest(5, "not_after")
    read, refused, keys, issuers, ends = dask.compute(table.sha256.count(), refusals, keys, issuers, ends)
    lines = [f"{read} certificates, {refused.sum()} refused"]
    for title, counts in (("refused", refused), ("key", keys), ("issuer", issuers)):
        most = sorted(counts.items(), key=lambda item: (-item[1], str(item[0])))[:5]
        lines += [f"{title}: {count} {str(name).strip()}" for name, count in most]
    ends = ends.sort_values(["not_after", "source"])
    return lines + [f"ends first: {end_of(row.not_after)} {row.source}" for row in ends.itertuples()]


def write(table: dask.dataframe.DataFrame, folder: str) -> None:
    """All rows, a file for each partition."""
    if find_spec("pyarrow"):
        table.to_parquet(folder)
        return
    for name in OCTETS:
        table[name] = table[name].map(lambda octets: octets.hex(), na_action="ignore", meta=(name, "object"))
    for name in TEXTS:
        table[name] = table[name].map(" ".join, na_action="ignore", meta=(name, "object"))
    table.to_csv(str(Path(folder) / "*.csv"), index=False)


def main() -> None:
    parser = argparse.ArgumentParser(description=__doc__.split(":", 1)[1].split("\n", 1)[0].strip())
    parser.add_argument("--workers", type=int, default=2)
    parser.add_argument("--octets", default="certificate", help="the column of certificates in base64")
    parser.add_argument("--source", default="name", help="the column that tells them apart")
    parser.add_argument("--out", help="a folder for all rows")
    parser.add_argument("files", nargs="+", metavar="FILE")
    asked = parser.parse_args()
    with Client(n_workers=asked.workers, threads_per_worker=1, dashboard_address=None):
        table = read_certificates(bag_of(asked.files, asked.octets, asked.source))
        print("\n".join(summary(table)))
        if asked.out:
            write(table, asked.out)


if __name__ == "__main__":  # workers are new processes, which import this file
    main()
