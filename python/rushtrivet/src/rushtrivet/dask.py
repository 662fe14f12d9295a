"""Certificates in Dask: a bag of them becomes a data frame (docs/SCALE.md). It needs dask and pandas.

A bag's items are pairs, of a name and octets; read_certificates() makes a row of each. What goes to a worker is plain:
texts, octets and the names of functions of this package, which has to be installed there.
"""

from __future__ import annotations

import base64
from functools import partial
from pathlib import Path
from typing import Any, Dict, Iterable, Optional, Sequence, Tuple, Union

import dask.bag
import dask.dataframe
import pandas

from .rows import COLUMNS, Source, names_of, read_rows

_DTYPES: Dict[str, str] = {
    "text": "string",
    "octets": "object",
    "integer": "Int64",
    "truth": "boolean",
    "texts": "object",
}


def _dtype(name: str) -> str:
    return _DTYPES[COLUMNS[name].kind] if name in COLUMNS else "string"


def frame_of(pairs: Iterable[Source], columns: Optional[Sequence[str]] = None) -> pandas.DataFrame:
    """A data frame of pandas with a row for each pair: its columns are `source`, `refusal` and these, else all."""
    names = names_of(columns)
    members = list(zip(*read_rows(pairs, columns))) or [() for _ in names]
    return pandas.DataFrame(
        {name: pandas.Series(list(values), dtype=_dtype(name)) for name, values in zip(names, members)}
    )


def read_certificates(bag: dask.bag.Bag, columns: Optional[Sequence[str]] = None) -> dask.dataframe.DataFrame:
    """The certificates of a bag as a data frame, a partition for each of the bag's. Nothing is read yet.

    The bag's items are pairs: what tells certificates apart, and DER. Octets that are no certificate have a row too, in
    which `refusal` says why, and so have pairs with a text or with None in place of the octets. columns: those that are
    wanted, of rushtrivet.rows.COLUMNS; all where none are named. A worker holds the rows of one partition at a time.
    """
    parts = bag.map_partitions(partial(frame_of, columns=columns)).to_delayed()
    return dask.dataframe.from_delayed(parts, meta=frame_of((), columns))


def _read(path: str) -> Source:
    try:
        return path, Path(path).read_bytes()
    except OSError as error:
        return path, f"not read: {error.strerror}"


def certificates_in_files(paths: Iterable[Union[str, Path]], partition_size: int = 1000) -> dask.bag.Bag:
    """A bag of files with a certificate each (DER), which the workers read: they see them under the same paths.

    A file that can't be read is a row that says so.
    """
    return dask.bag.from_sequence(map(str, paths), partition_size=partition_size).map(_read)


def _decoded(row: Tuple[Any, Any]) -> Source:
    name, octets = row
    if isinstance(octets, (bytes, bytearray, memoryview)):
        return name, octets
    if not isinstance(octets, str):
        return name, None
    try:
        return name, base64.b64decode("".join(octets.split()), validate=True)
    except ValueError:
        return name, "no base64"


def certificates_in_column(frame: dask.dataframe.DataFrame, octets: str, source: str) -> dask.bag.Bag:
    """A bag of the certificates in a column `octets` of a data frame, in base64 or as octets; `source` is the column
    that tells them apart.

    So for what dask.dataframe.read_csv and read_parquet read; a partition is as large as theirs. What is no base64, and
    what is missing, is a row that says so.
    """
    return frame[[source, octets]].to_bag().map(_decoded)
