#!/usr/bin/env python3
"""dask_workers.py N [WORKERS ..]: N certificates (made_certificates.py) through rushtrivet.dask by so many worker processes, else by 1, 2 and 4.

They lie in tables of 10,000 in base64, a partition each. All columns are made, and of each partition some numbers come back: how many
rows there are, were refused, have hosts. Told are the seconds without starting the workers, the certificates in a second, and the most
memory that a worker had. Set PYTHONPATH and RUSHTRIVET_LIBRARY as docs/PYTHON.md says."""
import os
import resource
import subprocess
import sys
import tempfile
import time
from pathlib import Path

import dask.dataframe
from distributed import Client

from rushtrivet.dask import certificates_in_column, read_certificates

MADE = Path(__file__).resolve().parent / "made_certificates.py"
PARTITION = 10000
COUNTS = ("rows", "refused", "hosts")


def counts(frame):
    """Of a partition: its rows, those that were refused, their hosts."""
    import pandas

    return pandas.DataFrame([(len(frame), int(frame.refusal.notna().sum()), int(frame.hosts.map(len, na_action="ignore").sum()))], columns=COUNTS)


def write(count, folder):
    """The tables."""
    process = subprocess.Popen([sys.executable, str(MADE), str(count), "--csv"], stdout=subprocess.PIPE)
    head = process.stdout.readline()
    for number in range(-(-count // PARTITION)):
        with open(folder / f"{number:05}.csv", "wb") as file:
            file.write(head)
            for _ in range(PARTITION):
                file.write(process.stdout.readline())
    process.wait()


def peak():
    return resource.getrusage(resource.RUSAGE_SELF).ru_maxrss


def main():
    count, workers = int(sys.argv[1]), [int(word) for word in sys.argv[2:]] or [1, 2, 4]
    with tempfile.TemporaryDirectory() as room:
        write(count, Path(room))
        first = None
        for number in workers:
            with Client(n_workers=number, threads_per_worker=1, dashboard_address=None) as client:
                client.run(lambda: __import__("rushtrivet.dask"))
                table = dask.dataframe.read_csv(f"{room}/*.csv", dtype=str, blocksize=None)
                read = read_certificates(certificates_in_column(table, "certificate", "name"))
                begun = time.monotonic()
                told = read.map_partitions(counts, meta=counts(read._meta)).sum().compute()
                seconds = time.monotonic() - begun
                memory = max(client.run(peak).values()) / 1024
            first = first or seconds
            said = ", ".join(f"{told[name]} {name}" for name in COUNTS)
            load = " ".join(f"{each:.1f}" for each in os.getloadavg())
            print(f"{number} workers: {seconds:.1f} s, {count / seconds:.0f} a second, {first / seconds:.2f} of the first, "
                  f"{memory:.0f} MB a worker; {said}; load {load}", flush=True)  # fmt: skip


if __name__ == "__main__":
    main()
