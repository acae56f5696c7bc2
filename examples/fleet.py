#!/usr/bin/env python3
"""Folds recordings where they lie, by the workers of a Dask cluster, and prints the sum of all their stacks:

    examples/fleet.py [--scheduler ADDRESS] [--program PERF_DATA] FILE .. | perf_data flame --folded - >fleet.svg

FILE is a path on a disk that all workers share, or HOST:PATH for a recording on the disk of one host, which is folded by
a worker there. Without an address two workers are started here. The program must be on every worker, as `perf_data` or
under this path. Only folded lines travel; they are added up eight at a time.
"""
import argparse
import subprocess
import sys
import tempfile
from pathlib import Path

from distributed import Client, LocalCluster


def run(*words):
    ran = subprocess.run(words, stdin=subprocess.DEVNULL, capture_output=True)
    if ran.returncode > 1:
        raise OSError(f"{' '.join(words)}: {ran.stderr.decode(errors='replace').strip()}")
    return ran.stdout


def fold(program, file):
    return run(program, "fold", file)


def add(program, texts):
    with tempfile.TemporaryDirectory() as folder:
        files = [Path(folder) / str(number) for number in range(len(texts))]
        for file, text in zip(files, texts):
            file.write_bytes(text)
        return run(program, "fold", "--merge", *map(str, files))


def main():
    words = argparse.ArgumentParser(description=__doc__, formatter_class=argparse.RawDescriptionHelpFormatter)
    words.add_argument("--scheduler")
    words.add_argument("--program", default="perf_data")
    words.add_argument("files", nargs="+", metavar="FILE")
    asked = words.parse_args()
    with Client(asked.scheduler or LocalCluster(n_workers=2, threads_per_worker=1, dashboard_address=None)) as client:
        parts = []
        for file in asked.files:
            host, colon, path = file.partition(":")
            place = {"workers": [host]} if colon and "/" not in host else {}
            parts.append(client.submit(fold, asked.program, path if place else file, pure=False, **place))
        while len(parts) > 1:
            groups = [parts[at : at + 8] for at in range(0, len(parts), 8)]
            parts = [client.submit(add, asked.program, group, pure=False) for group in groups]
        sys.stdout.buffer.write(parts[0].result())


if __name__ == "__main__":
    main()
