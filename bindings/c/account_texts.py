#!/usr/bin/env python3
"""Writes the texts of the tables of tests/ and crates/, of the benchmarks, and random ones: account_texts.py FILE

Before each stands its length in four bytes, the lowest first. account.c reads them. Longer texts of tables than 100,000 bytes
are left out."""
import sys
from pathlib import Path

ROOT = Path(__file__).resolve().parents[2]
sys.path.insert(0, str(ROOT / "tests"))
from random_texts import SEED, Source
from tables import rows_of

# The calls of tables whose rows have documents.
CALLS = ("query", "schema", "report", "formatted", "minified", "printed", "json", "gql")
COUNT = 500
LONGEST = 100_000


def texts():
    for file in [*sorted(ROOT.glob("crates/*/data/tables/*.rows")), *sorted(ROOT.glob("tests/tables/*.rows"))]:
        for call, rows in rows_of(file):
            if call.split(" ")[0] in CALLS:
                read = (row.text.encode(errors="surrogatepass") for row in rows)
                yield from (text for text in read if len(text) <= LONGEST)
    yield (ROOT / "bench/merged.graphqls").read_bytes()
    for language in ("query", "schema"):
        source = Source(language, SEED)
        yield from (source.next()[0] for _ in range(COUNT))


with open(sys.argv[1], "wb") as file:
    for text in texts():
        file.write(len(text).to_bytes(4, "little") + text)
