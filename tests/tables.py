#!/usr/bin/env python3
"""Judges the tables of tests/tables by the built programs: tests/tables.py GQL GQLPARSE [TABLE..]

tests/tables.py quick [TABLE..] judges them without a proof or a built program, by those that `rt try` compiles.

GQL and GQLPARSE are the programs, as crates/gql/out/gql and crates/gqlparse/out/gqlparse. Without a TABLE all are judged. Each row that
doesn't hold is printed with its file and line, what was expected and what was found; and each table whose number of rows differs from
`tests/tables/counts`. The status is 0 if all rows hold. The notation of the rows is described in crates/rows/src/lib.rt;
what each call shows, at its function in tests/told.py."""
import sys, tempfile
from concurrent.futures import ProcessPoolExecutor
from pathlib import Path

sys.path.insert(0, str(Path(__file__).resolve().parent))
import told
from told import Programs
from server import meant
from unproved import compiled

TABLES = Path(__file__).resolve().parent / "tables"
# How many rows a process judges at once.
AT_ONCE = 10


class Row:
    """A row of a table: where it is, its text, and what is expected of it."""

    def __init__(self, file, line, call, text, wanted):
        self.file, self.line, self.call, self.text, self.wanted = file, line, call, text, wanted

    def wrong(self, found):
        """What is wrong with a row of which this is found; empty if nothing is."""
        if found.strip() == self.wanted.strip():
            return ""
        place = f"{self.file.relative_to(TABLES)}:{self.line}: {self.call}"
        return f"{place}\n  expected: {self.wanted.strip()}\n  found:    {found.strip()}"


def rows_of(file):
    """The tables of a file: of each its call and its rows."""
    line = 0
    for table in file.read_text().removeprefix("== ").split("\n== "):
        call, _, rows = table.partition("\n")
        line += 1
        if call.startswith("run of "):
            yield call, list(runs_in(file, line, call, rows))
        else:
            yield call, list(lines_in(file, line, call, rows))
        line += rows.count("\n") + 1


def runs_in(file, line, call, runs):
    for run in runs.rstrip().split("\n\n"):
        text = meant(run) if call == "run of gql" else run
        yield Row(file, line + 1, call, text, text)
        line += run.count("\n") + 2


def lines_in(file, line, call, rows):
    begun = None
    for number, more in enumerate([*rows.split("\n"), ""], line + 1):
        if more.startswith("  ") and begun:
            begun = (begun[0], f"{begun[1]} {more[2:]}")
            continue
        if begun and begun[1] and not begun[1].startswith("-- "):
            text, _, answer = begun[1].partition(" ⇒")
            yield Row(file, begun[0], call, meant(text.rstrip(" ")), meant(" ".join(answer.split())))
        begun = (number, more)


def judged(programs, rows):
    """What is wrong with each of these rows of one call."""
    found = told.answers(programs, rows[0].call, [row.text for row in rows])
    return [wrong for row, each in zip(rows, found) if (wrong := row.wrong(each))]


def files_named(names):
    files = sorted(file for file in TABLES.iterdir() if file.name not in ("counts", "sources"))
    return [file for file in files if not names or file.name.removesuffix(".rows") in names]


def judge(programs, names):
    """Judges the tables of these names, or all. Returns what is wrong, and how many rows there are."""
    counted, pieces, total = [], [], 0
    for file in files_named(names):
        for call, rows in rows_of(file):
            counted.append(f"{file.name}: {call}: {len(rows)} {'row' if len(rows) == 1 else 'rows'}")
            pieces += [rows[at:at + AT_ONCE] for at in range(0, len(rows), AT_ONCE)]
            total += len(rows)
    with ProcessPoolExecutor() as pool:
        wrong = [each for part in pool.map(judged, [programs] * len(pieces), pieces) for each in part]
    known = [line for line in (TABLES / "counts").read_text().splitlines()
             if not names or line.partition(":")[0].removesuffix(".rows") in names]
    wrong += [f"counted, and not in tests/tables/counts: {line}" for line in counted if line not in known]
    wrong += [f"in tests/tables/counts, and not counted: {line}" for line in known if line not in counted]
    return wrong, total


def quick(names):
    """Judges these tables, or all, by programs that are compiled without a proof: only those that are needed."""
    with tempfile.TemporaryDirectory() as folder:
        needed = {"gql": not names or set(names) != {"gqlparse"}, "gqlparse": not names or "gqlparse" in names}
        files = {crate: str(Path(folder, crate)) for crate in needed}
        if not all(compiled(crate, files[crate]) for crate in needed if needed[crate]):
            return ["the programs don't compile"], 0
        return judge(Programs(**files), names)


def main(words):
    if words[:1] == ["quick"]:
        wrong, total = quick(words[1:])
    elif len(words) < 2:
        sys.exit(__doc__)
    else:
        wrong, total = judge(Programs(*(str(Path(word).resolve()) for word in words[:2])), words[2:])
    print(*wrong, sep="\n", end="\n" if wrong else "")
    if not wrong and words[:1] != ["quick"]:
        print(f"tables: {total} rows hold")
    return 1 if wrong else 0


if __name__ == "__main__":
    sys.exit(main(sys.argv[1:]))
