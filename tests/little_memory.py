#!/usr/bin/env python3
"""Runs the built programs until memory ends: tests/little_memory.py GQL GQLPARSE

`gql check` has files of which each is longer than the one before and has a mistake at its end. Until memory suffices, it has to write the
reports of the first files, each of them whole, then `gql: out of memory`, and end with status 2; and every number of reports has to come.
The first limit is the least with which the program starts, and each is a page more than the one before.

`gqlparse` has the runs of tests/tables/gqlparse, and each of its allocations in turn is the first that fails. A run has to
end as it stands there, or report that memory ran out, inside the parser or outside of it, and write nothing else; of a text all three
have to come, unless a limit is exceeded, before the parser may need memory.

A line is printed for each program; the status is 0 if all is as it has to be."""
import os, re, resource, subprocess, sys, tempfile
from pathlib import Path

sys.path.insert(0, str(Path(__file__).resolve().parent))
import traced
from tables import TABLES, rows_of
from told import asked_of_gqlparse
from traced import Faults

PAGE = resource.getpagesize()
FILES = 12
# How long the first file is at least, longer than what the program frees when it has read its arguments; and by how much each is longer
# than the one before.
LENGTH, GROWTH = 300_000, 9_000
# The heap grows by what is asked for, and no more.
ENVIRONMENT = {"GLIBC_TUNABLES": "glibc.malloc.top_pad=0"}
# How `gqlparse` ends if an allocation fails inside the parser, and outside of it.
INSIDE = (1, b"", b"error: out of memory\nat []\n")
OUTSIDE = (2, b"", b"error: out of memory\n")


def run(words, folder, pages=None):
    """What a run within `pages` pages of addresses ends with: its status and what it reports."""
    def limit():
        if pages:
            resource.setrlimit(resource.RLIMIT_AS, (pages * PAGE, pages * PAGE))
    ran = subprocess.run(words, cwd=folder, env=ENVIRONMENT, stdin=subprocess.DEVNULL, capture_output=True, preexec_fn=limit)
    return ran.returncode, ran.stdout + ran.stderr


def least(program, folder):
    """The least number of pages with which the program starts."""
    low, high = 1, 1 << 20
    while low + 1 < high:
        middle = (low + high) // 2
        if run([program, "--version"], folder, middle)[0] == 0:
            high = middle
        else:
            low = middle
    return high


def try_check(program):
    """Tries `gql check` over files."""
    with tempfile.TemporaryDirectory() as folder:
        names = [f"{number:02}.graphql" for number in range(1, FILES + 1)]
        for number, name in enumerate(names, 1):
            Path(folder, name).write_text("{" + "a " * ((LENGTH + GROWTH * number) // 2) + "\n")
        words = [program, "check", "--color", "never", *names]
        whole = run(words, folder)
        reports = re.split(rb"(?m)^(?=\d\d\.graphql:)", whole[1])[1:]
        fronts = {b"".join(reports[:count]) + b"gql: out of memory\n": count for count in range(FILES + 1)}
        seen, pages = set(), least(program, folder)
        while (ended := run(words, folder, pages)) != whole:
            if ended[0] != 2 or ended[1] not in fronts:
                sys.exit(f"{program}: within {pages} pages: status {ended[0]}, {ended[1]!r}")
            seen.add(fronts[ended[1]])
            pages += 1
    if len(reports) != FILES or not seen >= set(range(FILES)):
        sys.exit(f"{program}: before memory runs out there are never {sorted(set(range(FILES)) - seen)} of {len(reports)} reports")
    print(f"little memory: {FILES} files, whole reports at each end of memory")


def ended_of(row):
    """How a run of tests/tables/gqlparse ends."""
    out, err = ("".join(f"{line[2:]}\n" for line in row.split("\n")[1:] if line.startswith(mark)) for mark in ("> ", "! "))
    return int(re.search(r"(?m)^= (\d)$", row)[1]), out.encode(), err.encode()


def run_refused(program, row, granted):
    """How a run ends in which the first `granted` allocations succeed, and then none."""
    words, given = asked_of_gqlparse(row)
    return traced.run([program, *words], "/", given, Faults(memory=granted))


def try_run(program, row, first):
    """Tries a run of `gqlparse`; the program starts if the first `first` allocations succeed."""
    is_text, granted, seen = "\n<" in row, first, set()
    ends = {ended_of(row), OUTSIDE, INSIDE} if is_text else {ended_of(row), OUTSIDE}
    while ended_of(row) not in seen:
        ended = run_refused(program, row, granted)
        if ended not in ends:
            sys.exit(f"{program}: with {granted} requests granted: {ended} of\n{row}")
        seen.add(ended)
        granted += 1
    if is_text and seen != ends and "recursion limit" not in row:
        sys.exit(f"{program}: never {ends - seen} of\n{row}")


def try_runs(program):
    """Tries the runs of `gqlparse`."""
    rows = [row.text for _, rows in rows_of(TABLES / "gqlparse") for row in rows]
    first = next(granted for granted in range(1000) if run_refused(program, "$\n= 2", granted)[0] == 2)
    for row in rows:
        try_run(program, row, first)
    print(f"little memory: {len(rows)} runs of gqlparse, whole or with each allocation failing")


try_check(os.path.realpath(sys.argv[1]))
try_runs(os.path.realpath(sys.argv[2]))
