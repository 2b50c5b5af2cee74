"""The example that counts what requests ask for: in one process, in several, and on a Dask cluster that loses a worker."""

import json
import os
import random
import signal
import subprocess
import sys
import tempfile
import time
import unittest
from pathlib import Path

HERE = Path(__file__).resolve().parent
PROGRAM = HERE / "examples" / "field_usage.py"
ENVIRONMENT = {**os.environ, "PYTHONPATH": str(HERE)}
REQUESTS = 200_000

SPREAD = "query A { ...G } query B { x } fragment G on Query { y @z(no: 1) }"
LOG = [
    {"query": "{ a: hero(id: 1) { name ...F } b: hero { name } }"},
    {
        "query": "query A { hero { friends { name } ... on Droid { work(of: 1) } ...F } } fragment F on Human { name ...G ...H } "
        "fragment G on Human { height(unit: FOOT) ...F }"
    },
    {"query": SPREAD},
    {"query": SPREAD},
    {"query": "{ b b b"},
    {"query": "{ a", "other": 1},
    {"query": "query A { a } query A { a }"},
    {"query": 1},
    [],
]

COUNTED = """\
requests	9
fragment	G	3	A 3
field	Query.y	2	A 2
field	query.hero	2	(unnamed) 1, A 1
field	query.x	2	B 2
fragment	F	2	(unnamed) 1, A 1
argument	Droid.work(of)	1	A 1
argument	Human.height(unit)	1	A 1
argument	query.hero(id)	1	(unnamed) 1
field	Droid.work	1	A 1
field	Human.height	1	A 1
field	Human.name	1	A 1
field	query.hero.friends	1	A 1
field	query.hero.friends.name	1	A 1
field	query.hero.name	1	(unnamed) 1
fragment	H	1	A 1
refused	NO_REQUEST	2	a line isn't JSON with a text as its query
refused	OPERATION_DUPLICATED	1	operation A is defined twice at 1:15 and 1:1
refused	SYNTAX	2	syntax error at 1:4
"""


def python_with_dask():
    """An interpreter that has Dask; None where there is none."""
    for python in (sys.executable, "/usr/bin/python3"):
        if os.path.exists(python) and subprocess.run([python, "-c", "import distributed"], capture_output=True).returncode == 0:
            return python
    return None


def counted(*arguments):
    done = subprocess.run([sys.executable, PROGRAM, *arguments], capture_output=True, text=True, env=ENVIRONMENT)
    if done.returncode:
        raise AssertionError(done.stderr)
    return done.stdout


def write_log(path):
    """A log in which a third of the requests differ from all others, and one in a hundred is refused."""
    choose = random.Random(1)
    names = ["user", "order", "items", "price", "name", "owner", "title"]

    def selections(depth):
        fields = choose.choices(names, k=choose.randint(1, 4))
        inner = [f"{name} {selections(depth - 1)}" if depth and choose.random() < 0.4 else f"{name}(first: 1)" for name in fields]
        return "{ " + " ".join(inner) + " ...F }"

    def request(number):
        fragment = f"fragment F on User {{ id{number % 7} }}"
        end = "" if choose.random() < 0.99 else "}"
        return f"query Q{number % 50} {selections(3)} {fragment}{end}"

    common = [request(number) for number in range(1000)]
    with open(path, "w") as log:
        for number in range(REQUESTS):
            text = request(number) + f" # {number}" if choose.random() < 0.33 else choose.choice(common)
            log.write(json.dumps({"query": text}) + "\n")


class FieldUsage(unittest.TestCase):
    def test_what_is_counted(self):
        with tempfile.TemporaryDirectory() as folder:
            log = Path(folder, "log")
            log.write_text("".join(json.dumps(line) + "\n" for line in LOG))
            self.assertEqual(counted(log), COUNTED)
            self.assertEqual(counted(log, log), counted("--processes", "2", log, log))

    def test_nobody_has_to_read_on(self):
        with tempfile.TemporaryDirectory() as folder:
            log = Path(folder, "log")
            log.write_text("".join(json.dumps({"query": f"{{ a{number} }}"}) + "\n" for number in range(20_000)))
            options = {"stdout": subprocess.PIPE, "stderr": subprocess.PIPE, "text": True, "env": ENVIRONMENT}
            with subprocess.Popen([sys.executable, PROGRAM, log], **options) as program:
                self.assertEqual(program.stdout.readline(), "requests\t20000\n")
                program.stdout.close()
                self.assertNotIn("Traceback", program.stderr.read())
            self.assertEqual(program.returncode, 0)

    def test_many_processes_count_as_one_does(self):
        """And so do the workers of a Dask cluster, one of which is killed while it counts."""
        python = python_with_dask()
        with tempfile.TemporaryDirectory() as folder:
            log = Path(folder, "log")
            write_log(log)
            expected = counted(log)
            self.assertTrue(expected.startswith(f"requests\t{REQUESTS}\n"))
            self.assertIn("\nrefused\tSYNTAX\t", expected)
            self.assertEqual(counted("--processes", "3", log), expected)
            if python is None:
                self.skipTest("no interpreter here has Dask (python3-dask and python3-distributed)")
            self.assertEqual(self.counted_by_a_cluster(python, folder, log), expected)

    def counted_by_a_cluster(self, python, folder, log):
        address = Path(folder, "scheduler.json")
        started = []

        def start(*arguments, **options):
            process = subprocess.Popen([python, *arguments], env=ENVIRONMENT, cwd=folder, **options)
            started.append(process)
            self.addCleanup(process.wait)
            self.addCleanup(process.kill)
            return process

        common = ("--host", "127.0.0.1", "--no-dashboard", "--scheduler-file", address)
        start("-m", "distributed.cli.dask_scheduler", "--port", "0", *common, stderr=subprocess.DEVNULL)
        self.wait_for(address)
        workers = [
            start("-m", "distributed.cli.dask_worker", "--nthreads", "1", "--no-nanny", *common, stderr=subprocess.DEVNULL) for _ in range(2)
        ]
        scheduler = json.loads(address.read_text())["address"]
        with open(Path(folder, "counted"), "w+") as found:
            program = start(PROGRAM, "--scheduler", scheduler, log, stdout=found, stderr=subprocess.PIPE)
            # The first part is counted, and the last isn't.
            shown = b""
            while b" parts" not in shown and (read := program.stderr.read(1)):
                shown += read
            done, parts = shown.split(b"\r")[-1].split(b" of ")
            self.assertLess(int(done), int(parts.split()[0]), shown)
            workers[0].send_signal(signal.SIGKILL)
            _, rest = program.communicate(timeout=120)
            self.assertEqual(program.returncode, 0, rest.decode())
            self.assertEqual(workers[0].wait(), -signal.SIGKILL)
            self.assertIsNone(workers[1].poll())
            found.seek(0)
            return found.read()

    def wait_for(self, path):
        for _ in range(600):
            if path.exists() and path.read_text().endswith("}"):
                return
            time.sleep(0.05)
        self.fail(f"{path} doesn't come")


if __name__ == "__main__":
    unittest.main()
