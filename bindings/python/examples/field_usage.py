"""Lists which fields, arguments and fragments the requests of a log ask for, how often, and by which operations.

    python3 field_usage.py [--processes N | --scheduler tcp://HOST:PORT] LOG..

A log has a request a line, as JSON: {"query": "{ hero { name } }"}. With `--processes` it is read by so many processes of
this machine; with `--scheduler` by the workers of a Dask cluster, each of which needs graphql_parser and can open the logs
under the same paths. A worker that is lost loses nothing: its part of a log is read again by another.

The output is a line for each, its parts divided by tabs: what it is, its name, how many requests ask for it, and by which
operations, as "HeroQuery 12". The most frequent come first.

    field     query.hero.name     a field, by the names of the fields from the root of the operation
    field     Human.friends.name  or from the fragment that it is in, `on` this type
    argument  query.hero(id)      an argument of a field
    fragment  HeroParts           a fragment that is spread
    refused   SYNTAX              texts that are rejected, with what is wrong; then an example

Without a schema nobody knows the type that a field belongs to, but at a root or in a fragment: hence the paths. Aliases
make no difference. A request asks for what its operation reaches, through fragments too; what it asks for twice counts once.
"""

import argparse
import collections
import concurrent.futures
import json
import os
import sys

import graphql_parser

CHUNK = 1 << 20


class Usage:
    """How many requests ask for what: `asked` counts (what, name, operation), and `refused` counts what was wrong."""

    def __init__(self):
        self.requests = 0
        self.asked = collections.Counter()
        self.refused = collections.Counter()
        self.examples = {}

    def add(self, other):
        self.requests += other.requests
        self.asked.update(other.asked)
        self.refused.update(other.refused)
        for kind, example in other.examples.items():
            self.refuse(kind, example, 0)

    def refuse(self, kind, example, count):
        self.refused[kind] += count
        # The smallest one: it is the same in whatever order the parts of a log are read.
        self.examples[kind] = min(example, self.examples.get(kind, example))

    def count(self, text, count):
        """Counts a request that the log has so many times."""
        self.requests += count
        try:
            tree = graphql_parser.parse_query(text)
        except graphql_parser.GraphQLError as error:
            self.refuse(error.kind.name, str(error), count)
            return
        for key in asked_by_operations(tree):
            self.asked[key] += count


def asked_by_operations(tree):
    """Each (what, name, operation) that a request asks for."""
    fragments = {}
    operations = []
    for definition in tree["definitions"]:
        if definition["kind"] == "FragmentDefinition":
            root = definition["typeCondition"]["name"]["value"]
            fragments[definition["name"]["value"]] = asked_in(definition["selectionSet"], root)
        else:
            name = definition["name"]["value"] if "name" in definition else "(unnamed)"
            operations.append((name, asked_in(definition["selectionSet"], definition["operation"])))
    for operation, asked in operations:
        reached = set(asked)
        waiting = list(asked)
        while waiting:
            what, name = waiting.pop()
            if what == "fragment":
                more = fragments.get(name, reached) - reached
                reached |= more
                waiting.extend(more)
        for what, name in reached:
            yield what, name, operation


def asked_in(selection_set, root):
    """Each (what, name) in a selection set. However deep it nests: a request may be written to exhaust a stack."""
    asked = set()
    waiting = [(selection_set, root)]
    while waiting:
        selections, path = waiting.pop()
        for selection in selections["selections"]:
            kind = selection["kind"]
            if kind == "Field":
                name = f"{path}.{selection['name']['value']}"
                asked.add(("field", name))
                for argument in selection["arguments"]:
                    asked.add(("argument", f"{name}({argument['name']['value']})"))
                if "selectionSet" in selection:
                    waiting.append((selection["selectionSet"], name))
            elif kind == "FragmentSpread":
                asked.add(("fragment", selection["name"]["value"]))
            else:
                condition = selection.get("typeCondition")
                waiting.append((selection["selectionSet"], condition["name"]["value"] if condition else path))
    return asked


def usage_of(part):
    """The usage of a part of a log: a path, and the offsets in bytes between which its lines begin."""
    path, start, end = part
    lines = collections.Counter()
    with open(path, "rb") as log:
        if start:
            # The line that holds the byte before belongs to the part before.
            log.seek(start - 1)
            log.readline()
        while log.tell() < end and (line := log.readline()):
            lines[line] += 1
    usage = Usage()
    for line, count in lines.items():
        try:
            text = json.loads(line)["query"]
        except (ValueError, KeyError, TypeError):
            text = None
        if isinstance(text, str):
            usage.count(text, count)
        else:
            usage.requests += count
            usage.refuse("NO_REQUEST", "a line isn't JSON with a text as its query", count)
    return usage


def parts_of(paths):
    for path in map(os.path.abspath, paths):
        size = os.path.getsize(path)
        for start in range(0, size, CHUNK):
            yield path, start, min(start + CHUNK, size)


def workers(processes, scheduler):
    """What calls `usage_of` for each part: processes of this machine, or the workers of a Dask cluster."""
    if scheduler is None:
        return concurrent.futures.ProcessPoolExecutor(processes)
    from distributed import Client

    return Client(scheduler).get_executor()


def show(usage):
    print(f"requests\t{usage.requests}")
    by_name = collections.defaultdict(collections.Counter)
    for (what, name, operation), count in usage.asked.items():
        by_name[what, name][operation] += count
    for (what, name), operations in sorted(by_name.items(), key=lambda entry: (-entry[1].total(), entry[0])):
        by = sorted(operations.items(), key=lambda entry: (-entry[1], entry[0]))
        print(what, name, operations.total(), ", ".join(f"{operation} {count}" for operation, count in by), sep="\t")
    for kind, count in sorted(usage.refused.items()):
        print("refused", kind, count, usage.examples[kind], sep="\t")


def main():
    parser = argparse.ArgumentParser(description=__doc__.splitlines()[0])
    parser.add_argument("logs", nargs="+", metavar="LOG")
    parser.add_argument("--processes", type=int, default=1, help="how many processes read the logs (1)")
    parser.add_argument("--scheduler", help="the address of a Dask scheduler, as tcp://10.0.0.1:8786")
    asked = parser.parse_args()
    parts = list(parts_of(asked.logs))
    whole = Usage()
    with workers(asked.processes, asked.scheduler) as executor:
        for done, usage in enumerate(executor.map(usage_of, parts), 1):
            whole.add(usage)
            print(f"\r{done} of {len(parts)} parts", end="", file=sys.stderr, flush=True)
    print(file=sys.stderr)
    try:
        show(whole)
        sys.stdout.flush()
    except BrokenPipeError:
        # Whoever read it has seen enough, such as `head`. Python would complain again when it closes the output.
        os.dup2(os.open(os.devnull, os.O_WRONLY), sys.stdout.fileno())


if __name__ == "__main__":
    main()
