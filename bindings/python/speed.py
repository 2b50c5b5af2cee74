"""How fast `graphql_parser.parse` is beside `graphql.parse` of graphql-core, and what its time goes to; and how fast `print_ast`
and `strip_ignored_characters` are beside graphql-core's.

    python3 speed.py FILE..

For each text, of the best of five runs that take turns, milliseconds: of graphql-core, of ours with nodes made in C and in
Python, with locations and without, each with how many times as fast as graphql-core it is; and of the library's call alone.
Then, in the same way, of graphql-core and of ours, `print_ast` of the text's tree and `strip_ignored_characters` of the text.
"""

import gc
import sys
import time

import graphql

import graphql_parser
from graphql_parser import _nodes

ROUNDS = 5


def seconds(call):
    gc.collect()
    start = time.perf_counter()
    call()
    return time.perf_counter() - start


def measure(text):
    """The least seconds of each call."""
    is_schema = text.lstrip().startswith("schema")
    read = graphql_parser.schema_json if is_schema else graphql_parser.query_json
    in_c = _nodes._in_c

    def ours(module, no_location):
        _nodes._in_c = module
        graphql_parser.parse(text, no_location)
        _nodes._in_c = in_c

    calls = {"library": lambda: read(text, places=True)}
    for no_location in (False, True):
        calls["core", no_location] = lambda no_location=no_location: graphql.parse(text, no_location)
        calls["C", no_location] = lambda no_location=no_location: ours(in_c, no_location)
        calls["Python", no_location] = lambda no_location=no_location: ours(None, no_location)
    return least(calls)


def measure_writing(text):
    """The least seconds of each call that returns a text."""
    tree = graphql.parse(text)
    calls = {}
    for name, module in (("core", graphql), ("ours", graphql_parser)):
        calls["print_ast", name] = lambda module=module: module.print_ast(tree)
        calls["strip_ignored_characters", name] = lambda module=module: module.strip_ignored_characters(text)
    return least(calls)


def least(calls):
    """The least seconds of each call, which take turns."""
    best = dict.fromkeys(calls, float("inf"))
    for _ in range(ROUNDS):
        for name, call in calls.items():
            best[name] = min(best[name], seconds(call))
    return best


def shown(best, no_location):
    core = best["core", no_location]
    ours = [(best[name, no_location] * 1000, core / best[name, no_location]) for name in ("C", "Python")]
    return f"{core * 1000:9.1f}" + "".join(f"{taken:8.1f} {ratio:5.1f}" for taken, ratio in ours)


def shown_writing(best, name):
    core, ours = best[name, "core"], best[name, "ours"]
    return f"{core * 1000:9.1f}{ours * 1000:8.1f} {core / ours:5.1f}"


def read(path):
    with open(path, encoding="utf-8", newline="") as file:
        return file.read()


def main():
    if _nodes._in_c is None:
        print("the module in C isn't built: both columns are of nodes made in Python")
    columns = "     core       C times  Python times"
    print(f"{'text':18}{columns} | no location: {columns} | library")
    for path in sys.argv[1:]:
        best = measure(read(path))
        rows = f"{shown(best, False)} |              {shown(best, True)} | {best['library'] * 1000:7.1f}"
        print(f"{path.rsplit('/', 1)[-1]:18}{rows}", flush=True)
    columns = "     core    ours times"
    print(f"{'text':18}print_ast: {columns} | strip_ignored_characters: {columns}")
    for path in sys.argv[1:]:
        best = measure_writing(read(path))
        printed, stripped = (shown_writing(best, name) for name in ("print_ast", "strip_ignored_characters"))
        print(f"{path.rsplit('/', 1)[-1]:18}           {printed} |                           {stripped}", flush=True)


if __name__ == "__main__":
    main()
