"""Runs what the pages for C and Python show, and compares what it prints with what the comments beside it say.

In a block of Python a comment says what its line prints or returns, or, after `raises`, what it raises; text after a colon
explains, and `...` stands for the rest. A block of C is a program, or what stands in one after that program's `text` and
`places`.
"""
import ast
import contextlib
import io
import os
import pathlib
import re
import subprocess
import tempfile
import unittest

HERE = pathlib.Path(__file__).resolve().parent
OUT = pathlib.Path(os.environ.get("GRAPHQL_PARSER_LIB", HERE / "out"))

# What the blocks of C that are no program stand in.
AROUND = """#include "graphql_parser.h"
#include <stdbool.h>
#include <stdio.h>
#include <stdlib.h>
#include <string.h>

int main(void) {{
    const char *text = "{{ hero() }}";
    graphql_parser_places places;
{block}
    return 0;
}}
"""


def blocks(page, language):
    """The blocks of a language on a page."""
    return re.findall(rf"^```{language}\n(.*?)^```$", (HERE / page).read_text(), re.M | re.S)


def says(comment, found):
    """Whether a comment says what was found."""
    if comment.endswith("..."):
        return found.startswith(comment[:-3])
    return comment == found or comment.startswith(found + ":")


def run_line(statement, source, names):
    """What a statement prints, or returns, or raises, as lines."""
    code = ast.get_source_segment(source, statement)
    printed = io.StringIO()
    try:
        with contextlib.redirect_stdout(printed):
            is_call = isinstance(statement, ast.Expr) and not code.startswith("print(")
            given = eval(code, names) if is_call else exec(code, names)
    except Exception as error:
        kind = type(error)
        return [f"raises {kind.__module__}.{kind.__name__}: {error}"]
    return [repr(given)] if is_call else printed.getvalue().splitlines()


class Pages(unittest.TestCase):
    def test_python(self):
        compared = 0
        names = {}
        for source in blocks("python/README.md", "python"):
            lines = source.split("\n")
            parts = ast.parse(source).body
            ends = [part.lineno - 1 for part in parts[1:]] + [len(lines)]
            for part, end in zip(parts, ends):
                comments = [re.search(r"(?:^|\s)# ?(.*)$", line) for line in lines[part.lineno - 1 : end]]
                wanted = [it[1] for it in comments if it]
                if isinstance(part, (ast.Import, ast.Assign)):
                    exec(ast.get_source_segment(source, part), names)
                    continue
                found = run_line(part, source, names)
                self.assertEqual(len(found), len(wanted), (wanted, found))
                for comment, line in zip(wanted, found):
                    self.assertTrue(says(comment, line), f"{comment!r} is said of {line!r}")
                    compared += 1
        self.assertGreaterEqual(compared, 11)

    def test_c(self):
        found = blocks("c/README.md", "c")
        self.assertEqual(len(found), 4)
        for block in found:
            program = block if "int main" in block else AROUND.format(block=block)
            with tempfile.TemporaryDirectory() as folder:
                source = pathlib.Path(folder, "program.c")
                source.write_text(program)
                flags = ["-std=c11", "-Wall", "-Werror", "-Wno-unused-variable", "-I", HERE, "-o", f"{folder}/program"]
                library = OUT / "libgraphql_parser.a"
                subprocess.run(["cc", *flags, source, library], check=True)
                run = subprocess.run([f"{folder}/program"], capture_output=True, text=True)
            shown = re.findall(r'printf.*?/\* (.*?) \*/', block)
            if shown:
                self.assertEqual(run.stdout, "\n".join(shown) + "\n")
            else:
                self.assertEqual(run.returncode, 0)
                self.assertRegex(run.stdout + run.stderr, r'found "\)"|syntax error at 1:8')


if __name__ == "__main__":
    unittest.main()
