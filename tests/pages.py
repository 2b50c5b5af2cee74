#!/usr/bin/env python3
"""Runs the commands that pages show, and compares what they print with the pages: tests/pages.py [GQL GQLPARSE]

GQL and GQLPARSE are the built programs, without them crates/gql/out/gql and crates/gqlparse/out/gqlparse. They are
`./gql` and `./gqlparse` on a page. The commands of a page run in turn in a folder of their own:

- of a block that begins with `$ `: each such line; the lines after it are what it prints
- of a block of sh: each line with a comment `# prints: TEXT`
- of MESSAGES: `gql check --executable --query` with each text in a file; its messages follow it, up to `core:`. If the
  graphql-core that it names is here, tests/messages.py has to print the whole page

NOT_RUN names each other block of a page, and each other line of a block of sh that has a command to run. A link between
pages has to lead to a file and to a heading in it. Prints what is wrong; the status is 1 if anything is."""
import re, subprocess, sys, tempfile
from pathlib import Path

ROOT = Path(__file__).resolve().parent.parent
FOLDERS = (".", "docs", "bindings", "bindings/*")
PAGES = [str(path.relative_to(ROOT)) for folder in FOLDERS for path in sorted(ROOT.glob(f"{folder}/*.md"))]
PROGRAMS = ("gql", "gqlparse")

# What doesn't run here: the page, the reason, and how the first line of each block begins, or a line of sh.
BY_TEST_PAGES = "bindings/test_pages.py runs it"
NOT_RUN = [
    ("README.md", "proves everything", ["./test"]),
    ("README.md", "a call that is longer on the pages for its language", [
        "let document = graphql_parser::parse_query(alloc, text)?;",
        'let document = graphql_parser::parse_query("{ hero { name } }")?;',
        'tree = graphql_parser.parse_query("{ hero { name } }")',
        "uint32_t status = graphql_parser_check_query(",
    ]),
    ("CONTRIBUTING.md", "needs the kit, for minutes", ["./test quick requests"]),
    ("CONTRIBUTING.md", "tools/checks finds it in a file that the gate reads", [
        "== query whole",
        "$ check bad.graphql",
        '> {"id": 3, "method": "textDocument/hover", ',
        "file: src/pos/running.rt",
    ]),
    ("docs/EDITORS.md", "needs an editor", [
        'vim.lsp.config("gql", {',
        'vim.api.nvim_create_autocmd("FileType", {',
        "[language-server.gql]",
        "{",
        "(with-eval-after-load 'eglot",
    ]),
    ("docs/GRAMMAR.md", "a grammar", [
        "OperationType : 'query' | ",
        "ExecutableDocument : ",
        "TypeSystemExtensionDocument : ",
    ]),
    ("docs/INSTALL.md", "needs what tools/release makes: tests/install.sh", ["sha256sum -c SHA256SUMS"]),
    ("docs/MESSAGES.md", "the texts run one by one", ["{a", "{a{a{a{a{a"]),
    ("docs/USING.md", "needs the kit", ["use graphql_parser::{Error, Limits, Memory, "]),
    ("bindings/c/README.md", "proves and builds the library", ["bindings/build.sh"]),
    ("bindings/c/README.md", BY_TEST_PAGES, [
        '#include "graphql_parser.h"',
        "graphql_parser_json json;",
        "graphql_parser_report report;",
        'const char *request = "{ hero(id: 7) { name } }";',
    ]),
    ("bindings/python/README.md", "proves and builds the library", ["bindings/build.sh"]),
    ("bindings/python/README.md", BY_TEST_PAGES, [
        "import graphql_parser",
        'tree = graphql_parser.parse_query("{ hero { name } }", places=True)',
        "import graphql",
        "print(graphql_parser.print_ast(document))",
        "try:",
        "print(graphql_parser.explain_query(",
        "try:",
    ]),
    ("bindings/rust/README.md", "a test of the package: bindings/check.sh", [
        "use graphql_parser::{check_query, ",
        "use graphql_parser::types::Selection;",
        "use graphql_parser::{parse_query, ",
        "use graphql_parser::{explain_query, ",
    ]),
]


def blocks(page):
    """The blocks of code of a page: the language and the lines of each."""
    found = re.findall(r"^```(\w*)\n(.*?)^```$", page.read_text(), re.M | re.S)
    return [(language, text.splitlines()) for language, text in found]


def commands(page, language, lines):
    """The commands of a block with what each has to print, and the lines that stand for what doesn't run."""
    if lines[0].startswith("$ ") and not is_named(page, lines[0]):
        starts = [number for number, line in enumerate(lines) if line.startswith("$ ")] + [len(lines)]
        return [(lines[at][2:], lines[at + 1:end]) for at, end in zip(starts, starts[1:])], []
    split = [line.partition("# prints: ") for line in lines]
    if language != "sh" or not any(mark for _, mark, _ in split):
        return [], lines[:1]
    return [(command, [text]) for command, mark, text in split if mark], [line for line, mark, _ in split if not mark]


def is_named(page, line):
    return any(there == page and line.startswith(begin) for there, _, begins in NOT_RUN for begin in begins)


def messages():
    """The texts of MESSAGES with the messages of each: a pair of lists of lines."""
    is_syntax = True
    for _, lines in blocks(ROOT / "docs/MESSAGES.md"):
        for part in "\n".join(lines).split("\n\n"):
            said = [line for line in part.splitlines() if not line.startswith("core: ")]
            first = next((at for at, line in enumerate(said) if at and re.match(r"\d+:\d+: ", line)), len(said) - 1)
            prefix = "syntax error: " if is_syntax else ""
            # A line that the page cuts can't be checked.
            if not any(len(line) == 33 and line[20:23] == "..." for line in said[:first]):
                yield said[:first], [re.sub(r"^(\d+:\d+: |)", rf"\1{prefix}", line) for line in said[first:]]
        is_syntax = False


def printed(command, folder):
    """What a command prints, on standard output and standard error together."""
    output = {"stdout": subprocess.PIPE, "stderr": subprocess.STDOUT}
    ran = subprocess.run(["sh", "-c", command], cwd=folder, stdin=subprocess.DEVNULL, **output)
    return ran.stdout.decode(errors="replace")


def check_commands(page, folder):
    """Runs the commands of a page. Returns what is wrong, and the lines that stand for what doesn't run."""
    wrong, left = [], []
    for language, lines in blocks(ROOT / page):
        run, others = commands(page, language, lines)
        left += others
        for command, wanted in run:
            found = printed(command, folder)
            if found != "".join(line + "\n" for line in wanted):
                wrong.append(f"$ {command}\nexpected:\n" + "\n".join(wanted) + f"\nfound:\n{found}")
    return wrong, left


def check_named(page, left):
    """What is wrong with the lines of NOT_RUN, if these lines of a page stand for what doesn't run."""
    named = [begin for there, _, begins in NOT_RUN if there == page for begin in begins]
    for line in left:
        begin = next((begin for begin in named if line.startswith(begin)), None)
        if begin is None:
            yield f"this neither runs nor is in NOT_RUN: {line}"
        else:
            named.remove(begin)
    yield from (f"no line begins as in NOT_RUN: {begin}" for begin in named)


def check_messages(folder):
    """Runs gql with each text of MESSAGES. Returns what is wrong."""
    wrong = []
    for text, wanted in messages():
        Path(folder, "a.graphql").write_text("\n".join(text))
        lines = printed("./gql check --executable --query a.graphql", folder).splitlines()
        found = [line.removeprefix("a.graphql:").strip() for line in lines if line.startswith("a.graphql:")]
        if found != wanted:
            wrong.append("\n".join(["text:", *text, "expected:", *wanted, "found:", *lines]))
    return wrong


def check_made():
    """What is wrong with MESSAGES as tests/messages.py makes it, if the graphql-core that it names is here."""
    page = (ROOT / "docs/MESSAGES.md").read_text()
    try:
        import graphql
    except ImportError:
        return
    if f"graphql-core {graphql.version}," not in page:
        return
    made = subprocess.run([sys.executable, "-B", ROOT / "tests/messages.py"], stdout=subprocess.PIPE)
    if made.stdout.decode() != page:
        yield "isn't what tests/messages.py prints"


def headings(page):
    """The names by which links lead to the headings of a page."""
    text = re.sub(r"^```.*?^```$", "", page.read_text(), flags=re.M | re.S)
    return {re.sub(r"[^\w\- ]", "", line.lower()).replace(" ", "-") for line in re.findall(r"^#+ (.*)$", text, re.M)}


def check_links(page):
    """The links of a page that lead nowhere."""
    for link in re.findall(r"\]\(([^)\s]+)\)", page.read_text()):
        path, _, heading = link.partition("#")
        there = page.parent / path if path else page
        if "://" not in link and (not there.exists() or heading and heading not in headings(there)):
            yield f"the link {link} leads nowhere"


def check_page(page, programs):
    """Returns what is wrong with a page."""
    with tempfile.TemporaryDirectory() as folder:
        for program, called in zip(programs, PROGRAMS):
            Path(folder, called).symlink_to(program)
        wrong, left = check_commands(page, folder)
        if page == "docs/MESSAGES.md":
            wrong += [*check_messages(folder), *check_made()]
    return [*wrong, *check_named(page, left), *check_links(ROOT / page)]


def main():
    if len(sys.argv) not in (1, 3):
        sys.exit(__doc__)
    programs = sys.argv[1:] or [ROOT / "crates" / name / "out" / name for name in PROGRAMS]
    programs = [Path(program).resolve() for program in programs]
    for program in programs:
        if not program.is_file():
            sys.exit(f"tests/pages.py: {program} isn't built")
    status = 0
    for page in PAGES:
        for what in check_page(page, programs):
            print(f"tests/pages.py: {page}: {what}")
            status = 1
    sys.exit(status)


if __name__ == "__main__":
    main()
