#!/usr/bin/env python3
"""Compares the layout of `gql format` with that of GraphQL.js' `print`.

    tests/layout.py [COUNT [SEED]]

Texts are the rows of the tables of `crates` and of tests/tables, and COUNT random texts of each language (2,000 without it) of
`tests/random_texts.py`. GraphQL.js prints those that it reads. The tokens of what it prints, one blank apart, have to be
formatted to that again, byte for byte, and so has what it prints itself: the block strings among them are spelled as in the
text, if the two have the same tokens, and lines end in CR LF if the first one in them does. No minified text may be
longer than what `stripIgnoredCharacters` returns. It prints the texts for which that doesn't hold, and last how many there were
of which kind; its status is 1 if there was one. Texts with a line of blanks inside a block string are left out: one that
GraphQL.js reads otherwise than `gql` is kept as it is spelled.

It needs node with the package graphql (Debian's node-graphql, 16.6), and the program of `crates/gql`, which `rt run` builds there.
It isn't part of `rt ci`, since that needs the kit alone.
"""
import json
import os
import pathlib
import re
import subprocess
import sys
import tempfile

from random_texts import Source

ROOT = pathlib.Path(__file__).resolve().parent.parent
GQL = ROOT / "crates/gql/out/gql"

# Prints, for each text of a list: null if it isn't read or is left out, else what is printed, its tokens one blank apart, and
# the text without ignored characters.
PRINTER = """
const { parse, print, stripIgnoredCharacters, Lexer, Source, TokenKind } = require("graphql");
function tokens(text) {
  const lexer = new Lexer(new Source(text));
  const found = [];
  for (;;) {
    const token = lexer.advance();
    if (token.kind === TokenKind.EOF) return found;
    found.push(token);
  }
}
const texts = JSON.parse(require("fs").readFileSync(0, "utf8"));
const seen = texts.map((text) => {
  let tree;
  try { tree = parse(text); } catch (error) { return null; }
  const printed = print(tree);
  const mine = tokens(printed);
  const theirs = tokens(text);
  const has_blanks = (token) =>
    token.kind === TokenKind.BLOCK_STRING && /[\\n\\r][ \\t]+[\\n\\r]/.test(text.slice(token.start, token.end));
  if (theirs.some(has_blanks)) return null;
  const are_same = mine.length === theirs.length && mine.every((token, at) => token.kind === theirs[at].kind);
  const spelled = mine.map((token, at) =>
    are_same && token.kind === TokenKind.BLOCK_STRING
      ? text.slice(theirs[at].start, theirs[at].end)
      : printed.slice(token.start, token.end));
  return { printed, spelled: spelled.join(" "), stripped: stripIgnoredCharacters(text) };
});
console.log(JSON.stringify(seen));
"""

SIGNS = {"␊": "\n", "␍": "\r", "␉": "\t", "␠": " "}


def plain(text):
    return "".join(SIGNS.get(c, c) for c in text)


def meant(text):
    """What a text of a row stands for (the notation is said at `crates/rows/src/lib.rt`)."""

    def inside(match):
        count, cross, part = match[1].partition("×")
        if cross and count.isdigit():
            return "".join(plain(part).replace("№", str(number)) for number in range(int(count)))
        try:
            return chr(int(match[1], 16))
        except ValueError:
            return plain(match[1])

    parts = re.split("(⟨[^⟩]*⟩)", text)
    return "".join(re.sub("⟨([^⟩]*)⟩", inside, part) if part.startswith("⟨") else plain(part) for part in parts)


def texts_of_rows():
    """The texts of all rows, under the languages that their tables' calls name, or both."""
    found = {"query": [], "schema": []}
    for file in sorted([*ROOT.glob("crates/*/data/tables/*"), *(ROOT / "tests/tables").glob("*.rows")]):
        for table in file.read_text(encoding="utf-8").removeprefix("== ").split("\n== "):
            call, _, rows = table.partition("\n")
            if "\n⇒\n" in rows:
                texts = [rows.rpartition("\n⇒\n")[0]]
            else:
                lines = rows.replace("\n  ", " ").splitlines()
                texts = [meant(line.split(" ⇒ ")[0]) for line in lines if " ⇒ " in line and not line.startswith("-- ")]
            for language in found:
                if language in call or not {"query", "schema"} & set(call.split()):
                    found[language] += texts
    return {language: [text for text in texts if len(text) < 1_000_000] for language, texts in found.items()}


def random_texts(language, seed, count):
    source = Source(language, seed)
    return [source.next()[0].decode() for _ in range(count)]


def printed_by_node(texts):
    ran = subprocess.run(
        ["node", "-e", PRINTER],
        input=json.dumps(texts).encode(),
        capture_output=True,
        check=True,
        env={**os.environ, "NODE_PATH": os.environ.get("NODE_PATH", "/usr/share/nodejs")},
    )
    return json.loads(ran.stdout)


def formatted(language, texts):
    """What `gql format` makes of each text, in place; None for those that it rejects."""
    with tempfile.TemporaryDirectory() as folder:
        files = [pathlib.Path(folder) / f"{number}.graphql" for number in range(len(texts))]
        for file, text in zip(files, texts):
            file.write_bytes(text.encode("utf-8", "surrogatepass"))
        ran = subprocess.run([GQL, "check", f"--{language}", "--format", "json", folder], capture_output=True)
        refused = {json.loads(line)["file"] for line in ran.stdout.splitlines()}
        subprocess.run([GQL, "format", f"--{language}", folder], capture_output=True)
        return [None if str(file) in refused else file.read_bytes().decode() for file in files]


def minified(language, text):
    ran = subprocess.run([GQL, "minify", f"--{language}", "-"], input=text.encode("utf-8", "surrogatepass"), capture_output=True)
    return ran.stdout.decode().removesuffix("\n") if ran.returncode == 0 else None


def ended_as(text, printed):
    """What is printed, with line ends as `gql format` writes them for the text."""
    first = re.search("\r?\n|\r", text)
    return printed.replace("\n", "\r\n") if first and first[0] == "\r\n" else printed


def compare(language, texts):
    """How many texts were alike, different, rejected by gql alone, and not read by GraphQL.js."""
    seen = printed_by_node(texts)
    read = [(text, tree) for text, tree in zip(texts, seen) if tree is not None]
    alike = different = refused = 0
    again = formatted(language, [tree["printed"] for _, tree in read])
    anew = formatted(language, [tree["spelled"] for _, tree in read])
    for (text, tree), first, second in zip(read, again, anew):
        if first is None or second is None:
            refused += 1
            continue
        short = minified(language, text)
        is_longer = short is not None and len(short) > len(tree["stripped"])
        printed = tree["printed"].rstrip("\n")
        is_printed = first.removesuffix("\n") == printed and second.rstrip("\r\n") == ended_as(tree["spelled"], printed)
        if is_printed and not is_longer:
            alike += 1
            continue
        different += 1
        print(f"{language}: {text!r}\n  GraphQL.js: {tree['printed']!r}\n  format:     {first!r}\n  anew:       {second!r}")
    return alike, different, refused, len(texts) - len(read)


def main():
    count = int(sys.argv[1]) if len(sys.argv) > 1 else 2000
    seed = int(sys.argv[2]) if len(sys.argv) > 2 else 1
    status = 0
    rows = texts_of_rows()
    for language in ("query", "schema"):
        for name, texts in (("rows", rows[language]), ("random texts", random_texts(language, seed, count))):
            alike, different, refused, unread = compare(language, texts)
            print(
                f"{language}, {name}: {alike} alike, {different} different, {refused} rejected by gql alone, "
                f"{unread} left out or rejected by GraphQL.js"
            )
            status = status or (1 if different else 0)
    return status


if __name__ == "__main__":
    sys.exit(main())
