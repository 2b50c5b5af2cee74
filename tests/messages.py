#!/usr/bin/env python3
"""Makes docs/MESSAGES.md: each text of the table tests/tables/reports_messages.rows with our messages, which it has,
and the message of graphql-core, the port of GraphQL.js to Python. `tests/messages.py > docs/MESSAGES.md`."""
import re
from pathlib import Path

import graphql
from graphql.validation import LoneAnonymousOperationRule, UniqueFragmentNamesRule, UniqueOperationNamesRule

ROOT = Path(__file__).resolve().parent.parent
ROWS = ROOT / "tests/tables/reports_messages.rows"
RULES = [UniqueOperationNamesRule, LoneAnonymousOperationRule, UniqueFragmentNamesRule]
SCHEMA = graphql.build_schema("type Query { a: Int }")

HEAD = '''# Messages

What `gql check --executable` reports for a request, and after `core:` graphql-core {version}, the port of GraphQL.js to Python: with
single quotes for double ones, without `Syntax Error: `, at our first place unless it has another. Without `core:` it accepts the
text: it doesn't limit depth, reads type definitions too, and needs no operation. Our lines come after the file's name and, with a
place, before [the text's line with a caret](../README.md#try-it). One ends in `(the block string that begins at 2:3 is probably not
closed)` if nothing closes a block string: then later definitions may be missing.

`tests/messages.py` makes this page from the tested rows of `tests/tables/reports_messages.rows`, and graphql-core's parser and three
rules on names.'''
SYNTAX = "syntax error: "


def meant(text):
    """The text that the notation of the rows stands for."""
    def inside(match):
        count, times, part = match[1].partition("×")
        return meant(part) * int(count) if times else chr(int(match[1], 16))
    text = re.sub("⟨([^⟩]*)⟩", inside, text)
    return text.translate(str.maketrans("␊␍␉␠·", "\n\r\t  "))


def report(lines):
    """The places of our report with their messages, which may go on over lines: no file's name, and no excerpt."""
    told = []
    for line in lines:
        if line.startswith("f:"):
            told.append(line.removeprefix("f:").strip())
        elif not line.startswith("·"):
            told[-1] += " " + line
    return told


def core(text, place):
    """The messages of graphql-core, with their places unless that is the place given."""
    try:
        errors = graphql.validate(SCHEMA, graphql.parse(text), RULES)
    except graphql.GraphQLError as error:
        errors = [error]
    told = []
    for error in errors:
        places = [f"{place.line}:{place.column}" for place in error.locations or []]
        message = error.message.removeprefix("Syntax Error: ")
        told.append(message + "".join(f" ({there})" for there in places if places != [place]))
    return told


def shown(text):
    """The lines of a text, long ones cut."""
    return [line if len(line) < 100 else line[:20] + "..." + line[-10:] for line in text.split("\n")]


def cases(table):
    """The texts, each with the lines of its report."""
    case = None
    for line in table.splitlines():
        if line.startswith("  "):
            case[1].append(line.strip())
        elif " ⇒ " in line:
            if case:
                yield case
            text, told = line.split(" ⇒ ")
            case = (text, [told])
    yield case


def main():
    table = ROWS.read_text()
    syntax, others = [], []
    for text, told in cases(table):
        text, told = meant(text), report(told)
        place = told[0].partition(": ")[0]
        says = [f"core: {line}" for line in core(text, place)]
        (syntax if SYNTAX in told[0] else others).append(
            "\n".join([*shown(text), *(line.replace(SYNTAX, "") for line in told), *says])
        )
    print(HEAD.format(version=graphql.version))
    for heading, entries in [(f"Syntax errors, which begin `{SYNTAX.strip()}`", syntax), ("Other errors", others)]:
        print(f"\n## {heading}\n\n```\n" + "\n\n".join(entries) + "\n```")


main()
