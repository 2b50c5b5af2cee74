#!/usr/bin/env python3
"""Makes docs/editor.svg: Neovim's screen with two mistakes, of which the built language server told.
`tests/picture.py GQL > docs/editor.svg`, where GQL is crates/gql/out/gql."""
import json, os, re, subprocess, sys, tempfile
from html import escape
from pathlib import Path

HERE = Path(__file__).resolve().parent
TEXT = """# The hero of an episode.
query Hero($episode: Episode = JEDI) {
  hero(episode: $episode, note: "déjà vu") {
    name()
    friends(first: 3) { name ...Ages }
  }
}

fragment Ages on Character {
  age(unit: )
}
"""
WIDE, HIGH, EDGE = 8.4, 19, 14
COLOURS = {"plain": "#d4d4d4", "number": "#6e7681", "comment": "#7f9f7f", "keyword": "#c586c0", "string": "#ce9178", "told": "#f48771"}
KEYWORD = re.compile(r"#.*|\"[^\"]*\"|\b(?:query|fragment|on)\b")


def shown(program):
    """Neovim's screen, and what it was told."""
    with tempfile.TemporaryDirectory() as room:
        file = Path(room) / "hero.graphql"
        file.write_text(TEXT)
        env = {**os.environ, "GQL": os.path.abspath(program), "HOME": room, "XDG_STATE_HOME": room, "XDG_CACHE_HOME": room}
        words = ["nvim", "--headless", "-u", "NONE", "-i", "NONE", "-n", "-c", f"luafile {HERE}/picture.lua", str(file)]
        return json.loads(subprocess.run(words, env=env, capture_output=True, text=True, timeout=60, check=True).stdout)


def width(text):
    """How many columns a text takes."""
    return sum(2 if ord(c) > 0x2e7f else 1 for c in text)


def span(column, row, kind, text):
    """A piece of a line of the picture."""
    if not text.strip():
        return ""
    x, y = EDGE + column * WIDE, EDGE + row * HIGH + 14
    length = width(text.rstrip()) * WIDE
    return f'<text x="{x:.1f}" y="{y}" fill="{COLOURS[kind]}" textLength="{length:.1f}" xml:space="preserve">{escape(text.rstrip())}</text>'


def line(row, text):
    """A line of the screen: its number, the code, and what is reported after it."""
    front, text = text[:6], text[6:]
    code, told = re.fullmatch(r"(.*?)(\s+■.*)?", text, re.S).groups()
    pieces, column, place = [span(0, row, "told" if front.strip().startswith("E") else "number", front)], 6, 0
    for match in [*KEYWORD.finditer(code), None]:
        start = match.start() if match else len(code)
        pieces.append(span(column, row, "plain", code[place:start]))
        column += width(code[place:start])
        if match:
            kind = "comment" if match[0][0] == "#" else "string" if match[0][0] == '"' else "keyword"
            pieces.append(span(column, row, kind, match[0]))
            column += width(match[0])
            place = match.end()
    if told:
        blanks = len(told) - len(told.lstrip())
        pieces.append(span(column + blanks, row, "told", told.lstrip()))
    return "".join(pieces)


def main():
    if len(sys.argv) != 2:
        sys.exit(__doc__)
    seen = shown(sys.argv[1])
    if len(seen["told"]) != 2:
        sys.exit(f"not two mistakes are told: {seen['told']}")
    screen = [each.rstrip() for each in seen["screen"]]
    rows = len(TEXT.splitlines())
    body = [line(row, text) for row, text in enumerate(screen[:rows])]
    lines = TEXT.splitlines()
    for row, start, last, end, _ in seen["told"]:
        before, token = (lines[row].encode()[a:b].decode() for a, b in ((0, start), (start, end)))
        x, y = EDGE + (6 + width(before)) * WIDE, EDGE + row * HIGH + 17
        body.append(f'<path d="M{x:.1f} {y}h{width(token) * WIDE:.1f}" stroke="{COLOURS["told"]}" stroke-width="1.5"/>')
    wide, high = EDGE * 2 + WIDE * 84, EDGE * 2 + HIGH * rows
    print(f'<svg xmlns="http://www.w3.org/2000/svg" viewBox="0 0 {wide:.0f} {high}" font-family="ui-monospace, Menlo, Consolas, monospace" font-size="14">')
    print(f'<rect width="100%" height="100%" rx="6" fill="#1e1e1e"/>')
    print("\n".join(body))
    print("</svg>")


if __name__ == "__main__":
    main()
