#!/usr/bin/env python3
"""Tries a built gql with random texts and values of both languages: tests/random_texts.py GQL [SEED COUNT]

tests/random_texts.py texts SEED COUNT requests|schemas prints the first COUNT texts of a seed, with the character
U+0000 after each.

GQL is the program, as crates/gql/out/gql. Half of the texts are made by the grammars in tests/grammars, and each is
accepted or breaks a rule for documents; the others have one edit. Of each text:
  - the check finds good what has a tree, and else the same first error at the same place, as do minify, print, format
  - within narrow limits it has the same answer, or nests too deep
  - with each token on a line of its own it has the same tree but for places
  - the printed tree has the same tree, is printed the same again, and is formatted
  - the minified text has the same tree, is no longer, and is minified the same again
  - the formatted text has the same tree and tokens, and is formatted
Random values are written by a writer and read by a model of their own: of each, as an argument and as a default, the
tree is that of the model, and so it is once the text is printed, minified or formatted.

Last, programs with a mistake are tried: each has to be found. One line is printed with how many there were of which
kind, and then the first text that doesn't hold, with both answers. The status is 0 if all is as it has to be."""
import functools, itertools, json, os, re, subprocess, sys, tempfile
from pathlib import Path

GRAMMARS = Path(__file__).resolve().parent / "grammars"
SEED, COUNT = 20261123, 1000
# How many of the first 2,000 texts of that seed are accepted, break a rule, and are rejected: the same texts are made.
KNOWN = {"query": [1053, 125, 822], "schema": [1076, 67, 857]}
# How many texts are tried at once.
CHUNK = 500


# ---- Random texts

class Random:
    """Numbers that look random, by a generator of the kind xorshift."""

    def __init__(self, seed):
        self.state = seed * 0x9E37_79B9_7F4A_7C15 & 0xFFFF_FFFF_FFFF_FFFF | 1

    def below(self, end):
        """A number below this one; 0 if there is none."""
        state = self.state
        state ^= state << 13 & 0xFFFF_FFFF_FFFF_FFFF
        state ^= state >> 7
        state ^= state << 17 & 0xFFFF_FFFF_FFFF_FFFF
        self.state = state
        return (state >> 11) % end if end else 0

    def one_in(self, cases):
        return self.below(cases) == 0

    def one_of(self, choices):
        return choices[self.below(len(choices))]


MARKS = {"␠": " ", "␉": "\t", "␊": "\n", "␍": "\r", "␀": "\0", "mark": "\ufeff"}
ONCE = ""


def symbol(word):
    """The part that a word of a choice names, and how often it stands there: once, or as `?`, `*` or `+` says."""
    return (word[:-1], word[-1]) if word[-1] in "?*+" else (word, ONCE)


def piece(word):
    """What stands between quotes; a few marks stand for characters that would not be seen."""
    text = word[1:-1] if len(word) > 1 and word[0] == word[-1] == "'" else word
    return MARKS.get(text, text)


class Grammar:
    """A rule a line: `Name : Choice | Choice`. A choice is words with blanks between them: `Part`, `Part?`, `Part*` or
    `Part+`, where a part is the name of a rule, or else text, which may stand in single quotes. The first choice of
    each rule comes to an end when no optional part and no other choice is taken."""

    def __init__(self, name):
        lines = (GRAMMARS / name).read_text(encoding="utf-8").splitlines()
        # The words of each choice of a rule, the last first.
        self.rules = {}
        for rule, choices in (line.split(" : ", 1) for line in lines):
            self.rules[rule] = [[symbol(word) for word in choice.split(" ")][::-1] for choice in choices.split(" | ")]

    def pieces(self, random, rule, growth):
        """The pieces of one text of this rule, which grows in `growth` steps and then is only brought to its end."""
        pieces, left = [], [(rule, ONCE)]
        for step in itertools.count():
            if not left:
                return pieces
            part, times = left.pop()
            grows = step < growth
            if times == ONCE:
                choices = self.rules.get(part)
                if choices is None:
                    pieces.append(piece(part))
                else:
                    left += choices[random.below(len(choices)) if grows else 0]
            elif times == "+":
                left += [(part, "*"), (part, ONCE)]
            elif grows and random.one_in(2):
                left += [(part, "*"), (part, ONCE)] if times == "*" else [(part, ONCE)]


# What a changed character becomes.
OTHERS = "{}()[]:@$=!|&.\"\\#aun01_-e+, \n\r\ufeffü".encode()
TOKEN_GROWTH, TEXT_GROWTH = 24, 240


def can_run_on(token):
    """Whether a token is more than a punctuator, or is dots."""
    return token not in ("!", "$", "&", "(", ")", ":", "=", "@", "[", "]", "{", "|", "}")


def changed(random, text):
    """A text with one character changed, dropped, or put in; as it is if the place is within a character."""
    place, way, other = random.below(len(text)), random.below(3), random.below(len(OTHERS))

    def character(data, at):
        return re.match(rb"[\x00-\x7f]|[\xc0-\xff][\x80-\xbf]*|", data[at:])[0]
    if place < len(text) and not character(text, place):
        return text
    new = b"" if way == 0 else character(OTHERS, other)
    kept = place if way == 2 else place + len(character(text, place))
    return text[:place] + new + text[kept:]


class Source:
    """A source of texts from a seed on, of a language: `query` or `schema`."""

    def __init__(self, language, seed):
        self.phrases = Grammar({"query": "requests", "schema": "schemas"}[language])
        self.tokens = Grammar("tokens")
        self.random = Random(seed)

    def spelled(self, kind):
        """A token of a kind, or the token itself if its kind has one spelling."""
        if kind not in self.tokens.rules:
            return kind
        return "".join(self.tokens.pieces(self.random, kind, self.random.below(TOKEN_GROWTH)))

    def next(self):
        """The next text, and whether it was made by the grammar and left as it was: half of them are edited once."""
        random = self.random
        tokens = [self.spelled(kind) for kind in self.phrases.pieces(random, "Document", random.below(TEXT_GROWTH))]
        is_meant = random.one_in(2)
        edit = 4 if is_meant else random.below(4)
        if edit < 3:
            self.edit(tokens, edit)
        text = self.spaced(tokens).encode()
        return (changed(random, text) if edit == 3 else text), is_meant

    def edit(self, tokens, edit):
        """Drops one token, doubles it, or swaps it with its neighbour: edits 0, 1 and 2."""
        index = self.random.below(len(tokens))
        token = tokens.pop(index)
        if edit == 1:
            tokens[index:index] = [token, token]
        if edit == 2:
            tokens.insert(index + 1 if index < len(tokens) else 0, token)

    def spaced(self, tokens):
        """The tokens with ignored text around them: between two that could run together there is some."""
        random = self.random
        is_dense, is_open, text = random.one_in(4), False, []
        for token in tokens:
            ignored = self.spelled("Ignored") if not is_dense or random.one_in(8) else ""
            if is_open and can_run_on(token) and not ignored:
                ignored = " "
            text += [ignored, token]
            is_open = can_run_on(token)
        return "".join(text) + self.spelled("Ignored")


# ---- The program

# Has the program answer to each file, whose standard output, standard error and status are kept in files beside it.
SHELL = 'for file; do "$GQL" $WORDS "$file" >"$OUT/$file.out" 2>"$OUT/$file.err"; echo "$?"; done'
WORKERS = os.cpu_count() or 1
ALL, NARROW = "64,64,64", "1,1,1"


class Program:
    """The built program, as it answers to texts of a language."""

    def __init__(self, path, language):
        self.path, self.language = str(Path(path).resolve()), language

    def asked(self, words, texts):
        """What it answers to each text: the status, standard output and standard error."""
        words = f"{words} --{self.language}"
        with tempfile.TemporaryDirectory() as folder:
            names = self.written(folder, texts)
            parts = [names[start::WORKERS] for start in range(WORKERS)]
            env = {**os.environ, "GQL": self.path, "WORDS": words, "OUT": folder}
            how = {"cwd": folder, "env": env, "stdout": subprocess.PIPE}
            shells = [subprocess.Popen(["sh", "-c", SHELL, "sh", *part], **how) for part in parts]
            statuses = {}
            for part, shell in zip(parts, shells):
                statuses.update(zip(part, shell.communicate()[0].split()))
            files = [(Path(folder, f"{name}.out"), Path(folder, f"{name}.err")) for name in names]
            return [(int(statuses[name]), out.read_bytes(), err.read_bytes()) for name, (out, err) in zip(names, files)]

    def written(self, folder, texts):
        """The names of the files with these texts, which are written there."""
        names = [f"text{index}" for index in range(len(texts))]
        for name, text in zip(names, texts):
            Path(folder, name).write_bytes(text)
        return names

    def over_all(self, words, texts):
        """What one call for all texts answers, and each text's file after it."""
        with tempfile.TemporaryDirectory() as folder:
            names = self.written(folder, texts)
            words = [self.path, *words.split(), f"--{self.language}", "--", *names]
            ran = subprocess.run(words, cwd=folder, capture_output=True)
            return ran, [Path(folder, name).read_bytes() for name in names]

    def tree(self, texts, limits=None, places=False):
        """The tree of each text as JSON, or its error."""
        words = "tree" + (" --places" if places else "") + (f" --limits {limits}" if limits else "")
        return self.asked(words, tuple(texts))

    def check(self, texts, limits=None):
        """The first finding of each text; None if it is good."""
        words = "check --executable --format json" + (f" --limits {limits}" if limits else "")
        ran, _ = self.over_all(words, texts)
        found = {}
        for line in ran.stdout.decode().split("\n")[:-1]:
            finding = json.loads(line)
            found.setdefault(int(finding["file"].removeprefix("text")), finding)
        if ran.stderr or ran.returncode != (1 if found else 0):
            sys.exit(f"gql check ends with {ran.returncode}: {ran.stderr[:500]!r}")
        return [found.get(index) for index in range(len(texts))]

    def tokens(self, texts):
        """The tokens of each text, as lines."""
        return [out.decode().split("\n")[:-1] for _, out, _ in self.asked("tokens", tuple(texts))]

    def print(self, texts):
        return self.asked("print", tuple(texts))

    def minify(self, texts):
        return self.asked("minify", tuple(texts))

    def format(self, texts):
        """What each text is formatted to, or its report, as `asked` has them."""
        ran, after = self.over_all("format", texts)
        reports, index = [b""] * len(texts), 0
        for line in re.findall(rb".*\n", ran.stderr):
            name = re.match(rb"text(\d+):", line)
            index = int(name[1]) if name else index
            reports[index] += line
        return [(1, b"", report) if report else (0, text, b"") for text, report in zip(after, reports)]

    def unformatted(self, texts):
        """The numbers of the texts that aren't formatted."""
        ran, _ = self.over_all("format --check", texts)
        return {int(name) for name in re.findall(rb"^text(\d+)\b", ran.stdout + ran.stderr, re.M)}


# ---- What has to hold of texts

def without_places(node):
    """The tree without places. Operations and then fragments, and the roots of a schema by their kind: the order
    between these is by places, which a lone carriage return changes."""
    if isinstance(node, list):
        return [without_places(each) for each in node]
    if not isinstance(node, dict):
        return node
    node = {key: without_places(value) for key, value in node.items() if key not in ("line", "column")}
    if node.get("kind") == "Document":
        node["definitions"].sort(key=lambda it: it["kind"] == "FragmentDefinition")
    if "operationTypes" in node:
        node["operationTypes"].sort(key=lambda it: it["operation"])
    return node


@functools.lru_cache(maxsize=2000)
def seen(answer):
    """An answer without places: the tree, or the error, which is only `syntax` for one of these."""
    status, out, err = answer
    if status == 0:
        return without_places(json.loads(out))
    error = re.sub(rb"^text\d+:(\d+:\d+:)? ", b"", err.split(b"\n")[0]).decode()
    return "syntax" if error.startswith("syntax error: ") else error


def is_alike(answer, other):
    return seen(answer) == seen(other)


def without_hint(report):
    """A report without what only a call that looks for later errors says of a block string."""
    return re.sub(rb" \(the block string that begins at \d+:\d+ is probably not closed\)\n", b"\n", report)


def agrees(answer, finding):
    """Whether the check of a text says what its tree or error does."""
    status, out, err = answer
    if finding is None:
        return status == 0 and out != b"" and err == b""
    place = f":{finding['line']}:{finding['column']}" if "line" in finding else ""
    said = without_hint(f"{place}: {finding['message']}\n".encode())
    return status == 1 and out == b"" and re.sub(rb"^text\d+", b"", err).startswith(said)


def kind_of(finding):
    """What became of a text by the first finding of its check: 0 if it is accepted, 1 if it breaks a rule for
    documents, 2 if it is rejected."""
    if finding is None:
        return 0
    return 2 if finding["status"] in ("SYNTAX", "RECURSION_LIMIT_EXCEEDED") else 1


def is_same_within(answer, narrow):
    """Whether the answer within narrow limits is the same, or that the text nests too deep. What a syntax error expects
    depends on the limits."""
    if narrow[0] == 1 and b": recursion limit exceeded: " in narrow[2].split(b"\n")[0]:
        return True
    one, other = (re.sub(b", expected .*", b"", err) for _, _, err in (answer, narrow))
    return narrow[:2] == answer[:2] and one == other


def is_anew(answer, written):
    """Whether a text is rewritten if it is good, and has the error of its tree otherwise. A request of fragments
    alone has no tree, but is good."""
    status, _, err = written
    has_no_operation = answer[2].endswith(b": document does not contain an operation\n")
    if answer[0] == 0 or (has_no_operation and status == 0):
        return status == 0 and err == b""
    return status == 1 and without_hint(err).startswith(answer[2])


IGNORED = re.compile("(?:[\ufeff \t\n\r,]|#[^\n\r]*)*")


def spellings(text, lines):
    """The tokens as the text spells them, `?` at a place where none begins; None if these aren't its tokens."""
    text, at, found = text.decode(), 0, []
    for number, line in enumerate(lines, 1):
        at = IGNORED.match(text, at).end()
        kind, shown = re.fullmatch(r"\d+:\d+ (block string|[a-z]+) ?(.*)", line, re.S).groups()
        if kind in ("fault", "end"):
            is_whole = number == len(lines) and (kind == "fault" or at == len(text))
            return found + ["?"] * (kind == "fault") if is_whole else None
        begin = at
        while shown:
            sign = {"\n": r"\n", "\r": r"\r"}.get(text[at:at + 1], text[at:at + 1])
            if not sign or not shown.startswith(sign):
                return None
            shown, at = shown[len(sign):], at + 1
        found.append(text[begin:at])
    return None


def has_kept(lines, others):
    """Whether tokens are the same in two texts: their kinds, and but for block strings their spelling."""
    def kept(lines):
        bare = [line.split(" ", 1)[1] for line in lines]
        return ["block string" if line.startswith("block string ") else line for line in bare]
    return kept(lines) == kept(others)


class Failure(Exception):
    """A text that doesn't hold: its number, what is wrong, and two answers that had to agree."""


def hold(wrong, numbers, ones, others, agree):
    """Fails by the first text of these numbers whose two answers don't agree."""
    for number, one, other in zip(numbers, ones, others):
        if not agree(one, other):
            raise Failure(number, wrong, one, other)


class Trial:
    """Some texts of a language, and what the program makes of them."""

    def __init__(self, program, texts, meant):
        self.program, self.texts, self.meant = program, texts, meant
        self.every = range(len(texts))
        self.answers = program.tree(texts, places=True)

    def check_answers(self):
        """The check answers as the tree, also within limits; within narrow ones the answer is the same, or that a text
        nests too deep. Returns the kinds of the texts."""
        program, texts, every = self.program, self.texts, self.every
        found = program.check(texts)
        hold("the check differs", every, self.answers, found, agrees)
        hold("the check within limits differs", every, self.answers, program.check(texts, ALL), agrees)
        wrong = "a text of the grammar is rejected"
        hold(wrong, every, self.meant, found, lambda meant, it: not meant or kind_of(it) < 2)
        narrow = program.tree(texts, NARROW, places=True)
        hold("the check within narrow limits differs", every, narrow, program.check(texts, NARROW), agrees)
        hold("narrow limits differ", every, self.answers, narrow, is_same_within)
        return [kind_of(it) for it in found]

    def check_tree(self, wrong, numbers, texts):
        """Each of these texts has the tree of the text of that number, or its error, but for places."""
        hold(wrong, numbers, [self.answers[i] for i in numbers], self.program.tree(texts, ALL), is_alike)

    def check_tokens(self):
        """With a token a line a text has the same tree. Returns the tokens of each text."""
        lines = self.program.tokens(self.texts)
        tokens = [spellings(*each) for each in zip(self.texts, lines)]
        hold("these are not its tokens", self.every, lines, tokens, lambda _, found: found is not None)
        apart = ["".join(f"{token}\n" for token in each).encode() for each in tokens]
        self.check_tree("a token a line differs", self.every, apart)
        return lines

    def check_written(self, name, answers, again=None):
        """What a command writes has the same tree, is written so again if that is asked, and is formatted unless it is
        minified. Returns the numbers of the texts that are rewritten, and what they became."""
        hold(f"{name} differs", self.every, self.answers, answers, is_anew)
        numbers = [i for i in self.every if answers[i][0] == 0]
        texts = [answers[i][1] for i in numbers]
        self.check_tree(f"the text by {name} differs", numbers, texts)
        if again:
            hold(f"by {name} again it differs", numbers, texts, again(texts), lambda text, once: once == (0, text, b""))
        if name != "minify":
            others = self.program.unformatted(texts)
            wrong = f"the text by {name} is not formatted"
            hold(wrong, numbers, texts, range(len(texts)), lambda _, at: at not in others)
        return numbers, texts

    def check_rewritten(self, lines):
        """What print, minify and format make of the texts."""
        program = self.program
        self.check_written("print", program.print(self.texts), program.print)
        numbers, texts = self.check_written("minify", program.minify(self.texts), program.minify)
        before = [self.texts[i] for i in numbers]
        hold("the minified text is longer", numbers, before, texts, lambda text, after: len(after) <= len(text) + 1)
        # A text without a token stays as it is.
        formatted = program.format(self.texts)
        formatted = [each if len(lines[i]) > 1 else self.answers[i] for i, each in enumerate(formatted)]
        numbers, texts = self.check_written("format", formatted)
        hold("the formatted tokens differ", numbers, [lines[i] for i in numbers], program.tokens(texts), has_kept)


def check_texts(program, source, count):
    """How many of `count` texts are accepted, break a rule, and are rejected, and what is wrong with the first that
    doesn't hold."""
    tally = [0, 0, 0]
    for start in range(0, count, CHUNK):
        texts, meant = zip(*(source.next() for _ in range(min(CHUNK, count - start))))
        try:
            trial = Trial(program, texts, meant)
            for kind in trial.check_answers():
                tally[kind] += 1
            trial.check_rewritten(trial.check_tokens())
        except Failure as failure:
            index, wrong, *answers = failure.args
            said = [f"{program.language}, text {start + index}: {wrong}: {texts[index]!r}"]
            return tally, "\n--- ".join(said + [repr(it) for it in answers])
    return tally, ""


def are_known(program):
    """Whether the first texts of the known seed are of the kinds that are known."""
    source = Source(program.language, SEED)
    kinds = [kind_of(it) for it in program.check([source.next()[0] for _ in range(2000)])]
    return [kinds.count(kind) for kind in range(3)] == KNOWN[program.language]


# ---- Random values

NAMES = ["a", "on", "true", "null", "query", "_0", "__typename", "aNameOfMoreThanSixteenBytes"]
ENUM_NAMES = ["A", "on", "True", "nulls", "mutation"]
NUMBERS = ["0", "-0", "7", "-12", "9223372036854775808", "1.50", "1e3", "-1E+10", "0.0e-0"]
NUMBERS += ["-123456789012345678901234567890.5"]
# Characters of strings: those that are escaped, those that look like a token, and those at the ends of the ranges that
# are encoded alike.
CHARACTERS = '"\\\n\r\t\0\x01\x08\x0b\x0c\x1f au/{$#\x7f\x80\u07ff\u2028\ud7ff\ue000\ufeff\uffff😀\U0010ffff'
ESCAPES = {'"': '\\"', "\\": "\\\\", "/": "\\/", "\b": "\\b", "\f": "\\f", "\n": "\\n", "\r": "\\r", "\t": "\\t"}
BLOCK_UNITS = ["a", " ", "\t", "\n", "\n  ", "\r", "\r\n", '\\"""', "\\n", '"x', '""\n', "#", "ü", "😀", "\0", ","]
BLOCK_UNITS += ["\n    b", "\n   c"]
IGNORED_UNITS = ["", "", "", " ", "\n", ",", "\r", "\t", "\ufeff", "#\"{\n"]
DEPTH, GROUP = 4, 50


def node(kind, **members):
    return {"kind": kind, **members}


def name_node(name):
    return node("Name", value=name)


def block_value(content):
    """What a block string with this content stands for, as docs/GRAMMAR.md has it."""
    first, *others = re.split("\r\n|\n|\r", content.replace('\\"""', '"""'))
    indents = [len(line) - len(line.lstrip(" \t")) for line in others if line.strip(" \t")]
    indent = min(indents, default=0)
    lines = [first, *(line[indent:] if len(line) >= indent else line for line in others)]
    full = [at for at, line in enumerate(lines) if line.strip(" \t")]
    return "\n".join(lines[full[0]:full[-1] + 1]) if full else ""


class Values:
    """A source of values from a seed on."""

    def __init__(self, seed):
        self.random = Random(seed)

    def next(self):
        """The next value: its text, its JSON, and whether it has no variable."""
        has_variables = self.random.one_in(2)
        tokens, tree = self.value(DEPTH, has_variables)
        return self.spaced(tokens), tree, "$" not in tokens

    def value(self, depth, has_variables):
        """The tokens of a value, and its JSON. Two of three values are a list or an object."""
        random = self.random
        is_nested = depth == DEPTH and not random.one_in(3)
        kind = random.below(4 if is_nested else 11 if has_variables else 10)
        if kind < 4 and depth > 0:
            return (self.list if kind < 2 else self.object)(depth - 1, has_variables)
        if kind == 4:
            return ["null"], node("NullValue")
        if kind == 5:
            value = random.one_in(2)
            return ["true" if value else "false"], node("BooleanValue", value=value)
        if kind == 6:
            name = random.one_of(ENUM_NAMES)
            return [name], node("EnumValue", value=name)
        if kind == 7:
            number = random.one_of(NUMBERS)
            return [number], node("IntValue" if number.lstrip("-").isdigit() else "FloatValue", value=number)
        if kind == 10:
            name = random.one_of(NAMES)
            return ["$", name], node("Variable", name=name_node(name))
        text, value = self.block() if random.one_in(3) else self.string()
        return [text], node("StringValue", value=value)

    def list(self, depth, has_variables):
        items = [self.value(depth, has_variables) for _ in range(self.random.below(5))]
        tokens = ["[", *itertools.chain(*(tokens for tokens, _ in items)), "]"]
        return tokens, node("ListValue", values=[tree for _, tree in items])

    def object(self, depth, has_variables):
        """An object has each name once, where it first occurs, with its last value."""
        tokens, fields = ["{"], {}
        for _ in range(self.random.below(5)):
            name = self.random.one_of(NAMES)
            value, fields[name] = self.value(depth, has_variables)
            tokens += [name, ":", *value]
        fields = [node("ObjectField", name=name_node(name), value=tree) for name, tree in fields.items()]
        return [*tokens, "}"], node("ObjectValue", fields=fields)

    def string(self):
        value = "".join(self.random.one_of(CHARACTERS) for _ in range(self.random.below(9)))
        return '"' + "".join(map(self.written, value)) + '"', value

    def written(self, character):
        """A character of a string, in one of its spellings."""
        code = ord(character)
        ways = [] if character in '"\\\n\r' else [character] * 3
        ways += [ESCAPES[character]] * 2 if character in ESCAPES else []
        ways.append(f"\\u{{{'0' * self.random.below(4)}{code:x}}}")
        units = character.encode("utf-16-be").hex()
        ways.append("".join("\\u" + units[at:at + 4] for at in range(0, len(units), 4)))
        ways.append(ways[-1].upper().replace("\\U", "\\u"))
        return self.random.one_of(ways)

    def block(self):
        """A block string: nothing in it ends it, and its end is no escape."""
        content = "".join(self.random.one_of(BLOCK_UNITS) for _ in range(self.random.below(12)))
        if '"""' in content.replace('\\"""', "") or content.endswith(('"', "\\")):
            content = content.replace('"', "'") + "'"
        return f'"""{content}"""', block_value(content)

    def spaced(self, tokens):
        """The tokens with ignored text between them, some where two could run together."""
        text, is_open = "", False
        for token in tokens:
            ignored = self.random.one_of(IGNORED_UNITS)
            text += ignored or (" " if is_open and can_run_on(token) else "")
            text += token
            is_open = can_run_on(token)
        return text


def request(text, variables, selections):
    """The text and the JSON of a request of one operation."""
    parts = {"variableDefinitions": variables, "directives": []}
    parts["selectionSet"] = node("SelectionSet", selections=selections)
    return text.encode(), node("Document", definitions=[node("OperationDefinition", operation="query", **parts)])


def field(name, arguments):
    return node("Field", name=name_node(name), arguments=arguments, directives=[])


def arguments(values):
    """A request with each value as an argument."""
    fields = [field("a", [node("Argument", name=name_node("b"), value=tree)]) for _, tree, _ in values]
    return request("{" + " ".join(f"a(b:{text})" for text, _, _ in values) + "}", [], fields)


def defaults(values):
    """A request with each value as a default."""
    parts = {"variable": node("Variable", name=name_node("a")), "type": node("NamedType", name=name_node("T"))}
    variables = [node("VariableDefinition", **parts, defaultValue=tree, directives=[]) for _, tree, _ in values]
    text = "query(" + " ".join(f"$a:T={text}" for text, _, _ in values) + "){b}"
    return request(text, variables, [field("b", [])])


def wrong_request(program, requests):
    """The number of the first of these requests that isn't read as its JSON, what is wrong, and the answer; None if all
    are."""
    texts, trees = zip(*requests)
    for index, finding in enumerate(program.check(texts)):
        if finding:
            return index, "the check finds an error", finding
    for name in ("", "print", "minify", "format"):
        written = [out for _, out, _ in getattr(program, name)(texts)] if name else texts
        for index, (status, out, err) in enumerate(program.tree(written)):
            if status != 0 or json.loads(out) != trees[index]:
                return index, f"the tree differs{' after ' if name else ''}{name}", (written[index], out, err)
    return None


def in_groups(place, values):
    """The requests with these values in such a place, some in each."""
    return [place(values[start:start + GROUP]) for start in range(0, len(values), GROUP)]


def check_values(program, place, values):
    """What is wrong with the first value that is read as another in such a place; empty if none is."""
    found = wrong_request(program, in_groups(place, values))
    if found is None:
        return ""
    for value in values[found[0] * GROUP:][:GROUP]:
        alone = wrong_request(program, [place([value])])
        if alone:
            return f"value {value[0]!r} in {place.__name__}: {alone[1]}\n--- {value[1]!r}\n--- {alone[2]!r}"
    return f"values in {place.__name__}: {found[1]}: {found[2]!r}"


# ---- Mistakes

class Mistaken:
    """A program with a mistake in what it answers to one command."""

    def __init__(self, program, command, mistake):
        self.program = program
        setattr(self, command, functools.partial(mistake, getattr(program, command)))

    def __getattr__(self, name):
        return getattr(self.program, name)


def forgets(part):
    """A command that forgets these characters of what it writes."""
    return lambda ask, texts: [(status, out.replace(part.encode(), b""), err) for status, out, err in ask(texts)]


def goes_on(within):
    """A command that reads each text within these limits as if it went on with a token that no text goes on with."""
    def mistake(ask, texts, limits=None, **others):
        return ask([text + b" )" for text in texts] if limits == within else texts, limits, **others)
    return mistake


MISTAKES = [
    *(("print", forgets(part)) for part in ("!", "@", "$", "\\", "=")),
    *((command, goes_on(within)) for command in ("tree", "check") for within in (None, ALL, NARROW)),
    *(("minify", forgets(part)) for part in (" ", "@", "{")),
    *(("format", forgets(part)) for part in ("@", "#", "}")),
    ("check", lambda ask, texts, limits=None: [None] * len(texts)),
    ("tokens", lambda ask, texts: [lines[:-2] + lines[-1:] for lines in ask(texts)]),
    ("unformatted", lambda ask, texts: {0}),
]
# What a printer of values forgets.
FORGOTTEN = ["\\", '"', "$", "-", "[]", "{}", "😀"]


def is_found(program, seed, count):
    """Whether some of `count` texts don't hold, the first of them if possible."""
    steps = [step for step in (20, 60, 200) if step < count]
    return any(check_texts(program, Source(program.language, seed), step)[1] for step in [*steps, count])


def overlooked(programs, seed, count, values):
    """The mistakes that aren't found. A schema file has no `$`, so that forgetting it is none there."""
    missed = []
    for program in programs:
        program.asked = functools.lru_cache(maxsize=256)(program.asked)
        for number, (command, mistake) in enumerate(MISTAKES):
            is_none = program.language == "schema" and number == 2
            if not is_none and not is_found(Mistaken(program, command, mistake), seed, count):
                missed.append(f"{program.language}: {command}, mistake {number}")
    for part in FORGOTTEN:
        wrong = Mistaken(programs[0], "print", forgets(part))
        for place in (arguments, defaults) if part != "$" else (arguments,):
            if not wrong_request(wrong, in_groups(place, values[place])):
                missed.append(f"{place.__name__}: a printer that forgets {part}")
    return missed


# ---- The whole

def run(path, seed, count):
    """Tries all. Returns whether all is as it has to be."""
    programs, said, wrong = [Program(path, "query"), Program(path, "schema")], [], []
    for program, name in zip(programs, ("requests", "schema files")):
        tally, failure = check_texts(program, Source(program.language, seed), count)
        said.append("{}: {} accepted, {} broke a rule, {} rejected".format(name, *tally))
        wrong += [failure] if failure else []
        wrong += [] if are_known(program) else [f"{name}: those of seed {SEED} are of other kinds than are known"]
    source = Values(seed)
    every = [source.next() for _ in range(count)]
    values = {arguments: every, defaults: [it for it in every if it[2]]}
    said.append(f"values: {count}, {len(values[defaults])} without variables")
    wrong += filter(None, (check_values(programs[0], place, values[place]) for place in values))
    if not wrong:
        missed = overlooked(programs, seed, count, values)
        said.append(f"mistakes: {len(missed)} were not found")
        wrong += missed
    print("; ".join(said), *wrong, sep="\n")
    return not wrong


def main(words):
    if len(words) == 4 and words[0] == "texts" and words[3] in ("requests", "schemas"):
        source = Source({"requests": "query", "schemas": "schema"}[words[3]], int(words[1]))
        for _ in range(int(words[2])):
            sys.stdout.buffer.write(source.next()[0] + b"\0")
        return 0
    if len(words) not in (1, 3):
        sys.exit(__doc__)
    return 0 if run(words[0], *map(int, words[1:] or (SEED, COUNT))) else 1


if __name__ == "__main__":
    sys.exit(main(sys.argv[1:]))
