"""What the programs `gql` and `gqlparse` show of the texts of rows, for tests/tables.py: a function for each call that a table names."""
import contextlib, errno, functools, itertools, json, os, re, subprocess, tempfile
from pathlib import Path

import traced
from server import Server, meant, message
from traced import OPEN, PWRITE, READ, TRUNCATE, Faults

TABLES = Path(__file__).resolve().parent / "tables"
GRAPHQL = (".graphql", ".graphqls", ".gqls", ".gql", ".sdl")


class Programs:
    """The two programs, and what they answer to many texts at once."""

    def __init__(self, gql, gqlparse):
        self.gql, self.gqlparse = gql, gqlparse

    def check(self, texts, *options):
        """What `gql check` writes of these texts, which are in files with their numbers as names: standard output, standard error."""
        with tempfile.TemporaryDirectory() as folder:
            for number, text in enumerate(texts):
                Path(folder, str(number)).write_bytes(text.encode())
            names = [str(number) for number in range(len(texts))]
            words = [self.gql, "check", "--color", "never", *options, *names]
            ran = subprocess.run(words, cwd=folder, capture_output=True, stdin=subprocess.DEVNULL)
            return ran.stdout.decode(), ran.stderr.decode()

    def findings(self, texts, *options):
        """Of each text what is found, without the number of the file."""
        found = [[] for _ in texts]
        if not texts:
            return found
        for line in self.check(texts, "--format", "json", *options)[0].splitlines():
            finding = json.loads(line)
            found[int(finding.pop("file"))].append(finding)
        return found

    def reports(self, texts, *options):
        """Of each text its reports, with `f` as the name of its file."""
        found = [[] for _ in texts]
        if not texts:
            return found
        for report in re.split(r"(?m)^(?! )", self.check(texts, *options)[1]):
            if report:
                number, _, rest = report.partition(":")
                if re.match(r"[0-9:]* (it is first defined|another operation is|the schema begins) here\n", rest):
                    found[int(number)][-1] += f"f:{rest}"
                else:
                    found[int(number)].append(f"f:{rest}")
        return found

    def tree(self, text, *options):
        """The JSON of the tree of a text, if it is accepted, and by the check too."""
        with tempfile.TemporaryDirectory() as folder:
            Path(folder, "a").write_bytes(text.encode())
            words = [self.gql, "check", "--executable", options[0], "a"]
            is_good = subprocess.run(words, cwd=folder, capture_output=True).returncode == 0
            ran = subprocess.run([self.gql, "tree", *options, "a"], cwd=folder, capture_output=True)
            return ran.stdout.decode() if is_good and ran.returncode == 0 else None


def answers(programs, call, texts):
    """What is shown of each of these texts by the call of this name."""
    words = call.split(" ")
    for length in range(len(words), 0, -1):
        if " ".join(words[:length]) in CALLS:
            return CALLS[" ".join(words[:length])](programs, words[length:], texts)
    return ["no such call"] * len(texts)


def one_by_one(show):
    """A call that shows each text by itself."""
    @functools.wraps(show)
    def call(programs, asked, texts):
        return [show(programs, asked, text) for text in texts]
    return call


def reading(asked):
    """The options for a language and limits, as `query 64 64 64`."""
    language, *limits = asked
    return [f"--{language}", "--executable", *(["--limits", ",".join(limits)] if limits else [])]


# ---- Files and faults

# What fails of the file of each of these names, in a run over files.
FAULTS = {
    b"secret.graphql": {OPEN: errno.EACCES},
    b"disk.graphql": {READ: errno.EIO},
    b"huge.graphql": {READ: errno.ENOMEM},
    b"locked": {OPEN: errno.EACCES},
    b"\x1blocked": {OPEN: errno.EACCES},
    b"kept.graphql": {"write": errno.EACCES},
    b"gone.graphql": {"write": errno.ENOENT},
    b"fixed.graphql": {"write": errno.EROFS},
    b"odd.graphql": {"write": errno.EIO},
    b"spent.graphql": {"write": errno.ENOMEM},
    b"full.graphql": {PWRITE: errno.ENOSPC},
    b"half.graphql": {PWRITE: errno.ENOSPC, TRUNCATE: errno.EIO},
    b".alone.graphql.gql-format": {OPEN: errno.EACCES},
}
GIVEN = b"{a}"
# How many files are in the folder `many`.
MANY = 250


@contextlib.contextmanager
def files(is_many):
    """A folder with the files that are listed in `sources`, those that fail, and folders with links, pipes and odd names; one has many
    files, if they are asked for."""
    with tempfile.TemporaryDirectory() as made:
        top = Path(made, "top")
        for line in (TABLES / "sources").read_text().splitlines():
            name, _, text = line.partition(" ⇒ ")
            put(top / meant(name), meant(text).encode())
        for name in FAULTS:
            if name.endswith(b".graphql") and not name.startswith(b".") and not (top / os.fsdecode(name)).exists():
                put(top / os.fsdecode(name), GIVEN)
        put(top / "bytes.graphql", b"{\xff}")
        put(Path(made, "outside.sdl"), b"")
        for name in ("locked", "empty", "mixed/\x1blocked"):
            (top / name).mkdir(parents=True)
        for number in range(MANY if is_many else 0):
            put(top / "many" / f"{number}.graphql", GIVEN)
        for name in ("links", "linked", "mixed"):
            put(top / name / os.fsdecode(b"\xff.txt"), b"")
            os.mkfifo(top / name / "pipe.gql")
            (top / name / "nowhere.gqls").symlink_to("nowhere")
            (top / name / "outside.sdl").symlink_to("../../outside.sdl")
        put(top / "mixed" / os.fsdecode(b"\xff.graphql"), b"")
        yield top


def put(path, content):
    path.parent.mkdir(parents=True, exist_ok=True)
    path.write_bytes(content)


def run_over_files(programs, words, on_terminal=False, **faults):
    """Runs `gql` over the files: its status, what it writes to standard output and to standard error, and the files that are changed then,
    each with its text."""
    with files("many" in words) as top:
        before = {path: path.read_bytes() for path in top.rglob("*") if path.is_file()}
        watched = Faults(files=FAULTS, **faults)
        status, out, err = traced.run([programs.gql, *words], top, GIVEN, watched, on_terminal)
        changed = []
        for name in dict.fromkeys(watched.written):
            path = top / os.fsdecode(name)
            if path in before and path.read_bytes() != before[path]:
                changed.append((os.fsdecode(name), path.read_text()))
        return status, out.decode(), err.decode(), changed


def marked(mark, text):
    """A text with this mark before each line."""
    return "".join(f"{mark}{line}" for line in re.findall(r"[^\n]*\n|[^\n]+", text))


def in_order(text):
    """A text where the lines that tell of what is passed over in a folder, which come in any order, are in that of their names."""
    lines, told = text.split("\n"), []
    is_passed = re.compile(r'! gql: mixed/|! gql: link|> {"file":"mixed/.*"UNREADABLE"')
    for is_one, group in itertools.groupby(lines, lambda line: bool(is_passed.match(line))):
        told += sorted(group) if is_one else group
    return "\n".join(told)


@one_by_one
def run_of_gql(programs, _, run):
    head, _, rest = run.partition("\n")
    status, out, err, changed = run_over_files(programs, head[1:].split(), head.startswith("%"))
    shown = f"{head}\n{marked('> ', out)}{marked('! ', err)}"
    for name, text in changed:
        shown += f"+ {name}\n{marked('| ', text)}"
    shown += f"= {status}"
    return run if in_order(shown) == in_order(run.strip()) else shown


@one_by_one
def help_told(programs, _, words):
    """The status of a call for help that may write nothing to standard error, its line of usage, and the commands and options that are
    listed."""
    status, out, _, _ = run_over_files(programs, words.split(), writes={2: (0, errno.EIO)})
    usage = re.search(r"^Usage: (.*)$", out, re.M)
    listed = re.findall(r"^  (?:-\w, |    )?(--[\w-]+(?: <.*?>)?|[a-z]+) ", out, re.M)
    return f"{status} {usage[1] if usage else 'no usage'}: {' '.join(listed)}"


def cut_short(error):
    """The status of a call whose standard output fails so after a number of writes of three bytes, which stands before the words, and
    what is told on standard error."""
    @one_by_one
    def show(programs, _, row):
        calls, *words = row.split()
        faults = {"writes": {1: (int(calls), error)}, "at_once": (1 << 30, 3)}
        status, _, err, _ = run_over_files(programs, words, **faults)
        return f"{status} {err}"
    return show


@one_by_one
def unheard(programs, asked, words):
    """The status of a call that can't write to standard error; its words are no text if they are bytes."""
    words = [b"\xff"] if asked == ["bytes"] else words.split()
    return str(run_over_files(programs, words, writes={2: (0, errno.EIO)})[0])


def language(programs, _, rows):
    """What the text of a file is read as, which stands after the file's name and ` | `: the language in which the same is found."""
    with tempfile.TemporaryDirectory() as folder:
        names = []
        for number, row in enumerate(rows):
            name, _, text = row.partition(" | ")
            names.append(f"{number}/{name}")
            put(Path(folder, names[-1]), text.encode())
        found = []
        for option in ([], ["--query"], ["--schema"]):
            words = [programs.gql, "check", "--executable", "--format", "json", *option, *names]
            lines = subprocess.run(words, cwd=folder, capture_output=True).stdout.decode().splitlines()
            found.append([[line for line in lines if f'"file":"{name}"' in line] for name in names])
    return ["request" if own == request != schema else "schema" if own == schema != request else "either"
            for own, request, schema in zip(*found)]


@one_by_one
def ignored(programs, _, row):
    """Whether the patterns of a `.gitignore` exclude the path that stands before them, with ` | ` between them: that of a file if it is
    named as a GraphQL file, and else that of a folder. Nobody may read it, which is told of what isn't excluded."""
    path, _, patterns = row.partition(" | ")
    with tempfile.TemporaryDirectory() as made:
        put(Path(made, "top/.gitignore"), patterns.encode())
        target = f"top/{path}".rstrip("/")
        if path.endswith(GRAPHQL):
            put(Path(made, target), b"{a}")
        else:
            Path(made, target).mkdir(parents=True)
        faults = Faults(files={target.encode(): {OPEN: errno.EACCES}})
        _, _, err = traced.run([programs.gql, "check", "top"], made, b"", faults)
    told = err.decode()
    return "taken" if "permission denied" in told else "ignored" if "has no file named" in told else told


# ---- Runs of gqlparse

READ_AT_ONCE, WRITTEN_AT_ONCE = 2, 3
UNREADABLE = (2, "", "error: cannot read standard input\n")
NEVER = 1 << 30


def calls_for(text):
    """How many writes a text takes."""
    return -(-len(text.encode()) // WRITTEN_AT_ONCE)


class Parsed:
    """A run of `gqlparse` that is made again and again, and how often."""

    def __init__(self, program, words, given):
        self.words, self.given, self.runs, self.failed = [program, *words], given, 0, 0

    def run(self, reads=NEVER, writes=NEVER, complaints=NEVER):
        self.runs += 1
        faults = Faults(reads={0: (reads, errno.EIO)}, writes={1: (writes, errno.EIO), 2: (complaints, errno.EIO)},
                        at_once=(READ_AT_ONCE, WRITTEN_AT_ONCE))
        status, out, err = traced.run(self.words, "/", self.given, faults)
        return status, out.decode(), err.decode()

    def complaints_fail(self, reads, writes, ended):
        """First no write of the complaint succeeds, and at last all do."""
        status, out, err = ended
        for complaints in range(calls_for(err) + 1):
            wanted = (status, out, err.encode()[:complaints * WRITTEN_AT_ONCE].decode())
            self.failed += self.run(reads, writes, complaints) != wanted

    def each_fails(self, ended):
        """Each read fails in turn, and each write, and then none does. A refused text asks nothing of standard output."""
        status, out, _ = ended
        reads = -(-len(self.given) // READ_AT_ONCE) + 1 if self.given else 0
        for read in range(reads):
            self.complaints_fail(read, NEVER, UNREADABLE)
        writes = calls_for(out) if status == 0 else 0
        for write in range(writes):
            front = out.encode()[:write * WRITTEN_AT_ONCE].decode()
            self.complaints_fail(NEVER, write, (2, front, "error: cannot write standard output\n"))
        self.complaints_fail(reads or NEVER, writes or NEVER, ended)


def asked_of_gqlparse(row):
    """The arguments of a run, and its input."""
    head, line = row.split("\n")[:2]
    given = bytes.fromhex(line[2:]) if line.startswith("x ") else meant(line[2:]).encode() if line.startswith("< ") else b""
    return [meant(word) for word in head.split()[1:]], given


@one_by_one
def run_of_gqlparse(programs, _, row):
    """The row that is made by the runs whose arguments and input are those of this one. Where `*` stands before the arguments, each read
    and each write fails in turn, too, and the last line has the number of all these runs."""
    head, line = row.split("\n")[:2]
    words, given = asked_of_gqlparse(row)
    parsed = Parsed(programs.gqlparse, words, given)
    ended = parsed.run()
    status, out, err = ended
    shown = f"{head}\n" + (f"{line}\n" if line[:1] in ("<", "x") else "")
    shown += f"{marked('> ', out)}{marked('! ', err)}= {status}"
    if head.startswith("*"):
        parsed.each_fails(ended)
        shown += f"\n{parsed.runs} runs" + (f", of which {parsed.failed} end otherwise" if parsed.failed else "")
    return shown


# ---- Made texts

class Random:
    """Numbers that look random, made by a seed: those of crates/conformance_tools/src/random.rt."""

    def __init__(self, state):
        self.state = state

    def below(self, end):
        self.state = (self.state + 0x9E3779B97F4A7C15) % 2**64
        mixed = self.state
        mixed = (mixed ^ (mixed >> 30)) * 0xBF58476D1CE4E5B9 % 2**64
        mixed = (mixed ^ (mixed >> 27)) * 0x94D049BB133111EB % 2**64
        return ((mixed ^ (mixed >> 31)) >> 8) % end


PIECES = {
    "schema": [
        "type A {\n", "type B implements C & D {\n", "  a: Int\n", '  "d" b(c: Int = 1): [D!]\n', "  e: [[F]]\n", "}\n", "}",
        "enum G { H I }\n", "input J { k: L = {m: 1} }\n", '"""\n', '"""told"""\n', '""""', '""', '"a\\q"', '"a', "extend type N\n",
        'scalar O @p(q: """r\ns""")\n', "union T = U | V\n", "directive @w(x: Y) on FIELD | OBJECT\n", "schema { query: Q }\n",
        "schema { query: Q query: R }\n", "interface Z\n", "  f g\n", ") ", "\r", "\r\n", "# c\n", "é\n", "<<<<<<< HEAD\n", "\n",
    ],
    "query": [
        "query A($b: Int = 1) {\n", "query C @d {\n", "mutation {\n", "{\n", "  e(f: [1, {g: $h}]) { i j: k }\n", "  ...L\n",
        "  ... on M { n }\n", "  o(p: [[[[1]]]]) { q { r { s } } }\n", "}\n", "}", "fragment T on U { v }\n", "fragment T on W { x }\n",
        "{ y(z:) }\n", '"""\n', '"""told"""\n', '"a\\u12"', '  a(b: "c" d: """e\nf""")\n', "$ ", "1.\n", "\r", "# c\n", "é\n",
        "query type\n", "\n",
    ],
}


def made_texts(row):
    """So many texts of pieces of each language in turn, by a seed, which stands before the number: each with its language and its turn."""
    seed, count = map(int, row.split())
    random = Random(seed)
    for turn in range(count):
        for language in ("query", "schema"):
            pieces = PIECES[language]
            yield turn, language, "".join(pieces[random.below(len(pieces))] for _ in range(random.below(40)))


# ---- Spellings

# What stands between two tokens.
IGNORED = r"(?:[ \t\n\r,\ufeff]|#[^\n\r]*)*"

def in_one_line(text):
    return text.replace("\n", "\\n").replace("\r", "\\r")


def spelled_otherwise(programs, text):
    """The first token of a text whose spelling in a list isn't the text there in one line, if there is one; and how many of them have a
    line end."""
    at, broken = 0, 0
    for line in subprocess.run([programs.gql, "tokens", "-"], input=text.encode(), capture_output=True).stdout.decode().split("\n"):
        told = re.match(r"\d+:\d+ (?:punctuator|name|number|string|block string) (.*)", line)
        if told is None:
            break
        at += len(re.match(IGNORED, text[at:])[0])
        size = 0
        while len(in_one_line(text[at:at + size])) < len(told[1]) and at + size < len(text):
            size += 1
        if in_one_line(text[at:at + size]) != told[1]:
            return f"otherwise: {text}", broken
        broken += bool(re.search("[\n\r]", text[at:at + size]))
        at += size
    return "", broken


@one_by_one
def spelling(programs, _, text):
    """Whether a block string of a text is written in one line, or the text itself if it is one."""
    return spelled_otherwise(programs, text if text.startswith('"""') else f'"""{text}"""')[0] or "alike"


@one_by_one
def made_spellings(programs, _, row):
    """Whether the tokens of made texts are, and a block string that begins as each text."""
    told, broken = "", 0
    for _, _, text in made_texts(row):
        for each in (text, f'"""{text}"""'):
            found, count = spelled_otherwise(programs, each)
            told, broken = told + found, broken + count
    return f"{told}alike, {'some' if broken > 50 else 'few'} of more than one line"


# ---- Texts with many mistakes

MOST_FINDINGS = 100
# So many rests of a text are read in turn, each with all that is found in it.
DEPTH = 4


def rests(text, first, last):
    """Copies of the rests of a text from each line between these on with which a definition may begin, with as many lines before them."""
    starts = [(text.count("\n", 0, match.end()), match.end()) for match in re.finditer("\r\n|\r|\n", text)]
    lines = [(feeds, start) for feeds, start in starts if first <= feeds + 1 <= last]
    return ["\n" * feeds + text[start:] for feeds, start in lines if re.match('[a-z{"]', text[start:])]


class Alike:
    """Texts of which all is told that is told when each rest of them is read by itself: what is found in a text after the first thing is
    all that is found in a copy of the rest from a later line on, and the same reports are made of it."""

    def __init__(self, programs, options):
        self.programs, self.options = programs, options

    def judged(self, texts):
        """Of each text how many things are found; None if they aren't alike."""
        found, reports = self.programs.findings(texts, *self.options), self.programs.reports(texts, *self.options)
        counts = [len(one) if len(one) == len(other) else None for one, other in zip(found, reports)]
        left = list(zip(range(len(texts)), texts, found, reports))
        for _ in range(DEPTH):
            left = self.next_rests([it for it in left if len(it[2]) > 1 and counts[it[0]] is not None], counts)
        return counts

    def next_rests(self, left, counts):
        """The rest of each of these texts in which the same is found; where there is none, the text isn't alike."""
        copies = [(number, rest) for number, text, found, _ in left for rest in rests(text, found[0]["line"], found[1]["line"])]
        same = {}
        wanted = {number: found for number, _, found, _ in left}
        for (number, rest), found in zip(copies, self.programs.findings([rest for _, rest in copies], *self.options)):
            if is_rest(found, wanted[number]):
                same.setdefault(number, rest)
        told = dict(zip(same, self.programs.reports(list(same.values()), *self.options)))
        for number, _, _, reports in left:
            if number not in same or not is_rest(told[number], reports):
                counts[number] = None
        return [(number, same[number], found[1:], reports[1:]) for number, _, found, reports in left if number in same]


def is_rest(rest, whole):
    """Whether these are all after the first of others, of which there may be no more than so many."""
    return rest[:len(whole) - 1] == whole[1:] and (len(rest) == len(whole) - 1 or len(whole) == MOST_FINDINGS or len(rest) >= MOST_FINDINGS)


def findings_told(programs, asked, texts):
    counts = Alike(programs, reading(asked)[:1] + reading(asked)[2:]).judged(texts)
    return ["otherwise" if count is None else "alike, some" if count else "good" for count in counts]


@one_by_one
def many_findings(programs, _, count):
    """A request with a mistake in so many definitions, and one that nests too deep last: how many things are found."""
    text = "query A {\n  b(c:)\n}\n" * int(count) + "query D " + "{e" * 70 + "\nquery F {}\n"
    found = Alike(programs, ["--query"]).judged([text])[0]
    return "otherwise" if found is None else f"alike, {found}"


@one_by_one
def made_findings(programs, _, row):
    """Whether made texts are told alike, every third within narrow limits, and as a server tells them. Those that aren't stand before
    that."""
    texts, told, found = list(made_texts(row)), "", []
    for (language, is_narrow), group in itertools.groupby(sorted(texts, key=kind_of), key=kind_of):
        group = [text for _, _, text in group]
        options = [f"--{language}", *(["--limits", "1,2,1"] if is_narrow else [])]
        counts = Alike(programs, options).judged(group)
        told += "".join(f"otherwise: {text}" for text, count in zip(group, counts) if count is None)
        found += [count for count in counts if count]
    told += served_otherwise(programs, [text for _, _, text in texts if not re.search(f"\r(?!\n)|^{IGNORED}$", text)])
    is_many = len(found) > len(texts) / 2 and sum(found) > 2 * len(found)
    return f"{told}alike, {'many' if is_many else 'few'} in rests"


def kind_of(made):
    turn, language, _ = made
    return language, turn % 3 == 0


def served_otherwise(programs, texts):
    """The first of these texts of which a server doesn't tell what `gql check` does, if there is one."""
    server = Server(programs.gql)
    server.begin(general={"positionEncodings": ["utf-32"]})
    for text, findings in zip(texts, programs.findings(texts)):
        server.open(text, uri="file:///a")
        told = [(it["range"]["start"], it["code"], it["message"]) for it in server.told()]
        wanted = [({"line": it["line"] - 1, "character": it["column"] - 1}, it["status"], it["message"]) for it in findings if "line" in it]
        if told[:len(wanted)] != wanted or len(told) != len(findings):
            return f"served otherwise: {text}: {told}"
        server.send(message(method="textDocument/didClose", params={"textDocument": {"uri": "file:///a"}}))
        server.told()
    server.send(message(id=9, method="shutdown"))
    server.send(message(method="exit"))
    server.end()
    return ""


# What stands before the third line, from which a rest is read.
FRONT = "# é\n) type\n"


def rest_told(programs, asked, rests):
    """Where something is found in a text that is read from a later line on, where the token ends, and the status. Of a copy of the rest
    the same is told, and the same report is made; or else what is found before tells that a block string begins there."""
    options = reading(asked)[:1] + reading(asked)[2:]
    whole, copied = [FRONT + rest for rest in rests], ["\n\n" + rest for rest in rests]
    found = zip(programs.findings(whole, *options), programs.reports(whole, *options), programs.findings(copied, *options),
                programs.reports(copied, *options))
    shown = []
    for of_text, reports, of_copy, reports_of_copy in found:
        it = of_copy[0] if of_copy else {"line": 0, "column": 0}
        is_open = f"(the block string that begins at {it['line']}:{it['column']} is probably not closed)" in of_text[0]["message"]
        if not of_copy or not is_open and (of_text[1:] != of_copy or reports[1:] != reports_of_copy):
            shown.append(f"{of_text[1:]} of the text, of the copy {of_copy}")
            continue
        end = f"{it['endLine']}:{it['endColumn']}" if "endLine" in it else "-"
        shown.append(f"{it['line']}:{it['column']} {end} {it['status']}")
    return shown


# ---- Positions

def position_after(text, units):
    """The line and the column after a text, in units of an encoding."""
    lines = re.split("\r\n|\r|\n", text)
    return {"line": len(lines) - 1, "character": sum(map(units, lines[-1]))}


ENCODINGS = {
    "utf-8": lambda c: len(c.encode()),
    "utf-16": lambda c: len(c.encode("utf-16-le")) // 2,
    "utf-32": lambda c: 1,
}


@one_by_one
def places(programs, _, text):
    """How many characters begin or end in a text, if a server finds the position after each front of it that its lines give, in each
    encoding: the front is a description, and the position that of the name behind it. Those that differ stand before that."""
    told = ""
    for encoding, units in ENCODINGS.items():
        server = Server(programs.gql)
        symbols = {"documentSymbol": {"hierarchicalDocumentSymbolSupport": True}}
        server.begin(general={"positionEncodings": [encoding]}, textDocument=symbols)
        for size in range(len(text) + 1):
            front = f'"""{text[:size]}""" scalar '
            server.open(f"{front}A", uri="file:///a.graphqls", version=size)
            server.told()
            asked = {"textDocument": {"uri": "file:///a.graphqls"}}
            server.send(message(id=size + 1, method="textDocument/documentSymbol", params=asked))
            found = server.next()["result"]
            start = found[0]["selectionRange"]["start"] if found else None
            if start != position_after(front, units):
                told += f"{encoding}: another position at {size}, {start}, "
            server.send(message(method="textDocument/didClose", params=asked))
            server.told()
        server.send(message(id="end", method="shutdown"))
        server.send(message(method="exit"))
        server.end()
    return f"{told}{len(text) + 1} positions"


# ---- Reports and trees

def dotted(report):
    """A report in the form of the tables: in one line, with `·` for each blank of a line that begins with one."""
    lines = report.rstrip("\n").split("\n")
    return " ".join(line.replace(" ", "·") if line.startswith(" ") else line for line in lines)


def report_told(programs, asked, texts):
    """The first report of each text, which is told by the first finding too; or that there is none."""
    options = reading(asked)
    shown = []
    for found, reports in zip(programs.findings(texts, *options), programs.reports(texts, *options)):
        place = f"{found[0]['line']}:{found[0]['column']}: " if found and "line" in found[0] else ""
        first = f"f:{'' if place else ' '}{place}{found[0]['message']}" if found else ""
        if reports and reports[0].split("\n")[0] != first:
            shown.append(first)
        else:
            shown.append(dotted(reports[0]) if reports else "accepted")
    return shown


# What stands before and after a part of a request, in the text and in the JSON of its definitions.
OPERATION = '{"kind":"OperationDefinition","operation":"query","variableDefinitions":['
FIELD = '],"directives":[],"selectionSet":{"kind":"SelectionSet","selections":[{"kind":"Field","name":{"kind":"Name","value":"f"},"arguments":['
FIELD_ALONE = FIELD + '],"directives":[]}]}}'
VARIABLE = OPERATION + """{"kind":"VariableDefinition","variable":{"kind":"Variable","name":{"kind":"Name","value":"v"}},"type":"""
NAMED = '{"kind":"NamedType","name":{"kind":"Name","value":"T"}},"defaultValue":'
PARTS = {
    "selections": ("{", "}", OPERATION + '],"directives":[],"selectionSet":{"kind":"SelectionSet","selections":[', "]}}"),
    "variables": ("query(", "){f}", OPERATION, FIELD_ALONE),
    "value": ("{f(x:", ")}", OPERATION + FIELD + '{"kind":"Argument","name":{"kind":"Name","value":"x"},"value":', '}],"directives":[]}]}}'),
    "default": ("query($v:T=", "){f}", VARIABLE + NAMED, ',"directives":[]}' + FIELD_ALONE),
    "type": ("query($v:", "){f}", VARIABLE, ',"directives":[]}' + FIELD_ALONE),
}


def between(text, before, after):
    return text[len(before):len(text) - len(after)] if text.startswith(before) and text.endswith(after) else text


def spaced(json_text):
    """JSON with a blank after each comma and each colon that stands in no string, and `@1:2` for a line and a column."""
    text = re.sub(r'"(?:\\.|[^"\\])*"|[,:]', lambda part: f"{part[0]} " if part[0] in ",:" else part[0], json_text)
    return re.sub(r'"line": (\d+), "column": (\d+)', r"@\1:\2", text)


@one_by_one
def json_told(programs, asked, text):
    """The JSON of the definitions of a text, `with places` or without; of a part of a request without what stands around it."""
    what, *more = asked
    before, after, json_before, json_after = PARTS.get(what, ("", "", "", ""))
    language = "--schema" if what == "schema" else "--query"
    options = [language, *(["--places"] if more == ["with", "places"] else [])]
    told = programs.tree(f"{before}{text}{after}", *options)
    if told is None:
        return "refused"
    definitions = between(told.strip(), '{"kind":"Document","definitions":[', "]}")
    return spaced(between(definitions, json_before, json_after))


def text_at(tree, path):
    for name in path.split("/")[1:]:
        tree = tree[int(name) if isinstance(tree, list) else name]
    return tree


def without_repeats(members):
    if len(dict(members)) != len(members):
        raise ValueError("a member came twice")
    return dict(members)


@one_by_one
def json_at_paths(programs, asked, row):
    """The texts at the paths that stand before a text, in the JSON of its tree with places, and the same in that without."""
    paths, _, text = row.partition(" in ")
    found = []
    for options in ([], ["--places"]):
        tree = json.loads(programs.tree(text, f"--{asked[0]}", *options), object_pairs_hook=without_repeats)
        found.append("".join(f"{text_at(tree, path)}; " for path in paths.split()))
    return found[0] if found[0] == found[1] else " and with places ".join(found)


# ---- Sizes

# The errors of `gqlparse` as the tables of parsers have them; `{}` stands for each place.
ERRORS = {
    r"syntax error at (.*)": r"syntax \1",
    r"multiple (\w+) roots in schema definition": r"multiple roots \1 schema {1} pos {0}",
    r"schema definition is missing query root": r"missing query root pos {0}",
    r"document contains multiple operations": r"multiple operations anonymous {0} operation {1}",
    r"(operation|fragment) (\w+) is defined twice": r"\1 \2 duplicated first {1} second {0}",
    r"document does not contain an operation": r"missing operation",
    r"recursion limit exceeded\.": r"recursion limit exceeded",
}


def error_told(programs, language, text):
    """The error of a text that is refused."""
    ran = subprocess.run([programs.gqlparse, language], input=text.encode(), capture_output=True)
    error, _, places = ran.stderr.decode().removeprefix("error: ").partition("\nat ")
    places = [f"{place['line']}:{place['column']}" for place in json.loads(places or "[]")]
    for pattern, told in ERRORS.items():
        if re.fullmatch(pattern, error):
            return re.sub(pattern, told, error).format(*places)
    return error


def counted(before, items):
    return f"{before}{len(items)}" if len(items) > 1 else ""


def length(text):
    return len(text.encode())


def value_size(value):
    kind = value["kind"]
    if kind == "StringValue":
        return f", string of {length(value['value'])}"
    if kind in ("IntValue", "FloatValue"):
        is_small = kind == "IntValue" and len(value["value"]) < 30
        number = int(value["value"]) if is_small else 2**64
        told = f" with the value {number}" if -(2**63) <= number < 2**63 else " with an unsigned value" if number < 2**64 else ""
        return f", number of {len(value['value'])}{told}"
    if kind == "ListValue":
        return f", list of {len(value['values'])}"
    return f", object of {len(value['fields'])}" if kind == "ObjectValue" else ", another value"


def request_sizes(definitions):
    operations = [it for it in definitions if it["kind"] == "OperationDefinition"]
    first = operations[0]
    selections = first["selectionSet"]["selections"]
    selection, told = selections[0], "no field"
    if selection["kind"] == "Field":
        arguments = selection["arguments"]
        told = f"name of {length(selection['name']['value'])}{value_size(arguments[0]['value']) if arguments else ''}"
        told += counted(", arguments ", arguments)
    told += counted(", directives of it ", selection["directives"]) + counted(", selections ", selections)
    told += counted(", variables ", first["variableDefinitions"]) + counted(", directives ", first["directives"])
    return told + counted(", operations ", operations) + counted(", fragments ", definitions[len(operations):])


def default_size(values):
    default = values[0].get("defaultValue") if values else None
    return value_size(default) if default and default["kind"] in ("ListValue", "ObjectValue") else ""


def schema_sizes(definitions):
    first = definitions[0]
    told = f"description of {length(first['description']['value'])}, " if "description" in first else ""
    name = first.get("name") or next(it["type"]["name"] for it in first["operationTypes"] if it["operation"] == "query")
    told += f"name of {length(name['value'])}" + counted(", directives ", first.get("directives", []))
    told += counted(", interfaces ", first.get("interfaces", [])) + counted(", fields ", first.get("fields", []))
    told += counted(", members ", first.get("types", [])) + counted(", values ", first.get("values", []))
    told += counted(", arguments ", first.get("arguments", []))
    told += default_size([it for it in first.get("fields", []) if it["kind"] == "InputValueDefinition"] or first.get("arguments", []))
    for part in [*first.get("fields", []), *first.get("values", [])][:1]:
        told += counted(", arguments of the first ", part.get("arguments", [])) + default_size(part.get("arguments", []))
        if part["kind"] != "InputValueDefinition":
            told += counted(", directives of the first ", part["directives"])
    return told + counted(", locations ", first.get("locations", [])) + counted(", definitions ", definitions)


@one_by_one
def sizes(programs, asked, text):
    """Of a tree with huge parts how long its first name, description and argument are, the value of a whole number there, and how long
    each list of its first definition is that has more than one node. Of a text without a tree its error."""
    tree = programs.tree(text, f"--{asked[0]}")
    if tree is None:
        return error_told(programs, asked[0], text)
    definitions = json.loads(tree)["definitions"]
    return (request_sizes if asked[0] == "query" else schema_sizes)(definitions)


CALLS = {
    "gql language": language,
    "gql help": help_told,
    "gql cut short": cut_short(errno.EIO),
    "gql closed": cut_short(errno.EPIPE),
    "gql unheard": unheard,
    "gql ignored": ignored,
    "gql spelling": spelling,
    "gql made spellings": made_spellings,
    "gql findings": findings_told,
    "gql many findings": many_findings,
    "gql made findings": made_findings,
    "gql rest": rest_told,
    "gql places": places,
    "run of gql": run_of_gql,
    "run of gqlparse": run_of_gqlparse,
    "report": report_told,
    "query sizes": lambda programs, _, rows: sizes(programs, ["query"], rows),
    "schema sizes": lambda programs, _, rows: sizes(programs, ["schema"], rows),
    "json query at paths": lambda programs, _, rows: json_at_paths(programs, ["query"], rows),
    "json schema at paths": lambda programs, _, rows: json_at_paths(programs, ["schema"], rows),
    "json": json_told,
}
