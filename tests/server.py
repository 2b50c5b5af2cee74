#!/usr/bin/env python3
"""Tries a built language server over pipes: tests/server.py GQL [PART..]

tests/server.py quick [NAME..] tries the dialogues of these names, or all, at once and without a proof or a built program, by `rt try`.

tests/server.py refused N.. tries all of them with the Nth allocation failing, for each of these N: minutes for each.

GQL is the program, as crates/gql/out/gql. Without a PART all are tried:
  dialogues  each file of tests/dialogues: message by message, byte by byte, at once, and if its name begins with cut_ in two pieces, cut
             at each byte after the first message. ONLY=NAME,NAME in the environment tries these alone
  pieces     the same in random pieces (SEED=N in the environment for others)
  garbage    random bytes, dialogues with random damage, and contents that are no UTF-8: the server goes on, and ends by itself
  limits     messages of 64 MiB, and one byte more
  alone      texts after random changes: what is reported of them is what a new server reports of the whole text
  changes    100,000 changes of a text of 100 KB (CHANGES=N for others), and what memory the server takes meanwhile
  closed     200 texts of 1 MB opened and closed: nothing is kept of them
  times      from a key stroke to its diagnostics, for texts of 100 KB and 2 MB with one mistake
  costs      what an outline and many changes cost in key strokes, and that an answer doesn't wait for later ones
The status is 0 if all is as it has to be. Times are printed, and judged by the reader."""
import fcntl, json, os, queue, random, re, statistics, struct, subprocess, sys, tempfile, termios, threading, time
from pathlib import Path

DIALOGUES = Path(__file__).resolve().parent / "dialogues"
ONLY = [name for name in os.environ.get("ONLY", "").split(",") if name]
SEED = int(os.environ.get("SEED", "1"))
CHANGES = int(os.environ.get("CHANGES", "100000"))
PATIENCE = 60
URI = "file:///a.graphql"


# ---- The server

def frame(content):
    content = content if isinstance(content, bytes) else content.encode()
    return b"Content-Length: %d\r\n\r\n%s" % (len(content), content)


def message(**members):
    return frame(json.dumps({"jsonrpc": "2.0", **members}, ensure_ascii=False))


class Server:
    """A server that runs, and the messages that it writes."""

    def __init__(self, program):
        self.process = subprocess.Popen([program, "lsp"], stdin=subprocess.PIPE, stdout=subprocess.PIPE, stderr=subprocess.PIPE)
        self.read = queue.Queue()
        self.reader = threading.Thread(target=self.read_all, daemon=True)
        self.reader.start()

    def read_all(self):
        out = self.process.stdout
        while True:
            header = out.readline()
            if header == b"":
                return self.read.put(None)
            length = re.fullmatch(rb"Content-Length: (\d+)\r\n", header)
            if not length or out.readline() != b"\r\n":
                return self.read.put(f"no header part: {header!r}")
            content = out.read(int(length[1]))
            try:
                self.read.put(json.loads(content.decode()))
            except ValueError as error:
                self.read.put(f"no JSON: {error}: {content[:200]!r}")

    def send(self, data):
        try:
            self.process.stdin.write(data)
            self.process.stdin.flush()
        except BrokenPipeError:
            pass

    def send_alone(self, data):
        """Sends this, and goes on when the server has read it."""
        self.send(data)
        pipe, left = self.process.stdin.fileno(), struct.pack("i", 1)
        while left != struct.pack("i", 0) and self.process.poll() is None:
            left = fcntl.ioctl(pipe, termios.FIONREAD, struct.pack("i", 0))

    def next(self):
        """The next message; None if the output has ended."""
        try:
            found = self.read.get(timeout=PATIENCE)
        except queue.Empty:
            sys.exit("the server writes nothing")
        if isinstance(found, str):
            sys.exit(found)
        return found

    def told(self):
        """The diagnostics that are published next."""
        while True:
            found = self.next()
            if found is None:
                sys.exit("the server has ended")
            if found.get("method") == "textDocument/publishDiagnostics":
                return found["params"]["diagnostics"]

    def end(self):
        """Ends the input: the messages that are left, and the status."""
        try:
            self.process.stdin.close()
        except BrokenPipeError:
            pass
        rest = []
        while (found := self.next()) is not None:
            rest.append(found)
        status = self.process.wait(PATIENCE)
        complaint = self.process.stderr.read()
        if complaint:
            sys.exit(f"the server writes to standard error: {complaint[:500]!r}")
        return rest, status

    def begin(self, **capabilities):
        self.send(message(id=0, method="initialize", params={"processId": None, "rootUri": None, "capabilities": capabilities}))
        if self.next()["id"] != 0:
            sys.exit("initialize is not answered")
        self.send(message(method="initialized", params={}))

    def open(self, text, uri=URI, version=1):
        item = {"uri": uri, "languageId": "graphql", "version": version, "text": text}
        self.send(message(method="textDocument/didOpen", params={"textDocument": item}))

    def change(self, version, *changes):
        self.send(change(version, *changes))

    def spent(self):
        """Seconds of the processor that the server has taken."""
        return int(Path(f"/proc/{self.process.pid}/schedstat").read_text().split()[0]) / 1e9

    def memory(self, what="VmRSS"):
        """Bytes of memory that the server has now (VmRSS), or had at most (VmHWM)."""
        status = Path(f"/proc/{self.process.pid}/status").read_text()
        return int(re.search(rf"{what}:\s*(\d+) kB", status)[1]) * 1024


def change(version, *changes):
    return message(method="textDocument/didChange",
                   params={"textDocument": {"uri": URI, "version": version}, "contentChanges": list(changes)})


def ranged(start, end, text):
    """A change between two positions, each a line and a column."""
    start, end = ({"line": line, "character": column} for line, column in (start, end))
    return {"range": {"start": start, "end": end}, "text": text}


# ---- Dialogues
#
# A line has what its first sign says, and goes on in each line that begins with two blanks:
#
#   >   a message of the editor, with a right header before it
#   >=  the content of a message, to which nothing is added but the header
#   >>  bytes as they are, without a header
#   <   a message that the server has to write then, after those above it
#   <?  the same, but it isn't written if the next message has arrived
#   $   the input ends
#   =   the status with which the server ends; without such a line it goes on, and ends with 1 at the end of the input
#   --  a remark
#   +   the name of a file of tests/dialogues/parts whose lines stand here
#
# Messages after > and < have the member "jsonrpc": "2.0" too, which isn't written. In JSON, but in no string, @0:12 is the position of
# line 0 and character 12, and @0:12-1:0 a range. In what the server writes a string that ends in … is any that begins so: the protocol
# leaves the words of most messages to the server. All else has to be the same value: the order of members doesn't count, and each counts.
# %FILES% is the URI of tests/dialogues/files, and %PATH% its path.
# Signs for characters that are not seen, and for many of them, are those of the crate rows.

def meant(text):
    """The text that the notation of the rows stands for."""
    def inside(match):
        count, times, part = match[1].partition("×")
        if not times:
            return chr(int(match[1], 16))
        part = meant(part)
        return "".join(part.replace("№", str(index)) for index in range(int(count))) if "№" in part else part * int(count)
    text = re.sub("⟨([^⟩]*)⟩", inside, text)
    return text.translate(str.maketrans("␊␍␉␠", "\n\r\t "))


def with_places(text):
    """The JSON that a text with `@0:12` and `@0:12-1:0` stands for."""
    def position(place):
        line, column = place.split(":")
        return f'{{"line": {line}, "character": {column}}}'

    def place(match):
        if match[1] is None:
            return match[0]
        start, to, end = match[1].partition("-")
        return f'{{"start": {position(start)}, "end": {position(end)}}}' if to else position(start)
    return re.sub(r'"(?:\\.|[^"\\])*"|@([0-9:-]+)', place, text)


def dialogue(file):
    """The turns of a dialogue: the bytes that are sent, whether the input ends, and the messages that are to come, each with whether it
    comes also if the next message has arrived; and the status."""
    text = re.sub(r"(?m)^\+ (.*)\n", lambda part: (DIALOGUES / "parts" / part[1]).read_text(), file.read_text())
    files = (DIALOGUES / "files").as_uri()
    text = text.replace("%FILES%", files).replace("%PATH%", files.removeprefix("file://"))
    turns, status = [], None
    for line in text.replace("\n  ", " ").split("\n"):
        sign, _, rest = line.partition(" ")
        rest = meant(rest)
        if sign == ">":
            turns.append((frame(with_places('{"jsonrpc": "2.0", ' + rest[1:])), False, []))
        elif sign == ">=":
            turns.append((frame(with_places(rest)), False, []))
        elif sign == ">>":
            turns.append((rest.encode(), False, []))
        elif sign == "$":
            turns.append((b"", True, []))
        elif sign in ("<", "<?"):
            turns[-1][2].append((json.loads(with_places('{"jsonrpc": "2.0", ' + rest[1:])), sign == "<"))
        elif sign == "=":
            status = int(rest)
        elif sign not in ("", "--"):
            sys.exit(f"{file.name}: no such line: {line}")
    return turns, status


def is_like(found, wanted):
    """Whether a value is this one, where a string that ends in `…` is any that begins so."""
    if isinstance(wanted, dict):
        return isinstance(found, dict) and found.keys() == wanted.keys() and all(is_like(found[key], wanted[key]) for key in wanted)
    if isinstance(wanted, list):
        return isinstance(found, list) and len(found) == len(wanted) and all(map(is_like, found, wanted))
    if isinstance(wanted, str) and wanted.endswith("…"):
        return isinstance(found, str) and found.startswith(wanted[:-1])
    return type(found) is type(wanted) and found == wanted


def dialogues():
    files = sorted(file for file in DIALOGUES.iterdir() if file.is_file() and (not ONLY or file.name in ONLY))
    return [(file.name, *dialogue(file)) for file in files]


def judge(name, number, found, wanted):
    if not is_like(found, wanted):
        sys.exit(f"{name}, turn {number}:\n  wanted: {json.dumps(wanted, ensure_ascii=False)}\n  found: {json.dumps(found, ensure_ascii=False)}")


def play(program, name, turns, status):
    """Plays a dialogue message by message. Returns how many messages came out."""
    count = 0
    server = Server(program)
    for number, (sent, is_last, wanted) in enumerate(turns):
        server.send(sent)
        if is_last:
            server.process.stdin.close()
        for each, _ in wanted:
            judge(name, number, server.next(), each)
            count += 1
    judge(name, "the end", list(server.end()), [[], status])
    return count


def played(program, pieces):
    """What a server writes, and its status, if each of these pieces arrives by itself."""
    server = Server(program)
    for piece in pieces:
        server.send_alone(piece)
    return list(server.end())


def try_dialogues(program):
    """A server that goes on ends with 1 at the end of the input."""
    count = 0
    for name, turns, ended in dialogues():
        status = 1 if ended is None else ended
        count += play(program, name, turns, status)
        data = b"".join(sent for sent, _, _ in turns)
        messages = [each for _, _, wanted in turns for each in wanted]
        all_of_them, sure = [each for each, _ in messages], [each for each, is_sure in messages if is_sure]
        judge(name, "byte by byte", played(program, [data[at:at + 1] for at in range(len(data))]), [all_of_them, status])
        judge(name, "at once", played(program, [data]), [sure, status])
        if name.startswith("cut_"):
            for at in range(len(turns[0][0]), len(data)):
                rest, found = played(program, [data[:at], data[at:]])
                judge(name, f"cut at byte {at}", [chosen(rest, messages), found], [sure, status])
    print(f"dialogues: {len(dialogues())} with {count} messages out, as they have to be")


def chosen(found, wanted):
    """The messages found, without those that come only if the next one hasn't arrived."""
    found, left = list(found), []
    for each, is_sure in wanted:
        if found and is_like(found[0], each):
            first = found.pop(0)
            left += [first] if is_sure else []
    return left + found


def try_pieces(program, rounds=5):
    """The bytes of each dialogue in random pieces."""
    chance = random.Random(SEED)
    for name, turns, status in dialogues():
        data = b"".join(sent for sent, _, _ in turns)
        wanted = [each for _, _, messages in turns for each in messages]
        sure = [each for each, is_sure in wanted if is_sure]
        for _ in range(rounds):
            server = Server(program)
            most = chance.choice([1, 3, 20, 200, 4000])
            while_left = data
            while while_left:
                size = chance.randint(1, most)
                server.send(while_left[:size])
                while_left = while_left[size:]
                if chance.random() < 0.02:
                    time.sleep(0.001)
            rest, ended = server.end()
            found = chosen(rest, wanted)
            judge(name, "in pieces", [found, ended], [sure, 1 if status is None else status])
    print(f"pieces: each dialogue {rounds} times in random pieces, the same")


def messages_in(written):
    """The messages that a server wrote."""
    found = []
    while written:
        header = re.match(rb"Content-Length: (\d+)\r\n\r\n", written)
        if not header:
            return [*found, f"no message: {written[:200]!r}"]
        end = header.end() + int(header[1])
        found.append(json.loads(written[header.end():end]))
        written = written[end:]
    return found


def tried(names, *words):
    """Plays dialogues of these names, or all, at once, each to a server that `rt try` runs with these words. Gives of each the name, what
    it has to write and its status, and what it wrote and its status."""
    asked = [it for it in dialogues() if not names or it[0] in names]
    with tempfile.TemporaryDirectory() as folder:
        for name, turns, _ in asked:
            Path(folder, name).write_bytes(b"".join(sent for sent, _, _ in turns))
        ran = subprocess.run(["rt", "try", "--seconds", "900", *words, "--cases", folder, "--", "lsp"],
                             cwd=DIALOGUES.parent.parent / "crates/gql", capture_output=True)
    said = ran.stderr.decode(errors="replace")
    statuses = {name: int(status) for name, status in re.findall(r"^case=(\S+) run=ended status=(\d+)", said, re.M)}
    parts = re.split(rb"^== (\w+)\n", ran.stdout, flags=re.M)
    written = {name.decode(): out for name, out in zip(parts[1::2], parts[2::2])}
    if not statuses:
        print(said[-2000:])
    for name, turns, ended in asked:
        wanted = [[each for _, _, messages in turns for each, is_sure in messages if is_sure], 1 if ended is None else ended]
        yield name, wanted, [messages_in(written.get(name, b"").removesuffix(b"\n")), statuses.get(name)]


def quick(names):
    """Plays dialogues of these names, or all. Prints those that don't hold. Returns how many these are."""
    wrong = 0
    for name, wanted, found in tried(names):
        if not is_like(found, wanted):
            wrong += 1
            print(f"tests/dialogues/{name}:\n  expected: {json.dumps(wanted, ensure_ascii=False)}\n  found:    {json.dumps(found, ensure_ascii=False)}")
    return wrong


def is_refused(found, wanted):
    """Whether a server whose memory ran out once wrote this in place of that: each request has an answer, of which one may be an error
    that says so, with the id or, if the content wasn't read, without; and once the session runs it is logged once."""
    (written, status), (expected, ended) = found, wanted
    if not all(isinstance(each, dict) for each in written) or status not in (ended, 1):
        return False
    short = [each for each in written if each.get("error", {}).get("code") == -32603]
    left = [each["id"] for each in written if "id" in each and each not in short]
    missing = [each["id"] for each in expected if "id" in each]
    for each in left:
        if each not in missing:
            return False
        missing.remove(each)
    logs = [each for each in written if each.get("method") == "window/logMessage" and each["params"]["message"].endswith("out of memory")]
    is_running = any("capabilities" in (each.get("result") or {}) for each in written)
    return len(short) <= 1 and len(missing) <= len(short) and len(logs) == is_running


def refused(numbers):
    """Plays all dialogues for each of these numbers N, with the Nth allocation of each server failing. Prints those where a
    request has no answer, or it isn't logged once. Returns how many these are."""
    wrong = 0
    for nth in numbers:
        played = list(tried([], "--fail-alloc", nth))
        # If there is no memory for what was read, all of it is lost, and here that is the whole dialogue.
        met = [it for it in played if not is_like(it[2], it[1]) and it[2][0]]
        lost = len([it for it in played if not it[2][0]])
        for name, wanted, found in met:
            if not is_refused(found, wanted):
                wrong += 1
                print(f"tests/dialogues/{name}, request {nth}:\n  expected: {json.dumps(wanted, ensure_ascii=False)}\n"
                      f"  found:    {json.dumps(found, ensure_ascii=False)}")
        print(f"allocation {nth} failed: of {len(played)} dialogues {len(met)} differ, {lost} are lost whole")
    return wrong


# ---- What no dialogue has

def damaged(chance, data):
    """The bytes with some of them changed, taken out, or doubled."""
    data = bytearray(data)
    for _ in range(chance.choice([1, 2, 10, 100])):
        place = chance.randrange(len(data))
        kind = chance.randrange(4)
        if kind == 0:
            data[place] = chance.randrange(256)
        elif kind == 1:
            del data[place:place + chance.choice([1, 5, 50])]
        elif kind == 2:
            data[place:place] = data[place:place + chance.choice([1, 20, 300])]
        else:
            data[place:place] = bytes(chance.choices(b'{}[]",:0\\\r\n\xff\xc3\xf0', k=chance.choice([1, 4])))
        data = data or bytearray(b"\n")
    return bytes(data)


def try_garbage(program, rounds=400):
    """What is written to it, the server writes whole messages, and ends with 0 or 1."""
    chance = random.Random(SEED)
    every = [b"".join(sent for sent, _, _ in turns) for _, turns, _ in dialogues()]
    for number in range(rounds):
        server = Server(program)
        data = chance.randbytes(chance.choice([1, 100, 10000])) if number % 10 == 0 else damaged(chance, chance.choice(every))
        server.send(data)
        _, status = server.end()
        if status not in (0, 1):
            sys.exit(f"garbage {number} (SEED={SEED}): status {status}")
    server = Server(program)
    server.begin()
    wrong = {b"\xff": -32700, b'{"jsonrpc":"2.0","id":1,"method":"\xc3"}': -32700, b"\xef\xbb\xbf{}": -32700, b'{"jsonrpc":"2.0","id":1,"method":"\xed\xa0\x80"}': -32700}
    for content, code in wrong.items():
        server.send(frame(content))
        logged, answer = server.next(), server.next()
        if (logged.get("method"), answer.get("id"), answer["error"]["code"]) != ("window/logMessage", None, code):
            sys.exit(f"{content!r}: {logged} {answer}")
    server.send(message(id=1, method="shutdown") + message(method="exit"))
    judge("no UTF-8", "the end", list(server.end()), [[{"jsonrpc": "2.0", "id": 1, "result": None}], 0])
    print(f"garbage: {rounds} damaged inputs, and the server ended by itself after each")


def try_limits(program):
    """A content of 64 MiB is taken, one of a byte more is not."""
    most = 64 * 1024 * 1024
    server = Server(program)
    server.begin()
    before = server.memory()
    head, tail = '{"jsonrpc":"2.0","id":7,"method":"gql/unknown","params":"', '"}'
    content = head + "x" * (most - len(head) - len(tail)) + tail
    server.send(frame(content))
    judge("64 MiB", 1, server.next(), {"jsonrpc": "2.0", "id": 7, "error": {"code": -32601, "message": "…"}})
    kept = server.memory() - before
    server.send(b"Content-Length: %d\r\n\r\n" % (most + 1) + b"x" * (most + 1))
    judge("64 MiB and 1", 2, server.next(), {"jsonrpc": "2.0", "method": "window/logMessage", "params": {"type": 1, "message": "gql: …"}})
    server.send(message(id=8, method="shutdown") + message(method="exit"))
    judge("64 MiB", "the end", list(server.end()), [[{"jsonrpc": "2.0", "id": 8, "result": None}], 0])
    print(f"limits: 64 MiB are taken and 64 MiB + 1 aren't; {kept / 1e6:.1f} MB more are kept after the first")
    if kept > 8e6:
        sys.exit("a message is kept")


# ---- Texts

def request_text(size, mistakes=1):
    """Operations of `size` bytes in all, with characters of one to four bytes, and a mistake in the middle."""
    chance = random.Random(SEED)
    parts, length, number = [], 0, 0
    while length < size:
        name = f"Q{number}"
        part = f'''# {name}: é 日本 😀
query {name}($id: ID!, $first: Int = {number % 90}) {{
  hero(id: $id, note: "é日😀 {number}") {{
    name
    friends(first: $first, after: "{chance.randrange(10 ** 9)}") @include(if: true) {{
      edges {{ node {{ id name ...F{number} }} }}
    }}
  }}
}}

fragment F{number} on Character {{ id, name, appearsIn }}

'''
        parts.append(part)
        length += len(part.encode())
        number += 1
    if mistakes and parts:
        half = len(parts) // 2
        parts[half] = parts[half].replace("appearsIn }", "appearsIn( ) }")
    return "".join(parts)


def units(text):
    return len(text.encode("utf-16-le")) // 2


class Typed:
    """A text that is changed by random changes, as the client has it."""

    def __init__(self, text, chance):
        self.lines, self.chance = text.split("\n"), chance

    def text(self):
        return "\n".join(self.lines)

    def somewhere(self, line):
        return self.chance.randint(0, len(self.lines[line]))

    def change(self):
        """The next change: some characters of a line for others, or a line end more or less."""
        line = self.chance.randrange(len(self.lines))
        start = self.somewhere(line)
        kind = self.chance.random()
        if kind < 0.9 or line + 1 == len(self.lines):
            end = min(len(self.lines[line]), start + self.chance.choice([0, 0, 1, 3]))
            new = self.chance.choice(["", "x", "é", "日", "😀", " ", "{", "}", "(", ")", '"', "#", "a b", "..."])
            if self.chance.random() < 0.05:
                new = "\n"
            to = (line, end)
        else:
            end, to, new = 0, (line + 1, 0), self.chance.choice([" ", "\n", "x\n"])
        before = self.lines[line][:start]
        after = self.lines[to[0]][end:]
        asked = ranged((line, units(before)), (to[0], units(self.lines[to[0]][:end])), new)
        self.lines[line:to[0] + 1] = (before + new + after).split("\n")
        return asked


def try_alone(program, rounds=40):
    """What is reported of a text is what a new server reports of it."""
    chance = random.Random(SEED)
    for number in range(rounds):
        typed = Typed(request_text(chance.choice([0, 300, 3000]), number % 2), chance)
        server = Server(program)
        server.begin()
        server.open(typed.text())
        told = server.told()
        for version in range(2, 60):
            server.change(version, *[typed.change() for _ in range(chance.choice([1, 1, 1, 4]))])
            told = server.told()
        server.end()
        server = Server(program)
        server.begin()
        server.open(typed.text())
        alone = server.told()
        server.end()
        judge(f"alone {number} (SEED={SEED})", "at the end", told, alone)
    print(f"alone: after {rounds} times 58 random changes a new server reports the same")


def try_changes(program):
    """What memory the server takes while a text changes, and that in the end it reports the same as a new one."""
    size = 100_000
    chance = random.Random(SEED)
    text = request_text(size)
    server = Server(program)
    server.begin()
    empty = server.memory()
    server.open(text)
    told = server.told()
    seen = []
    began = time.perf_counter()
    spots = [line for line, each in enumerate(text.split("\n")) if each.startswith("# ")]
    lines = text.split("\n")
    for version in range(2, CHANGES + 2):
        # A character of a comment more, and then one less, so that the text stays as long as it is.
        line = chance.choice(spots)
        if version % 2 == 0 or len(lines[line]) < 4:
            at = chance.randint(2, len(lines[line]))
            new, end = chance.choice("xé日😀"), at
        else:
            at = chance.randint(2, len(lines[line]) - 1)
            new, end = "", at + 1
        asked = ranged((line, units(lines[line][:at])), (line, units(lines[line][:end])), new)
        lines[line] = lines[line][:at] + new + lines[line][end:]
        server.change(version, asked)
        told = server.told()
        if version % max(1, CHANGES // 100) == 0:
            seen.append(server.memory())
    took = time.perf_counter() - began
    most = server.memory("VmHWM")
    judge("changes", "the end", list(server.end()), [[], 1])
    other = Server(program)
    other.begin()
    other.open("\n".join(lines))
    judge("changes", "a new server", told, other.told())
    other.end()
    if len(told) != 1:
        sys.exit(f"changes: {len(told)} mistakes are told, and one is there")
    half = len(seen) // 2
    print(f"changes: {CHANGES} in {took:.1f} s; memory without a text {empty / 1e6:.2f} MB, at most {most / 1e6:.2f} MB "
          f"({(most - empty) / size:.1f} times the text more), in the first half at most {max(seen[:half]) / 1e6:.2f} MB, in the second "
          f"{max(seen[half:]) / 1e6:.2f} MB")
    if most - empty > 20 * size or max(seen[half:]) > max(seen[:half]) + size:
        sys.exit("changes: memory grows")


def try_closed(program, rounds=200):
    """Texts that are opened and closed."""
    text = request_text(1_000_000)
    server = Server(program)
    server.begin()
    seen = []
    for number in range(rounds):
        uri = f"file:///folder/{number}.graphql"
        server.open(text, uri)
        server.told()
        server.send(message(method="textDocument/didClose", params={"textDocument": {"uri": uri}}))
        if server.told():
            sys.exit("closed: a closed text has diagnostics")
        seen.append(server.memory())
    server.end()
    print(f"closed: memory after 10 closed texts of 1 MB {seen[9] / 1e6:.2f} MB, after {rounds} {seen[-1] / 1e6:.2f} MB")
    if seen[-1] > seen[9] + 2_000_000:
        sys.exit("closed: something is kept")


def try_times(program, strokes=100):
    """A key is pressed in a text with one mistake, in its first line, in the middle, and in the last: the times to its diagnostics."""
    for size, wanted in ((100_000, 2), (2_000_000, 30)):
        text = request_text(size)
        lines = text.split("\n")
        spots = [line for line, each in enumerate(lines) if each.startswith("# ")]
        server = Server(program)
        server.begin()
        server.open(text)
        if len(server.told()) != 1:
            sys.exit("times: not one mistake is told")
        version = 1
        for where, line in (("first", spots[0]), ("middle", spots[len(spots) // 2]), ("last", spots[-1])):
            times = []
            for stroke in range(strokes):
                version += 1
                asked = ranged((line, 2), (line, 2), "x") if stroke % 2 == 0 else ranged((line, 2), (line, 3), "")
                data = change(version, asked)
                began = time.perf_counter()
                server.send(data)
                told = server.told()
                times.append((time.perf_counter() - began) * 1000)
                if len(told) != 1:
                    sys.exit("times: not one mistake is told")
            times.sort()
            print(f"times: {len(text.encode())} bytes, in the {where} definition: middle {statistics.median(times):.2f} ms, "
                  f"nine of ten below {times[len(times) * 9 // 10]:.2f} ms, longest {times[-1]:.2f} ms (wanted: {wanted} ms)")
        server.end()


def try_costs(program, rounds=50):
    """What else is asked for costs not much more than key strokes."""
    text = request_text(100_000)
    server = Server(program)
    server.begin(textDocument={"documentSymbol": {"hierarchicalDocumentSymbolSupport": True}})
    server.open(text)
    server.told()
    asked = {"textDocument": {"uri": URI}}

    def cost(*data):
        """The processor's time for what is sent in one piece, up to its last message, and how many messages come before that."""
        before, number = server.spent(), 0
        server.send(b"".join(data) + message(id=2, method="gql/unknown"))
        while server.next().get("id") != 2:
            number += 1
        return server.spent() - before, number

    def middle(make):
        return statistics.median(cost(*make(each))[0] for each in range(rounds))

    def key(each):
        return ranged((0, 2), (0, 2), "x") if each % 2 == 0 else ranged((0, 2), (0, 3), "")

    stroke = middle(lambda each: [change(each, key(each))])
    outline = middle(lambda each: [message(id=1, method="textDocument/documentSymbol", params=asked)])
    queued, number = cost(*[change(each, key(each)) for each in range(100)])
    lines = [line for line, each in enumerate(text.split("\n")) if each][:1000]
    spent = []
    for each in range(rounds // 5):
        upwards, _ = cost(change(2 * each + 1, *[ranged((line, 0), (line, 0), " ") for line in reversed(lines)]))
        downwards, _ = cost(change(2 * each + 2, *[ranged((line, 0), (line, 1), "") for line in lines]))
        spent.append((upwards, downwards))
    upwards, downwards = map(statistics.median, zip(*spent))
    print(f"costs: a key stroke {stroke * 1000:.2f} ms of the processor, an outline {outline / stroke:.1f} key strokes (wanted: 2), "
          f"100 queued changes {queued / stroke:.1f}, {len(lines)} changes of a notification {upwards / stroke:.1f} from the last line to the "
          f"first, {downwards / stroke:.1f} the other way (wanted: 3)")
    if number != 1:
        sys.exit(f"costs: of 100 queued changes {number} are published")
    began = time.perf_counter()
    server.send(b"".join(message(id=each, method="textDocument/documentSymbol", params=asked) for each in range(100)))
    server.next()
    first = time.perf_counter() - began
    while server.next()["id"] != 99:
        pass
    last = time.perf_counter() - began
    print(f"costs: of 100 outlines that are asked for at once the first comes after {first * 1000:.1f} ms, the last after {last * 1000:.0f}")
    if first > last / 4:
        sys.exit("costs: the first answer waits for later ones")
    server.end()


PARTS = {"dialogues": try_dialogues, "pieces": try_pieces, "garbage": try_garbage, "limits": try_limits, "alone": try_alone,
         "changes": try_changes, "closed": try_closed, "times": try_times, "costs": try_costs}


def main():
    if sys.argv[1:2] == ["quick"]:
        sys.exit(quick(sys.argv[2:]) > 0)
    if sys.argv[1:2] == ["refused"]:
        sys.exit(refused(sys.argv[2:]) > 0)
    if len(sys.argv) < 2 or not set(sys.argv[2:]) <= PARTS.keys():
        sys.exit(__doc__)
    for part in sys.argv[2:] or PARTS:
        PARTS[part](os.path.abspath(sys.argv[1]))


if __name__ == "__main__":
    main()
