"""Runs replays that are written as texts, and compares each reply with the one that the text gives.

A text has cases, and each is a whole replay from nothing. A line that is empty or begins with `#` is none; one that
begins with a blank goes on with the line before it.

  always             what stands below begins each of the next replays
  case NAME          the next replay begins
  conf TEXT          its settings, nscd.conf(5)
  file NAME TEXT     the file becomes this
  absent NAME        the file is absent
  ask TYPE KEY       a look-up
  = BYTES            the reply to it; `=` alone where there is none
  input BYTES        the input of a connection, whatever it is
  time SECONDS       the moment becomes this one, and the databases are ticked
  invalidate NAME    every entry of the database ends
  bytes BYTES        bytes of the replay, whatever they are
  end                the replay ends; without this line it ends behind the last one, unless a status is given
  status N WORDS     the program exits so, and says this; without this line it exits with 0 and says nothing
  let NAME BYTES     the name means these bytes from here on, as $NAME

  accepts TEXT       a case in which a configuration is accepted
  refuses N CAUSE | TEXT    a case in which its line N is refused

TEXT is what stands in the lines below that begin with `| `, each of which ends with a newline; or it stands in the same
line, as BYTES where it begins with a quote, and as it is with no newline where it does not. KEY stands so too, and a zero
byte is put behind it, unless it is an address, which is given as BYTES.

BYTES are pieces: hexadecimal digits, "texts" with the escapes of C, and names; a piece with *N behind it stands N times.
"""

import re
import sys
from dataclasses import dataclass, field
from pathlib import Path

sys.dont_write_bytecode = True
import frames

PIECE = re.compile(r'(?:"((?:[^"\\]|\\.)*)"|\$([\w-]+)|([0-9a-f]+))(?:\*(\d+))?')
SHOWN = 1000  # bytes of a reply
ESCAPE = re.compile(rb"\\(x[0-9a-f]{2}|.)")
ESCAPES = {b"0": b"\0", b"n": b"\n", b"t": b"\t", b"r": b"\r", b"\\": b"\\", b'"': b'"'}


@dataclass
class Case:
    name: str
    conf: bytes | None = None
    frames: bytes = b""
    wanted: list = field(default_factory=list)  # the line of each reply, and its bytes
    status: int = 0
    said: str = ""
    has_end: bool = False


class Fault(Exception):
    """What is wrong with a line of a text."""


def escaped(found):
    word = found.group(1)
    if word.startswith(b"x"):
        return bytes.fromhex(word[1:].decode())
    if word not in ESCAPES:
        raise Fault(f"no escape is \\{word.decode()}")
    return ESCAPES[word]


def bytes_of(text, names):
    """The bytes that pieces stand for."""
    found = b""
    rest = text.strip()
    while rest:
        piece = PIECE.match(rest)
        if not piece:
            raise Fault(f"no bytes are spelled by {rest}")
        quoted, name, digits, times = piece.groups()
        if quoted is not None:
            one = ESCAPE.sub(escaped, quoted.encode())
        elif name is not None:
            if name not in names:
                raise Fault(f"no bytes are named {name}")
            one = names[name]
        else:
            one = bytes.fromhex(digits)
        found += one * int(times or 1)
        rest = rest[piece.end() :].lstrip()
    return found


class Reader:
    """The cases of a text, read line by line."""

    def __init__(self, title):
        self.title = title
        self.names = {}
        self.cases = []
        self.start = None  # what begins each case, where the text says that
        self.is_starting = False

    def text(self, rest, below):
        """The text of a statement, which stands behind it or in the lines below it."""
        if below:
            return b"".join(line.encode() + b"\n" for line in below)
        if rest.startswith('"'):
            return bytes_of(rest, self.names)
        return rest.encode()

    def key(self, kind, rest):
        if kind.startswith("address") and kind != "addresses":
            return bytes_of(rest, self.names)
        return self.text(rest, []) + b"\0"

    def statement(self, place, word, rest, below):
        if word == "always":
            self.start = Case("")
            self.is_starting = True
        elif word == "case":
            self.begin(f"{self.title}:{place}: {rest}")
        elif word == "let":
            name, _, content = rest.partition(" ")
            self.names[name] = bytes_of(content, self.names)
        elif word == "accepts":
            self.cases.append(Case(f"{self.title}:{place}", conf=self.text(rest, below)))
        elif word == "refuses":
            cause, _, text = rest.partition(" | ")
            line, _, cause = cause.partition(" ")
            said = f"nscd: configuration line {line}: {cause}"
            self.cases.append(
                Case(f"{self.title}:{place}", conf=self.text(text, below), status=6, said=said)
            )
        elif self.is_starting:
            self.part(self.start, place, word, rest, below)
        elif self.cases:
            self.part(self.cases[-1], place, word, rest, below)
        else:
            raise Fault("no case was begun")

    def begin(self, name):
        """A case begins, with what each case begins with."""
        case = Case(name)
        if self.start:
            case.conf = self.start.conf
            case.frames = self.start.frames
        self.cases.append(case)
        self.is_starting = False

    def part(self, case, place, word, rest, below):
        """A statement within a case."""
        first, _, behind = rest.partition(" ")
        if word == "conf":
            case.conf = self.text(rest, below)
        elif word == "file":
            case.frames += frames.set_file(first, self.text(behind, below))
        elif word == "absent":
            case.frames += frames.set_file(rest, None)
        elif word == "ask":
            case.frames += frames.look_up(first, self.key(first, behind))
        elif word == "=":
            case.wanted.append((place, bytes_of(rest, self.names)))
        elif word == "input":
            case.frames += frames.connection(bytes_of(rest, self.names))
        elif word == "time":
            case.frames += frames.pass_time(int(rest))
        elif word == "invalidate":
            case.frames += frames.invalidate(rest)
        elif word == "bytes":
            case.frames += bytes_of(rest, self.names)
        elif word == "end":
            case.frames += frames.END
            case.has_end = True
        elif word == "status":
            case.status = int(first)
            case.said = behind
            case.has_end = True
        else:
            raise Fault(f"no line begins with {word}")


def statements(text):
    """Each statement of a text: its line, its first word, the rest, and the lines of text below it."""
    found = []
    for place, line in enumerate(text.splitlines(), 1):
        if line.startswith("|") and found:
            found[-1][3].append(line[2:])
        elif line.startswith(" ") and found:
            found[-1][2] += " " + line.strip()
        elif line and not line.startswith("#"):
            word, _, rest = line.partition(" ")
            found.append([place, word, rest, []])
    return found


def read_cases(path):
    reader = Reader(path.name)
    for place, *rest in statements(path.read_text()):
        try:
            reader.statement(place, *rest)
        except (Fault, ValueError, KeyError) as fault:
            sys.exit(f"worked-replays: {path.name}:{place}: {fault}")
    return reader.cases


def shown(reply):
    more = f" and {len(reply) - SHOWN} more bytes" if len(reply) > SHOWN else ""
    return (reply[:SHOWN].hex(" ", -4) or "empty") + more


def faults_of(case, program):
    """What is wrong with the outcome of a case."""
    end = b"" if case.has_end else frames.END
    status, output, said = frames.replay(program, case.frames + end, case.conf)
    faults = []
    if status != case.status:
        faults.append(f"the status is {status}, and not {case.status}")
    if said != case.said:
        faults.append(f"it says '{said}', and not '{case.said}'")
    came, rest = frames.replies(output)
    for (place, want), reply in zip(case.wanted, came):
        if reply != want:
            faults.append(f"line {place}: the reply is {shown(reply)}, and not {shown(want)}")
            break
    if len(came) != len(case.wanted):
        faults.append(f"there are {len(came)} replies, and not {len(case.wanted)}")
    if rest:
        faults.append(f"the output ends with {rest.hex()}")
    return faults


def main():
    program = frames.program()
    paths = [Path(word) for word in sys.argv[1:]] or sorted((frames.ROOT / "tests" / "replays").glob("*.replay"))
    cases = [case for path in paths for case in read_cases(path)]
    broken = 0
    for case in cases:
        faults = faults_of(case, program)
        broken += bool(faults)
        for fault in faults:
            print(f"worked-replays: {case.name}: {fault}", file=sys.stderr)
    print(f"worked-replays: {len(cases)} cases, {broken} faults")
    sys.exit(bool(broken))


main()
