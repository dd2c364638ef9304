"""Transcripts: sessions as text. docs/transcripts.md tells their form."""

import dataclasses
import os
import re
import sys


@dataclasses.dataclass
class Session:
    """What a session is given, and what it owes. Paths, words and contents are bytes."""

    title: str = ""
    commands: list = dataclasses.field(default_factory=list)
    files: dict = dataclasses.field(default_factory=dict)
    locked: list = dataclasses.field(default_factory=list)
    workers: list = dataclasses.field(default_factory=list)
    is_literal: bool = False
    is_real: bool = False
    refused: list = dataclasses.field(default_factory=list)
    texts: dict = dataclasses.field(default_factory=lambda: {tag: bytearray() for tag in b"<>!"})
    status: int = 0
    kept: dict = dataclasses.field(default_factory=dict)
    absent: list = dataclasses.field(default_factory=list)

    def runs(self):
        """The words of each run."""
        lanes = [[b"-workers=" + count] for count in self.workers] or [[]]
        return [lane + words for words in self.commands for lane in lanes]

    def is_for_memory(self):
        """Whether only objects in memory can have it."""
        words = [word for words in self.commands for word in words]
        paths = [path for path in self.files if not is_below(path) or path in self.locked]
        return self.is_literal or any(b"\0" in word for word in words) or bool(paths)

    def owed(self):
        """Standard output, standard error, the status, and the files at the end."""
        files = {**self.files, **self.kept}
        left = {path: bytes(files[path]) for path in files if path not in self.absent}
        return bytes(self.texts[ord(">")]), bytes(self.texts[ord("!")]), self.status, left


def is_below(path):
    """Whether the path, as it is spelled, is that of a file in a folder."""
    return not path.startswith((b"/", b"..")) and os.path.normpath(path) == path


class FormFault(Exception):
    """A line of a transcript that can't be understood."""


ESCAPE = re.compile(rb"\\(x[0-9a-fA-F]{2}|[nt\\#])")
NAMED = {b"n": b"\n", b"t": b"\t", b"\\": b"\\"}
WORD = re.compile(rb"(?:'[^']*'|[^' ])+")


def plain(text, number=b"\\#"):
    """The bytes that a text stands for. In `put#` a `\\#` is the number."""
    return ESCAPE.sub(lambda found: number if found[1] == b"#" else byte_named(found), text)


def in_three_bytes(number):
    """The number as a varint of three bytes."""
    return bytes([number & 127 | 128, number >> 7 & 127 | 128, number >> 14 & 127])


def byte_named(found):
    """The byte of an escape."""
    name = found[1]
    return NAMED.get(name) or bytes.fromhex(name[1:].decode())


def spelled(content):
    """A text that stands for the bytes."""
    text = content.replace(b"\\", b"\\\\").decode("latin-1")
    return "".join(char if " " <= char <= "~" else f"\\x{ord(char):02x}" for char in text)


def line_of(text):
    """The line that a text stands for. With a single backslash at its end it has no line end."""
    backslashes = len(text) - len(text.rstrip(b"\\"))
    return plain(text[:-1]) if backslashes % 2 == 1 else plain(text) + b"\n"


def words_of(text):
    """The words, which single spaces set apart. In single quotes a space is kept."""
    return [plain(word.replace(b"'", b"")) for word in WORD.findall(text)]


def cut_word(text):
    """The first word, and what stands behind the space after it."""
    found = WORD.match(text)
    if not found:
        raise FormFault("a word is missing")
    return words_of(found[0])[0], text[found.end() + 1 :]


def cut_count(text):
    """The number at the front, and what stands behind the space after it."""
    count, _, rest = text.partition(b" ")
    if not count.isdigit():
        raise FormFault("a number is missing")
    return int(count), rest


class Reader:
    """Reads one transcript, line by line."""

    def __init__(self, folder):
        self.folder = folder
        self.session = Session()

    def read(self, line):
        tag, _, rest = line.partition(b" ")
        if tag in (b"<", b">", b"!"):
            self.session.texts[tag[0]] += line_of(rest)
        elif tag in (b"<*", b">*"):
            count, rest = cut_count(rest)
            self.session.texts[tag[0]] += line_of(rest) * count
        elif tag in self.OTHERS:
            self.OTHERS[tag](self, rest)
        else:
            raise FormFault("an unknown tag")

    def read_title(self, rest):
        self.session.title = self.session.title or rest.decode()

    def read_files(self, rest):
        for pair in words_of(rest):
            path, name = pair.split(b"=", 1)
            self.session.files[path] = self.content(name)

    def content(self, name):
        return bytearray((self.folder / os.fsdecode(name)).read_bytes())

    def put(self, rest, count=1):
        path, text = cut_word(rest)
        self.session.files.setdefault(path, bytearray()).extend(plain(text) * count)

    def put_often(self, rest):
        count, rest = cut_count(rest)
        self.put(rest, count)

    def put_numbered(self, rest):
        count, rest = cut_count(rest)
        path, text = cut_word(rest)
        parts = (plain(text, in_three_bytes(number)) for number in range(1, count + 1))
        self.session.files.setdefault(path, bytearray()).extend(b"".join(parts))

    def read_locked(self, rest):
        self.session.locked += words_of(rest)

    def read_literal(self, rest):
        self.session.is_literal = True
        self.session.refused += words_of(rest)

    def read_workers(self, rest):
        self.session.workers += words_of(rest)

    def read_real(self, _rest):
        self.session.is_real = True

    def read_command(self, rest):
        name, *words = words_of(rest)
        if name != b"pprof":
            raise FormFault("another program than pprof")
        self.session.commands.append(words)

    def read_status(self, rest):
        self.session.status = cut_count(rest)[0]

    def keep_line(self, rest):
        path, text = cut_word(rest)
        self.session.kept.setdefault(path, bytearray()).extend(line_of(text))

    def keep_whole(self, rest):
        path, name = words_of(rest)[0].split(b"=", 1)
        self.session.kept[path] = self.content(name)

    def miss(self, rest):
        self.session.absent += words_of(rest)

    def pass_over(self, _rest):
        """Every session runs over real files here, and none with faults."""

    OTHERS = {
        b"#": read_title,
        b"files": read_files,
        b"put": put,
        b"put*": put_often,
        b"put#": put_numbered,
        b"locked": read_locked,
        b"real": read_real,
        b"literal": read_literal,
        b"workers": read_workers,
        b"faults": pass_over,
        b"$": read_command,
        b"=": read_status,
        b"+": keep_line,
        b"+=": keep_whole,
        b"-": miss,
    }


def sessions_of(path):
    """The sessions of a file. A run of comments alone is none."""
    reader = Reader(path.parent)
    for number, line in enumerate(path.read_bytes().split(b"\n") + [b""], 1):
        if line:
            try:
                reader.read(line)
            except (FormFault, OSError, ValueError) as fault:
                sys.exit(f"{path}:{number}: {fault}")
            continue
        if reader.session.commands:
            yield reader.session
        reader = Reader(path.parent)
