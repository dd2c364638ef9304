#!/usr/bin/env python3
"""Writes what the commands of transcripts owe, from the model and never from the program.

FILE has transcripts in the form that docs/transcripts.md tells, of which only the commands are needed: words, files,
input. Its lines of what is owed, if it has any, are written anew. All else stays, `faults` with its counts too. What
comes is written to standard output, or with --write into the file.

With --check nothing is written. Each session's owed bytes are compared with the model's, those that differ are
told, and the last line counts. The status is 1 where any differs, else 0. Sessions that the model does not speak of
are left out and counted: the text of --help, devices and folders of the system.
"""

import argparse
import multiprocessing
import os
import pathlib
import sys

sys.path.insert(0, str(pathlib.Path(__file__).resolve().parent.parent))

from fuzz import FolderMemory, folders_of
from model.outside import Memory
from model.patterns import expression, literal
from model.profile import Unspoken
from model.session import run
from running import DATA
from transcripts import Reader, sessions_of, spelled

# Lines of what is owed.
OWED = (b">", b">*", b"!", b"=", b"+", b"+=", b"-")
# So many equal lines are written as one with a count.
MANY = 5
# The sessions that are compared, each with the name of its file.
SESSIONS = []


def is_of_the_system(session):
    """Whether the session is about what only a real system has."""
    given = [word for words in session.commands for word in words] + [bytes(session.texts[ord("<")])]
    return any(b"/dev/" in text or b"/proc/" in text for text in given)


def owed_by(session, words):
    """Both outputs, the status and the files at the end, as the model has them."""
    matcher = literal(session.refused) if session.is_literal else expression
    files = {path: bytes(content) for path, content in session.files.items()}
    given = bytes(session.texts[ord("<")])
    if session.is_real:
        outside = FolderMemory(files, given, folders=folders_of(files) | set(session.locked))
    else:
        outside = Memory(files, given, session.locked, matcher)
    status = run(words, outside)
    return (*outside.left(), status, outside.files)


def first_runs(session):
    """The words of each command, with the first number of workers where there are several."""
    return session.runs()[:: max(len(session.workers), 1)]


# Writing.


def text_lines(tag, content):
    """The lines of a transcript that stand for the bytes."""
    lines = content.split(b"\n")
    last = lines.pop()
    texts = [ended(spelled_text(line)) for line in lines] + ([spelled_text(last) + "\\"] if last else [])
    out, at = [], 0
    while at < len(texts):
        count = next((k for k in range(at, len(texts)) if texts[k] != texts[at]), len(texts)) - at
        if count >= MANY and tag == ">":
            out.append(f">* {count} {texts[at]}" if texts[at] else f">* {count}")
        else:
            count = 1
            out.append(f"{tag} {texts[at]}" if texts[at] else tag)
        at += count
    return out


def spelled_text(line):
    return spelled(line).replace("\\x09", "\\t")


def ended(text):
    """A line with a space at its end that can be seen."""
    return text[:-1] + "\\x20" if text.endswith(" ") else text


def spelled_word(word):
    text = spelled(word).replace("'", "\\x27")
    return f"'{text}'" if " " in text or not text else text


def owed_lines(session, owed):
    out, err, status, files = owed
    lines = text_lines(">", out) + text_lines("!", err)
    lines += [f"= {status}"] if status else []
    for path, content in files.items():
        if session.files.get(path) != content:
            name = spelled_word(path)
            lines += text_lines(f"+ {name}", content) or [f"+ {name} \\"]
    return lines


def rewritten(path):
    """The file's text with what each transcript owes."""
    out, block = [], []
    for line in path.read_bytes().split(b"\n") + [b""]:
        if line:
            block.append(line)
            continue
        out.append(with_owed(path, block))
        block = []
    return b"\n\n".join(text for text in out if text) + b"\n"


def with_owed(path, block):
    kept = [line for line in block if line.split(b" ")[0] not in OWED]
    reader = Reader(path.parent)
    for line in kept:
        reader.read(line)
    session = reader.session
    if not session.commands:
        return b"\n".join(block)
    try:
        due = [owed_by(session, words) for words in first_runs(session)]
    except Unspoken as cause:
        sys.exit(f"{path}: {session.title}: the model does not speak of {cause}")
    if any(other != due[0] for other in due):
        sys.exit(f"{path}: {session.title}: the commands do not owe the same")
    return b"\n".join(kept + [line.encode("latin-1") for line in owed_lines(session, due[0])])


# Comparing.


def compared(session):
    """How many commands ran, how many were left out, and a text for each that differs."""
    words = first_runs(session)
    if is_of_the_system(session):
        return 0, len(words), []
    texts = []
    for given in words:
        try:
            due = owed_by(session, given)
        except Unspoken:
            return 0, len(words), []
        named = zip(("standard output", "standard error", "status", "files"), due, session.owed())
        texts += [
            f"  {spelled(b' '.join(given))[:200]}: {name} is {found!r:.600}\n    the model has {owed!r:.600}"
            for name, owed, found in named
            if owed != found
        ]
    return len(words), 0, texts


def compared_at(number):
    return compared(SESSIONS[number][1])


def size_at(number):
    """How many bytes the session is given."""
    session = SESSIONS[number][1]
    return len(session.texts[ord("<")]) + sum(map(len, session.files.values()))


def check(paths, jobs):
    SESSIONS.extend((path.name, session) for path in paths for session in sessions_of(path))
    # The largest come first, so that none is waited for at the end. Each process has the sessions from this one, by fork.
    order = sorted(range(len(SESSIONS)), key=size_at, reverse=True)
    with multiprocessing.get_context("fork").Pool(jobs) as pool:
        found = dict(zip(order, pool.imap(compared_at, order)))
    ran = left_out = differ = 0
    for number, (name, session) in enumerate(SESSIONS):
        count, silent, texts = found[number]
        ran, left_out, differ = ran + count, left_out + silent, differ + bool(texts)
        if texts:
            print("\n".join([f"{name}: {session.title}"] + texts), flush=True)
    print(f"{ran} commands of transcripts compared with the model, {differ} sessions differ, {left_out} commands left out")
    return differ == 0


def arguments():
    parser = argparse.ArgumentParser(
        description=__doc__, formatter_class=argparse.RawDescriptionHelpFormatter
    )
    parser.add_argument("file", nargs="*", type=pathlib.Path, help="transcripts; with --check all, if none is named")
    parser.add_argument("--write", action="store_true", help="write into the files")
    parser.add_argument("--check", action="store_true", help="compare, and write nothing")
    parser.add_argument("--jobs", type=int, default=os.cpu_count() or 1, help="sessions that are compared side by side")
    given = parser.parse_args()
    if not given.file and not given.check:
        parser.error("no file is named")
    return given


def main():
    given = arguments()
    if given.check:
        sys.exit(0 if check(given.file or sorted(DATA.glob("*.txt")), given.jobs) else 1)
    for path in given.file:
        text = rewritten(path)
        if given.write:
            path.write_bytes(text)
        else:
            sys.stdout.buffer.write(text)


if __name__ == "__main__":
    main()
