#!/usr/bin/env python3
"""Runs each command of the documents on the built program, and compares what it prints with what stands below it.

usage: documents.py PROGRAM [FILE..]

Commands are the lines `$ ./pprof ..` in the blocks of README.md, CONTRIBUTING.md and docs/*.md. They run in a folder with
what the top of the repository has, and their status has to be 0. Lines `(pprof) ..` below a command are typed into its
shell. A line `...` stands for any lines.

Blocks that begin with `#!/bin/bash` are scripts for build servers. Each is run over a profile before and one after a change
of several kinds, and over files that are missing, cut off or of another kind, and its status compared.

The status is 0 where all agree.
"""

import argparse
import os
import pathlib
import re
import shlex
import subprocess
import sys
import tempfile

ROOT = pathlib.Path(__file__).resolve().parent.parent
PROMPT = "(pprof) "
# A command that takes longer has not ended, on a machine that does much else too.
SECONDS = 600
GREW = 10
REFUSED = 1


def blocks(text):
    """The fenced blocks of a document."""
    return re.findall(r"^```\w*\n(.*?)^```", text, re.S | re.M)


def commands(block):
    """The commands of a block, each with the lines below it."""
    for part in re.split(r"^\$ ", block, flags=re.M)[1:]:
        command, _, owed = part.partition("\n")
        if command.startswith("./pprof"):
            yield command, owed


def typed(owed):
    """What is typed into the shell, and what the program owes of these lines."""
    lines = owed.split("\n")
    given = [line[len(PROMPT) :] for line in lines if line.startswith(PROMPT)]
    printed = [PROMPT + "\0" if line.startswith(PROMPT) else line for line in lines]
    return "".join(line + "\n" for line in given), "\n".join(printed).replace("\0\n", "").rstrip("\0")


def run(command, place, given):
    """What the command prints to both outputs, and its status."""
    streams = {"stdout": subprocess.PIPE, "stderr": subprocess.STDOUT}
    try:
        ran = subprocess.run(command, cwd=place, input=given, text=True, timeout=SECONDS, check=False, **streams)
    except subprocess.TimeoutExpired:
        return "", f"no end after {SECONDS} seconds"
    return ran.stdout, ran.returncode


def agrees(owed, printed):
    """Whether the text is what is owed, where a line of three points stands for any lines."""
    parts = re.split(r"^ *\.\.\.\n", owed.strip("\n") + "\n", flags=re.M)
    pattern = r"(?:.*\n)*".join(re.escape(part) for part in parts)
    return re.fullmatch(pattern, printed.strip("\n") + "\n") is not None


def as_at_the_top(place, program):
    """Gives a folder what the top of the repository has, and the program as ./pprof."""
    for path in ROOT.iterdir():
        if path.name not in ("pprof", ".git"):
            (place / path.name).symlink_to(path)
    (place / "pprof").symlink_to(program)


def run_commands(place, text):
    """Runs the commands of a document: each with what differs, or nothing."""
    for block in blocks(text):
        for command, owed in commands(block):
            given, printed_owed = typed(owed)
            printed, status = run(["bash", "-c", command], place, given)
            is_owed = agrees(printed_owed, printed) and status == 0
            yield None if is_owed else f"$ {command}\nowed:\n{printed_owed}\nprinted, with status {status}:\n{printed}"


def cases(place):
    """Profiles before and after a change, with the status that is owed."""
    same = (ROOT / "samples" / "go-cpu.pb").read_bytes()
    doubled = ["./pprof", "-proto", "samples/go-cpu.pb", "samples/go-cpu.pb"]
    grown = subprocess.run(doubled, cwd=place, stdout=subprocess.PIPE, timeout=SECONDS, check=True).stdout
    emptied = ["./pprof", "-proto", "-ignore=.", "samples/go-cpu.pb"]
    idle = subprocess.run(emptied, cwd=place, stdout=subprocess.PIPE, timeout=SECONDS, check=True).stdout
    other = (ROOT / "samples" / "threads.pb").read_bytes()
    yield "no change", same, same, 0
    yield "growth", same, grown, GREW
    yield "less than before", grown, same, 0
    yield "nothing measured before", idle, same, GREW
    yield "nothing measured after", same, idle, 0
    yield "nothing before", None, same, REFUSED
    yield "nothing after", same, None, REFUSED
    yield "neither", None, None, REFUSED
    yield "an empty file after", same, b"", REFUSED
    yield "a cut file after", same, same[:100], REFUSED
    yield "a cut file before", same[:100], same, REFUSED
    yield "a profile of another kind after", same, other, REFUSED
    yield "a profile of another kind before", other, same, REFUSED


def run_scripts(place, text):
    """Runs the scripts of a document: each of their runs with what differs, or nothing."""
    for script in blocks(text):
        # A script of another kind names its scheduler in the second line.
        if not script.startswith("#!/bin/bash\n") or script.startswith("#!/bin/bash\n#SBATCH"):
            continue
        for title, before, after, owed in cases(place):
            for name, content in (("before.pb", before), ("after.pb", after)):
                (place / name).unlink(missing_ok=True)
                if content is not None:
                    (place / name).write_bytes(content)
            printed, status = run(["bash", "-c", script], place, "")
            is_owed = status == owed and bool(printed) == bool(owed)
            yield None if is_owed else f"{script}over {title}: status {status}, owed is {owed}; printed:\n{printed}"


def main():
    parser = argparse.ArgumentParser(description=__doc__, formatter_class=argparse.RawDescriptionHelpFormatter)
    parser.add_argument("program")
    parser.add_argument("files", nargs="*", type=pathlib.Path)
    told = parser.parse_args()
    paths = told.files or [ROOT / "README.md", ROOT / "CONTRIBUTING.md", *sorted((ROOT / "docs").glob("*.md"))]
    counts, failed = {"commands": 0, "runs of scripts": 0}, 0
    for path in paths:
        text = path.read_text()
        for kind, runs in (("commands", run_commands), ("runs of scripts", run_scripts)):
            with tempfile.TemporaryDirectory(prefix="documents") as place:
                as_at_the_top(pathlib.Path(place), os.path.abspath(told.program))
                for differing in runs(pathlib.Path(place), text):
                    counts[kind] += 1
                    if differing:
                        failed += 1
                        print(f"{path}: {differing}")
    told_counts = ", ".join(f"{count} {kind}" for kind, count in counts.items())
    print(f"{len(paths)} documents, {told_counts}; {failed} differ")
    return 1 if failed else 0


if __name__ == "__main__":
    sys.exit(main())
