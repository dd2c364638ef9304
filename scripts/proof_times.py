#!/usr/bin/env python3
"""Times the proof of each function of some crates, from nothing, and lists the slowest.

usage: proof_times.py [--keep FILE] [--most N] [--before FILE] [--modules] CRATE..

Each crate is proved on a copy of the repository, one module at a time, so that a function's time is the processor time
between the line that `rt check` prints for it and the line before. That takes in the lemma files that it is first to
cite. The libraries below a crate are taken as they were built, or are built first.

It prints each crate's seconds, and then its slowest functions, 50 or as many as --most says. --keep writes a line for
each function, `seconds crate function`, the slowest first. --before reads such a list, and prints its slowest too. The
status is 0 where each crate was proved, else 1.

--modules lists the slowest modules too. A function has several: `Lts` is what it owns and gives up on each of its ways
out, and `Proof` is its contract. A check writes each module as soon as it is proved, so a module's seconds are those
since the one before it, by the clock: they say something only where the machine has nothing else to do.
"""

import argparse
import contextlib
import os
import pathlib
import re
import shutil
import subprocess
import sys
import tempfile
import time

ROOT = pathlib.Path(__file__).resolve().parent.parent
CHECKED = re.compile(r"checked (\S+), \d+ of \d+")
REFUSED = re.compile(r"fn \S+: (?!proved)|logic=not-proved|rt: .* NOT PROVED|error")
TICKS = os.sysconf("SC_CLK_TCK")


def linked(one, other):
    try:
        os.link(one, other)
    except OSError:
        shutil.copy2(one, other)


def copied(room):
    """Copies what proves the crates, with their built libraries by links."""
    for name in ("crates.txt", "HANDLES"):
        shutil.copy2(ROOT / name, room)
    for crate in (ROOT / "crates").iterdir():
        to = pathlib.Path(room, "crates", crate.name)
        for part in ("src", "specs", "proofs"):
            if (crate / part).is_dir():
                shutil.copytree(crate / part, to / part)
        if (crate / "out" / "rlib").is_dir():
            shutil.copytree(crate / "out" / "rlib", to / "out" / "rlib", copy_function=linked)


@contextlib.contextmanager
def with_nothing_kept(crate):
    """Has a check find nothing kept, neither here nor in another checkout where the same text was proved."""
    (crate / "out" / "incremental").mkdir(parents=True)
    root = next(file for file in (crate / "src" / "lib.rt", crate / "src" / "main.rt") if file.exists())
    text = root.read_text()
    root.write_text(f"{text}// Timed at {time.time_ns()}.\n")
    try:
        yield
    finally:
        root.write_text(text)


def spent(session):
    """The processor seconds of a session's processes, and of those that they waited for."""
    ticks = 0
    for stat in pathlib.Path("/proc").glob("[0-9]*/stat"):
        try:
            fields = stat.read_text().rpartition(")")[2].split()
        except OSError:
            continue
        if int(fields[3]) == session:
            ticks += sum(map(int, fields[11:15]))
    return ticks / TICKS


def timed(crate):
    """Whether the crate was proved, and its functions with their seconds."""
    found, last = [], 0.0
    run = subprocess.Popen(
        ["rt", "check", "--jobs", "1"],
        cwd=crate,
        stdin=subprocess.DEVNULL,
        stdout=subprocess.PIPE,
        stderr=subprocess.STDOUT,
        text=True,
        errors="replace",
        start_new_session=True,
    )
    for line in run.stdout:
        now, function = spent(run.pid), CHECKED.match(line)
        if line.startswith("so far: 0 of"):
            last = now
        elif function:
            found.append((now - last, crate.name, function[1]))
            last = now
        elif REFUSED.match(line):
            print(line, end="", file=sys.stderr)
    return not run.wait(), found


def modules(crate):
    """The modules that a check from nothing proved, with their seconds."""
    kept = crate / "out" / "incremental"
    files = (it for it in kept.rglob(f"Rattle-{crate.name}*.oantt") if "records" not in it.parts)
    proved = sorted((it.stat().st_mtime, it.stem.removeprefix(f"Rattle-{crate.name}-")) for it in files)
    return [(end - start, crate.name, name) for (start, _), (end, name) in zip(proved, proved[1:])]


def read(file):
    """The functions of a kept list."""
    words = (line.split() for line in pathlib.Path(file).read_text().splitlines())
    return [(float(seconds), crate, function) for seconds, crate, function in words]


def shown(functions, most):
    for seconds, crate, function in sorted(functions, reverse=True)[:most]:
        print(f"{seconds:8.1f} {crate} {function}")


def main():
    parser = argparse.ArgumentParser(description=__doc__, formatter_class=argparse.RawDescriptionHelpFormatter)
    parser.add_argument("--keep", metavar="FILE")
    parser.add_argument("--most", type=int, default=50)
    parser.add_argument("--before", metavar="FILE")
    parser.add_argument("--modules", action="store_true")
    parser.add_argument("crates", nargs="+", metavar="CRATE")
    given = parser.parse_args()
    functions, parts, is_proved = [], [], True
    with tempfile.TemporaryDirectory(prefix="proof-times-") as room:
        copied(room)
        for name in given.crates:
            crate = pathlib.Path(room, "crates", name)
            with with_nothing_kept(crate):
                proved, found = timed(crate)
            is_proved = is_proved and proved
            functions += found
            parts += modules(crate)
            print(f"{sum(it[0] for it in found):8.1f} {name}{'' if proved else ': not proved'}", flush=True)
            if given.keep:
                lines = (f"{seconds:.1f} {crate} {function}\n" for seconds, crate, function in sorted(functions, reverse=True))
                pathlib.Path(given.keep).write_text("".join(lines))
    shown(functions, given.most)
    if given.modules:
        print("Modules:")
        shown(parts, given.most)
    if given.before:
        print("Before:")
        shown((it for it in read(given.before) if it[1] in given.crates), given.most)
    return 0 if is_proved else 1


if __name__ == "__main__":
    sys.exit(main())
