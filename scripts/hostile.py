#!/usr/bin/env python3
"""Runs the built program on files that somebody could make to be slow, and compares processor times.

usage: hostile.py [--counts N,N] [--shapes NAME,NAME] [--size PARTS] [--list] [--jobs N] PROGRAM

The entries of some files meet in a few slots of hash tables, if these hash with a known seed: scripts/hostile.c, which
needs a C compiler (CC, or cc), writes one of each kind, and a plain one of the same shape. The hostile one may take 1.5 times
the plain one's time, and 30 milliseconds.

Other files are long in one way: a function with 1,000,000 lines in one location, and so on. Every report is run on
each. One that takes more than 2 seconds is run on a file of a quarter of the size too, and must not take more than 8 times
that: with a square it takes 16. Both are tried again, side by side, before that is said. --size is the size of the long files, in
hundredths.

A run has 60 seconds of the processor and 12 GB. The status is 0 where all is within these limits, else 1.
"""

import argparse
import concurrent.futures
import os
import pathlib
import resource
import subprocess
import sys
import tempfile

from make_profile import message, packed, payload

ROOT = pathlib.Path(__file__).resolve().parent.parent
COUNTS = (20_000, 100_000)
KINDS = {"samples": ["-top"], "ids": ["-top"], "addresses": ["-top", "-addresses"], "texts": ["-top"]}
RATIO = 1.5
SLACK = 0.03
# The text of a path tree grows with the square of the depth, by which it indents: deep stacks have this depth there.
DEPTH = 10_000
DEEP = ("lines", "frames", "stack")
# Seconds beyond which a run is compared with one of a quarter of the size, and how much longer it may take then.
LONG = 2.0
GROWTH = 8
# How often both runs of a pair are tried again before it counts as too slow.
PAIRS = 3
LIMIT_SECONDS = 60
LIMIT_BYTES = 12 << 30
ENDINGS = (0, 1)

REPORTS = (
    "-top",
    "-tree",
    "-peek=.",
    "-traces",
    "-tags",
    "-raw",
    "-comments",
    "-proto",
    "-folded",
    "-table",
    "-list=.",
    "-compare -diff_base=FILE",
    "-tree -path_tree",
    "-top -tagroot=k",
    "-top -tagleaf=k",
    "-tree -lines",
    "-top -addresses",
    "-top -noinlines",
    "-top -focus=n -hide=m -tagfocus=k=1: -unit=each",
)


# Long files. Texts 1 to 4 are `samples`, `count`, `k` and `f.c`, and names follow.

FIRST_NAME = 5


def profile(*tables, names=(b"f",), header=b""):
    """A profile with these entries of its tables."""
    texts = (b"", b"samples", b"count", b"k", b"f.c", *names)
    return payload(1, message({1: 1, 2: 2})) + b"".join(tables) + b"".join(payload(6, it) for it in texts) + header


def function(number, name=FIRST_NAME):
    return payload(5, message({1: number, 2: name, 4: 4}))


def location(number, *lines):
    """A location with lines of functions."""
    return payload(4, message({1: number, 3: number}) + b"".join(payload(4, message({1: f, 2: n})) for f, n in lines))


def sample(locations, value=1, labels=b""):
    return payload(2, packed(1, locations) + packed(2, [value]) + labels)


def label(number):
    return payload(3, message({1: 3, 3: number}))


def lines(count):
    """A function with many lines in one location."""
    return profile(function(1), location(1, *((1, n) for n in range(1, count + 1))), sample([1]))


def frames(count):
    """A sample with many times one location."""
    return profile(function(1), location(1, (1, 1)), sample([1] * count))


def stack(count):
    """A sample with many locations, in 1,000 functions that stand one behind another in their file."""
    functions = (function(n, FIRST_NAME + n - 1) for n in range(1, 1_001))
    places = (location(n, ((n - 1) * 1_000 // count + 1, n)) for n in range(1, count + 1))
    return profile(*functions, *places, sample(range(1, count + 1)), names=[b"n%d" % n for n in range(1_000)])


def labels(count):
    """A sample with many labels."""
    return profile(function(1), location(1, (1, 1)), sample([1], 1, b"".join(map(label, range(1, count + 1)))))


def mappings(count):
    """Many mappings, and a sample without any."""
    made = (payload(3, message({1: n, 2: n << 12, 3: n + 1 << 12, 5: 4})) for n in range(1, count + 1))
    return profile(*made, function(1), location(1, (1, 1)), sample([1]))


def empty(count):
    """Many samples without locations."""
    return profile(sample([]) * count)


def text(count):
    """A text of many bytes."""
    return profile(function(1), location(1, (1, 1)), sample([1]), names=[b"n" * count])


def pattern(count):
    """A pattern of its own with many groups in each other."""
    nested = b"(" * count + b"f" + b"|f)" * count
    return profile(function(1), location(1, (1, 1)), sample([1]), names=[b"f", nested], header=message({7: FIRST_NAME + 1}))


def repeated(count):
    """Samples of 1,000 labels with one key."""
    many = b"".join(map(label, range(1, 1_000)))
    made = (sample([1], 1, many + label(n)) for n in range(1_000, 1_000 + count // 1_000))
    return profile(function(1), location(1, (1, 1)), *made)


def prefixes(count):
    """Names that share all but their last bytes."""
    numbers = range(1, count // 100_000 + 1)
    tables = [[function(n, FIRST_NAME + n - 1) for n in numbers], [location(n, (n, n)) for n in numbers]]
    tables.append([sample([n]) for n in numbers])
    return profile(*sum(tables, []), names=[b"n" * 100_000 + b"%d" % n for n in numbers])


SHAPES = {
    "lines": (lines, 1_000_000),
    "frames": (frames, 1_000_000),
    "stack": (stack, 1_000_000),
    "labels": (labels, 1_000_000),
    "mappings": (mappings, 1_000_000),
    "empty": (empty, 1_000_000),
    "text": (text, 200_000_000),
    "pattern": (pattern, 100_000),
    "repeated": (repeated, 1_000_000),
    "prefixes": (prefixes, 100_000_000),
}


# Runs.


def limit():
    resource.setrlimit(resource.RLIMIT_CPU, (LIMIT_SECONDS, LIMIT_SECONDS))
    resource.setrlimit(resource.RLIMIT_AS, (LIMIT_BYTES, LIMIT_BYTES))


def spent(program, words, path):
    """The processor seconds of a run, its greatest memory in MB, and its status. A signal's number is below 0."""
    words = [word.replace("FILE", path.name) for word in words]
    silent = {"stdin": subprocess.DEVNULL, "stdout": subprocess.DEVNULL, "stderr": subprocess.DEVNULL}
    run = subprocess.Popen([program, *words, path.name], cwd=path.parent, preexec_fn=limit, **silent)
    _, status, used = os.wait4(run.pid, 0)
    run.returncode = os.waitstatus_to_exitcode(status)
    return used.ru_utime + used.ru_stime, used.ru_maxrss >> 10, run.returncode


def least(program, words, path):
    """The least seconds of three runs, or those of a long one, and its status."""
    runs = []
    while len(runs) < 3 and (not runs or runs[0][0] < LONG):
        runs.append(spent(program, ["-workers=1", *words], path))
    seconds, _, status = min(runs)
    return seconds, status


def write_kinds(folder, counts):
    """Writes the hostile file and the plain one of each kind, in a folder for each count."""
    compiler = os.environ.get("CC", "cc")
    writer = folder / "hostile"
    subprocess.run([compiler, "-O2", "-o", writer, ROOT / "scripts" / "hostile.c"], check=True)
    for count in counts:
        (folder / str(count)).mkdir()
        subprocess.run([writer, str(count), folder / str(count)], check=True)


def compare_kind(program, folder, count, kind):
    """Prints a line for the kind and count. Gives no runs, and the findings."""
    words, place = KINDS[kind], folder / str(count)
    for _ in range(PAIRS):
        hostile, one = least(program, words, place / f"{kind}-hostile")
        plain, other = least(program, words, place / f"{kind}-plain")
        if hostile <= RATIO * plain + SLACK:
            break
    line = f"{kind} of {count}: hostile {hostile:.3f} s, plain {plain:.3f} s, {hostile / plain:.1f} times"
    print(line, flush=True)
    is_slow = hostile > RATIO * plain + SLACK or one or other
    return [], [f"{line}, status {one} and {other}"] if is_slow else []


def try_shape(program, folder, name, size, told):
    """Runs every report on the shape. Gives the seconds, memory and words of each, and then the findings."""
    make, whole = SHAPES[name]
    path, smaller, shallow = (folder / (name + end) for end in ("", "-quarter", "-shallow"))
    path.write_bytes(make(whole * size // 100))
    if name in DEEP:
        shallow.write_bytes(make(DEPTH))
    taken, findings = [], []
    for report in REPORTS:
        words = report.split()
        is_shallow = name in DEEP and "-path_tree" in words
        seconds, megabytes, status = spent(program, words, shallow if is_shallow else path)
        if told:
            print(f"{seconds:8.2f} s {megabytes:6d} MB  {name} {report}", flush=True)
        taken.append((seconds, megabytes, f"{name} {report}"))
        if status not in ENDINGS:
            findings.append(f"{name} {report}: status {status} after {seconds:.1f} s with {megabytes} MB")
        if seconds > LONG and not is_shallow:
            if not smaller.exists():
                smaller.write_bytes(make(whole * size // 400))
            quarter = spent(program, words, smaller)[0]
            # Other work on the machine may have slowed one of the two. Of a pair of runs it slows both.
            for _ in range(PAIRS):
                if seconds > GROWTH * quarter:
                    seconds, quarter = (spent(program, words, it)[0] for it in (path, smaller))
            if seconds > GROWTH * quarter:
                findings.append(f"{name} {report}: {seconds:.1f} s, and {quarter:.1f} s for a quarter")
        if status == 1 and name == "pattern":
            break
    slowest = max(taken)
    print(
        f"{name}: {path.stat().st_size >> 10} kB, {len(taken)} reports, {sum(it[0] for it in taken):.1f} s;"
        f" slowest {slowest[2].partition(' ')[2]}: {slowest[0]:.2f} s, {max(it[1] for it in taken)} MB at most",
        flush=True,
    )
    for file in (path, smaller, shallow):
        file.unlink(missing_ok=True)
    return taken, findings


def arguments():
    parser = argparse.ArgumentParser(description=__doc__, formatter_class=argparse.RawDescriptionHelpFormatter)
    parser.add_argument("program", help="the built program, as crates/pprof/out/pprof")
    parser.add_argument("--counts", default=",".join(map(str, COUNTS)), help="of entries, joined by commas; empty for none")
    parser.add_argument("--shapes", default=",".join(SHAPES), help="joined by commas; empty for none")
    parser.add_argument("--size", type=int, default=100, metavar="PARTS", help="hundredths of the long files' size (100)")
    parser.add_argument("--list", action="store_true", help="print each run on a long file")
    parser.add_argument("--jobs", type=int, default=2, help="kinds and shapes side by side (2)")
    return parser.parse_args()


def main():
    given = arguments()
    program = os.path.abspath(given.program)
    counts = [int(count) for count in given.counts.split(",") if count]
    shapes = [name for name in given.shapes.split(",") if name]
    taken, findings = [], []
    with tempfile.TemporaryDirectory(prefix="hostile") as folder:
        folder = pathlib.Path(folder)
        # Of the source that list shows.
        (folder / "f.c").write_bytes(b"w\n" * 1_000_000)
        write_kinds(folder, counts)
        with concurrent.futures.ProcessPoolExecutor(given.jobs) as pool:
            # Shapes take longest, and so come first.
            tries = [pool.submit(try_shape, program, folder, name, given.size, given.list) for name in shapes]
            tries += [pool.submit(compare_kind, program, folder, count, kind) for count in counts for kind in KINDS]
            for new, found in (one.result() for one in tries):
                taken += new
                findings += found
    for finding in findings:
        print(f"too slow: {finding}")
    slowest = max(taken, default=(0, 0, "none"))
    print(
        f"{len(counts) * len(KINDS)} kinds of hostile files and {len(taken)} runs on long ones, {len(findings)} too slow;"
        f" the slowest is {slowest[2]}: {slowest[0]:.2f} s"
    )
    return 1 if findings else 0


if __name__ == "__main__":
    sys.exit(main())
