#!/usr/bin/env python3
"""Measures the built program, and prints the tables of docs/speed.md.

usage: speed.py PROGRAM [--runs N] [--rounds N] [--only=WORDS] [--beside PPROF]

The profiles are of one made-up server: samples of 20 to 34 locations over 5,000 functions. The same words give the same
profiles. Each case runs N times in each round (4 and 2), the cases of a round in turn. Of each case the least time and
the largest memory are printed. Times are of the processor and of the clock, in seconds; the ratio is of processor
times with one worker, over loading alone. With --beside, one worker is measured against Go's `pprof` instead, on the
reports that both have, N runs of each in turn.
"""

import argparse
import dataclasses
import os
import pathlib
import random
import subprocess
import sys
import tempfile
import time

from make_profile import message, packed, payload, varint

TEXTS = ["", "samples", "count", "cpu", "nanoseconds", "server", "thread", "bytes", "worker-1", "worker-2", "worker-3"]
TEXTS += ["request"]
FUNCTIONS = 5000
NANOSECONDS = 10_000_000

# A case: its title, the words behind `pprof`, and the kind of its files.
CASES = [
    ("`-comments`, which is loading alone", "-comments", "plain"),
    ("`-top`", "-top", "plain"),
    ("`-top -lines`", "-top -lines", "plain"),
    ("`-top -addresses`", "-top -addresses", "plain"),
    ("`-top -focus` of a hundredth of the functions", "-top -focus=Method17", "plain"),
    ("`-tree`", "-tree", "plain"),
    ("`-table`", "-table", "plain"),
    ("`-peek` of one function", "-peek=Method1234$", "plain"),
    ("`-peek` of some hundred", "-peek=Method17", "plain"),
    ("`-list` of one function", "-list=Method1234$", "plain"),
    ("`-traces`", "-traces", "plain"),
    ("`-tree -path_tree`", "-tree -path_tree", "plain"),
    ("`-folded`", "-folded", "plain"),
    ("`-proto`", "-proto", "plain"),
    ("`-comments`, with four labels a sample", "-comments", "labels"),
    ("`-tags`, with four labels a sample", "-tags", "labels"),
    ("`-comments` of 16 files of 10,000 samples", "-comments", "parts"),
    ("`-top` of these", "-top", "parts"),
    ("`-comments` of 1,000,000 small samples", "-comments", "small"),
    ("`-top` of these", "-top", "small"),
    ("`-comments` of 1,000,000 samples, of which 4,000 differ", "-comments", "equal"),
]
# The reports that Go's pprof has too, with the kind of the file.
BESIDE = [("-top", "plain"), ("-tree", "plain"), ("-traces", "plain"), ("-peek=Method1234$", "plain"), ("-top", "small"), ("-top", "equal")]


def stacks(rng, samples):
    """Stacks of places, leaf first. The place P is in the function P % FUNCTIONS."""
    trunks = [[rng.randrange(FUNCTIONS * 2) for _ in range(36)] for _ in range(max(1, samples // 60))]
    for _ in range(samples):
        stack = rng.choice(trunks)[: rng.randrange(20, 35)]
        for _ in range(rng.randrange(0, 6)):
            stack[rng.randrange(len(stack))] = rng.randrange(FUNCTIONS * 2)
        yield stack


def write_profile(path, samples, seed=1, labels=False, equal=False):
    rng = random.Random(seed)
    ids = [varint(place + 1) for place in range(FUNCTIONS * 2)]
    names = [f"pkg{i % 97}.(*Type{i % 401}).Method{i}" for i in range(FUNCTIONS)]
    files = [f"/src/pkg{i % 97}/file{i % 211}.go" for i in range(FUNCTIONS)]
    few = [[rng.randrange(FUNCTIONS)] for _ in range(4000)]
    drawn = (rng.choice(few) for _ in range(samples)) if equal else stacks(rng, samples)
    with open(path, "wb") as out:
        out.write(payload(1, message({1: 1, 2: 2})) + payload(1, message({1: 3, 2: 4})))
        out.write(payload(3, message({1: 1, 2: 0x400000, 3: 0x2400000, 5: 5, 7: 1})))
        for number, stack in enumerate(drawn):
            count = rng.randrange(1, 9)
            body = payload(1, b"".join([ids[place] for place in stack])) + packed(2, [count, count * NANOSECONDS])
            if labels:
                body += payload(3, message({1: 6, 2: 8 + number % 3})) + payload(3, message({1: 11, 3: number + 1}))
                body += payload(3, message({1: 7, 3: 1 << number % 20})) + payload(3, message({1: 5, 2: 5}))
            out.write(payload(2, body))
        for place in range(FUNCTIONS * 2):
            line = message({1: place % FUNCTIONS + 1, 2: 10 + place // FUNCTIONS})
            out.write(payload(4, message({1: place + 1, 2: 1, 3: 0x400000 + 64 * place}) + payload(4, line)))
        for i in range(FUNCTIONS):
            name = len(TEXTS) + i
            out.write(payload(5, message({1: i + 1, 2: name, 3: name, 4: name + FUNCTIONS, 5: 1})))
        out.write(b"".join(payload(6, text.encode()) for text in TEXTS + names + files))
        out.write(message({9: 1_700_000_000 * 10**9, 10: 60 * 10**9}) + payload(11, message({1: 3, 2: 4})))
        out.write(message({12: NANOSECONDS}))


@dataclasses.dataclass
class Figures:
    """The least times in seconds, and the largest memory in megabytes."""

    processor: float = float("inf")
    clock: float = float("inf")
    memory: float = 0


def measure(words, figures):
    begun = time.monotonic()
    child = subprocess.Popen(words, stdin=subprocess.DEVNULL, stdout=subprocess.DEVNULL, stderr=subprocess.PIPE)
    said = child.stderr.read()
    _, status, used = os.wait4(child.pid, 0)
    clock = time.monotonic() - begun
    if status:
        sys.exit(f"speed.py: {' '.join(words)}: status {os.waitstatus_to_exitcode(status)}: {said.decode(errors='replace')}")
    figures.processor = min(figures.processor, used.ru_utime + used.ru_stime)
    figures.clock = min(figures.clock, clock)
    figures.memory = max(figures.memory, used.ru_maxrss / 1024)


def profiles(program, folder, kinds):
    """The files of each of these kinds. The program itself makes the small samples, all of which differ."""
    made = {}
    for kind in kinds:
        made[kind] = [str(folder / f"{kind}{part}.pb") for part in range(16 if kind == "parts" else 1)]
        if kind == "small":
            pathlib.Path(made[kind][0]).write_bytes(subprocess.check_output([program, "-proto", "-gen=1000000"]))
            continue
        for part, path in enumerate(made[kind]):
            samples = {"parts": 10_000, "equal": 1_000_000}.get(kind, 200_000)
            write_profile(path, samples, seed=part + 1, labels=kind == "labels", equal=kind == "equal")
    return made


def measure_beside(program, other, files, runs):
    """Prints a table of both programs' figures. Their runs take turns, since other work on the machine slows both."""
    print("\n| Report | Processor, here | Go's pprof | Times | Clock, here | Go's pprof | Memory, here | Go's pprof |")
    print("|---|---|---|---|---|---|---|---|")
    for words, kind in BESIDE:
        ours, theirs = Figures(), Figures()
        for _ in range(runs):
            measure([program, words, "-workers=1", *files[kind]], ours)
            measure([other, "-symbolize=none", words, *files[kind]], theirs)
        print(f"| `{words}`, {kind} | {ours.processor:.2f} | {theirs.processor:.1f} | {theirs.processor / ours.processor:.0f}", end="")
        print(f" | {ours.clock:.2f} | {theirs.clock:.1f} | {ours.memory:.0f} MB | {theirs.memory:.0f} MB |", flush=True)


def main():
    parser = argparse.ArgumentParser(description=__doc__, formatter_class=argparse.RawDescriptionHelpFormatter)
    parser.add_argument("program")
    parser.add_argument("--runs", type=int, default=4)
    parser.add_argument("--rounds", type=int, default=2)
    parser.add_argument("--only", default="", help="cases whose words begin so")
    parser.add_argument("--beside", help="Go's pprof, as `go env GOTOOLDIR` has it")
    given = parser.parse_args()
    program = str(pathlib.Path(given.program).resolve())
    cases = [case for case in CASES if case[1].startswith(given.only) or case[1] == "-comments"]
    with tempfile.TemporaryDirectory() as place:
        wanted = BESIDE if given.beside else [case[1:] for case in cases]
        files = profiles(program, pathlib.Path(place), {kind for _, kind in wanted})
        if given.beside:
            measure_beside(program, given.beside, files, given.runs)
            return
        one, four = [Figures() for _ in cases], [Figures() for _ in cases]
        for _ in range(given.rounds):
            for number, (_, words, kind) in enumerate(cases):
                for _ in range(given.runs):
                    measure([program, *words.split(), "-workers=1", *files[kind]], one[number])
                    measure([program, *words.split(), *files[kind]], four[number])
        print("| Case | One worker | Ratio | Memory | Four workers | Of the clock | Memory |\n|---|---|---|---|---|---|---|")
        loads = {kind: one[number].processor for number, (_, words, kind) in enumerate(cases) if words == "-comments"}
        for number, (title, _, kind) in enumerate(cases):
            a, b = one[number], four[number]
            print(f"| {title} | {a.processor:.2f} | {a.processor / loads[kind]:.2f} | {a.memory:.0f} MB", end="")
            print(f" | {b.processor:.2f} | {b.clock:.2f} | {b.memory:.0f} MB |")


if __name__ == "__main__":
    main()
