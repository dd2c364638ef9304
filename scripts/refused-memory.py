#!/usr/bin/env python3
"""Lets each allocation of the built program fail, one a run, in sessions that are told as transcripts.

The sessions are those of the files that are named, else of crates/pp_sessions/data/memory.txt. Each run has to end as
its session owes, or with status 4 and its message. In the second case standard output, what standard error has before
the message, and each file that is written are fronts of what the session owes, and no other file has come.

It needs a C compiler (CC, or cc), glibc, and the built program. The status is 0 where every run ended so, else 1.
"""

import argparse
import collections
import concurrent.futures
import os
import pathlib
import subprocess
import sys
import tempfile
import time

from running import DATA, ROOT, run
from sessions import differences, files_under, make_files
from transcripts import sessions_of

MESSAGE = b"pprof: out of memory\n"
MEMORY = 4
# With several workers the count of allocations differs from run to run.
SLACK = 64

AS_OWED = "as with ample memory"
CUT_OFF = "out of memory"
NONE_FAILED = "none failed"


class Runner:
    """The program, in folders of its own, with one allocation that fails."""

    def __init__(self, program, folder):
        self.program = program
        self.folder = folder
        self.library = os.path.join(folder, "fail_alloc.so")
        compiler = os.environ.get("CC", "cc")
        source = ROOT / "scripts" / "fail_alloc.c"
        subprocess.run([compiler, "-O2", "-shared", "-fPIC", "-o", self.library, source], check=True)

    def run(self, session, words, number):
        """Both outputs, the status and the files, and the count of allocations. At 0 none fails."""
        with tempfile.TemporaryDirectory(dir=self.folder) as room:
            place = os.fsencode(os.path.join(room, "place"))
            count = pathlib.Path(room, "count")
            os.mkdir(place)
            make_files(place, session)
            left = run([self.program], words, place, session.texts[ord("<")], env=self.environment(number, count))
            made = int.from_bytes(count.read_bytes(), sys.byteorder)
            return left + (files_under(place),), made

    def environment(self, number, count):
        return {"LD_PRELOAD": self.library, "FAIL_ALLOC": str(number), "FAIL_ALLOC_COUNT": str(count)}


def is_cut_off(left, session):
    """Whether the run ended for want of memory, with fronts of what is owed."""
    out, err, status, files = left
    owed_out, owed_err, _, owed_files = session.owed()
    return (
        status == MEMORY
        and err.endswith(MESSAGE)
        and owed_out.startswith(out)
        and owed_err.startswith(err[: -len(MESSAGE)])
        and are_fronts(files, session.files, owed_files)
    )


def are_fronts(files, before, owed):
    """Whether each file holds what it held before, or a front of what is owed, and each that was there still is."""
    return before.keys() <= files.keys() and all(
        content == before.get(path) or owed.get(path, b"").startswith(content) and path in owed
        for path, content in files.items()
    )


def ending_of(left, made, number, session):
    """How a run ended in which the allocation of the number was to fail. None if not as it has to."""
    is_as_owed = left == session.owed()
    if made < number:
        return NONE_FAILED if is_as_owed else None
    if is_as_owed:
        return AS_OWED
    return CUT_OFF if is_cut_off(left, session) else None


def try_words(runner, session, words, pool, every):
    """Runs the words once for each allocation, or each so many. Gives the findings."""
    begun = time.time()
    left, count = runner.run(session, words, 0)
    if left != session.owed():
        return [f"{session.title}: with ample memory:"] + differences(left, session.owed())
    if count == 0:
        return [f"{session.title}: no allocation was seen: the program has an allocator of its own"]
    numbers = range(1, count + SLACK, every)
    runs = pool.map(lambda number: runner.run(session, words, number), numbers)
    endings = collections.Counter()
    findings = []
    for number, (left, made) in zip(numbers, runs):
        ending = ending_of(left, made, number, session)
        endings[ending] += 1
        if ending is None:
            findings += [f"{session.title}: {number} of {made} allocations:"] + differences(left, session.owed())
    tell(session.title, count, endings, time.time() - begun)
    if endings[CUT_OFF] == 0:
        findings.append(f"{session.title}: no run ended for want of memory")
    return findings


def tell(title, count, endings, seconds):
    print(
        f"{title}: {count} allocations; {endings[CUT_OFF]} runs {CUT_OFF}, {endings[AS_OWED]} {AS_OWED},"
        f" {endings[None]} otherwise; {seconds:.0f} s",
        flush=True,
    )


def try_file(runner, path, pool, every):
    """The findings of each run of a session of a transcript file that can be had over real files."""
    return [
        try_words(runner, session, words, pool, every)
        for session in sessions_of(path)
        if not session.is_for_memory()
        for words in session.runs()
    ]


def arguments():
    parser = argparse.ArgumentParser(
        description=__doc__, formatter_class=argparse.RawDescriptionHelpFormatter
    )
    parser.add_argument("transcript", nargs="*", type=pathlib.Path, default=[DATA / "memory.txt"])
    parser.add_argument("--program", default=ROOT / "crates" / "pprof" / "out" / "pprof")
    parser.add_argument("--jobs", type=int, default=2, help="runs side by side (2)")
    parser.add_argument("--every", type=int, default=1, metavar="N", help="only each Nth allocation fails (1)")
    return parser.parse_args()


def main():
    given = arguments()
    program = os.path.abspath(given.program)
    if not os.path.exists(program):
        sys.exit(f"{program} is not built: run ./pprof once")
    found = []
    with tempfile.TemporaryDirectory() as folder, concurrent.futures.ThreadPoolExecutor(given.jobs) as pool:
        runner = Runner(program, folder)
        for path in given.transcript:
            found += try_file(runner, path, pool, given.every)
    for finding in sum(found, []):
        print(finding)
    differ = sum(1 for findings in found if findings)
    print(f"{len(found)} sessions, {differ} differ")
    sys.exit(1 if differ else 0)


if __name__ == "__main__":
    main()
