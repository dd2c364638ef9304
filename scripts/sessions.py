#!/usr/bin/env python3
"""Runs sessions on the built program, and compares every byte that they leave.

First the transcripts, in the form that docs/transcripts.md tells: those of crates/pp_sessions/data, or the files that
are named. Each session runs in a folder of its own, over real files and pipes. Both outputs, the status, and all files
of that folder are compared with what the session owes. A session that only objects in memory can have is left out and
counted; of one with `faults` the run without a fault is compared.

Then what no transcript can say: words of any length, a fifo, folders, full devices, closed pipes, missing rights.

The status is 1 where something differs, else 0.
"""

import argparse
import functools
import multiprocessing
import os
import pathlib
import sys
import tempfile
import time

import installing
import launcher
import machine
from running import DATA, SHOWN, run
from transcripts import sessions_of, spelled

# What is done side by side: each a function and what it is given.
JOBS = []


def make_files(place, session):
    for path, content in session.files.items():
        target = os.path.join(place, path)
        os.makedirs(os.path.dirname(target), exist_ok=True)
        pathlib.Path(os.fsdecode(target)).write_bytes(content)
    # A folder can't be created as a file.
    for path in session.locked:
        os.makedirs(os.path.join(place, path), exist_ok=True)


def files_under(place):
    found = {}
    for folder, _, names in os.walk(place):
        for name in names:
            path = os.path.join(folder, name)
            found[os.path.relpath(path, place)] = pathlib.Path(os.fsdecode(path)).read_bytes()
    return found


def differences(left, owed):
    """A text for each of the outputs, the status and the files that differs."""
    named = list(zip(("standard output", "standard error", "status"), left, owed))
    for path in sorted(set(left[3]) | set(owed[3])):
        named.append((f"file {os.fsdecode(path)!r}", left[3].get(path), owed[3].get(path)))
    return [
        f"{name} is\n{shown(found)}\n  owed is\n{shown(due)}"
        for name, found, due in named
        if found != due
    ]


def shown(content):
    if not isinstance(content, bytes):
        return f"    {content}"
    lines = [f"    {spelled(line)}" for line in content[:SHOWN].split(b"\n")]
    return "\n".join(lines + ["    .."] * (len(content) > SHOWN))


def findings_of(program, session):
    """The differences of each run of the session."""
    findings = []
    for words in session.runs():
        with tempfile.TemporaryDirectory(prefix="session") as place:
            place = os.fsencode(place)
            make_files(place, session)
            left = run([program], words, place, session.texts[ord("<")])
            findings += [
                f"  {spelled(b' '.join(words))[:200]}: {difference}"
                for difference in differences(left + (files_under(place),), session.owed())
            ]
    return findings


def try_session(program, session):
    """Whether the session ran, and its differences. One that only objects in memory can have is left out."""
    is_possible = not session.is_for_memory()
    return is_possible, findings_of(program, session) if is_possible else []


def try_check(check, make):
    """How many things the check looked at, and a text for each that differs."""
    with tempfile.TemporaryDirectory(prefix="machine") as place:
        found = list(check(make(place)))
    findings = [
        f"{title} is\n    {left!r:.{SHOWN}}\n  owed is\n    {owed!r:.{SHOWN}}" for title, left, owed in found if left != owed
    ]
    return len(found), findings


def done(number):
    function, *given = JOBS[number]
    return function(*given)


def run_transcripts(name, sessions, found):
    """Prints a line for the file, and each difference. Gives how many sessions ran, and how many differ."""
    tried = [next(found) for _ in sessions]
    ran, differ = sum(is_possible for is_possible, _ in tried), sum(bool(findings) for _, findings in tried)
    print(f"{name}: {ran} sessions, {differ} differ, {len(tried) - ran} left out", flush=True)
    for session, (_, findings) in zip(sessions, tried):
        if findings:
            print("\n".join([session.title] + findings), flush=True)
    return ran, differ


def run_checks(checks, found):
    """Prints what differs, and how many checks there are. Gives both numbers."""
    tried = [next(found) for _ in checks]
    count, findings = sum(it[0] for it in tried), sum((it[1] for it in tried), [])
    print("\n".join(findings + [f"{count} checks by code, {len(findings)} differ"]), flush=True)
    return count, len(findings)


def arguments():
    parser = argparse.ArgumentParser(
        description=__doc__, formatter_class=argparse.RawDescriptionHelpFormatter
    )
    parser.add_argument("program", help="the built program, as crates/pprof/out/pprof")
    parser.add_argument(
        "transcript", nargs="*", type=pathlib.Path, help="these files alone, and no other checks"
    )
    parser.add_argument(
        "--launcher", action="store_true", help="try ./pprof and scripts/install too, with a builder that only pretends"
    )
    parser.add_argument("--jobs", type=int, default=2, help="sessions side by side (2)")
    return parser.parse_args()


def main():
    given = arguments()
    program = os.path.abspath(given.program)
    begun = time.time()
    files = [(path.name, list(sessions_of(path))) for path in given.transcript or sorted(DATA.glob("*.txt"))]
    groups = []
    if given.launcher:
        groups += [[(try_check, check, kind.Tree) for check in kind.CHECKS] for kind in (launcher, installing)]
    if not given.transcript:
        groups.append([(try_check, check, functools.partial(machine.Machine, program)) for check in machine.CHECKS])
    # Checks take longest, and so come first.
    JOBS.extend(job for group in groups for job in group)
    JOBS.extend((try_session, program, session) for _, sessions in files for session in sessions)
    # Each process has the jobs from this one, by fork.
    with multiprocessing.get_context("fork").Pool(given.jobs) as pool:
        found = pool.imap(done, range(len(JOBS)))
        checked = [run_checks(group, found) for group in groups]
        ran = [run_transcripts(name, sessions, found) for name, sessions in files]
    sessions, checks, differ = (sum(it[0] for it in ran), sum(it[0] for it in checked), sum(it[1] for it in ran + checked))
    print(f"{sessions} sessions, {checks} checks by code; {differ} differ; {time.time() - begun:.1f} seconds")
    sys.exit(1 if differ else 0)


if __name__ == "__main__":
    main()
