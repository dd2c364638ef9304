#!/usr/bin/env python3
"""Tries the package for Debian that scripts/make-deb makes of a built program.

usage: packing.py PROGRAM

The package is made twice and looked at, also by lintian, where that is there. Then dpkg installs it in a system of its
own, below a folder for temporary files, and takes it away again. Each check that differs is printed; the last line counts.
The status is 1 where any differs, else 0.
"""

import os
import pathlib
import shutil
import subprocess
import sys
import tempfile

from running import ROOT, run

FILES = """usr/bin/pprof usr/bin/pprof-merge usr/share/man/man1/pprof.1.gz usr/share/bash-completion/completions/pprof
usr/share/zsh/vendor-completions/_pprof usr/share/fish/vendor_completions.d/pprof.fish usr/share/pprof/pprof.words
usr/share/doc/pprof/README.md usr/share/doc/pprof/CONTRIBUTING.md usr/share/doc/pprof/CHANGELOG.md
usr/share/doc/pprof/copyright usr/share/doc/pprof/changelog.Debian.gz""".split()
PROFILE = "usr/share/doc/pprof/samples/go-cpu.pb"
# A time and a maintainer of its own, so that no commit is asked for.
GIVEN = {**os.environ, "SOURCE_DATE_EPOCH": "1700000000", "MAINTAINER": "A Packer <packer@example.org>"}


def owed_files():
    copied = [f"usr/share/doc/pprof/docs/{path.name}" for path in ROOT.glob("docs/*.md")]
    return sorted(FILES + copied + [f"usr/share/doc/pprof/samples/{path.name}" for path in ROOT.glob("samples/*")])


def make_deb(place, *words):
    """What it prints on either output, by lines, and its status."""
    out, err, status = run([str(ROOT / "scripts/make-deb")], list(words), place, env=GIVEN)
    return out.decode().splitlines(), err.decode().splitlines(), status


def files_under(folder):
    return sorted(str(path.relative_to(folder)) for path in folder.rglob("*") if path.is_file())


def words(place, _program):
    usage, _, status = make_deb(place, "--help")
    yield "--help", (usage[0], status), ("usage: scripts/make-deb FOLDER [PROGRAM]", 0)
    for given in ((), ("",), ("-x",), ("-x", "p"), ("a", "b", "c")):
        yield f"the words {given}", make_deb(place, *given), ([], usage, 2)


def contents(place, program):
    version = subprocess.check_output([program, "--version"], text=True).split()[1]
    name = f"pprof_{version}-1_{subprocess.check_output(['dpkg', '--print-architecture'], text=True).strip()}.deb"
    yield "what it prints", make_deb(place, "one", program), ([f"one/{name}"], [], 0)
    make_deb(place, "two/below", program)
    made = [(place / folder / name).read_bytes() for folder in ("one", "two/below")]
    yield "two packages of one program", made[0] == made[1], True
    fields = subprocess.check_output(["dpkg-deb", "-f", place / "one" / name], text=True)
    owed = {f"Version: {version}-1", "Package: pprof", f"Maintainer: {GIVEN['MAINTAINER']}"}
    yield "fields that are not there", owed - set(fields.splitlines()), set()
    subprocess.run(["dpkg-deb", "-R", place / "one" / name, place / "apart"], check=True)
    found = files_under(place / "apart")
    yield "its files", [file for file in found if not file.startswith("DEBIAN")], owed_files()
    summed = (place / "apart/DEBIAN/md5sums").read_text()
    yield "sums of files", sorted(line.split("  ")[1] for line in summed.splitlines()), owed_files()
    left = run(["md5sum", "--quiet", "-c", "DEBIAN/md5sums"], [], place / "apart")
    yield "files that differ from their sums", left, (b"", b"", 0)
    if shutil.which("lintian"):
        yield "the status of lintian", run(["lintian", "--fail-on", "error"], [str(place / "one" / name)], place)[2], 0


def installed(place, program):
    """On a system of its own, whose only package it is."""
    (package,), _, _ = make_deb(place, ".", program)
    system = place / "system"
    for folder in ("info", "updates", "triggers"):
        (system / "var/lib/dpkg" / folder).mkdir(parents=True)
    (system / "var/lib/dpkg/status").touch()
    (system / "var/lib/dpkg/available").touch()
    dpkg = ["dpkg", f"--root={system}", "--force-not-root", "--force-depends", f"--log={place}/log"]
    yield "the status of an installation", run(dpkg, ["-i", package], place)[2], 0
    there = [file for file in files_under(system) if file.startswith("usr")]
    yield "what is installed", there, owed_files()
    ran = run([str(system / "usr/bin/pprof")], ["-top", PROFILE], system)
    yield "a report by the installed program", ran, run([program], ["-top", str(system / PROFILE)], place)
    yield "its status", ran[2], 0
    merged = run([str(system / "usr/bin/pprof-merge")], ["--help"], place)
    yield "the help of pprof-merge", (merged[0][:6], merged[2]), (b"usage:", 0)
    yield "the status of a removal", run(dpkg, ["-P", "pprof"], place)[2], 0
    yield "what stays", [file for file in files_under(system) if not file.startswith("var")], []


def main():
    if len(sys.argv) != 2:
        sys.exit(__doc__)
    program = os.path.abspath(sys.argv[1])
    count = differ = 0
    for check in (words, contents, installed):
        with tempfile.TemporaryDirectory(prefix="package") as place:
            for title, left, owed in check(pathlib.Path(place), program):
                count += 1
                if left != owed:
                    differ += 1
                    print(f"{title} is\n    {left!r:.1500}\n  owed is\n    {owed!r:.1500}")
    print(f"{count} checks of the package, {differ} differ")
    sys.exit(1 if differ else 0)


if __name__ == "__main__":
    main()
