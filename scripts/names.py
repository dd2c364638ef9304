#!/usr/bin/env python3
"""Checks what the documents, the edits and the transcripts say against the repository, without running the program.

It finds links and anchors that lead nowhere; files and names in backticks that are not in the repository; functions that a
table places in another file; crates whose row differs from crates.txt; clauses that their crate does not have; names that
a file takes from a module in which they do not stand, or from a module that its crate keeps to itself; edits whose text does not stand once in its file; transcripts that are
not run, or whose stored counts are wrong; and counts in the documents that are not those of the repository.

The status is 1 where something is wrong, else 0.
"""

import functools
import os
import pathlib
import re
import sys

from transcripts import sessions_of

ROOT = pathlib.Path(__file__).resolve().parent.parent
CRATES = ROOT / "crates"
SESSIONS = CRATES / "pp_sessions"
# Names that stand nowhere in the sources: of gperftools, of the toolchain's libraries, and one that stands for any flag.
FOREIGN = {"HEAPPROFILE", "thread::for_each_mut", "FLAG"}
# Words in capitals in a path stand for any name.
PLACES = re.compile(r"[A-Z]{4,}")
MOST_EDITS = 12


@functools.cache
def documents():
    return [*sorted(ROOT.glob("*.md")), *sorted((ROOT / "docs").glob("*.md"))]


def prose(path):
    """A document without its blocks."""
    return re.sub(r"```.*?```", "", path.read_text(), flags=re.S)


@functools.cache
def files():
    """All files but what is built, by their paths from the top."""
    found = []
    for folder, below, own in os.walk(ROOT):
        below[:] = [name for name in below if name not in (".git", "out")]
        found += [os.path.relpath(os.path.join(folder, name), ROOT) for name in own]
    return found


@functools.cache
def words():
    """All words of code, scripts and data."""
    found = set()
    for path in files():
        is_code = path.endswith((".rt", ".antt", ".py", ".c", ".edit", ".1", "crates.txt")) or path in ("pprof", "scripts/install")
        if is_code or path.startswith("crates/pp_sessions/data/") and path.endswith(".txt"):
            found |= set(re.findall(r"[A-Za-z_]\w*", (ROOT / path).read_text(errors="replace")))
    return found


@functools.cache
def words_of(crate):
    found = set()
    for path in files():
        if path.startswith(f"crates/{crate}/") and path.endswith((".rt", ".antt")) and "/must-fail/" not in path:
            found |= set(re.findall(r"\w+", (ROOT / path).read_text()))
    return found


def anchor(heading):
    return re.sub(r"[^\w\- ]", "", heading.strip().lower()).replace(" ", "-")


@functools.cache
def anchors(path):
    return {anchor(heading) for heading in re.findall(r"^#+ (.*)$", prose(path), re.M)}


def links():
    """Each link, with what is wrong with it."""
    for path in documents():
        for link in re.findall(r"\[[^\]]*\]\(([^)]*)\)", prose(path)):
            if link.startswith("http"):
                continue
            to, _, at = link.partition("#")
            target = (path.parent / to).resolve() if to else path
            is_there = target.exists() and (not at or at in anchors(target))
            yield None if is_there else f"{path.name}: no {link}"


def names():
    """Each file and name in backticks, with what is wrong with it."""
    for path in documents():
        text = prose(path)
        # The first column of this table has the names of another package.
        text = re.sub(r"^## Names of Go's package\n.*?(?=^## |\Z)", "", text, flags=re.S | re.M)
        for name in re.findall(r"`([^`\n]+)`", text):
            if re.fullmatch(r"[\w./-]+\.(rt|antt|py|txt|md|edit|bash)|scripts/\w+\.c", name):
                is_there = PLACES.search(name) or any(file.endswith(name) for file in files())
            elif re.fullmatch(r"[A-Za-z_]\w*(::[A-Za-z_]\w*)*", name):
                is_there = name in FOREIGN or all(part in words() for part in name.split("::"))
            else:
                continue
            yield None if is_there else f"{path.name}: no {name}"


def has_function(crate, file, name):
    path = CRATES / crate / "src" / file
    return path.exists() and re.search(rf"\b(fn|const|static) {name}\b", path.read_text())


def places():
    """Each function that a row of a table places in a file, with what is wrong with it."""
    for path in (ROOT / "docs" / "speed.md", ROOT / "docs" / "ARCHITECTURE.md"):
        for row in path.read_text().splitlines():
            found = re.findall(r"`(?:(pp_\w+)/src/)?(\w+\.rt)`", row)
            if not row.startswith("|") or not found or not found[0][0]:
                continue
            # A file without a crate is of the crate before it.
            crates = [crate for crate, _ in found]
            listed = [(next(c for c in reversed(crates[: i + 1]) if c), file) for i, (_, file) in enumerate(found)]
            for name in re.findall(r"`((?:\w+::)?[a-z]\w+)`", row):
                name = name.split("::")[-1]
                # What no file of these crates names is no function: a value or an option.
                if name.startswith("pp_") or not any(has_function(c, f.name, name) for c, _ in listed for f in (CRATES / c / "src").glob("*.rt")):
                    continue
                is_there = any(has_function(crate, file, name) for crate, file in listed)
                yield None if is_there else f"{path.name}: {name} is not in {listed}"


def crate_rows():
    """Each crate, with what is wrong with its row."""
    below = {}
    for line in (ROOT / "crates.txt").read_text().splitlines():
        if line and line[0].isalpha():
            head, _, rest = line.partition(":")
            below[head.split()[0]] = set(rest.split())
    rows = dict(re.findall(r"^\| `(\w+)` \| .* \| ([^|]*) \|$", (ROOT / "docs" / "ARCHITECTURE.md").read_text(), re.M))
    order = [name for name in rows if name in below]
    for crate, names_below in below.items():
        if crate not in rows:
            yield f"ARCHITECTURE.md: no row of {crate}"
            continue
        told = set(re.findall(r"`(\w+)`", rows[crate]))
        covered, to_do = set(told), list(told)
        while to_do:
            new = below.get(to_do.pop(), set()) - covered
            covered |= new
            to_do += new
        late = [name for name in names_below if name in below and order.index(name) > order.index(crate)]
        unused = [name for name in names_below if name not in words_of(crate)]
        wrong = told - names_below or names_below - covered or late or unused
        yield f"{crate}: told {sorted(told)}, in crates.txt {sorted(names_below)}, late {late}, unused {unused}" if wrong else None


def clauses():
    """Each name that a row of PROVED.md gives of a crate, with what is wrong with it."""
    # A row without a crate is of the crates of the row before it.
    crates = ["pp_engine"]
    for row in re.findall(r"^\| *(.*) \|$", (ROOT / "docs" / "PROVED.md").read_text(), re.M):
        crates = [name for name in re.findall(r"`(pp_\w+)`", row.split("|")[0]) if (CRATES / name).is_dir()] or crates
        known = set().union(*map(words_of, crates))
        for name in re.findall(r"`([^`]+)`", row):
            for part in name.split("::"):
                if re.fullmatch(r"\w+", part) and not part.startswith("pp_"):
                    yield None if part in known else f"PROVED.md: {crates} has no {name}"


IMPORT = re.compile(r"^\s*(?:ghost |pub )*use Rattle\.(\w+)\.(specs|proofs)\.([\w.]+)\.\{([^}]*)\}", re.M)
PASSED_ON = re.compile(r"^pub use Rattle\.(\w+)\.(specs|proofs)\.([\w.]+)(?:\.\*)?$", re.M)


@functools.cache
def exported(crate, folder, module):
    """The words of a module of definitions or lemmas, with those that it passes on; None where no file is that module."""
    path = (CRATES / crate / folder).joinpath(*module.split(".")).with_suffix(".antt")
    if folder == "specs" and module.startswith("declared."):
        return words_of(crate)
    if not path.exists():
        return None
    text = path.read_text()
    return set(re.findall(r"\w+", text)).union(*(exported(*it) or set() for it in PASSED_ON.findall(text)))


@functools.cache
def is_open(crate, folder, module):
    """Whether other crates may name the module."""
    first = module.split(".")[0]
    lib = CRATES / crate / folder / "Lib.antt"
    return first == "declared" or lib.exists() and re.search(rf"^pub mod {first}$", lib.read_text(), re.M) is not None


def imports():
    """Each name that a file takes from a module of this repository, with what is wrong with it."""
    for path in sorted([*CRATES.glob("*/src/**/*.rt"), *CRATES.glob("*/[sp]*/**/*.antt")]):
        for crate, folder, module, names_taken in IMPORT.findall(path.read_text()):
            if not (CRATES / crate).is_dir() or exported(crate, folder, module) is None:
                continue
            if path.relative_to(CRATES).parts[0] != crate and not is_open(crate, folder, module):
                yield f"{path.relative_to(CRATES)}: {crate}.{folder}.{module} is closed to other crates"
            for name in re.findall(r"(?<![\w◌])(\w+)(?: as \S+)?(?=\s*(?:,|$))", names_taken.strip()):
                is_there = name in exported(crate, folder, module)
                yield None if is_there else f"{path.relative_to(CRATES)}: {crate}.{folder}.{module} has no {name}"


def edits():
    """Each edit, with what is wrong with it."""
    for path in sorted(CRATES.glob("*/must-fail/*")):
        texts, file, old, wrong = {}, None, None, None
        for line in path.read_text().splitlines():
            tag, _, rest = line.partition(": ")
            if tag == "file":
                file = path.parent.parent / rest
            elif tag == "old":
                old = rest
            elif tag == "new" and file and file.exists():
                text = texts.setdefault(file, file.read_text())
                if text.count(old) != 1:
                    wrong = f"{path.relative_to(CRATES)}: {text.count(old)} times {old}"
                texts[file] = text.replace(old, rest, 1)
            elif line.strip():
                wrong = f"{path.relative_to(CRATES)}: {line}"
        yield wrong or (f"{path.relative_to(CRATES)}: no .edit" if path.suffix != ".edit" else None)
    for crate in sorted(CRATES.glob("*/must-fail")):
        if len(list(crate.iterdir())) > MOST_EDITS:
            yield f"{crate.parent.name}: more than {MOST_EDITS} edits"


def faults_of(path):
    """The runs with faults of a file of transcripts: trials, and those in which a call fails."""
    trials = failing = 0
    for session in re.split(r"\n\n+", path.read_text()):
        runs = len(re.findall(r"^\$ ", session, re.M)) * (sum(len(it.split()) for it in re.findall(r"^workers (.*)$", session, re.M)) or 1)
        for count in map(int, re.findall(r"^faults \S+ (\d+)$", session, re.M)):
            trials += runs * (count + 1)
            failing += runs * count
    return trials, failing


@functools.cache
def counted():
    """The runs of each file of transcripts."""
    paths = sorted((SESSIONS / "data").glob("*.txt"))
    return {path.name: sum(len(it.runs()) for it in sessions_of(path)) + faults_of(path)[0] for path in paths}


def transcripts():
    """Each file of transcripts and each profile, with what is wrong with it."""
    stored = dict(re.findall(r"^(\S+): (\d+) ", (SESSIONS / "stdout").read_text(), re.M))
    if (SESSIONS / "args").read_text().split() != list(counted()):
        yield "args of pp_sessions: not the files of transcripts"
    for name, count in counted().items():
        yield None if stored.get(name) == str(count) else f"{name}: {count} runs, stored {stored.get(name)}"
    texts = "".join(path.read_text() for path in (SESSIONS / "data").glob("*.txt"))
    for path in sorted((SESSIONS / "data" / "fixtures").iterdir()):
        is_used = f"=fixtures/{path.name}" in texts or path.suffix == ".txt"
        yield None if is_used else f"{path.name}: no transcript reads it"


def numbers():
    """Each count that documents tell, with what is wrong with it."""
    runs = sum(counted().values())
    models = sum(count for name, count in counted().items() if name.startswith("model-"))
    faults = [faults_of(path) for path in (SESSIONS / "data").glob("*.txt")]
    trials, failing = (sum(column) for column in zip(*faults))
    laws = len(re.findall(r"^pub fn ", "".join(path.read_text() for path in (CRATES / "pp_laws" / "src").glob("*.rt")), re.M))
    owed = {
        "README.md": [(r"runs ([\d,]+) of them from transcripts, ([\d,]+) by", (runs, models))],
        "docs/PROVED.md": [
            (r"There are ([\d,]+) runs,\s+and ([\d,]+) of them", (runs, models)),
            (r"([\d,]+) are trials of faults, and\s+([\d,]+) of these", (trials, failing)),
            (r"`pp_laws` \| the figures \| (\w+) calls", (laws,)),
        ],
    }
    spelled = dict(enumerate("ten eleven twelve thirteen fourteen fifteen sixteen seventeen eighteen nineteen twenty".split(), 10))
    for path, patterns in owed.items():
        for pattern, counts in patterns:
            found = re.search(pattern, (ROOT / path).read_text())
            for told, count in zip(found.groups() if found else (None,) * len(counts), counts):
                is_right = told is not None and told in (f"{count:,}", spelled.get(count))
                yield None if is_right else f"{path}: {told} in place of {count} where {pattern}"


CHECKS = (links, names, places, crate_rows, clauses, imports, edits, transcripts, numbers)


def main():
    counts, wrong = [], 0
    for check in CHECKS:
        found = list(check())
        counts.append(f"{len(found)} {check.__name__}")
        for finding in filter(None, found):
            wrong += 1
            print(f"{check.__name__}: {finding}")
    print(f"{', '.join(counts)}; {wrong} wrong")
    return 1 if wrong else 0


if __name__ == "__main__":
    sys.exit(main())
