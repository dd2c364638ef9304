"""What scripts/install puts below a folder and removes again, with a builder that only pretends."""

import shutil

import launcher
from running import ROOT, run

FILES = """bin/pprof
bin/pprof-merge
share/man/man1/pprof.1
share/bash-completion/completions/pprof
share/zsh/site-functions/_pprof
share/fish/vendor_completions.d/pprof.fish
share/pprof/pprof.words""".split()


class Tree(launcher.Tree):
    """The launcher's tree with what is installed beside the program."""

    def __init__(self, place, name="tree"):
        super().__init__(place, name)
        for folder in ("completions", "samples"):
            shutil.copytree(ROOT / folder, self.root / folder)
        for file in ("docs/pprof.1", "scripts/install", "scripts/merge-many"):
            (self.root / file).parent.mkdir(exist_ok=True)
            shutil.copy(ROOT / file, self.root / file)

    def install(self, *words, before=()):
        """Both outputs by lines, and the status."""
        command = [*before, str(self.root / "scripts/install")]
        out, err, status = run(command, list(words), self.root.parent, env=self.environment())
        return out.decode().splitlines(), err.decode().splitlines(), status

    def installed(self, prefix):
        """The files below a folder."""
        folder = self.root.parent / prefix
        return sorted(str(path.relative_to(folder)) for path in folder.rglob("*") if path.is_file())


def words(tree):
    usage, _, status = tree.install("--help")
    yield "--help", (usage[0].split()[:3], status), (["usage:", "scripts/install", "PREFIX"], 0)
    for given in ((), ("",), ("-r",), ("--prefix=p",), ("--uninstall",), ("p", "q"), ("--help", "p"), ("-x", "p")):
        yield f"the words {given}", tree.install(*given), ([], usage, 2)
    yield "builds for wrong words", (tree.builds(), tree.installed(".")[:0]), (0, [])


def prefixes(tree):
    place = tree.root.parent
    for prefix in ("p", "p/", "a folder/with 'q'", str(place / "whole") + "/"):
        whole = str(place / prefix).rstrip("/")
        out, _, status = tree.install(prefix)
        yield f"what {prefix} says", (out[:7], status), ([f"{whole}/{file}" for file in FILES], 0)
        yield f"what {prefix} has", tree.installed(prefix), sorted(FILES)
        advice = out[7:]
        yield f"what {prefix} advises", (len(advice), advice[0]), (3, f"put {whole}/bin on PATH to call it by its name")
        yield "its words for zsh", "fpath=(" in advice[1] and "/share/zsh/site-functions" in advice[1], True
    yield "builds for four prefixes", tree.builds(), 1


def refused(tree):
    tree.root.parent.chmod(0o755)
    (tree.root.parent / "file").touch()
    yield "a prefix below a file", tree.install("file/p"), ([], ["scripts/install: file/p can't be made"], 1)
    (tree.root.parent / "closed").mkdir(0o555)
    yield "a prefix without rights", tree.install("closed", before=launcher.AS_NOBODY), (
        [],
        [f"scripts/install: {tree.root.parent}/closed can't be written"],
        1,
    )
    yield "builds for these", tree.builds(), 0
    tree.path("broken").touch()
    out, err, status = tree.install("p")
    yield "a build that fails", (out, err[-1], status), ([], launcher.COULD_NOT, 70)


def removed(tree):
    folder = tree.root.parent / "p"
    (folder / "share/man/man1").mkdir(parents=True)
    (folder / "share/man/man1/other.1").touch()
    yield "nothing to remove", tree.install("--uninstall", "p"), (
        [],
        [f"scripts/install: pprof is not installed below {folder}"],
        1,
    )
    yield "no folder", tree.install("--uninstall", "q")[2], 1
    tree.install("p")
    out, err, status = tree.install("--uninstall", "p/")
    yield "what is removed", (out, err, status), ([f"{folder}/{file} is removed" for file in FILES], [], 0)
    left = sorted(str(path.relative_to(folder)) for path in folder.rglob("*"))
    yield "what stays", left, ["share", "share/man", "share/man/man1", "share/man/man1/other.1"]


CHECKS = (words, prefixes, refused, removed)
