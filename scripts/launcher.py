"""What ./pprof does before it runs the program, in a small tree and with a builder that only pretends."""

import fcntl
import os
import pathlib
import shutil
import signal
import subprocess
import threading
import time

from running import DATA, ROOT, SECONDS, run
from transcripts import sessions_of

# How long another call is held up.
HELD = 1.0
# The longest that something may take that comes at once.
PATIENCE = 120.0

# It runs in the copy that the launcher makes, and says what rt says of a proved crate. It tells the folder and the open
# files that it has, and with a file `held` it does not end.
BUILDER = """#!/bin/sh
if [ "$1" = version ]; then
    cat "$TREE/kit"
    exit
fi
echo build >>"$TREE/builds"
pwd >"$TREE/copy"
ls /proc/$$/fd >"$TREE/files"
echo $$ >"$TREE/builder"
while [ -e "$TREE/held" ]; do sleep 0.1; done
if [ -e "$TREE/broken" ]; then
    echo "error: $PWD/crates/pprof/src/main.rt:1"
    exit 1
fi
mkdir -p crates/pprof/out
cp "$TREE/program" crates/pprof/out/pprof
echo "logic=proved functions=7 sum=0"
echo "rt: pprof proved"
"""

PROGRAM = """#!/bin/sh
echo "$PWD: $*"
[ "$1" != -frob ] || exit 2
"""

# Says that there is room as ROOM_THERE has it, and beside the program as ROOM_HERE has it.
DISKS = """#!/bin/sh
case $3 in
    */out) room=$ROOM_HERE ;;
    *) room=$ROOM_THERE ;;
esac
echo "Filesystem 1024-blocks Used Available Capacity Mounted on"
echo "a disk 9000000 1 $room 10% /a folder"
"""

TOOLS = """awk basename cat cp date df dirname find getconf grep head ls mkdir mktemp mv readlink rm sed sh sha256sum sleep
sort tail tr wc xargs""".split()

COULD_NOT = "pprof: the program could not be built"
# Words before a command that run it as a user without rights, where that takes some.
AS_NOBODY = ["setpriv", "--reuid=65534", "--regid=65534", "--clear-groups", "--"] if os.geteuid() == 0 else []


class Tree:
    """The launcher with one source and a builder that copies a program."""

    def __init__(self, place, name="tree"):
        self.root = pathlib.Path(place).resolve() / name
        self.source = self.root / "crates" / "pprof" / "src" / "main.rt"
        self.source.parent.mkdir(parents=True)
        self.source.write_text("fn main() {}\n")
        for file in ("pprof", "HANDLES", "scripts/proof_seconds.txt"):
            (self.root / file).parent.mkdir(parents=True, exist_ok=True)
            shutil.copy(ROOT / file, self.root / file)
        shutil.copytree(ROOT / "crates/pp_options/src", self.root / "crates/pp_options/src")
        (self.root / "crates.txt").write_text("pprof:\n")
        (self.root / "kit").write_text("kit one\n")
        self.write_program(self.root / "bin" / "rt", BUILDER)
        self.write_program(self.root / "program", PROGRAM)
        self.out = self.root / "crates" / "pprof" / "out"
        self.program = self.out / "pprof"
        self.temporary = self.root.parent / "temporary"
        self.temporary.mkdir(exist_ok=True)

    def write_program(self, path, text):
        path.parent.mkdir(exist_ok=True)
        path.write_text(text)
        path.chmod(0o755)

    def environment(self, path=None, **more):
        own = {"TREE": str(self.root), "HOME": str(self.root), "TMPDIR": str(self.temporary)}
        return {**os.environ, **own, "PATH": path or f"{self.root / 'bin'}:{os.environ['PATH']}", **more}

    def call(self, *words, launcher=None, before=(), **how):
        """Standard output, the last line of standard error, and the status."""
        command = [*before, str(launcher or self.root / "pprof")]
        out, err, status = run(command, list(words), self.root.parent, env=self.environment(**how))
        lines = err.decode().splitlines()
        return out.decode(), lines[-1] if lines else "", status

    def begin(self):
        """A call whose build does not end. It is given once the builder is at work."""
        self.path("held").touch()
        command = [str(self.root / "pprof"), "-top", "p"]
        streams = {"stdout": subprocess.DEVNULL, "stderr": subprocess.DEVNULL}
        call = subprocess.Popen(command, cwd=self.root.parent, env=self.environment(), **streams)
        until(lambda: self.path("builder").exists() and self.path("builder").read_text().endswith("\n"))
        return call

    def path(self, name):
        return self.root / name

    def text(self, name):
        return self.path(name).read_text() if self.path(name).exists() else ""

    def builds(self):
        return len(self.text("builds").split())

    def is_built(self):
        """Whether the builder is still there."""
        return os.path.exists(f"/proc/{self.text('builder').strip()}")

    def copies(self):
        """What is left of copies."""
        found = [*self.temporary.glob("pprof-build.*"), *self.out.glob("pprof-build.*"), *self.out.glob("build.copy")]
        return [path.name for path in found]

    def printed(self, words):
        return f"{self.root.parent}: {words}\n"


def until(is_so):
    """Waits, and says whether it came to be so."""
    end = time.time() + PATIENCE
    while not is_so() and time.time() < end:
        time.sleep(0.05)
    return is_so()


def building(tree):
    out, err, status = tree.call("-top", "p")
    yield "the first call", (out, status, tree.builds()), (tree.printed("-top p"), 0, 1)
    yield "what was proved", err, "pprof: built; proved now: 7 functions in 1 crates"
    yield "what is left of the first call", tree.copies(), []
    out, err, status = tree.call("-frob")
    yield "the second call", (out, err, status, tree.builds()), (tree.printed("-frob"), "", 2, 1)


def current(tree):
    tree.call("-top", "p")
    os.utime(tree.source)
    os.utime(tree.program, (0, 0))
    tree.call("-top", "p")
    yield "a source of a later time", tree.builds(), 1
    tree.source.write_text("fn main() { }\n")
    os.utime(tree.source, (0, 0))
    tree.call("-top", "p")
    yield "a source that is another", tree.builds(), 2
    (tree.source.parent / "more.rt").touch()
    tree.call("-top", "p")
    yield "a source more", tree.builds(), 3
    tree.path("kit").write_text("kit two\n")
    tree.call("-top", "p")
    yield "another kit", tree.builds(), 4
    tree.write_program(tree.program, PROGRAM + "\n")
    tree.call("-top", "p")
    yield "another program", tree.builds(), 5
    tree.call("-top", "p")
    yield "nothing new", tree.builds(), 5
    out, err, status = tree.call("-top", "p", path="/usr/bin:/bin")
    yield "a program without a kit", (out, err, status), (tree.printed("-top p"), "", 0)


def broken(tree):
    tree.path("broken").touch()
    yield "a build that fails", tree.call("-top", "p"), ("", COULD_NOT, 70)
    yield "what is left of it", tree.copies(), []


def without_a_build(tree):
    yield "--version", tree.call("--version"), ("pprof 0.1.0\n", "", 0)
    help_text = next(sessions_of(DATA / "help.txt")).owed()[0].decode()
    for word in ("--help", "-help", "-h"):
        yield word, tree.call(word), (help_text, "", 0)
    yield "builds for help", tree.builds(), 0


def without_a_tool(tree):
    yield "no rt", tree.call("-top", "p", path="/usr/bin:/bin"), ("", COULD_NOT, 70)
    folder = tree.path("tools")
    folder.mkdir()
    for tool in TOOLS:
        (folder / tool).symlink_to(shutil.which(tool))
    (folder / "rt").symlink_to(tree.path("bin") / "rt")
    for tool in ("flock", "sha256sum"):
        (folder / tool).unlink(missing_ok=True)
        yield f"no {tool}", tree.call("-top", "p", path=str(folder)), (
            "",
            f"pprof: {tool} is not on PATH; README.md, Set-up, names what is needed",
            70,
        )
    yield "builds without a tool", tree.builds(), 0


def without_rights(tree):
    tree.root.parent.chmod(0o755)
    tree.program.parent.parent.chmod(0o555)
    yield "a folder that can't be made", tree.call("-top", "p", before=AS_NOBODY), (
        "",
        f"pprof: the folder {tree.out} can't be made",
        70,
    )
    tree.program.parent.parent.chmod(0o755)
    tree.out.mkdir()
    tree.out.chmod(0o555)
    yield "a folder that can't be written", tree.call("-top", "p", before=AS_NOBODY), (
        "",
        f"pprof: the folder {tree.out} can't be written",
        70,
    )
    tree.out.chmod(0o755)
    tree.call("-top", "p")
    tree.out.chmod(0o555)
    yield "a program that was built before", tree.call("-top", "p", before=AS_NOBODY), (tree.printed("-top p"), "", 0)
    tree.out.chmod(0o755)


def without_room(tree):
    tree.write_program(tree.path("bin") / "df", DISKS)
    yield "no room", tree.call("-top", "p", ROOM_THERE="2999999", ROOM_HERE="2999998"), (
        "",
        f"pprof: no room: a build takes 5 GB, and neither {tree.temporary} nor {tree.out} has 3;"
        " TMPDIR can name another folder",
        70,
    )
    for there, here, folder in (
        (5_000_000, 9_000_000, tree.temporary),
        (4_999_999, 9_000_000, tree.out),
        (4_999_999, 4_999_998, tree.temporary),
    ):
        tree.source.write_text(f"// {there} and {here}\n")
        out, _, status = tree.call("-top", "p", ROOM_THERE=str(there), ROOM_HERE=str(here))
        copied = pathlib.Path(tree.text("copy").strip()).parent
        yield f"room of {there} and {here}", (out, status, copied), (tree.printed("-top p"), 0, folder)
    yield "what is left where there is room", tree.copies(), []
    tree.source.write_text("// a disk that is full later\n")
    tree.write_program(tree.path("bin") / "cp", "#!/bin/sh\nexit 1\n")
    left = tree.call("-top", "p", ROOM_THERE="9000000", ROOM_HERE="9000000")
    yield "a copy that fails", (left, tree.copies()), (("", COULD_NOT, 70), [])


def odd_names(tree):
    odd = Tree(tree.root.parent / "odd", "a|b&c \\1 'd' \"e\"")
    out, _, status = odd.call("-top", "p")
    yield "an odd path", (out, status), (odd.printed("-top p"), 0)
    odd.source.write_text("fn\n")
    odd.path("broken").touch()
    command = [str(odd.root / "pprof"), "-top", "p"]
    _, err, status = run(command, [], odd.root.parent, env=odd.environment())
    lines = err.decode().splitlines()[-2:]
    yield "a build at an odd path that fails", (lines, status), ([f"error: {odd.source}:1", COULD_NOT], 70)


def ended(tree):
    for number, status in ((signal.SIGHUP, 129), (signal.SIGINT, 130), (signal.SIGTERM, 143)):
        call = tree.begin()
        call.send_signal(number)
        left = call.wait(SECONDS)
        yield f"a build that {number.name} ends", (left, tree.is_built(), tree.copies()), (status, False, [])
        tree.path("builder").unlink()
    call = tree.begin()
    call.kill()
    call.wait(SECONDS)
    yield "a call that is killed", until(lambda: not tree.is_built() and not tree.copies()), True
    tree.path("held").unlink()
    out, _, status = tree.call("-top", "p")
    yield "a call after these", (out, status), (tree.printed("-top p"), 0)


def left_behind(tree):
    tree.out.mkdir()
    for name, is_there in (("pprof-build.abcdef", False), ("other", True)):
        folder = tree.temporary / name
        (folder / "crates").mkdir(parents=True)
        (tree.out / "build.copy").write_text(f"{folder}\n")
        tree.source.write_text(f"// {name}\n")
        tree.call("-top", "p")
        yield f"a folder {name} of an earlier call", (folder.exists(), tree.copies()), (is_there, [])


def unfit(tree):
    tree.path("program").write_text("#!/no/such/shell\n")
    yield "a program that can't be run", tree.call("-top", "p"), ("", f"pprof: {tree.program} can't be run", 70)


def elsewhere(tree):
    alone = tree.root.parent / "alone"
    alone.mkdir()
    shutil.copy(tree.root / "pprof", alone / "pprof")
    yield "a launcher without sources", tree.call("-top", "p", launcher=alone / "pprof"), (
        "",
        f"pprof: {alone} holds no sources of pprof",
        70,
    )
    link = tree.root.parent / "link"
    link.symlink_to(tree.root / "pprof")
    out, _, status = tree.call("-top", "p", launcher=link)
    yield "a link to the launcher", (out, status), (tree.printed("-top p"), 0)


def release_later(lock):
    time.sleep(HELD)
    fcntl.flock(lock, fcntl.LOCK_UN)


def locked(tree):
    tree.program.parent.mkdir()
    with open(tree.out / "build.lock", "w") as lock:
        fcntl.flock(lock, fcntl.LOCK_EX)
        threading.Thread(target=release_later, args=(lock,)).start()
        begun = time.time()
        out, _, status = tree.call("-top", "p")
        waited = time.time() - begun >= HELD / 2
        yield "another call that builds", (out, status, waited), (tree.printed("-top p"), 0, True)
        fcntl.flock(lock, fcntl.LOCK_EX | fcntl.LOCK_NB)
        yield "the lock behind a build", "9" in tree.text("files").split(), False


CHECKS = (
    building,
    current,
    broken,
    without_a_build,
    without_a_tool,
    without_rights,
    without_room,
    odd_names,
    ended,
    left_behind,
    unfit,
    elsewhere,
    locked,
)
