#!/usr/bin/env python3
"""Tries scripts/merge-many, and the commands of docs/many.md, over profiles that scripts/fleet.py writes.

usage: many.py PROGRAM [PART..] [--large COUNT]

Each part says what it found. A part is skipped, with a word, where something that it needs is missing: GNU parallel,
make, Slurm, or sshd, ip and the right to make network namespaces. Nothing outside the machine is called. The part
`large` runs only with --large: COUNT profiles of 1.4 MB. The status is 0 where no part failed.
"""

import argparse
import contextlib
import os
import pathlib
import pty
import re
import shlex
import shutil
import signal
import subprocess
import sys
import tempfile
import time

ROOT = pathlib.Path(__file__).resolve().parent.parent
PAGE = ROOT / "docs" / "many.md"
# Typed into the shell, so that the sources are loaded once.
REPORTS = """nodecount=0
top
tree
peek Method1
table
folded
tags
path_tree
tree
sort=cum
top
granularity=lines
nodecount=20
top
"""
SECONDS = 600
INTERRUPTED = 130
UNREACHED = 255


class Skipped(Exception):
    pass


class Failed(Exception):
    pass


def owe(holds, message):
    if not holds:
        raise Failed(message)


def need(*programs):
    missing = [program for program in programs if not shutil.which(program)]
    if missing:
        raise Skipped(f"no {', '.join(missing)}")


def need_root():
    if os.geteuid() != 0:
        raise Skipped("only root may do this")


class Room:
    """A folder with both programs on the search path, and a folder of its own for temporary files."""

    def __init__(self, program, folder):
        self.folder = pathlib.Path(folder)
        self.bin = self.folder / "bin"
        self.temporary = self.folder / "temporary"
        for place in (self.bin, self.temporary):
            place.mkdir()
        os.symlink(program, self.bin / "pprof")
        os.symlink(ROOT / "scripts" / "merge-many", self.bin / "pprof-merge")
        self.environment = dict(os.environ, PATH=f"{self.bin}:{os.environ['PATH']}", TMPDIR=str(self.temporary))
        self.environment.pop("PPROF", None)

    def run(self, command, status=0, **environment):
        """Standard output and error of a line of bash, which has to end with the status."""
        ran = subprocess.run(
            ["bash", "-c", "set -o pipefail\n" + command],
            cwd=self.folder,
            env={**self.environment, **environment},
            stdin=subprocess.DEVNULL,
            capture_output=True,
            timeout=SECONDS,
            check=False,
        )
        told = f"{command[:200]}\n{ran.stdout[-500:]!r}\n{ran.stderr.decode(errors='replace')[-1500:]}"
        owe(ran.returncode == status, f"status {ran.returncode}, owed {status}: {told}")
        left = [path.name for path in self.temporary.glob("pprof-merge*")]
        owe(not left, f"left in the folder for temporary files: {left}: {told}")
        return ran.stdout, ran.stderr.decode(errors="replace")

    def fleet(self, folder, count, *options):
        """Profiles of the made-up program, in a folder. Their paths."""
        words = [sys.executable, ROOT / "scripts" / "fleet.py", self.folder / folder, str(count), *map(str, options)]
        subprocess.run(words, check=True)
        return sorted(f"{folder}/{path.name}" for path in (self.folder / folder).iterdir())

    def slow(self):
        """A program that notes each call in the file `calls`, and takes a while."""
        path = self.folder / "slow"
        path.write_text(f'#!/bin/sh\necho >>{self.folder}/calls\nsleep 0.5\nexec {self.bin}/pprof "$@"\n')
        path.chmod(0o755)
        return str(path)

    def calls(self):
        path = self.folder / "calls"
        count = len(path.read_text().splitlines()) if path.exists() else 0
        path.unlink(missing_ok=True)
        return count


def blocks(heading):
    """The fenced blocks of the page below a heading."""
    part = re.search(rf"^##+ {re.escape(heading)}\n(.*?)(?=^##? |\Z)", PAGE.read_text(), re.S | re.M)
    owe(part, f"{PAGE} has no heading {heading}")
    return re.findall(r"^```\w*\n(.*?)^```", part[1], re.S | re.M)


def compare_reports(room, left, right):
    """The reports over the sources on the left are those over the sources on the right, byte for byte."""
    (room.folder / "typed").write_text(REPORTS)
    texts = [room.run(f"pprof -- {shlex.join(sources)} <typed")[0] for sources in (left, right)]
    owe(texts[0] == texts[1], f"reports over {left[:3]} and {right[:3]} differ")
    count = sum("=" not in line and line != "path_tree" for line in REPORTS.splitlines())
    owe(texts[0].count(b"(pprof) ") == len(REPORTS.splitlines()) + 1 and len(texts[0]) > 1000 * count, "no reports")
    return count


# ---- The parts. Each gives what it found.


def steps(room):
    """Merged in steps is merged at once, for any groups."""
    paths = room.fleet("small", 300, "--samples", 100)
    room.run("pprof-merge -o all.pb small/*.pb")
    compared = 0
    for size in (150, 97):
        groups = [paths[first : first + size] for first in range(0, len(paths), size)]
        for number, group in enumerate(groups):
            room.run(f"pprof -proto {shlex.join(group)} >part.{number}.pb")
        parts = [f"part.{number}.pb" for number in range(len(groups))]
        compared += compare_reports(room, ["all.pb"], parts)
        room.run(f"pprof -proto {shlex.join(parts)} | cmp - all.pb")
    room.run(f"pprof-merge -j 2 -o most.pb {shlex.join(paths[:250])}")
    compared += compare_reports(room, ["most.pb"], paths[:250])
    room.run("mkdir zipped; for path in small/*5.pb; do gzip -c $path >zipped/${path##*/}.gz; done")
    room.run("find zipped -type f -print0 | sort -z | pprof-merge -0 -o zipped.pb")
    compared += compare_reports(room, ["zipped.pb"], [path for path in paths if path.endswith("5.pb")])
    return f"300 profiles, {compared} reports compared, those of 250, 300 and 30 gzipped sources"


def without_parallel(room):
    """xargs gives what GNU parallel gives."""
    tools = "bash xargs gunzip gzip stat seq mktemp readlink tr cat mv rm mkdir nproc grep awk cmp env sed ln"
    room.fleet("plain", 150, "--samples", 100)
    room.run(f"mkdir few; for tool in {tools}; do ln -s $(command -v $tool) few; done; ln -s $PWD/bin/* few")
    room.run("pprof-merge -o parallel.pb plain/*.pb; PATH=$PWD/few pprof-merge -o xargs.pb plain/*.pb")
    room.run("cmp parallel.pb xargs.pb")
    room.run("PATH=$PWD/few pprof-merge --resume -o xargs.pb plain/*.pb", status=2)
    return "the same bytes" if shutil.which("parallel") else "xargs alone, for GNU parallel is missing"


def refused(room):
    """A source that is refused is named. Nothing is written, or all but it."""
    good = room.fleet("good", 6)
    first = (room.folder / good[0]).read_bytes()
    room.run("gzip -c good/00001.pb >whole.gz; head -c 5000 whole.gz >cut.pb.gz; pprof-merge -o owed.pb good/*.pb")
    (room.folder / "cut.pb").write_bytes(first[:-7])
    (room.folder / "other.pb").write_bytes(first.replace(b"\3cpu", b"\3gpu"))
    messages = {
        "cut.pb": "pprof: cut.pb: truncated at",
        "cut.pb.gz": "pprof-merge: cut.pb.gz: unexpected end of file",
        "missing.pb": "pprof: missing.pb: no such file",
        "other.pb": "is other.pb",
    }
    for bad, message in messages.items():
        words = shlex.join(good[:3] + [bad] + good[3:])
        _, told = room.run(f"pprof-merge -o out.pb {words}", status=1)
        owe(message in told, f"{bad} is not named: {told}")
        owe(not (room.folder / "out.pb").exists(), f"{bad}: a file was written")
        _, told = room.run(f"pprof-merge --skip-refused -o out.pb {words}; cmp out.pb owed.pb && rm out.pb")
        owe(message in told, f"{bad} is not named where it is left out: {told}")
    _, told = room.run("pprof-merge --skip-refused -o out.pb good bin", status=3)
    owe("good .. bin" in told, f"a folder is not named: {told}")
    for words in ("-x", "-j 0 a", "--resume a", "-j", "-o x --hosts y --resume a", "-o x"):
        room.run(f"pprof-merge {words} </dev/null", status=2)
    return f"{len(messages)} kinds of sources, each refused and left out; a folder, and words that are wrong"


def full_disk(room):
    """Status 3, and what was there stays."""
    need("mount", "umount")
    need_root()
    room.fleet("good", 100, "--samples", 200)
    full = room.folder / "full"
    full.mkdir()
    mounted = subprocess.run(["mount", "-t", "tmpfs", "-o", "size=200k", "none", full], capture_output=True, check=False)
    if mounted.returncode != 0:
        raise Skipped("no disk can be mounted")
    try:
        room.run("gzip -k good/*.pb; echo before >out.pb")
        for sources in ("good/*.pb", "good/*.gz"):
            room.run(f"TMPDIR=$PWD/full pprof-merge -o out.pb {sources}; status=$?; cat out.pb; exit $status", status=3)
            owe((room.folder / "out.pb").read_text() == "before\n", "the file was written over")
            owe(not list(full.iterdir()), "temporary files are left")
        room.run("pprof-merge -o full/out.pb good/*.pb", status=3)
        owe(not list(full.iterdir()), "a part of the file is left")
    finally:
        subprocess.run(["umount", full], check=True)
    room.run("pprof-merge -o /dev/full good/*.pb", status=3)
    return "temporary files, gunzip and the file that is written, each on a disk without room"


def interrupt(room, command, seconds):
    """Types ^C on the command's terminal after some seconds. Its status."""
    child, terminal = pty.fork()
    if child == 0:
        os.chdir(room.folder)
        os.execvpe("bash", ["bash", "-c", f"{command}; exit $?"], {**room.environment, "PPROF": room.slow()})
    time.sleep(seconds)
    os.write(terminal, b"\3")
    with contextlib.suppress(OSError):
        while os.read(terminal, 4096):
            pass
    os.close(terminal)
    return os.waitstatus_to_exitcode(os.waitpid(child, 0)[1])


def interrupted(room):
    """^C leaves nothing. With --resume a second call goes on."""
    need("parallel")
    room.fleet("small", 300, "--samples", 100)
    # Five groups and the last step, on one processor: six calls.
    status = interrupt(room, "pprof-merge -j 1 -o out.pb small/*.pb", 2)
    owe(status == INTERRUPTED, f"status {status} after ^C")
    room.run("! ls out.pb* 2>/dev/null")
    room.run(f"! ps -eo args | grep '[{room.folder.name[0]}]{room.folder.name[1:]}/'")
    room.calls()
    status = interrupt(room, "pprof-merge -j 1 --resume -o out.pb small/*.pb", 3)
    owe(status == INTERRUPTED, f"status {status} after ^C with --resume")
    begun = room.calls()
    room.run("ls -d out.pb.steps; ! ls out.pb 2>/dev/null")
    room.run("pprof-merge --resume -o out.pb small/*1.pb", status=2)
    room.run("pprof-merge -j 1 --resume -o out.pb small/*.pb; ! ls -d out.pb.steps 2>/dev/null", PPROF=room.slow())
    after = room.calls()
    owe(1 <= begun <= 5 and 6 <= begun + after <= 7 and after < 6, f"{begun} calls before ^C and {after} after it")
    room.run("pprof-merge -o owed.pb small/*.pb; cmp out.pb owed.pb")
    return f"{begun} calls before ^C, {after} after it, and the same bytes as without"


class Hosts:
    """Two hosts as network namespaces, each with an sshd that takes a key made for this."""

    def __init__(self, room):
        self.room = room
        self.mark = f"pm{os.getpid() % 100000}"
        self.net = "10.213.7"
        self.names = [f"{self.mark}x{number}" for number in (1, 2)]
        self.daemons = []

    def ip(self, *words, check=True):
        return subprocess.run(["ip", *words], capture_output=True, check=check)

    def __enter__(self):
        try:
            self.start()
        except subprocess.CalledProcessError as error:
            self.__exit__()
            raise Skipped(f"{error.cmd[:4]}: {error.stderr.decode(errors='replace').strip()}") from error
        return self

    def start(self):
        folder = self.room.folder
        for key in ("key", "host_key"):
            subprocess.run(["ssh-keygen", "-q", "-t", "ed25519", "-N", "", "-f", folder / key], check=True)
        os.makedirs("/run/sshd", exist_ok=True)
        self.ip("link", "add", self.mark, "type", "bridge")
        self.ip("addr", "add", f"{self.net}.254/24", "dev", self.mark)
        self.ip("link", "set", self.mark, "up")
        for number, name in enumerate(self.names, 1):
            self.ip("netns", "add", name)
            self.ip("link", "add", name, "type", "veth", "peer", "name", "eth0", "netns", name)
            self.ip("link", "set", name, "master", self.mark, "up")
            self.ip("-n", name, "addr", "add", f"{self.net}.{number}/24", "dev", "eth0")
            self.ip("-n", name, "link", "set", "eth0", "up")
            self.ip("-n", name, "link", "set", "lo", "up")
            config = folder / f"sshd.{number}"
            config.write_text(
                f"Port 2222\nListenAddress {self.net}.{number}\nHostKey {folder}/host_key\nPidFile none\n"
                f"AuthorizedKeysFile {folder}/key.pub\nStrictModes no\nUsePAM no\nPasswordAuthentication no\n"
                f"SetEnv PATH={self.room.bin}:/usr/bin:/bin TMPDIR={folder}/temporary.{number}\n"
            )
            (folder / f"temporary.{number}").mkdir()
            command = ["ip", "netns", "exec", name, shutil.which("sshd"), "-D", "-f", config]
            self.daemons.append(subprocess.Popen(command, stderr=subprocess.DEVNULL))
        options = "-o StrictHostKeyChecking=no -o UserKnownHostsFile=/dev/null -o LogLevel=ERROR -o ConnectTimeout=5"
        alive = "-o ServerAliveInterval=1 -o ServerAliveCountMax=2"
        line = f"ssh -i {folder}/key -p 2222 {options} {alive} root@{self.net}."
        (folder / "hosts").write_text("# two hosts\n" + "".join(f"{line}{number}\n" for number in (1, 2)))
        time.sleep(1)

    def __exit__(self, *_):
        for name in self.names:
            listed = self.ip("netns", "pids", name, check=False).stdout.split()
            for pid in listed:
                with contextlib.suppress(ProcessLookupError):
                    os.kill(int(pid), signal.SIGKILL)
        for daemon in self.daemons:
            daemon.wait()
        for name in self.names:
            self.ip("netns", "del", name, check=False)
            self.ip("link", "del", name, check=False)
        self.ip("link", "del", self.mark, check=False)


def hosts(room):
    """Profiles are merged where they lie. Where a host dies, nothing is written."""
    need("parallel", "ip", "ssh", "ssh-keygen", "sshd")
    need_root()
    room.fleet("first", 60, "--samples", 100)
    room.fleet("second", 60, "--first", 61, "--samples", 100, "--gzip")
    both = f"'{room.folder}/first/*.pb' '{room.folder}/second/*.gz'"
    with Hosts(room) as machines:
        room.run(f"pprof-merge --hosts hosts -o far.pb {both}")
        room.run("pprof-merge -o near.pb first/* second/*")
        compared = compare_reports(room, ["far.pb"], ["near.pb", "near.pb"])
        room.run(f"pprof-merge --hosts hosts -o out.pb '{room.folder}/nothing*'", status=2)
        _, told = room.run(f"pprof-merge --hosts hosts -o out.pb {both} '{room.folder}/hosts'", status=1)
        owe("hosts: " in told and f"root@{machines.net}.1: status 1" in told, f"the source is not named: {told}")
        (room.bin / "pprof").rename(room.bin / "pprof.fast")
        (room.bin / "pprof").write_text(f'#!/bin/sh\nsleep 2\nexec {room.bin}/pprof.fast "$@"\n')
        (room.bin / "pprof").chmod(0o755)
        fall = f"(sleep 2; ip link set {machines.names[1]} down) &"
        _, told = room.run(f"{fall} pprof-merge --hosts hosts -o out.pb {both}", status=UNREACHED, PPROF="bin/pprof.fast")
        owe(f"root@{machines.net}.2: status 255" in told, f"the host is not named: {told}")
        owe(not (room.folder / "out.pb").exists(), "a file was written")
    return f"two hosts, {compared} reports compared; no match, a source that is refused, a host that dies"


class Slurm:
    """Slurm on this machine alone, on the loopback."""

    CONFIG = """ClusterName=many
SlurmctldHost={host}(127.0.0.1)
SlurmUser=root
AuthType=auth/none
CredType=cred/none
MpiDefault=none
ProctrackType=proctrack/pgid
TaskPlugin=task/none
SwitchType=switch/none
SelectType=select/cons_tres
SelectTypeParameters=CR_Core
SlurmctldPort=16817
SlurmdPort=16818
StateSaveLocation={folder}/state
SlurmdSpoolDir={folder}/spool
SlurmctldPidFile={folder}/controller.pid
SlurmdPidFile={folder}/daemon.pid
SlurmctldLogFile={folder}/controller.log
SlurmdLogFile={folder}/daemon.log
AccountingStorageType=accounting_storage/none
NodeName={host} NodeAddr=127.0.0.1 CPUs={processors} State=UNKNOWN
PartitionName=all Nodes=ALL Default=YES MaxTime=INFINITE State=UP
"""

    def __init__(self, room):
        self.room = room
        self.daemons = []

    def __enter__(self):
        folder = self.room.folder / "slurm"
        folder.mkdir()
        for place in ("state", "spool"):
            (folder / place).mkdir()
        host = os.uname().nodename.split(".")[0]
        config = self.CONFIG.format(folder=folder, host=host, processors=os.cpu_count())
        (folder / "slurm.conf").write_text(config)
        self.room.environment["SLURM_CONF"] = str(folder / "slurm.conf")
        with open(folder / "told", "wb") as told:
            for daemon in ("slurmctld", "slurmd"):
                self.daemons.append(
                    subprocess.Popen([daemon, "-D"], env=self.room.environment, stdout=told, stderr=told)
                )
        for _ in range(20):
            time.sleep(1)
            seen = subprocess.run(["sinfo", "-h", "-o", "%T"], env=self.room.environment, capture_output=True, check=False)
            if seen.stdout.strip() in (b"idle", b"mixed"):
                return self
        self.__exit__()
        raise Skipped(f"Slurm does not start here: {(folder / 'told').read_text()[-200:]}")

    def __exit__(self, *_):
        for daemon in self.daemons:
            daemon.terminate()
        for daemon in self.daemons:
            daemon.wait()


def slurm(room):
    """The page's array job."""
    need("slurmctld", "slurmd", "sbatch", "sinfo")
    need_root()
    room.fleet("profiles", 60, "--samples", 100, "--gzip")
    with Slurm(room):
        script, submit = blocks("As a Slurm job")
        # Four slices do here, and the last job is waited for.
        (room.folder / "part.sh").write_text(script.replace("0-31", "0-3"))
        room.run(submit.replace("l/32", "l/4").replace("sbatch --dependency", "sbatch --wait --dependency"))
    room.run("pprof-merge -o owed.pb profiles/*")
    return f"four jobs and one that merges, {compare_reports(room, ['all.pb'], ['owed.pb'])} reports compared"


def makefile(room):
    """The page's rules: only the hour with a new profile is merged again."""
    need("make")
    for hour in (13, 14, 15):
        room.fleet(f"profiles/2026-11-30T{hour}", 10, "--first", hour * 100 + 1, "--samples", 100, "--gzip")
    (room.folder / "Makefile").write_text(blocks("As rules of a Makefile")[0])
    room.run("make -j 4")
    room.run("make -q")
    room.run("sleep 1; cp profiles/2026-11-30T13/01301.pb.gz profiles/2026-11-30T15/01601.pb.gz")
    told, _ = room.run("make -j 4")
    owe(told.count(b"pprof-merge") == 2 and b"2026-11-30T15" in told, f"merged again: {told!r}")
    room.run("find profiles -name '*.gz' -print0 | sort -z | pprof-merge -0 -o owed.pb")
    return f"one of three hours is merged again, {compare_reports(room, ['all.pb'], ['owed.pb'])} reports compared"


def recipes(room):
    """What a fleet's user looks for first: the page's commands find what was put into the profiles."""
    for number, host in enumerate(("a", "b", "c", "d")):
        grown = ("--grown", 7, "--factor", 4) if host == "c" else ()
        room.fleet(f"hosts/{host}", 20, "--first", 1 + 100 * number, "--samples", 300, "--gzip", *grown)
    room.fleet("yesterday", 50, "--first", 1001, "--samples", 300, "--gzip")
    room.fleet("today", 50, "--first", 2001, "--samples", 300, "--gzip", "--grown", 11, "--factor", 4)
    costs, grew, merges, differs, *_ = blocks("What a fleet's user looks for")
    room.run("pprof-merge -o all.pb today/*")
    top = room.run(costs)[0].decode().splitlines()
    owed = room.run("pprof -table all.pb")[0].decode().split("\n")[1].split("\t")[2]
    first = next(number for number, line in enumerate(top) if line.endswith("cum%")) + 1
    owe(top[first].endswith(" " + owed), f"{owed} is not the first row: {top[: first + 2]}")
    rows = room.run(grew)[0].decode().splitlines()
    first = next(number for number, line in enumerate(rows) if line.endswith("(all)")) + 1
    owe("Method11" in rows[first], f"what grew is not the first row: {rows[: first + 2]}")
    room.run(merges)
    (room.folder / "differs.py").write_text(differs)
    rows = [line.split("\t") for line in room.run("python3 differs.py all.pb hosts/*.pb")[0].decode().splitlines()]
    owe(rows[0] == ["hosts/a.pb", "hosts/b.pb", "hosts/c.pb", "hosts/d.pb", "function"], f"heading {rows[0]}")
    owe(rows[1][4].endswith("Method7") and int(rows[1][2]) == max(map(int, rows[1][:4])), f"first row {rows[1]}")
    owe(len(differs.splitlines()) <= 15, "the recipe is longer than 15 lines")
    return f"{owed} costs most, Method11 grew, host c differs by Method7"


def large(room, count):
    """COUNT profiles of 1.4 MB: the time on all processors, and the memory of the largest process."""
    paths = room.fleet("large", min(count, 250), "--samples", 27000, "--functions", 5000, "--stacks", 200000)
    size = sum((room.folder / path).stat().st_size for path in paths) / len(paths)
    (room.folder / "sources").write_text("".join(f"{paths[number % len(paths)]}\n" for number in range(count)))
    single = measured(room, f"for path in {shlex.join(paths[:20])}; do pprof -proto -workers=1 $path >one.pb; done")
    whole = measured(room, "pprof-merge -o all.pb <sources")
    merged = (room.folder / "all.pb").stat().st_size
    ratio = whole[0] / (single[0] / 20 * count)
    return (
        f"{count} profiles of {size / 1e6:.2f} MB, {len(paths)} of them different: {whole[1]:.0f} s,"
        f" {whole[0]:.0f} s of processors, {ratio:.2f} of that of single calls; {whole[2]:.0f} MB at most;"
        f" merged {merged / 1e6:.1f} MB"
    )


def measured(room, command):
    """Seconds of processors and of the clock, and the memory of the largest process in MB."""
    begun = time.monotonic()
    child = subprocess.Popen(["bash", "-c", command], cwd=room.folder, env=room.environment)
    _, status, use = os.wait4(child.pid, 0)
    owe(status == 0, f"{command}: status {status}")
    return use.ru_utime + use.ru_stime, time.monotonic() - begun, use.ru_maxrss / 1024


PARTS = (steps, without_parallel, refused, full_disk, interrupted, hosts, slurm, makefile, recipes)


def main():
    parser = argparse.ArgumentParser(description=__doc__, formatter_class=argparse.RawDescriptionHelpFormatter)
    parser.add_argument("program")
    parser.add_argument("parts", nargs="*", metavar="PART", help=", ".join(part.__name__ for part in PARTS))
    parser.add_argument("--large", type=int, metavar="COUNT")
    told = parser.parse_args()
    # What a part has started ends with it.
    signal.signal(signal.SIGTERM, lambda *_: sys.exit(128 + signal.SIGTERM))
    chosen = [part for part in PARTS if not told.parts or part.__name__ in told.parts]
    if told.large:
        chosen.append(lambda room: large(room, told.large))
        chosen[-1].__name__ = "large"
    counts = {"ok": 0, "skipped": 0, "failed": 0}
    for part in chosen:
        ending = "ok"
        with tempfile.TemporaryDirectory(prefix="many-") as folder:
            try:
                found = part(Room(os.path.abspath(told.program), folder))
            except Skipped as reason:
                ending, found = "skipped", reason
            except (Failed, subprocess.SubprocessError) as reason:
                ending, found = "failed", reason
        counts[ending] += 1
        print(f"{part.__name__}: {ending}: {found}", flush=True)
    print(f"many.py: {counts['ok']} parts ok, {counts['skipped']} skipped, {counts['failed']} failed")
    return 1 if counts["failed"] else 0


if __name__ == "__main__":
    sys.exit(main())
