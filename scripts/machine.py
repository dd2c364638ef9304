"""What the built program does where the machine takes part, and no transcript can say it: words of any length, fifos,
folders, full devices, closed pipes, missing rights, files and input of the greatest lengths, threads.
"""

import os
import struct
import subprocess
import threading

from running import DATA, ROOT, SECONDS, run


TOP_OF_P1 = b"""Type: cpu
Showing nodes accounting for 60ms, 100.00% of 60ms total
      flat    flat%     sum%        cum     cum%
      40ms   66.67%   66.67%       40ms   66.67%  leaf
      20ms   33.33%  100.00%       50ms   83.33%  work
         0    0.00%  100.00%       60ms  100.00%  main
"""
LIST_OF_WORK = b"""Total: 60ms
ROUTINE ======================== work in work.c
      20ms       50ms (flat, cum) 83.33% of Total
         .          .     15:w15
         .          .     16:w16
         .          .     17:w17
         .          .     18:w18
         .          .     19:w19
         .       30ms     20:w20
      20ms       20ms     21:w21
         .          .     22:w22
"""
PROMPT = b"(pprof) "
FILE_FAULT = b"pprof: file fault\n"
OUT_FAULT = b"pprof: output fault\n"
# The lengths around the room that a word is given at first, and a long one.
LENGTHS = (255, 256, 257, 511, 512, 513, 70_000)


class Machine:
    """A folder with P1, in which the program runs."""

    def __init__(self, program, place):
        self.command = [program]
        self.place = os.fsencode(place)
        self.profile = (DATA / "fixtures" / "P1").read_bytes()
        self.write(b"P1", self.profile)

    def path(self, name):
        return os.path.join(self.place, name)

    def write(self, name, content):
        with open(self.path(name), "wb") as file:
            file.write(content)

    def write_long(self, name, front, length, back=b""):
        """A file of so many bytes, zeros between these, which take no place on the disk."""
        with open(self.path(name), "wb") as file:
            file.write(front)
            file.truncate(length)
            file.seek(length - len(back))
            file.write(back)

    def run(self, *words, **how):
        return run(self.command, list(words), self.place, **how)

    def run_counted(self, library, *words, **environment):
        """The run, how many threads it started, and how many of these ran at once at most."""
        count = self.path(b"count")
        how = {"LD_PRELOAD": library, "THREADS_COUNT": os.fsdecode(count), **environment}
        left = self.run(*words, env={**os.environ, **how})
        with open(count, "rb") as file:
            started, most = struct.unpack("@LL", file.read())
        os.remove(count)
        return left, started, most

    def run_as_nobody(self, *words, given=b""):
        """The run of a user without rights."""
        os.chmod(self.place, 0o755)
        lowered = ["setpriv", "--reuid=65534", "--regid=65534", "--clear-groups", "--"]
        before = lowered if os.geteuid() == 0 else []
        return run(before + self.command, list(words), self.place, given)


def long_words(machine):
    for length in LENGTHS:
        value = b"x" * (length - 14) + b"y"
        out, err, status = machine.run(b"-source_path=" + value, b"P1", given=b"o\nq\n")
        is_kept = b"\nsource_path=" + value + b"\n" in out
        yield f"a word of {length} bytes", (is_kept, err, status), (True, b"", 0)


def long_paths(machine):
    for length in LENGTHS:
        path = b"n" * length
        yield f"a path of {length} bytes", machine.run(b"-top", path), (
            b"",
            b"pprof: " + path + b": no such file\n",
            1,
        )


def words_in_order(machine):
    yield "the last of two words", machine.run(b"-top", b"-nodecount=1", b"-nodecount=0", b"P1"), (
        TOP_OF_P1,
        b"",
        0,
    )
    yield "no words", machine.run(), (b"", b"pprof: word 1: no source\n", 2)
    yield "an empty word", machine.run(b"-top", b""), (b"", b"pprof: : no such file\n", 1)
    yield "an empty word after a good one", machine.run(b"-top", b"P1", b""), (
        b"",
        b"pprof: : no such file\n",
        1,
    )


def standard_input_as_source(machine):
    yield "/dev/stdin as a source", machine.run(b"-top", b"/dev/stdin", given=machine.profile), (
        TOP_OF_P1,
        b"",
        0,
    )
    yield "/dev/stdin before a shell", machine.run(b"/dev/stdin", given=machine.profile), (
        PROMPT + b"\n",
        b"",
        0,
    )


def fifo_as_source(machine):
    os.mkfifo(machine.path(b"fifo"))
    writer = threading.Thread(target=machine.write, args=(b"fifo", machine.profile), daemon=True)
    writer.start()
    yield "a fifo as a source", machine.run(b"-top", b"fifo"), (TOP_OF_P1, b"", 0)
    writer.join(SECONDS)


def folders(machine):
    os.mkdir(machine.path(b"folder"))
    yield "a folder as a source", machine.run(b"-top", b"folder"), (b"", FILE_FAULT, 3)
    yield "a folder behind >", machine.run(b"P1", given=b"top >folder\nq\n"), (
        PROMPT * 2,
        b"pprof: folder: cannot be written\n",
        0,
    )


def full_devices(machine):
    with open("/dev/full", "wb") as full:
        out, err, status = machine.run(b"-top", b"P1", stdout=full)
        yield "standard output is full", (err, status), (OUT_FAULT, 3)
        out, err, status = machine.run(b"-frob", stderr=full)
        yield "standard error is full", (out, status), (b"", 3)
    yield "a full device behind >", machine.run(b"P1", given=b"top >/dev/full\nq\n"), (
        PROMPT,
        FILE_FAULT,
        3,
    )


def closed_pipe(machine):
    reading, writing = os.pipe()
    os.close(reading)
    try:
        _, err, status = machine.run(b"-top", b"P1", stdout=writing)
        yield "standard output is a closed pipe", (err, status), (OUT_FAULT, 3)
        out, _, status = machine.run(b"-frob", stderr=writing)
        yield "standard error is a closed pipe", (out, status), (b"", 3)
    finally:
        os.close(writing)


def closed_streams(machine):
    out, _, status = machine.run(b"-frob", stderr=None, preexec_fn=lambda: os.close(2))
    yield "standard error is closed", (out, status), (b"", 3)
    _, err, status = machine.run(b"-top", b"P1", stdout=None, preexec_fn=lambda: os.close(1))
    yield "standard output is closed", (err, status), (OUT_FAULT, 3)
    out, err, status = machine.run(b"P1", stdin=None, preexec_fn=lambda: os.close(0))
    yield "standard input is closed", (out, err, status), (PROMPT, b"pprof: input fault\n", 3)


def no_rights(machine):
    machine.write(b"secret", machine.profile)
    os.chmod(machine.path(b"secret"), 0)
    yield "a source that may not be read", machine.run_as_nobody(b"-top", b"secret"), (
        b"",
        b"pprof: secret: no such file\n",
        1,
    )
    os.mkdir(machine.path(b"closed"), 0o555)
    given = b"top >closed/t\nq\n"
    yield "a file that may not be made", machine.run_as_nobody(b"P1", given=given), (
        PROMPT * 2,
        b"pprof: closed/t: cannot be written\n",
        0,
    )


def paths_of_any_bytes(machine):
    name = b"p\xff"
    machine.write(name, machine.profile)
    yield "a path that is no UTF-8", machine.run(b"-top", name), (
        b"",
        b"pprof: " + name + b": no such file\n",
        1,
    )
    yield "a path that is no UTF-8 behind >", machine.run(b"P1", given=b"top >t\xff\nq\n"), (
        PROMPT * 2,
        b"pprof: t\xff: cannot be written\n",
        0,
    )


def long_sources(machine):
    limit = 268_435_456
    machine.write_long(b"longer", b"", limit + 1)
    yield "a source of 2^28 + 1 bytes", machine.run(b"-top", b"longer"), (
        b"",
        b"pprof: longer: longer than 268435456 bytes\n",
        1,
    )
    machine.write_long(b"longest", b"", limit)
    yield "a source of 2^28 bytes", machine.run(b"-top", b"longest"), (
        b"",
        b"pprof: longest: bad header at word 1\n",
        1,
    )
    # A field that no reader knows, of 140,000,000 bytes.
    front = machine.profile + b"\x82\x01\x80\xf6\xe0\x42"
    machine.write_long(b"half", front, len(front) + 140_000_000)
    yield "a source of half that length", machine.run(b"-top", b"half"), (TOP_OF_P1, b"", 0)
    yield "two sources of half that length", machine.run(b"-top", b"half", b"half"), (
        b"",
        b"pprof: half: all files together are longer than 268435456 bytes\n",
        1,
    )


def long_source_code(machine):
    limit = 134_217_728
    back = b"".join(b"w%d\n" % number for number in range(1, 23))
    machine.write_long(b"work.c", b"", limit, back)
    yield "source code of 2^27 bytes", machine.run(b"-list=work", b"P1"), (LIST_OF_WORK, b"", 0)
    machine.write_long(b"work.c", b"", limit + 1)
    front = b"".join(LIST_OF_WORK.splitlines(keepends=True)[:3])
    yield "source code of 2^27 + 1 bytes", machine.run(b"-list=work", b"P1"), (
        front + b" Error: work.c: longer than 134217728 bytes\n",
        b"",
        0,
    )


def long_input(machine):
    limit = 16_777_216
    yield "input of 2^24 line ends", machine.run(b"P1", given=b"\n" * limit), (
        PROMPT * (limit + 1),
        b"pprof: standard input is longer than 16777216 bytes\n",
        1,
    )


def spoilings(content):
    """The content cut at each place, and with each byte changed or doubled."""
    for at, byte in enumerate(content):
        front, back = content[:at], content[at + 1 :]
        for middle in ((byte ^ 255,), (byte ^ 1,), (byte, byte)):
            yield front + bytes(middle) + back
        yield front


def is_answered(out, err, status):
    """Whether there is a report and no message, or one message and no report."""
    if status == 0:
        return out.endswith(b"\n") and not err
    is_line = err.startswith(b"pprof: ") and err.endswith(b"\n") and err.count(b"\n") == 1
    return status == 1 and not out and is_line


def spoiled_profiles(machine):
    for name in ("P1", "P5"):
        unanswered = []
        for content in spoilings((DATA / "fixtures" / name).read_bytes()):
            machine.write(b"d", content)
            if not is_answered(*machine.run(b"-top", b"-workers=1", b"d")):
                unanswered.append(content)
        yield f"{name}, spoiled at each place", unanswered, []


def threads(machine):
    library = os.fsdecode(machine.path(b"threads.so"))
    compiler = os.environ.get("CC", "cc")
    source = ROOT / "scripts" / "threads.c"
    subprocess.run([compiler, "-O2", "-shared", "-fPIC", "-o", library, source, "-ldl"], check=True)
    # -comments loads and counts nothing. A wave of loading has 131,072 samples.
    for report in (b"-comments", b"-top"):
        owed = machine.run(report, b"-workers=1", b"-gen=300000")
        for workers in (1, 2, 4):
            words = (report, b"-workers=%d" % workers, b"-gen=300000")
            left, started, most = machine.run_counted(library, *words)
            yield f"{report} by {workers} workers", left, owed
            yield f"threads of {report} by {workers} workers", (started > 0, most), (workers > 1, workers - 1)
            left, _, _ = machine.run_counted(library, *words, THREADS_REFUSED="1")
            yield f"{report} by {workers} workers, where no thread can be made", left, owed


CHECKS = (
    threads,
    long_words,
    long_paths,
    words_in_order,
    standard_input_as_source,
    fifo_as_source,
    folders,
    full_devices,
    closed_pipe,
    closed_streams,
    no_rights,
    paths_of_any_bytes,
    long_sources,
    long_source_code,
    long_input,
    spoiled_profiles,
)
