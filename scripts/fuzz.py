#!/usr/bin/env python3
"""Runs random sessions on the built program and on the model, and compares both outputs, the status and the files.

A case is words, files and standard input. Most files are profiles of random tables, written loosely: with numbers
packed or one by one, fields out of order, unknown fields, scalars given twice. Others are spoiled, legacy or no profiles.
Each case runs in a folder of its own. Of a difference its folder is kept, with a command that can be pasted. Cases that
the model does not speak of are counted apart. With --minimize a difference is made smaller first.

Case K of a seed is the same in each run. The last line says how many cases ran; the status is 1 where any differ.
"""

import argparse
import concurrent.futures
import os
import pathlib
import random
import shlex
import shutil
import subprocess
import sys
import tempfile

sys.path.insert(0, str(pathlib.Path(__file__).resolve().parent.parent))

from model.outside import Memory
from model.profile import Unspoken
from model.session import run
from model.wire import WireFault, fields

SECONDS = 600
KEEP = 40

# What random profiles are made of.

NAMES = [
    b"", b"main", b"f", b"g", b"work", b"leaf", b"malloc", b"runtime.main", b"a;b\tc\n", b"std::v<int>::p",
    b"\xff\xfe",
]
NAMES += [
    b"f\r", b"fn7", b"a\\b", b"\xc3\xa9t\xc3\xa9", b"/src/app/work.c", b"work.c", b"../up.c", b"b/c.go",
    b"/abs/", b"/",
]
UNITS = [
    b"", b"count", b"nanoseconds", b"ns", b"MS", b"microseconds", b"sec", b"hours", b"bytes", b"kB", b"mb",
    b"TB", b"Widgets", b"widgets", b"sample",
]
KEYS = [b"thread", b"bytes", b"request", b"alignment", b"id", b"", b"pprof::base", b"key"]
VALUES = [b"true", b"a", b"b", b"", b"aa,b", b"1kb", b"a=b"]
NUMBERS = [0, 1, 2, 3, 5, 7, 10, 99, 100, 512, 1000, 1024, 4999, 5000, 1 << 20, 10**9, 36 * 10**11, 1 << 40, 1 << 52]
ENDS = [(1 << 63) - 1, -(1 << 63), (1 << 62), -1, -5000, -1024]
IDS = [1, 2, 3, 4, 5, 7, 255, 1 << 32, (1 << 64) - 1, 1 << 63]
PATTERNS = [
    b"main", b"f", b"^f$", b"work|leaf", b".", b"a+b*", b"\\.c", b"^$", b"o.k", b"zzz", b"(?i)MAIN", b"[a-f]$",
    b"x{2}", b"\\d", b"malloc", b".*", b"", b"=", b"thread", b"^[^a]*$", b"runtime", b"a|", b"e$",
]
BAD_PATTERNS = [b"(", b"[", b"\xff", b"*a", b"a{2,1}", b"x\\", b")", b"[z-a]", b"(?=a)", b"\\1"]
TAG_FILTERS = [
    b"thread=a", b"a,b", b"thread=a,b", b"512b:2kb", b"bytes=1kb", b"5", b":1024", b"1:", b"-7", b"+5:", b":",
    b"=a", b"id=1:3", b",", b"a,", b"thread=", b"thread:a", b"1widgets", b"key=1ms:2",
    b"0:9223372036854775808", b"=1kb:",
]
RANGES = [b"0", b"1", b"0.5", b"0.005", b".1", b"0.000000001", b"0.2", b"0.9", b"1.0"]
BAD_RANGES = [b"1.", b"1.000000001", b"x", b"0000000000", b"0.1234567891", b"", b"."]


def varint(number, rng=None):
    """A varint; with a source of chance sometimes not the shortest."""
    number &= (1 << 64) - 1
    out = bytearray()
    while number > 127:
        out.append(number & 127 | 128)
        number >>= 7
    out.append(number)
    if rng and len(out) < 9 and rng.random() < 0.03:
        out[-1] |= 128
        out.append(0)
    return bytes(out)


class Writer:
    """Writes messages loosely."""

    def __init__(self, rng):
        self.rng = rng
        self.is_loose = rng.random() < 0.5

    def chance(self, part):
        return self.is_loose and self.rng.random() < part

    def number(self, field, value):
        if value == 0 and not self.chance(0.2):
            return []
        out = [

            varint(field << 3, self.rng if self.is_loose else None) + varint(value, self.rng if self.is_loose else None),
        ]
        if self.chance(0.05):
            out.insert(0, varint(field << 3) + varint(self.rng.choice(NUMBERS[:6])))
        return out

    def block(self, field, content):
        return varint(field << 3 | 2) + varint(len(content)) + content

    def numbers(self, field, values):
        if not self.is_loose or not values:
            return [self.block(field, b"".join(map(varint, values)))] if values else []
        out, rest = [], list(values)
        while rest:
            count = self.rng.randint(1, len(rest))
            part, rest = rest[:count], rest[count:]
            if self.rng.random() < 0.5:
                out.append(b"".join(varint(field << 3) + varint(v) for v in part))
            else:
                out.append(self.block(field, b"".join(map(varint, part))))
        return out

    def unknown(self):
        field = self.rng.choice([16, 17, 40, 1000, (1 << 29) - 1])
        kind = self.rng.choice([0, 1, 2, 5])
        content = {0: varint(self.rng.choice(NUMBERS)), 1: b"\xff" * 8, 5: b"abcd", 2: b"\x03abc"}[kind]
        return varint(field << 3 | kind) + content

    def message(self, *parts):
        """The fields joined; loosely also out of order, with unknown ones among them. Lists keep their order."""
        groups = [list(part) for part in parts if part]
        if self.chance(0.3):
            self.rng.shuffle(groups)
        chunks = [chunk for group in groups for chunk in group]
        if self.chance(0.1):
            chunks.insert(self.rng.randint(0, len(chunks)), self.unknown())
        return b"".join(chunks)


class Texts:
    """The table of texts; some stand twice in it."""

    def __init__(self, rng):
        self.rng, self.list = rng, [b""]

    def of(self, text):
        if text in self.list and self.rng.random() < 0.97:
            return self.list.index(text)
        self.list.append(text)
        return len(self.list) - 1

    def any(self, choices):
        return self.of(self.rng.choice(choices))


class ProfileMaker:
    """One random profile."""

    def __init__(self, rng, types, period):
        self.rng, self.w, self.texts = rng, Writer(rng), Texts(rng)
        self.types, self.period = types, period

    def value(self, is_positive):
        rng = self.rng
        if rng.random() < 0.001:
            return rng.choice(ENDS)
        value = rng.choice(NUMBERS) if rng.random() < 0.6 else rng.randint(0, 12)
        return value if is_positive or rng.random() < 0.6 else -value

    def ids(self, count):
        rng = self.rng
        if rng.random() < 0.6:
            return list(range(1, count + 1))
        pool = list(dict.fromkeys(IDS + list(range(9, 40))))
        return rng.sample(pool, count)

    def mappings(self):
        rng, out = self.rng, []
        ids = self.ids(rng.choice([0, 0, 1, 1, 2, 3]))
        for id in ids:
            start = rng.choice([0, 0x1000, 0x400000, 0x2000, (1 << 64) - 4096])
            limit = rng.choice([start + 0x1000, start + 0x200000, start, 0, 0x500])
            files = [b"", b"/bin/app", b"/usr/lib/libc.so", b"app", b"/tmp/x/"]
            parts = [self.w.number(1, id), self.w.number(2, start), self.w.number(3, limit % (1 << 64))]
            parts += [self.w.number(4, rng.choice([0, 0, 64])), self.w.number(5, self.texts.any(files))]
            parts += [self.w.number(6, self.texts.any([b"", b"", b"abc", b"/bin/app"]))]
            parts += [self.w.number(field, int(rng.random() < 0.3)) for field in range(7, 11)]
            out.append(self.w.block(3, self.w.message(*parts)))
        return ids, out

    def functions(self):
        rng, out = self.rng, []
        ids = self.ids(rng.choice([0, 1, 2, 3, 4, 4, 5, 6, 8]))
        for id in ids:
            parts = [self.w.number(1, id), self.w.number(2, self.texts.any(NAMES))]
            parts += [self.w.number(3, self.texts.any([b"", b"", b"sys"])), self.w.number(4, self.texts.any(NAMES))]
            parts += [self.w.number(5, rng.choice([0, 0, 3, -1]))]
            out.append(self.w.block(5, self.w.message(*parts)))
        return ids, out

    def locations(self, mappings, functions):
        rng, out = self.rng, []
        ids = self.ids(rng.choice([0, 1, 2, 3, 4, 6, 6, 8, 10]))
        for id in ids:
            lines = []
            for _ in range(rng.choice([0, 1, 1, 1, 2, 3])):
                known = functions if functions and rng.random() < 0.9 else functions + [0]
                row = [self.w.number(1, rng.choice(known))]
                row += [
                    self.w.number(2, rng.choice([0, 1, 7, 10, 21, 30, -3])),
                    self.w.number(3, rng.choice([0, 0, 3, 9])),
                ]
                lines.append(self.w.block(4, self.w.message(*row)))
            parts = [self.w.number(1, id), self.w.number(2, rng.choice(mappings + [0]))]
            parts += [self.w.number(3, rng.choice([0, 0x1010, 0x1100, 0x401010, 0x500, (1 << 64) - 1])), lines]
            parts += [self.w.number(5, int(rng.random() < 0.1))]
            out.append(self.w.block(4, self.w.message(*parts)))
        return ids, out

    def label(self):
        rng, w = self.rng, self.w
        parts = [w.number(1, self.texts.any(KEYS))]
        if rng.random() < 0.6:
            parts.append(w.number(2, self.texts.any(VALUES)))
        if rng.random() < 0.6:
            parts.append(w.number(3, self.value(False)))
            parts.append(w.number(4, self.texts.any(UNITS)))
        return w.block(3, w.message(*parts))

    def samples(self, locations, width):
        rng, out = self.rng, []
        is_positive = rng.random() < 0.5
        for _ in range(rng.choice([0, 1, 2, 3, 5, 8, 13, 20])):
            stack = [rng.choice(locations) for _ in range(rng.choice([0, 1, 2, 3, 4, 6]))] if locations else []
            values = [self.value(is_positive) for _ in range(width)]
            labels = [self.label() for _ in range(rng.choice([0, 0, 1, 2, 3]))]
            out.append(self.w.block(2, self.w.message(self.w.numbers(1, stack), self.w.numbers(2, values), labels)))
        return out

    def header(self):
        rng, w, t = self.rng, self.w, self.texts
        parts = []
        own = [b"malloc", b"f|g", b"m.*", b"f", b"(", b"", b"leaf"]
        parts.append(w.number(7, t.any(own) if rng.random() < 0.15 else 0))
        parts.append(w.number(8, t.any(own) if rng.random() < 0.1 else 0))
        parts.append(w.number(9, rng.choice([0, 0, 1700000000000000000, 5, -2])))
        parts.append(w.number(10, rng.choice([0, 0, 300000000, 10**9, -5, 3600 * 10**9, (1 << 63) - 1])))
        if self.period != (b"", b""):
            kind = w.message(*(w.number(at + 1, t.of(text)) for at, text in enumerate(self.period)))
            parts.append([w.block(11, kind)] * (2 if w.chance(0.1) else 1))
        parts.append(w.number(12, rng.choice([0, 0, 1, 10000000, -1])))
        parts.append(w.numbers(13, [t.any(NAMES) for _ in range(rng.choice([0, 0, 0, 1, 3]))]))
        parts.append(w.number(14, t.any([b"samples", b"cpu", b"zz", b""]) if rng.random() < 0.3 else 0))
        parts.append(w.number(15, t.any([b"https://x.y/z", b""]) if rng.random() < 0.15 else 0))
        return parts

    def make(self):
        rng, w, t = self.rng, self.w, self.texts
        mappings, mapping_chunks = self.mappings()
        functions, function_chunks = self.functions()
        locations, location_chunks = self.locations(mappings, functions)
        types = [w.block(1, w.message(w.number(1, t.of(kind)), w.number(2, t.of(unit)))) for kind, unit in self.types]
        samples = self.samples(locations, len(self.types)) if self.types else []
        parts = [types, samples, mapping_chunks, location_chunks, function_chunks, *self.header()]
        parts.append([w.block(6, text) for text in t.list])
        return w.message(*parts)


def random_types(rng):
    """Sample types, and the type of the period."""
    kinds = [b"samples", b"cpu", b"samples", b"cpu", b"alloc_space", b"delay", b"", b"2", b"wall"]
    count = rng.choice([1, 1, 1, 1, 2, 2, 2, 3]) if rng.random() < 0.97 else 0
    types = [(rng.choice(kinds), rng.choice(UNITS)) for _ in range(count)]
    period = (b"cpu", rng.choice([b"", b"nanoseconds"])) if rng.random() < 0.3 else (b"", b"")
    return types, period


# The types of profiles that are made, and of those that gperftools writes.
GENERATED = [(b"samples", b"count"), (b"cpu", b"nanoseconds")], (b"", b"")
LEGACY = GENERATED[0], (b"cpu", b"nanoseconds")


def spoiled(rng, data):
    """The bytes with something wrong."""
    if not data:
        return data
    way, at = rng.randrange(6), rng.randrange(len(data))
    if way == 0:
        return data[:at]
    if way == 1:
        return data[:at] + bytes([data[at] ^ 1 << rng.randrange(8)]) + data[at + 1 :]
    if way == 2:
        return data[:at] + bytes([rng.randrange(256)]) + data[at:]
    if way == 3:
        return data[:at] + data[at + 1 :]
    tags = list(top_fields(data))
    if way == 4 and tags:
        # A field of another kind.
        start, _, tag = rng.choice(tags)
        return data[:start] + bytes([data[start] & 0xF8 | rng.choice([0, 1, 2, 5])]) + data[start + 1 :]
    return data + rng.choice([
        b"\x80" * 11, b"\x0b", b"\x00", b"\x32\x05a", b"\x78\x09", b"\x7a\x00", b"\x0d\0\0\0\0", b"\x12\x00",
    ])


def legacy(rng):
    """A file as gperftools writes it, at times spoiled."""
    words = [0, rng.choice([3, 3, 3, 4, 2]), 0, rng.choice([10000, 1, 100, 0, 9_223_372_036_854_775]), 0]
    words += [0] * (words[1] - 3) if words[1] > 3 else []
    addresses = [0x401010, 0x402020, 0x7F0000001000, 1]
    for _ in range(rng.randrange(5)):
        stack = [rng.choice(addresses) for _ in range(rng.randint(1, 4))]
        words += [rng.choice([1, 2, 5, 1000]), len(stack)] + stack
    words += [0, 1, 0]
    if rng.random() < 0.2:
        words[rng.randrange(len(words))] = rng.choice([0, 1, 7, (1 << 64) - 1])
    text = b"".join(
        rng.choice(
            [
                b"00400000-00500000 r-xp 00000000 08:01 131    /bin/prog\n",
                b"00400000-00402000 r-xp 00000000 08:01 131 /bin/other dir/x\n",
                b"7f0000000000-7F0000100000 r-xp 1000 08:01 131\n",
                b"00400000-00500000 rw-p 00000000 08:01 131 /bin/prog\n",
                b"build=1\n",
                b"00500000-00400000 r-xp 0 0 0 /x\n",
                b"1-2  r-xp  0  0  0  ",
            ]
        )
        for _ in range(rng.randrange(4))
    )
    return b"".join(word.to_bytes(8, "little") for word in words) + text


# Words and lines.

REPORTS = b"top tree traces tags raw comments proto folded table compare changes account text".split()


def random_format(rng):
    pick = rng.random()
    if pick < 0.72:
        return [rng.choice([b"-", b"--"]) + rng.choice(REPORTS)]
    return [

        rng.choice([b"-peek=", b"-list="]) + rng.choice([b".", b"f", b"main|f|g", b"a", b"work", b"^$", b"(", b"r"]),
    ]


PATTERNED = [b"focus", b"ignore", b"show", b"hide", b"show_from", b"prune_from", b"tagshow", b"taghide"]
FLAGS = [b"noinlines", b"showcolumns", b"path_tree", b"relative_percentages"]
# Names of variables, values that they can have, and some that they mostly can't.
SETTINGS = [
    ([b"tagfocus", b"tagignore"], TAG_FILTERS + PATTERNS, [b"(", b"thread=["]),
    ([b"tagroot", b"tagleaf"], [b"thread", b"bytes,thread", b"id", b",,key,", b"", b"nokey", b"pprof::base"], [b"zz"]),
    ([b"granularity"], [b"functions", b"filefunctions", b"files", b"lines", b"addresses"], [b"x", b"Lines"]),
    (FLAGS, [b"true", b"1", b"y", b"t", b"yes", b"false", b"no"], [b"maybe", b"", b"True"]),
    ([b"nodecount"], [b"0", b"1", b"2", b"3", b"-1", b"007", b"100"], [b"2147483648", b"x", b"", b"-2", b"--1"]),
    ([b"nodefraction", b"edgefraction"], RANGES, BAD_RANGES),
    ([b"sample_index"], [b"0", b"samples", b"cpu", b"", b"00"], [b"1", b"2", b"zz", b"-1"]),
    ([b"unit"], [b"each", b"each", b""], UNITS + [b"Each", b"auto", b"minimum"]),
    ([b"divide_by"], [b"1", b"2", b"7", b"1000", b"9223372036854775807"], [b"0", b"", b"9223372036854775808"]),
    ([b"source_path", b"trim_path"], [b"src", b":", b"/src/app", b"a:src:/", b"b", b"/abs", b"/src/app/"], [b""]),
    ([b"sort"], [b"flat", b"cum"], [b"Cum", b""]),
    ([b"workers"], [b"1", b"2", b"4", b"64", b"07"], [b"65", b"0", b"-1"]),
]


def setting(rng):
    """A variable with a value, mostly one that it can have."""
    if rng.random() < 0.3:
        return rng.choice(PATTERNED), rng.choice(PATTERNS if rng.random() < 0.95 else BAD_PATTERNS)
    names, good, bad = rng.choice(SETTINGS)
    return rng.choice(names), rng.choice(good if rng.random() < 0.9 else bad)


CHOICES = [
    b"cum", b"flat", b"lines", b"files", b"addresses", b"filefunctions", b"noinlines", b"showcolumns", b"path_tree",
    b"lines=no", b"inuse_space", b"total_delay", b"contentions=t", b"relative_percentages", b"alloc_space",
]


def random_option(rng):
    pick = rng.random()
    if pick < 0.15:
        return [b"-" + rng.choice(CHOICES)]
    name, value = setting(rng)
    dashes = rng.choice([b"-", b"-", b"--"])
    if rng.random() < 0.75 or name in FLAGS:
        return [dashes + name + b"=" + value]
    return [dashes + name, value]


def odd_word(rng):
    return rng.choice([
        [b"-frob"], [b"--"], [b"-"], [b"-focus"], [b"---top"], [b"-=x"], [b"-top=no"], [b"-top"], [b"-peek"],
        [b"-gen=0"], [b"-h"], [b"missing"], [b"-normalize=x"], [b""], [b"-list="], [b"folder"],
    ])


def shell_line(rng):
    pick = rng.random()
    if pick < 0.4:
        name = rng.choice(REPORTS + [b"peek", b"list"])
        words = [name + rng.choice([b"", b"", b"", b"3", b"10"])]
        more = [
            b"main", b"-f", b"-", b"2", b">out", b"> out2", b">", b"|", b"-cum", b"--cum", b"work", b"(",
            b"-(", b"a b", b">src/o", b">folder", b">no/x", b"2147483648", b">>p",
        ]
        words += [rng.choice(more) for _ in range(rng.choice([0, 0, 1, 1, 2, 3]))]
        return rng.choice([b" ", b"\t", b"  "]).join(words)
    if pick < 0.8:
        name, value = setting(rng)
        return rng.choice([b"", b" "]) + name + rng.choice([
            b"=", b" = ", b"= ",
        ]) + value + rng.choice([b"", b" ", b"\t"])
    others = [
        b"", b"q", b"o", b"options", b"help me", b"quit", b"exit", b"frob", b"cum", b"lines", b"noinlines",
        b"nodecount", b"sort", b"=", b"x=y", b"cum=1", b"\r", b" \t", b"tops", b"top x y z", b"peek", b"list",
        b"path_tree ", b"functions", b"10", b"a" * 65536, b"b" * 65537,
    ]
    return rng.choice(others)


def random_input(rng):
    lines = [shell_line(rng) for _ in range(rng.randint(0, 7))]
    ends = [rng.choice([b"\n", b"\n", b"\n", b"\r\n"]) for _ in lines]
    text = b"".join(line + end for line, end in zip(lines, ends))
    return text if rng.random() < 0.7 or not text else text[:-1]


class Case:
    """What a session is given. Files are a dict of paths and contents; paths that end in `/` are folders."""

    def __init__(self, words, files, given):
        self.words, self.files, self.given = words, files, given

    def command(self, program):
        words = " ".join(shlex.quote(os.fsdecode(word)) for word in self.words)
        return f"{program} {words} < input"


def random_file(rng, types):
    pick = rng.random()
    if pick < (0.4 if types == LEGACY else 0.01):
        return legacy(rng)
    if pick < 0.04:
        return rng.choice([b"", b"\x1f\x8b\x08", b"\0", bytes(16), b"text"])
    data = ProfileMaker(rng, *types).make()
    while rng.random() < 0.06:
        data = spoiled(rng, data)
    return data


def random_case(seed, number):
    rng = random.Random(f"{seed}/{number}")
    types = rng.choice([GENERATED, LEGACY]) if rng.random() < 0.12 else random_types(rng)
    files = {b"folder/": b""}
    sources = []
    for name in rng.choice([[b"p"], [b"p"], [b"p", b"r"], [b"p", b"r", b"s"]]):
        files[name] = random_file(rng, types if rng.random() < 0.98 else random_types(rng))
        sources.append([name])
    if rng.random() < (0.5 if types == GENERATED else 0.01):
        sources.append([b"-gen=" + rng.choice([b"1", b"7", b"17", b"0020"])])
    if rng.random() < 0.25:
        option = rng.choice([b"-base=", b"-diff_base=", b"-diff_base="])
        for _ in range(rng.choice([1, 1, 2])):
            name = rng.choice([b"t", b"p"])
            files.setdefault(name, random_file(rng, types))
            sources.append([option + name])
        if rng.random() < 0.3:
            sources.append([b"-normalize"])
    for path in b"work.c", b"src/work.c", b"src/b/c.go":
        if rng.random() < 0.3:
            count = rng.choice([0, 3, 9, 25, 40])
            files[path] = b"".join(b"w%d\n" % n for n in range(1, count)) + rng.choice([b"end", b"end\r\n", b""])
    words = sources + [random_option(rng) for _ in range(rng.choice([0, 0, 1, 1, 2, 3]))]
    is_shell = rng.random() < 0.3
    words += [] if is_shell else [random_format(rng)]
    words += [odd_word(rng)] if rng.random() < 0.03 else []
    rng.shuffle(words)
    return Case([word for group in words for word in group], files, random_input(rng) if is_shell else b"")


# Runs.


def owed(case):
    """Both outputs, the status and the files, as the model has them."""
    files = {path: content for path, content in case.files.items() if not path.endswith(b"/")}
    folders = {path[:-1] for path in case.files if path.endswith(b"/")}
    outside = FolderMemory(files, case.given, folders=folders | folders_of(files))
    status = run(case.words, outside)
    return (*outside.left(), status, outside.files)


def folders_of(files):
    """The folders that files are in, and those that are there in any case."""
    return {b".", b"/", b"//"} | {path[:at] for path in files for at, byte in enumerate(path) if byte == 47}


class FolderMemory(Memory):
    """Files below one folder: a path is read as the system reads it, and written where its folder is there."""

    def plain(self, path):
        """The path from the folder on; the system's root is a folder too, and no other path above is there."""
        where = os.path.normpath(path)
        return where if not where.startswith((b"..", b"/")) or where.strip(b"/") == b"" else b"/none"

    def read(self, path, limit):
        if not path or not is_text(path):
            return None
        where = self.plain(path)
        is_folder = where in self.folders
        return None if path.endswith(b"/") and not is_folder else super().read(where, limit)

    def write(self, path, content):
        where = self.plain(path)
        folder = os.path.dirname(where)
        if not is_text(path) or path.endswith(b"/") or where in self.folders or folder not in self.folders | {b""}:
            return False
        return super().write(where, content)


def is_text(path):
    try:
        path.decode("utf-8")
    except UnicodeDecodeError:
        return False
    return b"\0" not in path


def make_folder(place, case):
    for path, content in case.files.items():
        target = os.path.join(place, path)
        os.makedirs(target if path.endswith(b"/") else os.path.dirname(target), exist_ok=True)
        if not path.endswith(b"/"):
            with open(target, "wb") as file:
                file.write(content)


def found_in(place):
    found = {}
    for folder, _, names in os.walk(place):
        for name in names:
            with open(os.path.join(folder, name), "rb") as file:
                found[os.path.relpath(os.path.join(folder, name), place)] = file.read()
    return found


def got(program, case):
    """The same of the program."""
    place = os.fsencode(tempfile.mkdtemp(prefix="fuzz"))
    try:
        make_folder(place, case)
        try:
            ended = subprocess.run(
                [program, *case.words], cwd=place, input=case.given, capture_output=True, timeout=SECONDS
            )
        except subprocess.TimeoutExpired:
            return b"", b"", f"no end after {SECONDS} seconds", {}
        return ended.stdout, ended.stderr, ended.returncode, found_in(place)
    finally:
        shutil.rmtree(place, ignore_errors=True)


def differences(program, case):
    """The names of what differs; None where the model does not speak of the case."""
    try:
        due = owed(case)
    except Unspoken:
        return None
    left = got(program, case)
    return [name for name, a, b in zip(("output", "error", "status", "files"), left, due) if a != b]


# Smaller cases.


def top_fields(data):
    """Where each field of the bytes begins and ends, and its number, as far as they can be read."""
    places = []
    try:
        places = [(place, number) for number, _, _, place in fields(data, 0, len(data))]
    except WireFault:
        pass
    ends = [place for place, _ in places[1:]] + [len(data)]
    return [(place, end, number) for (place, number), end in zip(places, ends)]


def smaller(case):
    """Cases with a part less."""
    for at in range(len(case.words)):
        yield Case(case.words[:at] + case.words[at + 1 :], case.files, case.given)
    lines = case.given.splitlines(keepends=True)
    for at in range(len(lines)):
        yield Case(case.words, case.files, b"".join(lines[:at] + lines[at + 1 :]))
    for path, content in case.files.items():
        yield Case(case.words, {p: c for p, c in case.files.items() if p != path}, case.given)
        for start, end, number in reversed(top_fields(content)):
            if number != 6:
                yield Case(case.words, {**case.files, path: content[:start] + content[end:]}, case.given)


def minimized(program, case, kinds):
    """A case that differs likewise, of which no part can be left out."""
    while True:
        for less in smaller(case):
            if differences(program, less) == kinds:
                case = less
                break
        else:
            return case


def told(program, case, title, kinds):
    """Keeps the case's folder and says what differs."""
    place = tempfile.mkdtemp(prefix="fuzz-case-")
    make_folder(os.fsencode(place), case)
    pathlib.Path(place, "input").write_bytes(case.given)
    lines = [f"{title}: {', '.join(kinds)} differ", f"  (cd {place} && {case.command(program)})"]
    due, left = owed(case), got(program, case)
    for name, a, b in zip(("output", "error", "status", "files"), left, due):
        if a != b:
            lines += [f"  {name} is   {a!r:.900}", f"  {name} owed {b!r:.900}"]
    return "\n".join(lines)


def run_some(job):
    """Runs the cases of one job. How many ran, how many the model didn't speak of, and a text for each difference."""
    program, seed, numbers, is_minimized, is_kept = job
    ran = unspoken = 0
    texts = []
    for number in numbers:
        case = random_case(seed, number)
        kinds = differences(program, case)
        if kinds is None:
            unspoken += 1
            continue
        ran += 1
        if kinds and is_kept and len(texts) < KEEP:
            small = minimized(program, case, kinds) if is_minimized else case
            texts.append(told(program, small, f"case {number} of seed {seed}", kinds))
        elif kinds:
            texts.append(f"case {number} of seed {seed}: {', '.join(kinds)} differ")
    return ran, unspoken, texts


def arguments():
    parser = argparse.ArgumentParser(
        description=__doc__, formatter_class=argparse.RawDescriptionHelpFormatter
    )
    parser.add_argument("program", help="the built program, as crates/pprof/out/pprof")
    parser.add_argument("--seed", default="1", help="another seed gives other cases (1)")
    parser.add_argument("--cases", type=int, default=2000, help="how many cases (2000)")
    parser.add_argument("--first", type=int, default=0, help="the number of the first case (0)")
    parser.add_argument("--minimize", action="store_true", help="make each difference smaller")
    parser.add_argument("--jobs", type=int, default=2, help="cases side by side (2)")
    return parser.parse_args()


def main():
    given = arguments()
    program = os.path.abspath(given.program)
    last = given.first + given.cases
    jobs = [
        (program, given.seed, range(at, min(at + 200, last)), given.minimize, True)
        for at in range(given.first, last, 200)
    ]
    ran = unspoken = differ = 0
    with concurrent.futures.ProcessPoolExecutor(given.jobs) as pool:
        for count, silent, texts in pool.map(run_some, jobs):
            ran, unspoken, differ = ran + count, unspoken + silent, differ + len(texts)
            for text in texts:
                print(text, flush=True)
    print(f"seed {given.seed}: {ran + unspoken} cases, {differ} differ, {unspoken} not spoken of by the model")
    sys.exit(1 if differ else 0)


if __name__ == "__main__":
    main()
