#!/usr/bin/env python3
"""Makes the profiles of the transcripts from their descriptions, without any code of the program.

crates/pp_sessions/data/fixtures/descriptions.txt has a line for each profile: its name, a colon, and items set apart
by `; `. With --check nothing is written, and the status is 1 where a file is not what its line says.

  type KIND/UNIT                    a sample type; without any it is samples/count
  LOCATIONS = VALUES {LABELS}       a sample: locations leaf first and values set apart by spaces, labels by `, `
    f:7                             a location without address, with the line 7 of f in the file f.c; in the names of
                                    functions and files, and in a unit, escapes stand for bytes as in transcripts
    f%/a/b.c:7:3                    another file, and a column
    f:7+g:9                         one location with two lines: f was inlined into g
    f:7@1100  @1100                 an address in the first mapping, and one without lines; `!` behind it: folded
    f:7@1100/2  f:7@1100/0          an address in the second mapping, and in none
    key=text  key=#5  key=#5 unit   labels
  ids STEP                        ids of mappings, locations and functions are these multiples of their places
  map START LIMIT OFFSET FILE [BUILD [FLAGS]]   hexadecimal numbers, FLAGS some of FN,FL,IN,LN
  function NAME FILE SYSTEM START   what a function has beside its name and file
  drop PATTERN, keep PATTERN, remark TEXT, document TEXT, default KIND
  period_type KIND/UNIT, period N, time N, duration N
"""

import argparse
import dataclasses
import pathlib
import sys

from transcripts import plain

FIXTURES = pathlib.Path(__file__).resolve().parent.parent / "crates/pp_sessions/data/fixtures"
DESCRIPTIONS = FIXTURES / "descriptions.txt"
FLAGS = {"FN": 7, "FL": 8, "LN": 9, "IN": 10}


def unescaped(text):
    return plain(text.encode("latin-1")).decode("latin-1")


# Protocol Buffers' encoding.


def varint(number):
    number %= 1 << 64
    out = bytearray()
    while number > 127:
        out.append(number & 127 | 128)
        number >>= 7
    return bytes(out) + bytes([number])


def scalar(field, number):
    return varint(field << 3) + varint(number) if number else b""


def payload(field, content):
    return varint(field << 3 | 2) + varint(len(content)) + content


def packed(field, numbers):
    return payload(field, b"".join(map(varint, numbers))) if numbers else b""


def message(scalars):
    """The fields of a message of numbers alone."""
    return b"".join(scalar(field, number) for field, number in sorted(scalars.items()))


# A profile under way.


class Table:
    """Entries that get numbers in the order of first sight, which are multiples of the step."""

    def __init__(self, first):
        self.first = first
        self.step = 1
        self.entries = {}

    def number(self, entry):
        return self.step * (self.entries.setdefault(entry, len(self.entries)) + self.first)


@dataclasses.dataclass
class Profile:
    """What a line describes. Texts get their numbers when it is written."""

    types: list = dataclasses.field(default_factory=list)
    samples: list = dataclasses.field(default_factory=list)
    mappings: list = dataclasses.field(default_factory=list)
    locations: Table = dataclasses.field(default_factory=lambda: Table(1))
    functions: Table = dataclasses.field(default_factory=lambda: Table(1))
    more: dict = dataclasses.field(default_factory=dict)
    header: dict = dataclasses.field(default_factory=dict)
    remarks: list = dataclasses.field(default_factory=list)
    step: int = 1

    def take(self, item):
        word, _, rest = item.partition(" ")
        if word == "type":
            self.types.append([unescaped(part) for part in rest.split("/")])
        elif word == "ids":
            self.step = self.locations.step = self.functions.step = int(rest)
        elif word == "map":
            self.mappings.append(rest.split(" "))
        elif word == "function":
            name, file, system, start = rest.split(" ")
            self.more[name, file] = system, int(start)
        elif word == "remark":
            self.remarks.append(rest)
        elif word in ("drop", "keep", "document", "default", "period_type", "period", "time", "duration"):
            self.header[word] = rest
        else:
            self.take_sample(item)

    def take_sample(self, item):
        stack, _, rest = item.partition("= ")
        values, _, labels = rest.partition(" {")
        self.samples.append(
            (
                [self.locations.number(self.location(place)) for place in stack.split()],
                [int(value) for value in values.split()],
                [label.split("=") for label in labels.rstrip("}").split(", ") if label],
            )
        )

    def location(self, place):
        """Address, the number of its mapping or 0, folded or not, and lines of function, line and column."""
        is_folded = place.endswith("!")
        lines, _, where = place.rstrip("!").partition("@")
        address, _, mapping = where.partition("/")
        first = int(bool(self.mappings) and int(address or "0", 16) > 0)
        return (
            int(address or "0", 16),
            int(mapping) if mapping else first,
            is_folded,
            tuple(self.line(line) for line in lines.split("+") if line),
        )

    def line(self, text):
        name, line, column = (text + ":0").split(":")[:3]
        name, _, file = name.partition("%")
        file = file if "%" in text else name + ".c"
        return self.functions.number((unescaped(name), unescaped(file))), int(line), int(column)


def encoded(profile):
    """The bytes of the profile."""
    texts = Table(0)
    texts.number("")
    types = [pair(texts, kind) for kind in profile.types or [("samples", "count")]]
    step = profile.step
    mappings = [mapping_message(texts, step * i, m) for i, m in enumerate(profile.mappings, 1)]
    functions = [
        function_message(texts, step * i, f, profile.more)
        for i, f in enumerate(profile.functions.entries, 1)
    ]
    samples = [sample_message(texts, sample) for sample in profile.samples]
    locations = [
        location_message(step * i, step, place) for i, place in enumerate(profile.locations.entries, 1)
    ]
    header = header_fields(texts, profile)
    tables = [(1, types), (2, samples), (3, mappings), (4, locations), (5, functions)]
    tables.append((6, [text.encode("latin-1") for text in texts.entries]))
    return b"".join(payload(field, entry) for field, table in tables for entry in table) + header


def pair(texts, kind_and_unit):
    kind, unit = kind_and_unit
    return message({1: texts.number(kind), 2: texts.number(unit)})


def mapping_message(texts, number, mapping):
    start, limit, offset, file, build, flags = (mapping + ["", ""])[:6]
    fields = {1: number, 2: int(start, 16), 3: int(limit, 16), 4: int(offset, 16)}
    fields |= {5: texts.number(file), 6: texts.number(build)}
    fields |= {FLAGS[flag]: 1 for flag in flags.split(",") if flag}
    return message(fields)


def function_message(texts, number, function, more):
    name, file = function
    system, start = more.get(function, ("", 0))
    fields = {1: number, 2: texts.number(name), 3: texts.number(system), 4: texts.number(file)}
    return message(fields | {5: start})


def location_message(number, step, place):
    address, mapping, is_folded, lines = place
    front = message({1: number, 2: step * mapping, 3: address})
    listed = b"".join(payload(4, message(dict(enumerate(line, 1)))) for line in lines)
    return front + listed + scalar(5, is_folded)


def sample_message(texts, sample):
    locations, values, labels = sample
    listed = b"".join(payload(3, label_message(texts, key, value)) for key, value in labels)
    return packed(1, locations) + packed(2, values) + listed


def label_message(texts, key, value):
    key = texts.number(key)
    if not value.startswith("#"):
        return message({1: key, 2: texts.number(value)})
    number, _, unit = value[1:].partition(" ")
    return message({1: key, 3: int(number), 4: texts.number(unit)})


def header_fields(texts, profile):
    header = profile.header
    text = {name: texts.number(header.get(name, "")) for name in ("drop", "keep")}
    number = {name: int(header.get(name, "0")) for name in ("time", "duration", "period")}
    period = pair(texts, header["period_type"].split("/")) if "period_type" in header else b""
    remarks = [texts.number(remark) for remark in profile.remarks]
    front = message({7: text["drop"], 8: text["keep"], 9: number["time"], 10: number["duration"]})
    middle = (payload(11, period) if period else b"") + scalar(12, number["period"]) + packed(13, remarks)
    last = {14: texts.number(header.get("default", "")), 15: texts.number(header.get("document", ""))}
    return front + middle + message(last)


def described(description):
    profile = Profile()
    for item in description.split("; "):
        profile.take(item)
    return encoded(profile)


def main():
    parser = argparse.ArgumentParser(
        description=__doc__, formatter_class=argparse.RawDescriptionHelpFormatter
    )
    parser.add_argument("--check", action="store_true", help="compare, and write nothing")
    given = parser.parse_args()
    count = wrong = 0
    for line in DESCRIPTIONS.read_text().splitlines():
        if not line or line.startswith("#"):
            continue
        name, _, description = line.partition(": ")
        count += 1
        path, content = FIXTURES / name, described(description)
        if not given.check:
            path.write_bytes(content)
        elif not path.exists() or path.read_bytes() != content:
            wrong += 1
            print(f"{name}: not as described")
    print(f"{count} profiles, {wrong} not as described" if given.check else f"{count} profiles written")
    sys.exit(1 if wrong else 0)


if __name__ == "__main__":
    main()
