"""CPU profiles as gperftools writes them (docs/gperftools.md)."""

import re

from model.profile import GREATEST, Counted, Place, Plain, Region, Told

REGION = re.compile(
    rb"([0-9a-fA-F]{1,16})-([0-9a-fA-F]{1,16}) +([^ ]{4}) +([0-9a-fA-F]{1,16}) +[^ ]+ +[^ ]+(?: +(.*))?",
    re.DOTALL,
)


class LegacyFault(Told):
    """The first fault: its kind and the word at which it is."""

    def __init__(self, kind, word):
        super().__init__(b"%s at word %d" % (kind, word))


def is_legacy(data):
    return len(data) >= 16 and not any(data[:8])


class Words:
    """The file's words of eight bytes, the lowest byte first."""

    def __init__(self, data):
        self.data = data
        self.count = len(data) // 8

    def at(self, place):
        if place >= self.count:
            raise LegacyFault(b"truncated", self.count)
        return int.from_bytes(self.data[8 * place : 8 * place + 8], "little")


def read_header(words):
    """The period in nanoseconds, and the word behind the header."""
    for word, least, greatest in (1, 3, 1 << 64), (2, 0, 0), (3, 1, 9_223_372_036_854_775), (4, 0, 0):
        if not least <= words.at(word) <= greatest:
            raise LegacyFault(b"bad header", word)
    words.at(words.at(1) + 1)
    return words.at(3) * 1000, words.at(1) + 2


def read_records(words, at, period):
    """The records as counts with addresses, and the word behind the trailer."""
    records, seen = [], 0
    while True:
        count, depth = words.at(at), words.at(at + 1)
        if count == 0:
            if depth == 1 and words.at(at + 2) == 0:
                return records, at + 3
            raise LegacyFault(b"bad record", at)
        if depth == 0:
            raise LegacyFault(b"bad record", at + 1)
        seen += count
        if seen * period > GREATEST:
            raise LegacyFault(b"total too large", at)
        words.at(at + 1 + depth)
        records.append((count, [words.at(at + 2 + i) for i in range(depth)]))
        at += 2 + depth


def read_regions(text):
    """The mapped regions that can be run and are not empty, a line each."""
    regions = []
    for line in text.split(b"\n"):
        found = REGION.fullmatch(line)
        if not found:
            continue
        start, limit, offset = (int(found[part], 16) for part in (1, 2, 4))
        if found[3][2:3] == b"x" and start < limit:
            regions.append(Region(start, limit, offset, found[5] or b"", b"", (False,) * 4))
    return regions


def read_legacy(data):
    """The profile of the file. Raises the first fault."""
    words = Words(data)
    period, at = read_header(words)
    records, behind = read_records(words, at, period)
    regions = read_regions(data[8 * behind :])
    known = {}

    def place_of(address):
        if address not in known:
            region = next((r for r in regions if r.start <= address < r.limit), None)
            known[address] = Place(region, address, (), False)
        return known[address]

    samples = tuple(Counted(tuple(map(place_of, stack)), (), (count, count * period)) for count, stack in records)
    types = (b"samples", b"count"), (b"cpu", b"nanoseconds")
    return Plain(types, samples, tuple(regions), (b"cpu", b"nanoseconds"), period=period)
