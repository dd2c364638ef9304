#!/usr/bin/env python3
"""Writes CPU profiles of one made-up program, as the machines of a fleet would save them.

usage: fleet.py FOLDER COUNT [options]

The program has a fixed set of stacks. Some are seen often and most seldom: the stack of rank R with a weight of 1 / (R + 20).
A profile has SAMPLES stacks drawn by these weights, in tables of its own, and its object at an address of its own.
The files are FOLDER/00001.pb and so on. The same words give the same files.
"""

import argparse
import collections
import concurrent.futures
import functools
import gzip
import itertools
import pathlib
import random

from make_profile import Table, message, packed, payload, varint

NANOSECONDS = 10_000_000
TEXTS = ["", "samples", "count", "cpu", "nanoseconds", "/srv/server", "c0ffee", "thread"]
START, LENGTH = 0x400000, 0x2000000


def name_of(function):
    return f"pkg{function % 97}.(*Type{function % 401}).Method{function}"


class Program:
    """Its stacks as lists of places, leaf first. The place P is in the function P % functions."""

    def __init__(self, functions, stacks):
        rng = random.Random(functions)
        self.functions = functions
        trunks = [[rng.randrange(functions * 2) for _ in range(36)] for _ in range(max(1, stacks // 60))]
        self.stacks = [self.stack(rng, rng.choice(trunks)) for _ in range(stacks)]
        self.weights = list(itertools.accumulate(1 / (rank + 20) for rank in range(stacks)))

    def stack(self, rng, trunk):
        stack = trunk[-rng.randrange(20, 35) :]
        for _ in range(rng.randrange(0, 6)):
            stack[rng.randrange(len(stack))] = rng.randrange(self.functions * 2)
        return stack

    def profile(self, seed, samples, grown=None, factor=1):
        """A profile's bytes. Stacks with the leaf `grown` count `factor` times."""
        rng = random.Random(seed)
        drawn = collections.Counter(rng.choices(range(len(self.stacks)), cum_weights=self.weights, k=samples))
        numbers, encoded = {}, []
        parts = [payload(1, message({1: 1, 2: 2})), payload(1, message({1: 3, 2: 4}))]
        for rank, count in drawn.items():
            stack = self.stacks[rank]
            for place in stack:
                if place not in numbers:
                    numbers[place] = len(encoded)
                    encoded.append(varint(len(encoded) + 1))
            if stack[0] % self.functions == grown:
                count = round(count * factor)
            body = payload(1, b"".join([encoded[numbers[place]] for place in stack]))
            body += packed(2, [count, count * NANOSECONDS])
            if rank % 10 == 0:
                body += payload(3, message({1: 7, 3: rank % 4 + 1}))
            parts.append(payload(2, body))
        return b"".join(parts + self.tables(seed, numbers))

    def tables(self, seed, numbers):
        """The mapping, locations, functions, texts and header of a profile with these places."""
        start = START + seed % 1024 * 4096
        parts = [payload(3, message({1: 1, 2: start, 3: start + LENGTH, 5: 5, 6: 6, 7: 1}))]
        functions = Table(1)
        for place, number in numbers.items():
            function = functions.number(place % self.functions)
            line = payload(4, message({1: function, 2: 10 + place // self.functions}))
            parts.append(payload(4, message({1: number + 1, 2: 1, 3: start + 64 * place}) + line))
        for number, function in enumerate(functions.entries):
            name = len(TEXTS) + 2 * number
            parts.append(payload(5, message({1: number + 1, 2: name, 3: name, 4: name + 1, 5: 1})))
        texts = TEXTS + [
            text for function in functions.entries for text in (name_of(function), f"/src/file{function % 211}.go")
        ]
        parts += [payload(6, text.encode()) for text in texts]
        parts.append(message({9: (1_700_000_000 + seed) * 10**9, 10: 60 * 10**9, 12: NANOSECONDS}))
        parts.append(payload(11, message({1: 3, 2: 4})))
        return parts


def write(program, told, number):
    content = program.profile(number, told.samples, told.grown, told.factor)
    path = told.folder / f"{number:05}.pb"
    if told.gzip:
        path = path.with_suffix(".pb.gz")
        content = gzip.compress(content, compresslevel=6, mtime=0)
    path.write_bytes(content)


def main():
    parser = argparse.ArgumentParser(description=__doc__, formatter_class=argparse.RawDescriptionHelpFormatter)
    parser.add_argument("folder", type=pathlib.Path)
    parser.add_argument("count", type=int)
    parser.add_argument("--first", type=int, default=1, metavar="N", help="the number of the first profile (1)")
    parser.add_argument("--samples", type=int, default=400, help="samples of a profile (400)")
    parser.add_argument("--functions", type=int, default=300, help="functions of the program (300)")
    parser.add_argument("--stacks", type=int, default=5000, help="stacks of the program (5000)")
    parser.add_argument("--grown", type=int, metavar="F", help="the stacks with the leaf Method<F> count --factor times")
    parser.add_argument("--factor", type=float, default=2)
    parser.add_argument("--gzip", action="store_true", help="write FOLDER/00001.pb.gz")
    parser.add_argument("--jobs", type=int, default=4)
    told = parser.parse_args()
    told.folder.mkdir(parents=True, exist_ok=True)
    program = Program(told.functions, told.stacks)
    numbers = range(told.first, told.first + told.count)
    with concurrent.futures.ProcessPoolExecutor(told.jobs) as pool:
        list(pool.map(functools.partial(write, program, told), numbers, chunksize=max(1, told.count // told.jobs // 4)))


if __name__ == "__main__":
    main()
