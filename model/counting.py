"""What samples come to: the column, Total, keys, sums, and what is trimmed (docs/reports.md)."""

from collections import defaultdict, namedtuple

from model.merging import BASE, towards_zero

# What samples are counted for. Keys are ordered as tuples: texts by bytes, numbers by size.
Key = namedtuple("Key", "function file line column address object")
FIELDS = {
    b"functions": "function",
    b"filefunctions": "function file",
    b"files": "file",
    b"lines": "function file line",
    b"addresses": "function file line address",
}
BILLION = 10**9


def column_of(profile, wanted):
    """The place of the sample type that a report shows, None where there is no type, and -1 for one that isn't there."""
    names = [kind for kind, _ in profile.types]
    if not wanted:
        is_named = profile.default_type and profile.default_type in names
        return names.index(profile.default_type) if is_named else len(names) - 1 if names else None
    if wanted.isdigit():
        return int(wanted) if int(wanted) < len(names) else -1
    return names.index(wanted) if wanted in names else -1


def key_of(frame, grain, has_columns):
    """The key of a frame: what the granularity names of it, and its object where function, file and line are all unknown."""
    kept = FIELDS[grain].split()
    known = {name: getattr(frame, name) for name in kept}
    if has_columns and grain in (b"lines", b"addresses"):
        known["column"] = frame.column
    key = Key(b"", b"", 0, 0, 0, b"")._replace(**known)
    is_known = key.function or key.file or key.line
    return key if is_known else key._replace(object=frame.object)


def name_of(key):
    """The text of a key."""
    parts = [b"%016x" % key.address] if key.address else []
    parts += [key.function] if key.function else []
    if key.line:
        parts.append(key.file + b":%d" % key.line + (b":%d" % key.column if key.column else b""))
    elif key.file:
        parts.append(key.file)
    if not (key.function or key.file or key.line):
        base = key.object.rpartition(b"/")[2]
        parts.append(b"[" + base + b"]" if base else b"<unknown>")
    return b" ".join(parts)


def counting_frames(stack, no_inlines):
    """The frames that count: all, or under noinlines the last of each place."""
    if not no_inlines:
        return stack
    above = stack[1:] + [None]
    return [frame for frame, next in zip(stack, above) if next is None or next.at != frame.at]


class Selected:
    """The filtered samples with what counts of each: the sample, its value, frames, their keys, and the labels shown."""

    Entry = namedtuple("Entry", "sample value frames keys tags")

    def __init__(self, profile, kept, config, column):
        self.divisor, self.column = config["divide_by"], column
        keys = {}

        def key(frame):
            short = frame[3:]
            if short not in keys:
                keys[short] = key_of(frame, config["granularity"], config["showcolumns"])
            return keys[short]

        self.entries = []
        for sample, stack, tags in kept:
            frames = counting_frames(stack, config["noinlines"])
            entry = self.Entry(sample, self.value(sample), frames, list(map(key, frames)), tags)
            self.entries.append(entry)
        relative = config["relative_percentages"]
        self.total = self.total_of([entry.sample for entry in self.entries] if relative else profile.samples)
        self.counted = [entry for entry in self.entries if entry.value]

    def value(self, sample):
        """The sample's value in the column, divided by divide_by towards zero."""
        return 0 if self.column is None else towards_zero(sample.values[self.column], self.divisor)

    def total_of(self, samples):
        """The sum of the absolute values of the base's samples, or of all where that is 0."""
        base = sum(abs(self.value(sample)) for sample in samples if is_of_base(sample))
        return base or sum(abs(self.value(sample)) for sample in samples)


def is_of_base(sample):
    return any((tag.key, tag.text) == (BASE.key, BASE.text) for tag in sample.tags)


def sums_of(entries):
    """The flat and the cum of each key: the samples whose leaf has it, and those of which any frame has it, each once."""
    flats, cums = defaultdict(int), defaultdict(int)
    for entry in entries:
        for at, key in enumerate(dict.fromkeys(entry.keys)):
            flats[key] += entry.value if at == 0 else 0
            cums[key] += entry.value
    return flats, cums


def edges_of(entries, kept):
    """The sum for each pair of kept keys of which one stands directly under the other, each sample once."""
    edges = defaultdict(int)
    for entry in entries:
        keys = [key for key in entry.keys if key in kept]
        pairs = {(caller, callee) for callee, caller in zip(keys, keys[1:]) if caller != callee}
        for pair in pairs:
            edges[pair] += entry.value
    return edges


def report_order(flats, cums, sort):
    """The order of rows: by absolute flat falling, or by cum; then by the other, then by key."""
    first, second = (cums, flats) if sort == b"cum" else (flats, cums)
    return lambda key: (-abs(first[key]), -abs(second[key]), key)


def is_heavy(value, total, fraction):
    return abs(value) * BILLION >= total * fraction


class Ranking:
    """The keys that occur, those that are heavy enough, and of these the first `limit` (0: all), in report order."""

    def __init__(self, counts, config, limit):
        self.flats, self.cums = sums_of(counts.counted)
        order = report_order(self.flats, self.cums, config["sort"])
        self.all = sorted(self.cums, key=order)
        fraction = config["nodefraction"]
        self.heavy = [key for key in self.all if is_heavy(self.cums[key], counts.total, fraction)]
        self.shown = self.heavy[: limit or None]
        self.dropped = len(self.all) - len(self.heavy)


class Node:
    """A call path: the prefix of some sample's path from the root."""

    def __init__(self, key, depth):
        self.key, self.depth, self.flat, self.cum = key, depth, 0, 0
        self.children = {}

    def ordered(self):
        """The nodes below, each with its own below it, heaviest first."""
        waiting = [self]
        while waiting:
            node = waiting.pop()
            if node is not self:
                yield node
            below = node.children.values()
            waiting += sorted(below, key=lambda n: (-abs(n.cum), -abs(n.flat), n.key), reverse=True)


def path_tree(entries):
    """The node above all roots."""
    top = Node(None, -1)
    for entry in entries:
        node = top
        for key in reversed(entry.keys):
            node = node.children.setdefault(key, Node(key, node.depth + 1))
            node.cum += entry.value
        if entry.keys:
            node.flat += entry.value
    return top


def without_light(top, total, fraction):
    """Takes off each node that is too light, with all below it."""
    waiting = [top]
    while waiting:
        node = waiting.pop()
        kept = {k: n for k, n in node.children.items() if is_heavy(n.cum, total, fraction)}
        node.children = kept
        waiting += kept.values()
