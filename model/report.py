"""One report: in which order it is refused, what is asked of patterns, the notes, and the text (docs/messages.md)."""

from model import dumps, reports
from model.counting import Selected, column_of
from model.patterns import Refused, finder
from model.profile import Told
from model.stacks import by_texts, filtered, frames_of, load_pruned
from model.tags import key_list, read_filter, selects, with_tags
from model.units import forced

NAMES = b"top tree peek traces tags folded table compare changes account".split()
TEXTS = {name: getattr(reports, name.decode()) for name in NAMES}
TEXTS[b"list"] = dumps.listing
SAVED = {b"raw": dumps.raw, b"proto": dumps.proto}
STACKS = ("focus", "ignore", "hide", "show", "show_from")
DROPPING = ("ignore", "focus", "hide", "show", "show_from", "tagfocus", "tagignore")
NOTED = STACKS + ("tagfocus", "tagignore", "tagshow", "taghide")


class ReportRefusal(Told):
    """A report that can't be made."""


def nobody(_frame):
    """No frame is left out."""
    return False


def is_prunable(profile, matcher):
    """Whether a frame is one that the profile itself leaves out. Raises Refused with the pattern's name."""
    found = {}
    for name in "drop_frames", "keep_frames":
        text = getattr(profile, name)
        if text:
            found[name] = asked(matcher, name, b"^(?:" + text + b")$")
    drops, keeps = found.get("drop_frames", nobody), found.get("keep_frames", nobody)
    return lambda frame: drops(frame.function) and not keeps(frame.function)


def asked(matcher, name, pattern):
    try:
        return finder(matcher, pattern)
    except Refused:
        raise ReportRefusal(name.encode() + b": pattern refused") from None


class Filters:
    """What the filters of a configuration find. Patterns are asked in a fixed order; the first that is refused ends it."""

    def __init__(self, config, report, pattern, matcher):
        self.stacks, self.parts, self.shown, self.own = {}, {}, {}, None
        for name in STACKS:
            if config[name]:
                self.stacks[name] = asked(matcher, name, config[name])
        self.tags = {n: read_filter(config[n]) for n in ("tagfocus", "tagignore") if config[n]}
        for name, tag_filter in self.tags.items():
            self.parts[name] = {p: asked(matcher, name, p) for p in tag_filter.parts if p}
        if config["prune_from"]:
            self.stacks["prune_from"] = asked(matcher, "prune_from", config["prune_from"])
        for name in "tagshow", "taghide":
            if config[name]:
                self.shown[name] = asked(matcher, name, config[name])
        if pattern is not None:
            self.own = asked(matcher, report.decode(), pattern)

    def selects(self, name, sample):
        return selects(self.tags[name], self.parts[name], sample)

    def dropper(self, sample):
        """Which of tagfocus and tagignore drops the sample, or None."""
        if "tagfocus" in self.tags and not self.selects("tagfocus", sample):
            return "tagfocus"
        return "tagignore" if "tagignore" in self.tags and self.selects("tagignore", sample) else None

    def shows(self, tag):
        """Whether a label is shown."""
        if "tagshow" in self.shown and not self.shown["tagshow"](tag.key):
            return False
        return not ("taghide" in self.shown and self.shown["taghide"](tag.key))

    def sorted_out(self, profile, is_prunable):
        """The samples that are left, each with its stack and its labels as they are left, and those that each filter in
        force is the first to drop."""
        kept, dropped = [], {name: [] for name in DROPPING if name in self.stacks or name in self.tags}
        for sample in profile.samples:
            name, stack = filtered(load_pruned(frames_of(sample), is_prunable), self.stacks)
            name = name or self.dropper(sample)
            if name:
                dropped[name].append(sample)
            else:
                kept.append((sample, stack, [tag for tag in sample.tags if self.shows(tag)]))
        return kept, dropped

    def matches(self, name, sample, stack):
        """Whether an option finds something in a loaded sample."""
        if name in self.stacks:
            return any(map(by_texts(self.stacks[name]), stack))
        if name in self.tags:
            return self.selects(name, sample)
        return any(self.shown[name](tag.key) for tag in sample.tags)

    def notes(self, profile, is_prunable):
        """A line for each option that is set and finds nothing in any loaded sample."""
        stacks = [(s, load_pruned(frames_of(s), is_prunable)) for s in profile.samples]
        in_force = [n for n in NOTED if n in self.stacks or n in self.tags or n in self.shown]
        return [
            b"pprof: " + name.encode() + b" matched no samples\n"
            for name in in_force
            if not any(self.matches(name, *pair) for pair in stacks)
        ]


def basis(profile, report, config):
    """The column, and the name and unit of its type. Raises the refusals of sample_index and unit."""
    if report in SAVED:
        return None, b"", b""
    column = column_of(profile, config["sample_index"])
    if column == -1:
        raise ReportRefusal(b"sample_index: no such sample type")
    kind, unit = profile.types[column] if column is not None else (b"", b"")
    if config["unit"] not in (b"", b"each") and forced(config["unit"], unit) is None:
        raise ReportRefusal(b"unit: other than the sample's kind")
    return column, kind, unit


def prepared(loaded, report, pattern, config, matcher, tell, read):
    """The text of a report. `tell` is called with the notes before any source is read, and `read` reads a source."""
    profile, prunable, has_base = loaded
    if report == b"comments":
        return dumps.comments(profile)
    column, kind, unit = basis(profile, report, config)
    roots, leaves = key_list(config["tagroot"]), key_list(config["tagleaf"])
    if roots or leaves:
        profile, prunable = with_tags(profile, prunable, roots, leaves), nobody
    filters = Filters(config, report, pattern, matcher)
    tell(b"".join(filters.notes(profile, prunable)))
    kept, dropped = filters.sorted_out(profile, prunable)
    if report in SAVED:
        return SAVED[report](dumps.saved(profile, kept))
    counts = Selected(profile, kept, config, column)
    subject = reports.Subject(profile, counts, config, kind, unit, filters.own, read, dropped)
    if filters.own and not reports.is_matched(subject):
        raise ReportRefusal(b"no function matches")
    if report in (b"compare", b"changes") and not (has_base or reports.is_compared(subject)):
        raise ReportRefusal(b"compare: no -diff_base was given")
    return TEXTS[report](subject)
