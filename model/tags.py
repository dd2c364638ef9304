"""Labels: their units, the filters that select samples by them, and frames made of them (docs/patterns.md, docs/reports.md)."""

from collections import namedtuple

from model.merging import merge
from model.profile import Place, Routine, Row
from model.stacks import frames_of, load_pruned, places_left
from model.units import is_in_range, read_range

# `range` is None where the filter has parts.
TagFilter = namedtuple("TagFilter", "name range parts")


def is_text(tag):
    return tag.text != b""


def unit_of(tag):
    """The unit of a number label. Without one it is bytes for two keys, and else the key itself."""
    if tag.unit:
        return tag.unit
    return b"bytes" if tag.key in (b"request", b"alignment") else tag.key


def read_filter(text):
    """A name before the first `=`, where it isn't empty; behind it a range, or parts set apart by commas."""
    name, equals, rest = text.partition(b"=")
    if not equals:
        name, rest = b"", text
    bounds = read_range(rest)
    return TagFilter(name, bounds, [] if bounds else rest.split(b","))


def selects(tag_filter, finders, sample):
    """Whether the filter selects the sample. `finders` has a call for each part; an empty part finds each text."""
    name, bounds, parts = tag_filter
    named = [tag for tag in sample.tags if not name or tag.key == name]
    if bounds:
        return any(not is_text(t) and is_in_range(bounds, t.num, unit_of(t)) for t in named)
    texts = [tag for tag in named if is_text(tag)]
    finds = [finders[part] if part else bool for part in parts]
    if name:
        return any(find(tag.text) for find in finds for tag in texts)
    return all(any(find(t.key + b":" + t.text) for t in texts) for find in finds)


def key_list(text):
    return [key for key in text.split(b",") if key]


def label_place(key, tags):
    """The place of a frame that stands for the labels of a key, or None where there is none."""
    values = [t.text if is_text(t) else b"%d" % t.num + t.unit for t in tags if t.key == key]
    if not values:
        return None
    function = Routine(key + b"=" + b",".join(values), b"", b"", 0)
    return Place(None, 0, (Row(function, 0, 0),), False)


def with_tags(profile, is_prunable, roots, leaves):
    """The profile with frames made of labels: at the root those of `roots`, at the leaf those of `leaves`."""
    samples = []
    for sample in profile.samples:
        above, below = (
            [label_place(key, sample.tags) for key in keys] for keys in (reversed(roots), reversed(leaves))
        )
        inner = places_left(load_pruned(frames_of(sample), is_prunable))
        places = [place for place in below if place] + list(inner) + [place for place in above if place]
        samples.append(sample._replace(places=tuple(places)))
    return merge([profile.but(samples=tuple(samples), drop_frames=b"", keep_frames=b"")])
