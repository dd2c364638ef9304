"""Frames and the filters on them (docs/patterns.md). A stack is a list of frames, leaf first."""

from collections import namedtuple

# `at` is the place's position in the sample, `place` that place, `row` its line, or None where it has none. The others are
# what a frame stands for: texts are empty and numbers 0 where they are not known.
Frame = namedtuple("Frame", "at place row function file line column address object")
NOBODY = (b"", b"", b"", 0)


def frames_at(at, place):
    """The frames of one place: one for each line, or one without a name."""
    found = place.region.file if place.region else b""
    frames = []
    for row in place.rows or (None,):
        function, _, file, _ = (row and row.function) or NOBODY
        line, column = (row.line, row.column) if row else (0, 0)
        frames.append(Frame(at, place, row, function, file, line, column, place.address, found))
    return frames


def frames_of(sample):
    return [frame for at, place in enumerate(sample.places) for frame in frames_at(at, place)]


def load_pruned(stack, is_prunable):
    """From the root frames stay up to the first that isn't prunable; below it the first prunable one goes, with all below."""
    marks = [is_prunable(frame) for frame in stack]
    firm = max((at for at, mark in enumerate(marks) if not mark), default=None)
    if firm is None:
        return stack
    cut = max((at for at in range(firm) if marks[at]), default=None)
    return stack if cut is None else stack[cut + 1 :]


def by_texts(finds):
    """Whether a pattern finds a frame: in its function's name, its file's, or its mapping's file."""
    return lambda frame: finds(frame.function) or finds(frame.file) or finds(frame.object)


def filtered(stack, filters):
    """Which of ignore, focus, hide, show and show_from drops the sample, or None, and what they and prune_from leave."""
    found = {name: by_texts(finds) for name, finds in filters.items()}
    if "ignore" in found and any(map(found["ignore"], stack)):
        return "ignore", []
    if "focus" in found and not any(map(found["focus"], stack)):
        return "focus", []
    left = stack
    for name, stays in ("hide", False), ("show", True):
        if name in found:
            left = [frame for frame in left if found[name](frame) == stays]
            if stack and not left:
                return name, []
    if "show_from" in found:
        last = max((at for at, frame in enumerate(left) if found["show_from"](frame)), default=None)
        if last is None:
            return "show_from", []
        left = left[: last + 1]
    if "prune_from" in filters:
        names = enumerate(filters["prune_from"](frame.function) for frame in left)
        left = left[next((at for at, is_found in names if is_found), 0) :]
    return None, left


def of_one_place(stack):
    """The frames of each place, one list after the other."""
    groups = []
    for frame in stack:
        if groups and groups[-1][0].at == frame.at:
            groups[-1].append(frame)
        else:
            groups.append([frame])
    return groups


def places_left(stack):
    """The places of a stack that was filtered: each has the lines of its frames that are left."""
    return tuple(
        group[0].place._replace(rows=tuple(frame.row for frame in group if frame.row is not None))
        for group in of_one_place(stack)
    )
