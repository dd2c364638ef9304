"""The reports on counted samples: all but list, raw, comments and proto (docs/reports.md).

Each is made of a Subject: the profile, what was selected of it, the configuration, and how values are printed.
"""

from collections import defaultdict, namedtuple

from model.counting import Ranking, edges_of, is_heavy, is_of_base, name_of, path_tree
from model.counting import report_order, sums_of, without_light
from model.tags import is_text, unit_of
from model.units import forced, percent_text, picked, value_text

Subject = namedtuple("Subject", "profile counts config kind unit own read dropped")

SEPARATOR = b"-" * 69 + b"+" + b"-" * 20
TRACES_SEPARATOR = b"-" * 11 + b"+" + b"-" * 55


def joined(lines):
    return b"".join(line + b"\n" for line in lines)


def right(text, places):
    return text.rjust(places)


def spelled(subject, value):
    """A value in the report's unit, or under `each` in the one that it would pick were it the total."""
    wanted = subject.config["unit"]
    if wanted == b"each":
        unit = picked(value, subject.unit)
    else:
        unit = forced(wanted, subject.unit) if wanted else picked(subject.counts.total, subject.unit)
    return value_text(value, unit)


def percent(subject, value):
    return percent_text(value, subject.counts.total)


def head_lines(subject):
    """File, Type and Duration, each where it is known."""
    profile, lines = subject.profile, []
    base = profile.regions[0].file.rpartition(b"/")[2] if profile.regions else b""
    if base:
        lines.append(b"File: " + base)
    if subject.kind:
        lines.append(b"Type: " + subject.kind)
    if profile.duration > 0:
        taken = value_text(profile.duration, picked(profile.duration, b"nanoseconds"))
        total = spelled(subject, subject.counts.total)
        lines.append(b"Duration: " + taken + b", Total samples = " + total)
    return lines


def showing_line(subject, flat):
    parts = spelled(subject, flat), percent(subject, flat), spelled(subject, subject.counts.total)
    return b"Showing nodes accounting for %s, %s of %s total" % parts


def limits_lines(ranking, edges=0):
    """What is left out for being light, and how many of the heavy ones are shown."""
    lines = [b"Dropped %d nodes by nodefraction" % ranking.dropped] if ranking.dropped else []
    lines += [b"Dropped %d edges by edgefraction" % edges] if edges else []
    if len(ranking.shown) < len(ranking.heavy):
        lines.append(b"Showing top %d nodes out of %d" % (len(ranking.shown), len(ranking.heavy)))
    return lines


def limit_of(subject, standard):
    count = subject.config["nodecount"]
    return standard if count == -1 else count


# Top.

TOP_HEADING = b"      flat    flat%     sum%        cum     cum%"


def figures(subject, flat, so_far, cum):
    """The five columns of top."""
    shares = [right(percent(subject, value), 8) for value in (flat, so_far, cum)]
    flat, cum = (right(spelled(subject, value), 10) for value in (flat, cum))
    return b" ".join([flat, *shares[:2], cum, shares[2]])


def top(subject):
    ranking = Ranking(subject.counts, subject.config, limit_of(subject, 0))
    flats, cums = ranking.flats, ranking.cums
    lines = head_lines(subject) + [showing_line(subject, sum(flats[key] for key in ranking.shown))]
    lines += limits_lines(ranking) + [TOP_HEADING]
    so_far = 0
    for key in ranking.shown:
        so_far += flats[key]
        lines.append(figures(subject, flats[key], so_far, cums[key]) + b"  " + name_of(key))
    return joined(lines)


# Tree and peek.

TREE_HEADING = TOP_HEADING + b"      calls   calls% | context"


def edge_lines(subject, ends, cum):
    """The lines of callers or callees, given as pairs of a key and the edge's value."""
    lines = []
    for key, value in sorted(ends, key=lambda end: (-abs(end[1]), end[0])):
        part = right(percent_text(value, abs(cum)), 8)
        lines.append(b" " * 49 + right(spelled(subject, value), 10) + b" " + part + b" |   " + name_of(key))
    return lines


def blocks(subject, keys, ranking, edges):
    """For each key its callers, its own line and its callees."""
    lines, so_far = [SEPARATOR, TREE_HEADING, SEPARATOR], 0
    callers, callees = defaultdict(list), defaultdict(list)
    for (caller, callee), value in edges.items():
        callers[callee].append((caller, value))
        callees[caller].append((callee, value))
    for key in keys:
        flat, cum = ranking.flats[key], ranking.cums[key]
        so_far += flat
        own = figures(subject, flat, so_far, cum) + b" " * 20 + b" | " + name_of(key)
        lines += edge_lines(subject, callers[key], cum) + [own]
        lines += edge_lines(subject, callees[key], cum) + [SEPARATOR]
    return lines


def tree(subject):
    if subject.config["path_tree"]:
        return paths(subject)
    ranking = Ranking(subject.counts, subject.config, limit_of(subject, 80))
    edges = edges_of(subject.counts.counted, set(ranking.shown))
    total, fraction = subject.counts.total, subject.config["edgefraction"]
    heavy = {pair: value for pair, value in edges.items() if is_heavy(value, total, fraction)}
    lines = head_lines(subject)
    lines += [showing_line(subject, sum(ranking.flats[key] for key in ranking.shown))]
    lines += limits_lines(ranking, len(edges) - len(heavy))
    return joined(lines + blocks(subject, ranking.shown, ranking, heavy))


def is_matched(subject):
    """Whether the own pattern finds the function of a frame that counts."""
    return any(subject.own(f.function) for entry in subject.counts.counted for f in entry.frames)


def peek(subject):
    entries = subject.counts.counted
    config = {**subject.config, "nodefraction": 0}
    ranking = Ranking(subject.counts, config, 0)
    found = {key for entry in entries for frame, key in zip(entry.frames, entry.keys) if subject.own(frame.function)}
    edges = edges_of(entries, set(ranking.all))
    lines = head_lines(subject) + [showing_line(subject, sum(ranking.flats.values()))]
    keys = [key for key in ranking.all if key in found]
    return joined(lines + blocks(subject, keys, ranking, edges))


def paths(subject):
    """The tree by paths from the root."""
    total = subject.counts.total
    root = path_tree(subject.counts.counted)
    count = sum(1 for _ in root.ordered())
    without_light(root, total, subject.config["nodefraction"])
    kept = list(root.ordered())
    lines = head_lines(subject) + [showing_line(subject, sum(node.flat for node in kept))]
    if len(kept) < count:
        lines.append(b"Dropped %d nodes by nodefraction" % (count - len(kept)))
    lines.append(TOP_HEADING)
    so_far = 0
    for node in kept:
        so_far += node.flat
        name = b"  " * node.depth + name_of(node.key)
        lines.append(figures(subject, node.flat, so_far, node.cum) + b"  " + name)
    return joined(lines)


# Traces and tags.


def label_text(tag):
    """A text, or a number in the unit that it picks alone."""
    return tag.text if is_text(tag) else value_text(tag.num, picked(tag.num, unit_of(tag)))


def traces(subject):
    lines = head_lines(subject)
    for entry in subject.counts.entries:
        if not entry.frames:
            continue
        lines.append(TRACES_SEPARATOR)
        lines += [right(tag.key, 10) + b":  " + label_text(tag) for tag in entry.tags]
        value = spelled(subject, entry.value)
        for key in entry.keys:
            lines.append(right(value, 10) + b"   " + name_of(key))
            value = b""
    return joined(lines + [TRACES_SEPARATOR])


def tag_order(tag):
    return (0, tag.text, b"") if is_text(tag) else (1, tag.num, unit_of(tag))


def tags(subject):
    sums = defaultdict(lambda: defaultdict(int))
    totals, sizes, shown = defaultdict(int), defaultdict(int), {}
    for entry in subject.counts.entries:
        for key in {tag.key for tag in entry.tags}:
            totals[key] += entry.value
            sizes[key] += abs(entry.value)
        for key, order in {(tag.key, tag_order(tag)) for tag in entry.tags}:
            sums[key][order] += entry.value
        shown.update({(tag.key, tag_order(tag)): label_text(tag) for tag in entry.tags})
    lines = []
    for key in sorted(sums):
        lines.append(b" " + key + b": Total " + spelled(subject, totals[key]))
        for order, value in sorted(sums[key].items(), key=lambda item: (-abs(item[1]), item[0])):
            part = b" (" + percent_text(value, sizes[key]) + b"): "
            lines.append(right(spelled(subject, value), 10) + part + shown[key, order])
        lines.append(b"")
    return joined(lines)


# Reports for scripts.


def folded(subject):
    """A line for each path whose own sum isn't 0."""
    lines, names = [], []
    for node in path_tree(subject.counts.counted).ordered():
        name = name_of(node.key).replace(b";", b":").replace(b"\n", b" ").replace(b"\r", b" ")
        names[node.depth :] = [name]
        if node.flat:
            lines.append(b";".join(names) + b" %d" % node.flat)
    return joined(lines)


def escaped(text):
    for plain, spelling in (b"\\", b"\\\\"), (b"\t", b"\\t"), (b"\n", b"\\n"), (b"\r", b"\\r"):
        text = text.replace(plain, spelling)
    return text


def with_unit(subject, columns):
    """The first line of a report for scripts: the columns with the sample type's unit, and the name."""
    behind = b"/" + escaped(subject.unit) if subject.unit else b""
    return b"\t".join([column + behind for column in columns] + [b"name"])


def all_keys(subject):
    """All keys that occur, in report order, up to a nodecount above 0, with their flats and cums."""
    flats, cums = sums_of(subject.counts.counted)
    keys = sorted(cums, key=report_order(flats, cums, subject.config["sort"]))
    count = subject.config["nodecount"]
    return keys[: count if count > 0 else None], flats, cums


def table(subject):
    keys, flats, cums = all_keys(subject)
    lines = [with_unit(subject, [b"flat", b"cum"])]
    lines += [b"%d\t%d\t%s" % (flats[key], cums[key], escaped(name_of(key))) for key in keys]
    return joined(lines)


# Compare.


def is_compared(subject):
    """Whether some sample is of a base."""
    return any(map(is_of_base, subject.profile.samples))


def change_percent(before, change):
    return b"new" if before == 0 and change else percent_text(change, abs(before))


def compare_line(subject, before, change, name):
    parts = [right(spelled(subject, value), 10) for value in (before, before + change, change)]
    return b" ".join(parts + [right(change_percent(before, change), 8)]) + b"  " + name


def base_entries(subject):
    return [entry for entry in subject.counts.counted if is_of_base(entry.sample)]


def figure_of(subject, entries):
    """The figure of each key: its flat, or its cum where that is the order."""
    return sums_of(entries)[1 if subject.config["sort"] == b"cum" else 0]


def compare(subject):
    entries, base, sort = subject.counts.counted, base_entries(subject), subject.config["sort"]
    ranking = Ranking(subject.counts, subject.config, limit_of(subject, 0))
    changed, bases = figure_of(subject, entries), figure_of(subject, base)
    titles = right(b"before", 10), right(b"after", 10), right(b"change", 10), right(b"change%", 8)
    lines = head_lines(subject) + limits_lines(ranking) + [b" ".join(titles) + b"  " + sort]
    before, change = (sum(entry.value for entry in some) for some in (base, entries))
    lines.append(compare_line(subject, -before, change, b"(all)"))
    lines += [compare_line(subject, -bases[key], changed[key], name_of(key)) for key in ranking.shown]
    return joined(lines)


def changes(subject):
    """The figures of compare as whole numbers."""
    keys = all_keys(subject)[0]
    changed = figure_of(subject, subject.counts.counted)
    bases = figure_of(subject, base_entries(subject))
    lines = [with_unit(subject, [b"before", b"after", b"change"])]
    for key in keys:
        parts = -bases[key], changed[key] - bases[key], changed[key], escaped(name_of(key))
        lines.append(b"%d\t%d\t%d\t%s" % parts)
    return joined(lines)


# Account.


def account_line(subject, count, value, name):
    part = right(percent(subject, value), 8)
    return b"%s %s %s  %s" % (right(b"%d" % count, 10), right(spelled(subject, value), 10), part, name)


def account(subject):
    """What each filter is the first to drop, and what the limits leave out."""
    counts, config = subject.counts, subject.config
    ranking = Ranking(counts, config, limit_of(subject, 0))
    groups = [(b"loaded", subject.profile.samples)]
    groups += [(name.encode() + b"=" + config[name], some) for name, some in subject.dropped.items()]
    groups.append((b"left", [entry.sample for entry in counts.entries]))
    bare = [entry.sample for entry in counts.counted if not entry.frames]
    groups += [(b"left without a frame", bare)] if bare else []
    heavy, shown = len(ranking.heavy), len(ranking.shown)
    light = [key for key in ranking.all if key not in set(ranking.heavy)]
    keys = [(b"counted", ranking.all), (b"below nodefraction", light)]
    keys += [(b"beyond nodecount", ranking.heavy[shown:heavy]), (b"shown", ranking.shown)]
    lines = head_lines(subject) + [b"   samples      value   value%  account"]
    for name, some in groups:
        lines.append(account_line(subject, len(some), sum(map(counts.value, some)), name))
    lines.append(b"     nodes      value   value%  account")
    for name, some in keys:
        lines.append(account_line(subject, len(some), sum(ranking.flats[key] for key in some), name))
    return joined(lines)
