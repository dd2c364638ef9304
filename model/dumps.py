"""Reports that write a profile out: raw, proto and comments; and list, which shows source files (docs/reports.md)."""

from collections import defaultdict

from model.merging import merge
from model.profile import flags_of, numbered
from model.reports import joined, percent, right, spelled
from model.stacks import places_left
from model.wire import written

SOURCE_LIMIT = 134_217_728


def saved(profile, kept):
    """The profile of what the filters leave: stacks and labels as they are left, all values, and no own patterns."""
    samples = tuple(sample._replace(places=places_left(stack), tags=tuple(tags)) for sample, stack, tags in kept)
    return merge([profile.but(samples=samples, drop_frames=b"", keep_frames=b"")])


def proto(profile):
    return written(numbered(profile))


def comments(profile):
    return joined(profile.comments)


def raw(profile):
    """The tables of a merged profile, a line for each entry."""
    tables = numbered(profile)
    lines = [b"Comment: " + text for text in profile.comments]
    lines += [b"DocURL: " + profile.doc_url] if profile.doc_url else []
    lines += [b"PeriodType: %s %s" % profile.period_type] if any(profile.period_type) else []
    named = (b"Period", "period"), (b"TimeNanos", "time"), (b"DurationNanos", "duration")
    for name, part in named:
        value = getattr(profile, part)
        lines += [b"%s: %d" % (name, value)] if value else []
    lines += [b"Samples:", b" ".join(kind + b"/" + unit for kind, unit in profile.types)]
    for ids, sample in zip(tables.sample, profile.samples):
        lines += sample_lines(ids, sample)
    functions = {f.id: f for f in tables.function}
    lines.append(b"Locations")
    for place in tables.location:
        lines += location_lines(place, functions, tables.text)
    lines.append(b"Mappings")
    lines += [mapping_line(mapping, tables.text) for mapping in tables.mapping]
    return joined(lines)


def sample_lines(ids, sample):
    values = b" ".join(right(b"%d" % value, 10) for value in sample.values)
    lines = [values + b":" + b"".join(b" %d" % id for id in ids.location_id)]
    for tag in sample.tags:
        number = b"%d" % tag.num + (b" " + tag.unit if tag.unit else b"")
        lines.append(b"    " + tag.key + b"=" + (tag.text or number))
    return lines


def location_lines(place, functions, texts):
    line = right(b"%d" % place.id, 6) + b": 0x%x" % place.address
    line += b" M=%d" % place.mapping_id if place.mapping_id else b""
    lines = [line + (b" F" if place.folded else b"")]
    for row in place.line:
        name, file, start = b"<unknown>", b"", 0
        if row.function_id:
            function = functions[row.function_id]
            name, file, start = texts[function.name], texts[function.file], function.start_line
        column = b":%d" % row.column if row.column else b""
        lines.append(b"        %s %s:%d%s s=%d" % (name, file, row.line, column, start))
    return lines


def mapping_line(mapping, texts):
    parts = mapping.id, mapping.start, mapping.limit, mapping.offset
    line = b"%d: 0x%x/0x%x/0x%x " % parts + texts[mapping.file] + b" " + texts[mapping.build]
    signs = zip((b"FN", b"FL", b"LN", b"IN"), flags_of(mapping))
    return line + b"".join(b" [%s]" % sign for sign, flag in signs if flag)


# List.


def tried_paths(file, config):
    """The paths at which a source file is looked for, in order."""
    trims, roots = ([d for d in config[name].split(b":") if d] for name in ("trim_path", "source_path"))
    trim = next((d for d in trims if file.startswith(d + b"/")), None)
    is_absolute = file.startswith(b"/") and trim is None
    rest = file[len(trim) + 1 :] if trim is not None else file
    rest = rest.lstrip(b"/")
    paths = [file] if is_absolute else []
    if roots:
        return paths + [root + b"/" + rest for root in roots]
    return paths if is_absolute else [rest]


def content_of(file, config, read):
    """The source's bytes, or the text of why there is none."""
    for path in tried_paths(file, config):
        content = read(path, SOURCE_LIMIT)
        if content == "too long":
            return b" Error: %s: longer than %d bytes" % (file, SOURCE_LIMIT), None
        if content is not None:
            return None, content
    return b" Error: " + file + b": no such file", None


def lines_of(content):
    """The lines of a source: each ends at a line feed or at the file's end."""
    lines = content.split(b"\n")
    return lines[:-1] if lines[-1] == b"" else lines


class Routines:
    """The sums of each pair of a function and a file that the pattern finds, and of each of its lines."""

    def __init__(self, subject):
        self.flats, self.cums = defaultdict(int), defaultdict(int)
        self.pairs = set()
        for entry in subject.counts.counted:
            seen = set()
            for at, frame in enumerate(entry.frames):
                pair, line = (frame.function, frame.file), (frame.function, frame.file, frame.line)
                if at == 0:
                    self.flats[pair] += entry.value
                    self.flats[line] += entry.value
                seen.update((pair, line))
                if subject.own(frame.function):
                    self.pairs.add(pair)
            for thing in seen:
                self.cums[thing] += entry.value


def source_lines(subject, sums, pair, content):
    """The lines of one routine, five more at either end, and those past the file's end."""
    with_frames = sorted(key[2] for key in sums.cums if len(key) == 3 and key[:2] == pair and key[2] > 0)
    if not with_frames:
        return []
    texts = lines_of(content)
    first, last = max(with_frames[0] - 5, 1), min(with_frames[-1] + 5, len(texts))
    numbers = list(range(first, last + 1)) + [n for n in with_frames if n > len(texts)]
    lines = []
    for number in numbers:
        line = (*pair, number)
        figures = [
            right(spelled(subject, sum) if sum else b".", 10)
            for sum in (sums.flats.get(line, 0), sums.cums.get(line, 0))
        ]
        text = texts[number - 1] if number <= len(texts) else b"???"
        lines.append(b" ".join(figures + [right(b"%d" % number, 6)]) + b":" + text)
    return lines


def listing(subject):
    """The source of the functions that the own pattern finds, and beside each line what was spent there."""
    sums, sources = Routines(subject), {}
    lines = [b"Total: " + spelled(subject, subject.counts.total)]
    for pair in sorted(sums.pairs):
        name, file = pair
        flat, cum = sums.flats.get(pair, 0), sums.cums[pair]
        parts = right(spelled(subject, flat), 10), right(spelled(subject, cum), 10), percent(subject, cum)
        lines.append(b"ROUTINE ======================== %s in %s" % pair)
        lines.append(b"%s %s (flat, cum) %s of Total" % parts)
        if not file:
            lines.append(b" Error: no file name")
            continue
        if file not in sources:
            sources[file] = content_of(file, subject.config, subject.read)
        error, content = sources[file]
        lines += [error] if error else source_lines(subject, sums, pair, content)
    return joined(lines)
