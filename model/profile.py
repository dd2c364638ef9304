"""What a profile is: as tables, which files hold, and as plain samples, in which all references are written out.

Texts are bytes. A plain profile is what the rules speak of: each sample has its locations, and each location its
mapping and lines, so that equal things are equal values.
"""

import dataclasses
from collections import namedtuple
from dataclasses import dataclass

LEAST, GREATEST = -(1 << 63), (1 << 63) - 1


class Unspoken(Exception):
    """Something that the model does not speak of."""


class Told(Exception):
    """What ends a session, a report or a line with a message; its text is the message after `pprof: `."""

    def __init__(self, text):
        super().__init__(text)
        self.text = text


# The messages of profile.proto: for each field in the order of its number its name and form, which is u, i or b for
# an unsigned or signed number or a flag, t for a text, or a message; `*` behind it for a list.
MESSAGES = {
    name: [tuple(part.split(":")) for part in parts.split()]
    for name, parts in {
        "ValueType": "kind:i unit:i",
        "Label": "key:i text:i num:i num_unit:i",
        "Sample": "location_id:u* value:i* label:Label*",
        "Mapping": "id:u start:u limit:u offset:u file:i build:i has_functions:b has_filenames:b has_line_numbers:b "
        "has_inline_frames:b",
        "Line": "function_id:u line:i column:i",
        "Location": "id:u mapping_id:u address:u line:Line* folded:b",
        "Function": "id:u name:i system_name:i file:i start_line:i",
        "Tables": "sample_type:ValueType* sample:Sample* mapping:Mapping* location:Location* function:Function* "
        "text:t* drop_frames:i keep_frames:i time:i duration:i period_type:ValueType period:i comment:i* default_type:i "
        "doc_url:i",
    }.items()
}


class Message:
    """A message by its name, with an attribute for each field. Those that are not given are 0, false or empty."""

    def __init__(self, name, *values, **named):
        self.kind_of_message = name
        for field, form in MESSAGES[name]:
            is_number = form in ("u", "i", "b")
            setattr(self, field, [] if form.endswith("*") else 0 if is_number else Message(form))
        for (field, _), value in zip(MESSAGES[name], values):
            setattr(self, field, value)
        for field, value in named.items():
            setattr(self, field, value)


# Plain things: tuples, whose equality is that of all their parts.

Region = namedtuple("Region", "start limit offset file build flags")
Routine = namedtuple("Routine", "name system_name file start_line")
Row = namedtuple("Row", "function line column")
Place = namedtuple("Place", "region address rows folded")
Tag = namedtuple("Tag", "key text num unit")
Counted = namedtuple("Counted", "places tags values")


@dataclass(frozen=True)
class Plain:
    """A profile without ids: `samples` are Counted, `types` pairs of texts, `regions` its mappings in order."""

    types: tuple
    samples: tuple
    regions: tuple
    period_type: tuple
    drop_frames: bytes = b""
    keep_frames: bytes = b""
    time: int = 0
    duration: int = 0
    period: int = 0
    comments: tuple = ()
    default_type: bytes = b""
    doc_url: bytes = b""

    def but(self, **changed):
        """This profile with some parts changed."""
        return dataclasses.replace(self, **changed)


def flags_of(mapping):
    return mapping.has_functions, mapping.has_filenames, mapping.has_line_numbers, mapping.has_inline_frames


def plain(tables):
    """The plain profile of tables in which no table rule fails."""
    text = tables.text
    regions = {
        m.id: Region(m.start, m.limit, m.offset, text[m.file], text[m.build], flags_of(m))
        for m in tables.mapping
    }
    routines = {f.id: Routine(text[f.name], text[f.system_name], text[f.file], f.start_line) for f in tables.function}
    places = {
        at.id: Place(
            regions.get(at.mapping_id),
            at.address,
            tuple(Row(routines.get(row.function_id), row.line, row.column) for row in at.line),
            at.folded,
        )
        for at in tables.location
    }
    samples = [
        Counted(
            tuple(places[id] for id in sample.location_id),
            tuple(Tag(text[t.key], text[t.text], t.num, text[t.num_unit]) for t in sample.label),
            tuple(sample.value),
        )
        for sample in tables.sample
    ]
    return Plain(
        tuple((text[t.kind], text[t.unit]) for t in tables.sample_type),
        tuple(samples),
        tuple(regions.values()),
        (text[tables.period_type.kind], text[tables.period_type.unit]),
        text[tables.drop_frames],
        text[tables.keep_frames],
        tables.time,
        tables.duration,
        tables.period,
        tuple(text[at] for at in tables.comment),
        text[tables.default_type],
        text[tables.doc_url],
    )


class Ids(dict):
    """Numbers things from 1, at first sight."""

    def of(self, thing):
        return self.setdefault(thing, len(self) + 1) if thing is not None else 0


def numbered(profile):
    """The tables of a merged profile: each thing has the next id where a walk over the samples first meets it."""
    regions, places, routines = Ids(), Ids(), Ids()
    for region in profile.regions[:1]:
        regions.of(region)
    for sample in profile.samples:
        for place in sample.places:
            regions.of(place.region)
            places.of(place)
            for row in place.rows:
                routines.of(row.function)
    texts = Ids({b"": 0})
    at = lambda text: texts.setdefault(text, len(texts))
    tables = Message(
        "Tables",
        [Message("ValueType", at(kind), at(unit)) for kind, unit in profile.types],
        [
            Message(
                "Sample",
                [places.of(place) for place in sample.places],
                sample.values,
                [Message("Label", at(t.key), at(t.text), t.num, at(t.unit)) for t in sample.tags],
            )
            for sample in profile.samples
        ],
        [
            Message("Mapping", id, r.start, r.limit, r.offset, at(r.file), at(r.build), *r.flags)
            for r, id in regions.items()
        ],
        function=[
            Message("Function", id, at(f.name), at(f.system_name), at(f.file), f.start_line)
            for f, id in routines.items()
        ],
        location=[
            Message("Location", id, regions.of(p.region), p.address, rows_of(p, routines), p.folded)
            for p, id in places.items()
        ],
        drop_frames=at(profile.drop_frames),
        keep_frames=at(profile.keep_frames),
        time=profile.time,
        duration=profile.duration,
        period_type=Message("ValueType", *map(at, profile.period_type)),
        period=profile.period,
        comment=[at(text) for text in profile.comments],
        default_type=at(profile.default_type),
        doc_url=at(profile.doc_url),
    )
    tables.text = list(texts)
    return tables


def rows_of(place, routines):
    return [Message("Line", routines.of(r.function), r.line, r.column) for r in place.rows]
