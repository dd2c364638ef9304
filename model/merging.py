"""Merging, scaling and subtracting profiles, and the profile of -gen.

Sources are merged, then bases. A report on several files is that on their merged profile. What counts as equal is
told by texts and numbers, never by ids (docs/GLOSSARY.md, docs/laws.md).
"""

from model.profile import GREATEST, LEAST, Counted, Place, Plain, Routine, Row, Tag, Told

BASE = Tag(b"pprof::base", b"true", 0, b"")


class LoadRefusal(Told):
    """A profile that can't be loaded."""


def region_key(region):
    """By what mappings are told apart: size, offset, and the build id or else the file."""
    return max(region.limit - region.start, 0), region.offset, region.build or region.file


def moved(place, chosen):
    """The place in the mapping that stands for its own, at the same distance from its start."""
    if place.region is None:
        return place
    region = chosen[region_key(place.region)]
    address = (place.address - place.region.start + region.start) % (1 << 64)
    return place._replace(region=region, address=address)


def agree(first, other):
    """What differs of two profiles that can't be merged, or None."""
    if first.types != other.types:
        return b"sample types differ"
    return b"period type differs" if first.period_type != other.period_type else None


def sums(profiles, columns):
    """For each column the sum of the absolute values."""
    return [
        sum(abs(sample.values[column]) for profile in profiles for sample in profile.samples)
        for column in range(columns)
    ]


def nearest(number):
    return min(max(number, LEAST), GREATEST)


def in_order(lists):
    """All items, each once, where it first stands."""
    return tuple(dict.fromkeys(item for items in lists for item in items))


def merge(profiles):
    """One profile that has all samples. Equal samples are one with their values added; those of zeros are left out."""
    head = profiles[0]
    for column, total in enumerate(sums(profiles, len(head.types))):
        if total > GREATEST:
            raise LoadRefusal(b"column %d: total too large" % column)
    regions = [region for profile in profiles for region in profile.regions]
    chosen = {}
    for region in regions:
        chosen.setdefault(region_key(region), region)
    known, added = {}, {}
    for profile in profiles:
        for sample in profile.samples:
            places = tuple(known.get(p) or known.setdefault(p, moved(p, chosen)) for p in sample.places)
            values = added.setdefault((places, sample.tags), [0] * len(head.types))
            for column, value in enumerate(sample.values):
                values[column] += value
    samples = tuple(Counted(*key, tuple(values)) for key, values in added.items() if any(values))
    met = [place.region for sample in samples for place in sample.places if place.region]
    return head.but(
        samples=samples,
        regions=in_order([[chosen[region_key(regions[0])]] if regions else [], met]),
        period=max(profile.period for profile in profiles),
        time=min((profile.time for profile in profiles if profile.time), default=0),
        duration=nearest(sum(profile.duration for profile in profiles)),
        default_type=next((p.default_type for p in profiles if p.default_type), b""),
        doc_url=next((p.doc_url for p in profiles if p.doc_url), b""),
        comments=in_order(profile.comments for profile in profiles),
    )


def towards_zero(value, divisor):
    """The quotient without its fraction."""
    return value // divisor if value >= 0 else -(-value // divisor)


def normalize(source, base):
    """The source with each column scaled so that its absolute values add up to those of the base."""
    columns = len(source.types)
    owned, wanted = sums([source], columns), sums([base], columns)
    for column in range(columns):
        if wanted[column] and not owned[column]:
            raise LoadRefusal(b"column %d: nothing to scale" % column)
    scaled = [
        sample._replace(
            values=tuple(
                towards_zero(value * wanted[at], owned[at]) if owned[at] else value
                for at, value in enumerate(sample.values)
            )
        )
        for sample in source.samples
    ]
    return source.but(samples=tuple(scaled))


def subtract(source, base, is_marked):
    """The source less the base. With -diff_base (`is_marked`) the base's samples get a label that tells them."""
    marks = (BASE,) if is_marked else ()
    less = [s._replace(values=tuple(-value for value in s.values), tags=s.tags + marks) for s in base.samples]
    return merge([source, base.but(samples=tuple(less))])


def generated(count):
    """The profile of -gen: stacks of fn0 to fn7 below main, one after the other, each sample with its own label id."""
    names = [(b"main", 1)] + [(b"fn%d" % k, k + 2) for k in range(8)]
    places = [Place(None, 0, (Row(Routine(name, b"", b"gen.c", 0), line, 0),), False) for name, line in names]
    samples = [
        Counted(tuple(reversed(places[: i % 8 + 2])), (Tag(b"id", b"", i, b""),), (1, (i % 8 + 1) * 1000))
        for i in range(count)
    ]
    types = (b"samples", b"count"), (b"cpu", b"nanoseconds")
    return merge([Plain(types, tuple(samples), (), (b"", b""))])
