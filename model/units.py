"""Units, values, percentages, ranges and fractions (docs/numbers.md)."""

import re
from collections import namedtuple

from model.profile import GREATEST, LEAST

# A family's units from the smallest on: how it is printed, how many of the smallest it is, its spellings.
TIME = [
    (b"ns", 1, b"ns nanosecond nanoseconds"),
    (b"us", 10**3, b"us microsecond microseconds"),
    (b"ms", 10**6, b"ms millisecond milliseconds"),
    (b"s", 10**9, b"s sec second seconds"),
    (b"hrs", 3600 * 10**9, b"hr hrs hour hours"),
]
BYTES = [
    (b"B", 1, b"b byte bytes"),
    (b"kB", 1 << 10, b"kb kilobyte kilobytes"),
    (b"MB", 1 << 20, b"mb megabyte megabytes"),
    (b"GB", 1 << 30, b"gb gigabyte gigabytes"),
    (b"TB", 1 << 40, b"tb terabyte terabytes"),
    (b"PB", 1 << 50, b"pb petabyte petabytes"),
]
PLAIN = [(b"", 1, b"count sample samples unit")]
FAMILIES = {"time": TIME, "bytes": BYTES, "plain": PLAIN}
SPELLINGS = {
    spelling: (family, factor, suffix)
    for family, sizes in FAMILIES.items()
    for suffix, factor, spellings in sizes
    for spelling in spellings.split(b" ")
}
SPELLINGS[b""] = "plain", 1, b""

# A value is multiplied by `many` and divided by `by`, and the suffix follows.
Unit = namedtuple("Unit", "many by suffix")


def family_of(name):
    """The family, the factor to its smallest unit, and how the unit is printed. An unknown unit is its own family."""
    lower = name.lower()
    return SPELLINGS.get(lower, ("other " + lower.decode("latin-1"), 1, name))


def picked(total, name):
    """The largest unit of the family of which the total has at least one, or the smallest for a total of 0."""
    family, factor, suffix = family_of(name)
    if family not in FAMILIES:
        return Unit(1, 1, suffix)
    sizes = FAMILIES[family]
    fitting = [size for size in sizes if abs(total) * factor >= size[1]] or sizes[:1]
    return Unit(factor, fitting[-1][1], fitting[-1][0])


def forced(wanted, name):
    """The unit that was asked for, or None where it measures something else."""
    family, by, suffix = family_of(wanted)
    own, many, _ = family_of(name)
    return Unit(many, by, suffix) if own == family else None


def hundredths(number, of):
    """number / of in hundredths, halves away from zero."""
    size = (200 * abs(number) + of) // (2 * of)
    return size if number >= 0 else -size


def decimal(count, is_short):
    """Hundredths as a number with two decimals; `.00` is left out where the number is short."""
    sign, size = b"-" if count < 0 else b"", abs(count)
    if is_short and size % 100 == 0:
        return sign + b"%d" % (size // 100)
    return sign + b"%d.%02d" % (size // 100, size % 100)


def value_text(value, unit):
    count = hundredths(value * unit.many, unit.by)
    return decimal(count, True) + unit.suffix if count else b"0"


def percent_text(value, total):
    return decimal(hundredths(100 * value, total), False) + b"%" if total else b"0%"


# Ranges. A bound is a number and the letters behind it.

BOUND = re.compile(rb"([+-]?[0-9]+)([a-zA-Z]*)")


def read_bound(text):
    found = BOUND.fullmatch(text)
    return (int(found[1]), found[2]) if found and LEAST <= int(found[1]) <= GREATEST else None


def read_range(text):
    """The two bounds, of which one may be None, or None where the text is no range."""
    low, colon, high = text.partition(b":")
    if not colon:
        bound = read_bound(low)
        return (bound, bound) if bound else None
    if not (low or high):
        return None
    bounds = tuple(read_bound(part) if part else None for part in (low, high))
    is_read = all(bound or not part for bound, part in zip(bounds, (low, high)))
    return bounds if is_read else None


def compared(number, name, bound):
    """The number and the bound's, as they are to be compared, or None where the units are of other kinds."""
    limit, letters = bound
    if not letters:
        return number, limit
    own, many, _ = family_of(name)
    family, by, _ = family_of(letters)
    return (number * many, limit * by) if own == family else None


def is_in_range(bounds, number, name):
    low, high = (bound and compared(number, name, bound) for bound in bounds)
    is_above = bounds[0] is None or (low is not None and low[0] >= low[1])
    return is_above and (bounds[1] is None or (high is not None and high[0] <= high[1]))


FRACTION = re.compile(rb"([0-9]{1,9})|([0-9]{0,9})\.([0-9]{1,9})")


def read_fraction(text):
    """The fraction in billionths, or None."""
    found = FRACTION.fullmatch(text)
    if not found:
        return None
    whole = int(found[1] or found[2] or b"0")
    billionths = whole * 10**9 + int((found[3] or b"").ljust(9, b"0"))
    return billionths if billionths <= 10**9 else None


def fraction_text(billionths):
    if billionths in (0, 10**9):
        return b"%d" % (billionths // 10**9)
    return b"0." + (b"%09d" % billionths).rstrip(b"0")
