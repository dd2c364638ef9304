"""What the words of a command line ask for, and what a variable can have (docs/options.md)."""

from dataclasses import dataclass, field

from model.profile import Told
from model.units import fraction_text, read_fraction

TRUE, FALSE = (b"true", b"t", b"yes", b"y", b"1"), (b"false", b"f", b"no", b"n", b"0")
SORTS = (b"flat", b"cum")
GRAINS = (b"functions", b"filefunctions", b"files", b"lines", b"addresses")
# Formats whose value is a pattern, and those that are flags; the report that each word stands for.
ASKED = (b"peek", b"list")
NAMED = b"top tree traces tags raw comments proto peek list folded table compare changes account".split()
FORMATS = {b"text": b"top", **{name: name for name in NAMED}}
TYPES = {name: name for name in b"inuse_space inuse_objects alloc_space alloc_objects contentions".split()}
TYPES[b"total_delay"] = b"delay"


class BadValue(Exception):
    """A value that the variable can't have."""


def need(is_good):
    if not is_good:
        raise BadValue()


def read_flag(text):
    need(text in TRUE + FALSE)
    return text in TRUE


def is_digits(text):
    return text != b"" and all(48 <= byte <= 57 for byte in text)


def number_between(least, greatest):
    def read(text):
        need(is_digits(text) and least <= int(text) <= greatest)
        return int(text)

    return read


def read_count(text):
    return -1 if text == b"-1" else number_between(0, 2147483647)(text)


def one_of(choices):
    def read(text):
        need(text in choices)
        return text

    return read


def read_part(text):
    billionths = read_fraction(text)
    need(billionths is not None)
    return billionths


def read_unit(text):
    need(text not in (b"auto", b"minimum"))
    return text


def same(value):
    return value


FLAG = read_flag, lambda value: b"true" if value else b"false"
NUMBER = b"%d".__mod__
# Each variable in the order of the list: how it is read and printed, and its default.
VARIABLES = {
    "sort": (one_of(SORTS), same, b"flat"),
    "granularity": (one_of(GRAINS), same, b"functions"),
    "noinlines": (*FLAG, False),
    "showcolumns": (*FLAG, False),
    "path_tree": (*FLAG, False),
    "nodecount": (read_count, NUMBER, -1),
    "nodefraction": (read_part, fraction_text, 5_000_000),
    "edgefraction": (read_part, fraction_text, 1_000_000),
    **{
        name: (same, same, b"")
        for name in "focus ignore show hide show_from prune_from tagfocus tagignore tagshow taghide tagroot tagleaf "
        "sample_index".split()
    },
    "unit": (read_unit, same, b""),
    "relative_percentages": (*FLAG, False),
    "divide_by": (number_between(1, (1 << 63) - 1), NUMBER, 1),
    "source_path": (same, same, b""),
    "trim_path": (same, same, b""),
    "workers": (number_between(1, 64), NUMBER, 4),
}
DEFAULTS = {name: default for name, (_, _, default) in VARIABLES.items()}
FLAGS = [name for name, (read, _, _) in VARIABLES.items() if read is read_flag]


def variable_of(name):
    """The variable of the name, or None."""
    text = name.decode("latin-1")
    return text if text in VARIABLES else None


def set_variable(config, name, text):
    """The configuration with one variable changed. Raises BadValue."""
    return {**config, name: VARIABLES[name][0](text)}


def choice_of(name):
    """The variable that a choice word sets, or None."""
    return "sort" if name in SORTS else "granularity" if name in GRAINS else None


def options_text(config):
    """All variables, a line each."""
    return b"".join(name.encode() + b"=" + VARIABLES[name][1](config[name]) + b"\n" for name in VARIABLES)


class UsageFault(Told):
    """The first fault of the words: its word, counted from 1, and what it is."""

    def __init__(self, word, text):
        super().__init__(b"word %d: %s" % (word, text))


@dataclass
class Plan:
    """What the words ask for. A source is its name and, where it is made, how many samples; `report` is None for the shell."""

    sources: list = field(default_factory=list)
    bases: list = field(default_factory=list)
    base_word: bytes = b""
    normalize: bool = False
    first_normalize: int = 0
    report: bytes = None
    pattern: bytes = None
    config: dict = field(default_factory=lambda: dict(DEFAULTS))

    def add_source(self, name, count, word):
        if len(self.sources) + len(self.bases) == 256:
            raise UsageFault(word, b"too many sources")
        self.sources.append((name, count))

    def add_base(self, option, path, word):
        if self.base_word not in (b"", option):
            raise UsageFault(word, b"both -base and -diff_base")
        if len(self.sources) + len(self.bases) == 256:
            raise UsageFault(word, b"too many sources")
        self.base_word = option
        self.bases.append((path, None))

    def set_report(self, name, pattern, word):
        if self.report:
            raise UsageFault(word, b"two formats")
        self.report, self.pattern = FORMATS[name], pattern


def takes_next(name):
    """Whether an option without `=` has the next word as its value; None where there is no such option."""
    if name in (b"base", b"diff_base", b"gen") + ASKED:
        return True
    if name in FORMATS or name in TYPES or choice_of(name) or name == b"normalize":
        return False
    variable = variable_of(name)
    return None if variable is None else variable not in FLAGS


def do_option(plan, name, value, word):
    """Does what one option with its value asks for. Raises BadValue or a fault."""
    if name == b"gen":
        count = number_between(1, 1_000_000)(value)
        plan.add_source(b"gen:%d" % count, count, word)
    elif name in (b"base", b"diff_base"):
        plan.add_base(name, value, word)
    elif name == b"normalize":
        plan.normalize = read_flag(value)
        if plan.normalize and not plan.first_normalize:
            plan.first_normalize = word
    elif name in ASKED:
        need(value != b"")
        plan.set_report(name, value, word)
    elif name in FORMATS:
        need(value in TRUE)
        plan.set_report(name, None, word)
    elif name in TYPES or choice_of(name):
        need(value in TRUE)
        variable = choice_of(name) or "sample_index"
        plan.config[variable] = TYPES.get(name, name)
    else:
        plan.config = set_variable(plan.config, variable_of(name), value)


def read_words(words):
    """The plan of the words. Raises the first fault."""
    plan, at, is_over = Plan(), 0, False
    while at < len(words):
        word, number = words[at], at + 1
        at += 1
        if is_over or len(word) < 2 or not word.startswith(b"-"):
            plan.add_source(word, None, number)
        elif word == b"--":
            is_over = True
        else:
            name, equals, value = word[2 if word.startswith(b"--") else 1 :].partition(b"=")
            is_long = takes_next(name)
            if is_long is None:
                raise UsageFault(number, b"unknown option")
            if not equals:
                if is_long and at == len(words):
                    raise UsageFault(number, b"missing value")
                value = words[at] if is_long else b"true"
                at += 1 if is_long else 0
            try:
                do_option(plan, name, value, number)
            except BadValue:
                raise UsageFault(number, b"bad value") from None
    if not plan.sources:
        raise UsageFault(len(words) + 1, b"no source")
    if plan.normalize and not plan.bases:
        raise UsageFault(plan.first_normalize, b"-normalize without a base")
    return plan
