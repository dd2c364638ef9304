"""What a line of the shell asks for, and how lines are cut from the input (docs/shell.md)."""

from collections import namedtuple

from model.profile import Told
from model.words import ASKED, FLAGS, FORMATS, BadValue, choice_of, is_digits, need, set_variable, variable_of

INPUT_LIMIT, LINE_LIMIT = 16_777_216, 65_536
BLANKS = b" \t"
HELP = (
    b"Commands: top text tree peek traces list tags raw comments proto options help quit\n"
    b"Set a variable by name=value; add a number, patterns, -patterns or >file to a command.\n"
)

# A report with the settings for it alone, and the file behind `>` or None.
Command = namedtuple("Command", "report pattern config file")


class LineFault(Told):
    """What is wrong with a line."""


class InputTooLong(Exception):
    """More input than a session takes."""


def lines_of(data):
    """The lines of the input. Raises InputTooLong where it is longer than a session takes."""
    taken = data[:INPUT_LIMIT]
    lines = taken.split(b"\n")
    rest = lines.pop()
    yield from lines
    if len(data) >= INPUT_LIMIT:
        raise InputTooLong()
    if rest:
        yield rest


def assignment(config, name, text):
    """The configuration after `name=text`, or a fault that names the variable."""
    try:
        need(text is not None)
        return set_variable(config, name, text)
    except BadValue:
        raise LineFault(b"bad assignment: " + name.encode()) from None


def read_setting(line, config):
    """The configuration that a line sets, or None where the line is none that sets anything."""
    name, equals, text = line.partition(b"=")
    variable = variable_of(name.strip(BLANKS))
    if equals:
        return assignment(config, variable, text.strip(BLANKS)) if variable else None
    if choice_of(line):
        return {**config, choice_of(line): line}
    if variable:
        # Of the other variables no value is said, which none of them can have.
        return assignment(config, variable, b"true" if variable in FLAGS else None)
    return None


def report_of(word):
    """The format that a first word names, and the digits behind it; None where it names none."""
    name = word.rstrip(b"0123456789")
    return (name, word[len(name) :]) if name in FORMATS else (None, b"")


def read_command(words, config):
    """The report that the words ask for."""
    name, digits = report_of(words[0])
    if not name:
        raise LineFault(b"unknown command: " + words[0])
    words = ([digits] if digits else []) + words[1:]
    pattern = None
    if name in ASKED:
        if not words:
            raise LineFault(name + b" needs an argument")
        pattern, words = words[0], words[1:]
    return with_words(FORMATS[name], pattern, words, dict(config))


def with_words(report, pattern, words, config):
    """The command with what the words behind it add."""
    focus, ignore, file = [], [], None
    words = list(words)
    while words:
        word = words.pop(0)
        if is_digits(word) and int(word) <= 2147483647:
            config["nodecount"] = int(word)
        elif word.startswith(b"|"):
            raise LineFault(b"pipes are not served")
        elif word.startswith(b">"):
            if word == b">" and not words:
                raise LineFault(b"no file after >")
            file = word[1:] or words.pop(0)
        elif word in (b"-cum", b"--cum"):
            config["sort"] = b"cum"
        elif word.startswith(b"-"):
            ignore += [word[1:]] if word != b"-" else []
        else:
            focus.append(word)
    for name, parts in ("focus", focus), ("ignore", ignore):
        if parts:
            config[("tag" if report == b"tags" else "") + name] = b"|".join(parts)
    if report in (b"top", b"compare", b"account") and config["nodecount"] == -1:
        config["nodecount"] = 10
    return Command(report, pattern, config, file)


def read_line(line, config):
    """What a line asks for: None, a configuration, the words quit, options or help, or a Command. Raises LineFault."""
    if len(line) > LINE_LIMIT:
        raise LineFault(b"line too long")
    line = (line[:-1] if line.endswith(b"\r") else line).strip(BLANKS)
    if not line:
        return None
    setting = read_setting(line, config)
    if setting is not None:
        return setting
    words = line.replace(b"\t", b" ").split(b" ")
    words = [word for word in words if word]
    if words[0] in (b"q", b"quit", b"exit"):
        return "quit"
    if words[0] in (b"o", b"options"):
        return "options"
    if words[0] == b"help":
        return "help"
    return read_command(words, config)
