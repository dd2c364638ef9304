"""A whole session: words, loading, then one report or the shell (docs/messages.md, docs/shell.md).

A session works on an Outside: `read(path, limit)` gives bytes, None for no file or "too long"; `write(path, content)`
whether the path could be written; `out` and `err` take bytes; `input` gives all of standard input.
"""

from model.legacy import LegacyFault, is_legacy, read_legacy
from model.merging import LoadRefusal, agree, generated, merge, normalize, subtract
from model.profile import Unspoken, numbered, plain
from model.report import ReportRefusal, is_prunable, prepared
from model.rules import first_fault
from model.shell import HELP, INPUT_LIMIT, Command, InputTooLong, LineFault, lines_of, read_line
from model.wire import WireFault, read, written
from model.words import UsageFault, options_text, read_words

FILE_LIMIT = 268_435_456
VERSION = b"pprof 0.1.0\n"
PROMPT = b"(pprof) "


class Fault(Exception):
    """A read or a write that failed: `object` is file, input or output."""

    def __init__(self, object):
        super().__init__(object)
        self.object = object


def profile_of(data):
    """The profile of a file's bytes. Raises the refusal that they get."""
    if is_legacy(data):
        return read_legacy(data)
    if not data:
        raise LoadRefusal(b"empty")
    if data.startswith(b"\x1f\x8b"):
        raise LoadRefusal(b"compressed")
    tables = read(data)
    fault = first_fault(tables)
    if fault:
        raise LoadRefusal(fault)
    return plain(tables)


class Reading:
    """Reads sources one after the other, and counts their bytes."""

    def __init__(self, outside):
        self.outside, self.size = outside, 0

    def profile(self, source):
        path, count = source
        made = generated(count) if count else None
        data = written(numbered(made)) if count else self.outside.read(path, FILE_LIMIT)
        try:
            if data is None:
                raise LoadRefusal(b"no such file")
            if data == "too long":
                raise LoadRefusal(b"longer than %d bytes" % FILE_LIMIT)
            self.size += len(data)
            if self.size > FILE_LIMIT:
                raise LoadRefusal(b"all files together are longer than %d bytes" % FILE_LIMIT)
            return made or profile_of(data)
        except (LoadRefusal, WireFault, LegacyFault) as refusal:
            raise LoadRefusal(path + b": " + refusal.text) from None


def loaded_of(plan, outside):
    """The profile that all reports of a session are on, which of its frames it leaves out, and whether a base for it to be
    compared with was given."""
    reading = Reading(outside)
    profiles = [reading.profile(source) for source in plan.sources + plan.bases]
    for number, other in enumerate(profiles):
        what = agree(profiles[0], other)
        if what:
            raise LoadRefusal(b"source %d: %s" % (number, what))
    profile = merge(profiles[: len(plan.sources)])
    if plan.bases:
        base = merge(profiles[len(plan.sources) :])
        if plan.normalize:
            profile = normalize(profile, base)
        profile = subtract(profile, base, plan.base_word == b"diff_base")
    return profile, is_prunable(profile, outside.matcher), plan.base_word == b"diff_base"


class Session:
    """A session after its words were read and its profile was loaded."""

    def __init__(self, plan, outside):
        self.plan, self.outside = plan, outside
        self.loaded = loaded_of(plan, outside)

    def text_of(self, report, pattern, config):
        out = self.outside
        return prepared(self.loaded, report, pattern, config, out.matcher, out.err, out.read)

    def one_report(self):
        plan = self.plan
        self.outside.out(self.text_of(plan.report, plan.pattern, plan.config))

    def shell(self):
        """Does what each line asks for, before the next is read."""
        config, lines = self.plan.config, lines_of(self.outside.input())
        while True:
            self.outside.out(PROMPT)
            line = next(lines, None)
            if line is None:
                self.outside.out(b"\n")
                return
            try:
                asked = read_line(line, config)
                if asked == "quit":
                    return
                if isinstance(asked, dict):
                    config = asked
                else:
                    self.do(asked, config)
            except (LineFault, ReportRefusal) as fault:
                self.outside.err(b"pprof: " + fault.text + b"\n")

    def do(self, asked, config):
        if asked == "options":
            self.outside.out(options_text(config))
        elif asked == "help":
            self.outside.out(HELP)
        elif isinstance(asked, Command):
            text = self.text_of(asked.report, asked.pattern, asked.config)
            if asked.file is None:
                self.outside.out(text)
            elif not self.outside.write(asked.file, text):
                self.outside.err(b"pprof: " + asked.file + b": cannot be written\n")


def run(words, outside):
    """Does what the words ask for, and gives the status."""
    if words in ([b"--help"], [b"-help"], [b"-h"]):
        raise Unspoken("the text of --help")
    try:
        if words in ([b"--version"], [b"-version"]):
            outside.out(VERSION)
            return 0
        plan = read_words(words)
        session = Session(plan, outside)
        if plan.report:
            session.one_report()
        else:
            session.shell()
        return 0
    except UsageFault as fault:
        return told(outside, fault.text, 2)
    except (LoadRefusal, ReportRefusal) as refusal:
        return told(outside, refusal.text, 1)
    except InputTooLong:
        return told(outside, b"standard input is longer than %d bytes" % INPUT_LIMIT, 1)
    except Fault as fault:
        return failed(outside, fault)


def told(outside, text, status):
    """The status after a message. Where standard error fails, that is what the session ends with."""
    try:
        outside.err(b"pprof: " + text + b"\n")
        return status
    except Fault:
        return 3


def failed(outside, fault):
    """The status after a fault of the outside. One of standard error is told to nobody."""
    if fault.object != "error":
        told(outside, fault.object.encode() + b" fault", 3)
    return 3
