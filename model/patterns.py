"""What patterns find (docs/patterns.md).

A pattern is read here piece by piece and handed to Python's matcher in a spelling that means what the grammar says. What
this reader does not know of the grammar is Unspoken, and not guessed. A text is matched as UTF-8; a byte that is none is
matched by nothing.
"""

import re

from model.profile import Unspoken

# Bytes that are no UTF-8 stand as these characters while a text is matched.
BAD = "\udc80-\udcff"
ITEM = r"(?:\\[][^\\.$*+?(){}|/nt-]|[^][\\&~-])"
PIECE = re.compile(
    rf"""(?P<set>\[(?P<turned>\^?)(?!\^)(?P<items>-?(?:{ITEM}(?:-{ITEM})?)+-?)\])
    | (?P<repeat>(?:[*+?]|\{{(?P<least>[0-9]{{1,3}})(?:,(?P<most>[0-9]{{0,3}}))?\}})\??)
    | (?P<open>\((?:\?:)?(?!\?)) | (?P<close>\)) | (?P<either>\|) | (?P<any>\.) | (?P<first>\^) | (?P<last>\$)
    | (?P<named>\\[dwsb]) | (?P<escaped>\\[][^\\.$*+?(){{}}|/:=,;'"!@%`_nt#&~-]) | (?P<plain>[^][(){{}}*+?|.^$\\]|[\]}}])
    """,
    re.VERBOSE | re.DOTALL,
)
# What is refused wherever it stands: a bracket, an escape or a count that can't be read, or a look-around.
WRONG = re.compile(r"\[[^]]*$|\\$|\\[0-9ceghijklmoqyCEGHIJKLMNOQRTVXYZ]|\{(?![0-9, ])|\{[0-9]*$|\(\?(?:=|!|<=|<!|$)")


class Refused(Exception):
    """A pattern that can't be read."""


def need(is_good):
    if not is_good:
        raise Refused()


def character(spelling):
    """The character that an item of a set or an escape stands for."""
    return {"\\n": "\n", "\\t": "\t"}.get(spelling, spelling[-1])


def set_of(found):
    """Python's spelling of a set in brackets."""
    out = []
    for low, high in re.findall(rf"({ITEM}|^-|-$)(?:-({ITEM}))?", found["items"], re.DOTALL):
        need(not high or character(low) <= character(high))
        out += [re.escape(character(low)) + ("-" + re.escape(character(high)) if high else "")]
    return f"[{'^' + BAD if found['turned'] else ''}{''.join(out)}]"


def spelled(pattern):
    """Python's spelling of the pattern."""
    out, at, depth, before = [], 0, 0, "open"
    while at < len(pattern):
        found = PIECE.match(pattern, at)
        if not found:
            need(not WRONG.match(pattern, at))
            raise Unspoken("a part of a pattern")
        kind, at = found.lastgroup, found.end()
        if kind == "repeat":
            need(before not in ("open", "either"))
            need(not found["most"] or int(found["most"]) >= int(found["least"]))
            if before in ("repeat", "first", "last") or (before == "named" and out[-1] == "\\b"):
                raise Unspoken("what is repeated")
        depth += (kind == "open") - (kind == "close")
        need(depth >= 0)
        out.append(piece(kind, found))
        before = kind
    need(depth == 0)
    return "".join(out)


def piece(kind, found):
    """Python's spelling of one piece."""
    if kind == "set":
        return set_of(found)
    if kind in ("plain", "escaped"):
        return re.escape(character(found[0]))
    fixed = {"any": rf"[^\n{BAD}]", "first": r"\A", "last": r"\Z", "open": "(?:"}
    return fixed.get(kind, found[0])


def expression(pattern):
    """Whether a text has a match of the pattern, as a call. Raises Refused."""
    try:
        text = pattern.decode("utf-8")
    except UnicodeDecodeError as fault:
        raise Refused() from fault
    flags = re.IGNORECASE if text.startswith("(?i)") else 0
    compiled = re.compile(spelled(text[4:] if flags else text), flags)
    return lambda subject: bool(compiled.search(subject.decode("utf-8", "surrogateescape")))


def literal(refused):
    """A matcher that finds plain texts, and refuses these patterns."""

    def matcher(pattern):
        need(pattern not in refused)
        return lambda subject: pattern in subject

    return matcher


def finder(matcher, pattern):
    """`matcher(pattern)`, asked once for each text. The empty text is never found."""
    finds, known = matcher(pattern), {b"": False}

    def found(text):
        if text not in known:
            known[text] = finds(text)
        return known[text]

    return found
