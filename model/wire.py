"""The bytes of a profile: reading them with the first fault, and writing them in the one way (docs/wire-format.md)."""

from model.profile import MESSAGES, Message, Told


class WireFault(Told):
    """The first fault of the bytes: its kind, and the place of the faulty field's first byte."""

    def __init__(self, kind, at):
        super().__init__(b"%s at %d" % (kind, at))


def varint(data, at, end, place):
    """The number at `at`, and where it ends. Of a tenth byte the lowest bit counts."""
    number = 0
    for turn in range(10):
        if at + turn == end:
            raise WireFault(b"truncated", place)
        byte = data[at + turn]
        number |= (byte & 127) << 7 * turn
        if byte < 128:
            return number & (1 << 64) - 1, at + turn + 1
    raise WireFault(b"varint too long", place)


def fields(data, at, end):
    """The fields between two places: number, kind, the number or the bounds of the payload, the field's place."""
    while at < end:
        place = at
        tag, at = varint(data, at, end, place)
        number, kind = tag >> 3, tag & 7
        if not 0 < number < 1 << 29:
            raise WireFault(b"bad field number", place)
        if kind in (3, 4, 6, 7):
            raise WireFault(b"bad kind", place)
        content = None
        if kind == 0:
            content, at = varint(data, at, end, place)
        else:
            length = {1: 8, 5: 4}.get(kind)
            if kind == 2:
                length, at = varint(data, at, end, place)
            if length > end - at:
                raise WireFault(b"truncated", place)
            content = at, at + length
            at += length
        yield number, kind, content, place


def signed(number):
    """The two's complement of 64 bits."""
    return number - (1 << 64) if number >> 63 else number


SCALARS = {"u": int, "i": signed, "b": bool}


def put_field(data, message, name, form, kind, content, place):
    """Adds one known field to the message, or raises the fault in it."""
    base, is_list = form.rstrip("*"), form.endswith("*")
    is_number = base in SCALARS
    if not (kind == 0 and is_number or kind == 2 and (is_list or not is_number)):
        raise WireFault(b"wrong kind", place)
    if is_number and is_list:
        numbers = [content] if kind == 0 else packed(data, *content, place)
        getattr(message, name).extend(map(SCALARS[base], numbers))
    elif is_number:
        setattr(message, name, SCALARS[base](content))
    elif base == "t":
        getattr(message, name).append(data[content[0] : content[1]])
    elif is_list:
        getattr(message, name).append(filled(data, *content, Message(base)))
    else:
        # A message that is not repeated: its payloads are joined.
        filled(data, *content, getattr(message, name))


def packed(data, at, end, place):
    while at < end:
        number, at = varint(data, at, end, place)
        yield number


def filled(data, at, end, message):
    """The message with the fields between the two places. Unknown ones are skipped."""
    known = MESSAGES[message.kind_of_message]
    for number, kind, content, place in fields(data, at, end):
        if number <= len(known):
            put_field(data, message, *known[number - 1], kind, content, place)
    return message


def read(data):
    """The tables that the bytes hold. Raises the first fault. Without a text there is the empty one."""
    tables = filled(data, 0, len(data), Message("Tables"))
    tables.text = tables.text or [b""]
    return tables


# Writing.


def put_varint(number):
    number &= (1 << 64) - 1
    out = bytearray()
    while number > 127:
        out.append(number & 127 | 128)
        number >>= 7
    out.append(number)
    return bytes(out)


def payload(number, content):
    return put_varint(number << 3 | 2) + put_varint(len(content)) + content


def written(message):
    """The canonical bytes: fields by number, lists packed, and nothing that says 0, false or an empty list."""
    out = []
    for number, (name, form) in enumerate(MESSAGES[message.kind_of_message], 1):
        value = getattr(message, name)
        if form == "t*":
            out += [payload(number, text) for text in value]
        elif form in ("u*", "i*"):
            out += [payload(number, b"".join(map(put_varint, value)))] if value else []
        elif form.endswith("*"):
            out += [payload(number, written(item)) for item in value]
        elif form == "ValueType":
            out += [payload(number, written(value))] if value.kind or value.unit else []
        elif value:
            out.append(put_varint(number << 3) + put_varint(value))
    return b"".join(out)
