"""The table rules: what a profile's tables have to keep (docs/wire-format.md)."""


def places_of_texts(tables):
    """For each table of rule 2, in its order, the text places that each of its entries names."""
    header = [tables.drop_frames, tables.keep_frames, tables.period_type.kind, tables.period_type.unit]
    header += [tables.default_type, tables.doc_url]
    return [
        (b"header", [header]),
        (b"comment", [[at] for at in tables.comment]),
        (b"sample type", [[t.kind, t.unit] for t in tables.sample_type]),
        (b"sample", [[at for t in s.label for at in (t.key, t.text, t.num_unit)] for s in tables.sample]),
        (b"mapping", [[m.file, m.build] for m in tables.mapping]),
        (b"function", [[f.name, f.system_name, f.file] for f in tables.function]),
    ]


def first(entries, is_wrong):
    """The place of the first entry that is wrong, or None."""
    return next((at for at, entry in enumerate(entries) if is_wrong(entry)), None)


def repeated(ids):
    """The place of the first id that stood before, or None."""
    seen = set()
    for at, id in enumerate(ids):
        if id in seen:
            return at
        seen.add(id)
    return None


def findings(tables):
    """For each rule in order its number, table and least wrong place, or None in that place's stead."""
    yield 1, b"text", 0 if tables.text[:1] != [b""] else None
    count = len(tables.text)
    for table, entries in places_of_texts(tables):
        yield 2, table, first(entries, lambda entry: not all(0 <= at < count for at in entry))
    yield 3, b"sample type", 0 if tables.sample and not tables.sample_type else None
    named = (b"mapping", tables.mapping), (b"function", tables.function), (b"location", tables.location)
    for rule, (table, entries) in zip((4, 6, 8), named):
        yield rule, table, first(entries, lambda entry: entry.id == 0)
        yield rule + 1, table, repeated([entry.id for entry in entries])
    mappings, functions, locations = ({entry.id for entry in entries} | {0} for _, entries in named)
    yield 10, b"location", first(
        tables.location,
        lambda at: at.mapping_id not in mappings
        or any(row.function_id not in functions for row in at.line),
    )
    yield 11, b"sample", first(tables.sample, lambda s: any(id == 0 or id not in locations for id in s.location_id))
    width = len(tables.sample_type)
    yield 12, b"sample", first(tables.sample, lambda s: len(s.value) != width)


def first_fault(tables):
    """The text of the first rule that fails, or None."""
    for rule, table, at in findings(tables):
        if at is not None:
            return b"rule %d fails at %s %d" % (rule, table, at)
    return None
