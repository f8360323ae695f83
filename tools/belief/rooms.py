"""The rooms of specs/: a path tells whether a file must be believed.

`specs/` has what public contracts rest on, `specs/Words/` what only the statements of the promises add, `specs/Private/` what
only private functions say and ask. What proofs alone use stands in `proofs/`. Some crates have no function: the specs/ of
`promises` and of each `promises_NAME` are words as a whole, and those of `tables` and of each `tables_NAME` are the rows of their
own theorems.
"""
WORDS, ROWS = "promises", "tables"


def is_named(crate, kind):
    return crate == kind or crate.startswith(kind + "_")


def is_promises(crate):
    return is_named(crate, WORDS)


def room_of(place):
    """'Words', 'Rows' or 'Private', '' for specs/ itself, none for another folder"""
    _, crate, folder, *rest = place.split("/")
    if folder != "specs":
        return None
    whole = "Words" if is_promises(crate) else "Rows" if is_named(crate, ROWS) else ""
    return rest[0] if rest[0] in ("Words", "Private") else whole


def hidden(contracts):
    """what no public contract may rest on"""
    for definition, by in contracts.values():
        if room_of(definition.place) != "":
            yield "a public contract rests on %s of %s, by %s" % (definition.name, definition.place, by)


def misplaced(house, contracts, promised, private):
    """what stands in a room that it does not belong to"""
    rooms = {
        "": (contracts, "no public contract rests on %s of %s: it belongs to specs/Words/, specs/Private/ or proofs/"),
        "Words": (promised, "no statement of the promises uses %s of %s: it belongs to specs/Private/ or proofs/"),
        "Private": (private, "no function says or asks %s of %s: it belongs to proofs/"),
    }
    places = (place for crate in house.crates() for place in house.files("crates/%s/specs" % crate, ".antt"))
    for place in (p for p in places if room_of(p) in rooms):
        reached, why = rooms[room_of(place)]
        for name in house.source(place).definitions:
            if (place, name) not in reached:
                yield why % (name, place)
