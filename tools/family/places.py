"""crates.txt as a list of places: a heading and the crates below it."""
import collections
import re

HEADING = re.compile(r"^## *([^:,]+)(,[^:]*)?:\s*(.*)$")

Place = collections.namedtuple("Place", "family title words crates")
Crate = collections.namedtuple("Crate", "name purpose needs")


def purpose_in(line):
    """what the line above a crate says; nothing if it is a heading or no comment"""
    return line[1:].strip() if line.startswith("#") and not line.startswith("##") else ""


def places_of(text):
    """the places of a crates.txt, in its order; a crate above the first heading has a place without family"""
    places, above = [], ""
    for line in text.split("\n"):
        heading = HEADING.match(line)
        if heading:
            family, where, words = heading.groups()
            places.append(Place(family.strip(), family.strip() + (where or ""), words.strip(), []))
        name, colon, needs = line.split("#")[0].partition(":")
        if colon:
            if not places:
                places.append(Place("", "", "", []))
            places[-1].crates.append(Crate(name.split()[0], purpose_in(above), needs.split()))
        above = line
    return places


def rests_on(places):
    """for each place the places that its crates name, without those that follow from the others"""
    home = {crate.name: k for k, place in enumerate(places) for crate in place.crates}
    direct = [{home[n] for crate in place.crates for n in crate.needs if n in home} - {k} for k, place in enumerate(places)]
    whole = []
    for k, below in enumerate(direct):
        whole.append(below.union(*(whole[b] for b in below)))
    return [{b for b in below if not any(b in whole[other] for other in below)} for below in direct]
