"""What crates.txt may say: names, order, number."""
import collections

MOST = 60
# The families whose crates have names of their own. In any other family a name is the family's, or begins with it and `_`.
OWN_NAMES = {
    "mathematics": ("laws", "theory"),
    "programs": ("files", "runlog", "convert", "timetable", "judgelog", "year_folders", "year", "desk"),
    "library": ("cloverdusk",),
}


def is_of(family, name):
    if family in OWN_NAMES:
        return name in OWN_NAMES[family]
    return name == family or name.startswith(family + "_")


def naming_of(family):
    """how the crates of a family are named"""
    return ", ".join(OWN_NAMES[family]) if family in OWN_NAMES else "%s or %s_NAME" % (family, family)


def differ_by_one(a, b):
    """does one letter more, less or other make the one of the other?"""
    short, long = sorted((a, b), key=len)
    start = next((i for i, (x, y) in enumerate(zip(short, long)) if x != y), len(short))
    if len(short) == len(long):
        return a != b and short[start + 1:] == long[start + 1:]
    return len(long) == len(short) + 1 and short[start:] == long[start + 1:]


def named_alike(places):
    families = collections.defaultdict(list)
    for place in places:
        families[place.family] += [crate.name for crate in place.crates]
    for family, names in families.items():
        for i, a in enumerate(names):
            for b in names[i + 1:]:
                if differ_by_one(a, b):
                    yield "crates %s and %s of family %s have names that differ by one letter" % (a, b, family)


def refusals(places):
    crates = [(place.family, crate) for place in places for crate in place.crates]
    below = {crate.name for _, crate in crates}
    for family, crate in crates:
        if not crate.purpose:
            yield "crate %s has no purpose: no line `# ..` stands above it" % crate.name
        if not family:
            yield "crate %s stands under no family" % crate.name
        elif not is_of(family, crate.name):
            yield "crate %s is of family %s, whose crates are named %s" % (crate.name, family, naming_of(family))
        for name in crate.needs:
            if name in below:
                yield "crate %s names %s, which does not stand above it" % (crate.name, name)
        below.discard(crate.name)
    if len(crates) > MOST:
        yield "there are %d crates, and at most %d are allowed" % (len(crates), MOST)
    yield from named_alike(places)
