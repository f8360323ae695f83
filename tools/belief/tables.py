"""What was found, as tables."""
import collections

BASIC = "laws"
HEAD = ["| Crate | Files of `specs/` | Definitions | Lines |", "|---|---|---|---|"]


def size(definitions):
    headers = {(d.place, h) for d in definitions for h in d.above}
    return sum(len(d.lines) for d in definitions) + sum(h.count("\n") + 1 for _, h in headers)


def crate_of(definition):
    return definition.place.split("/")[1]


def but_basic(definitions):
    return [d for d in definitions if crate_of(d) != BASIC]


def basic(definitions):
    return [d for d in definitions if crate_of(d) == BASIC]


def files_named(definitions):
    """`Book, Plan, Words/Events`, with the room where it is not specs/"""
    names = set()
    for d in definitions:
        room, _, rest = d.place[:-len(".antt")].split("/", 2)[2].partition("/")
        names.add(rest if room == "specs" else room + "/" + rest)
    return ", ".join(sorted(names))


def by_crate(house, definitions):
    order, groups = house.crates(), collections.defaultdict(list)
    for d in definitions:
        groups[crate_of(d)].append(d)
    return sorted(groups.items(), key=lambda group: order.index(group[0]))


def table(house, definitions):
    rows = ["| `%s` | %s | %d | %d |" % (crate, files_named(ds), len(ds), size(ds)) for crate, ds in by_crate(house, definitions)]
    return HEAD + rows + ["| | in all | %d | %d |" % (len(definitions), size(definitions)), ""]


def names_of(definitions):
    return ", ".join("`%s`" % name for name in sorted(d.name for d in definitions))


def short_table(trusted):
    """a row for each thing that one may want to trust: (words, definitions)"""
    rows = ["| %s | %d | %d |" % (words, len(but_basic(ones)), size(but_basic(ones))) for words, ones in trusted]
    return ["| What you trust | Definitions | Lines |", "|---|---|---|"] + rows + [""]


def tables(house, trusted, called, inner, words):
    out = short_table(trusted)
    out += ["All of these together, and the functions that the README lists, by crate:", ""]
    out += table(house, but_basic(called))
    out += ["Cited only by inner public functions. A caller does not need to read them:", ""]
    out += table(house, but_basic(inner))
    out += ["Apart from these, the basic definitions of `%s`:" % BASIC, ""]
    out += ["| Used by | Definitions | Lines |", "|---|---|---|"]
    for user, ones in (("the table by crate", called), ("inner functions only", inner), ("the words below only", words)):
        if basic(ones):
            out += ["| %s | %s | %d |" % (user, names_of(basic(ones)), size(basic(ones)))]
    out += ["", "And the words that the statements of the promises add:", ""]
    return "\n".join(out + table(house, but_basic(words))).strip("\n")
