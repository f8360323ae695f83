"""What says something: the functions of src/, those that a customer calls among them, and the statements of the promises."""
import collections
import fnmatch
import os
import re

from belief.house import Source
from belief.rooms import WORDS, is_promises
from belief.texts import cited, imports_of
from blocks import read

EXPORTS = "cloverdusk"
STATEMENTS = tuple("crates/promises/proofs/%s.antt" % name for name in ("Demand1", "Demand2", "Demand3", "Claims", "Edition1", "Conversion"))
OTHER_STATEMENTS = "Promises*.antt"

# What one may want to trust: a name for --most-for, its words, and the programs and functions that it is counted from.
TRUSTED = (
    ("runlog", "the log that `runlog` prints", ("runlog",)),
    ("plan", "a plan text alone: read, judged, written", (
        "plan_read::read_plan", "plan_judge::value::judge_plan", "plan_judge::value::is_accepted", "plan_write::write::write_plan")),
    ("convert", "the plan that `convert` prints", ("convert",)),
    ("desk", "what `desk` answers and keeps", ("desk",)),
    ("timetable", "the timetable that `timetable` prints", ("timetable",)),
    ("judgelog", "the figures and the verdict that `judgelog` prints", ("judgelog",)),
    ("year", "the report that `year` prints", ("year", "year_totals::add_texts")),
    ("library", "all calls of the library", (EXPORTS,)),
)

FUNCTION = re.compile(r'(?:\b(pub)\s+)?(?:extern\s+"C"\s+|const\s+|unsafe\s+)*\bfn\s+(\w+)')
METHODS = re.compile(r"\bimpl\b(?:<[^>]*>)?\s+(\w+)[^{]*\{")
LISTING = re.compile(r"^## As a library\n(.*?)(?=^## |\Z)", re.M | re.S)

Function = collections.namedtuple("Function", "path name owner public cited source")


def closing(text, i):
    """the place after the bracket that closes the one at i"""
    depth, begin, end = 0, text[i], {"{": "}", "(": ")"}[text[i]]
    while i < len(text):
        depth += {begin: 1, end: -1}.get(text[i], 0)
        i += 1
        if depth == 0:
            break
    return i


def clauses(text, i):
    """(kind, text) of each clause of a head from i on"""
    while True:
        j = text.find("{", i)
        kind = re.search(r"\b(requires|ensures|ghost)\b[^{}]*$", text[i:j]) if j >= 0 else None
        if not kind or re.search(r"\bfn\b", text[i:j]):
            return
        i = closing(text, j)
        yield kind.group(1), text[j + 1:i - 1]


def functions_of(house, path):
    """each function of a file, with the names that it cites by the kind of clause"""
    text = re.sub(r"//[^\n]*", "", read(house.path(path)))
    source = Source({}, *imports_of(text), {})
    types = [(m.group(1), m.end(), closing(text, m.end() - 1)) for m in METHODS.finditer(text)]
    for m in FUNCTION.finditer(text):
        start = text.index("(", m.end())
        end = closing(text, start)
        parameters = set(re.findall(r"(\w+)\s*:", text[start:end]))
        names = collections.defaultdict(set)
        for kind, clause in clauses(text, end):
            names[kind] |= cited(clause) - parameters
        owner = next((name for name, begin, last in types if begin <= m.start() < last), None)
        yield Function(path, m.group(2), owner, bool(m.group(1)), names, source)


def functions_in(house, crate):
    return [f for path in house.files("crates/%s/src" % crate, ".rt") for f in functions_of(house, path)]


def every_function(house):
    return [f for crate in house.crates() for f in functions_in(house, crate)]


def public_functions(house):
    return [f for crate in house.crates() if not house.is_program(crate) for f in functions_in(house, crate) if f.public]


# ---- what a customer calls

def listed(house):
    """(path as written, crate) of each function in the README's table"""
    section = LISTING.search(read(house.path("README.md")))
    for row in re.findall(r"^\|[^|]*\|([^|]*)\|([^|]*)\|\s*$", section.group(1) if section else "", re.M):
        for path in re.findall(r"`([^`]*)`", row[0]):
            yield path, row[1].strip(" `")


def named(house, path, crate):
    """the public functions that a path of the README means: `crate::module::function` or, of a type of the crate, `Type::function`"""
    *rooms, name = path.split("::")
    if rooms[:1] == [crate]:
        place = "/".join(["crates", crate, "src"] + (rooms[1:] or ["lib"])) + ".rt"
        there = functions_of(house, place) if os.path.exists(house.path(place)) else []
        return [f for f in there if f.public and f.name == name and f.owner is None]
    return [f for f in functions_in(house, crate) if f.public and f.name == name and rooms == [f.owner]]


def called(house):
    """the functions that the README lists, the exported ones, and the programs' own"""
    rows = list(listed(house))
    if not rows:
        house.lost.append("README.md lists no function under `As a library`")
    for path, crate in rows:
        found = named(house, path, crate)
        if not found:
            house.lost.append("README.md lists %s of crate %s, and there is no such public function" % (path, crate))
        yield from found
    yield from (f for f in functions_in(house, EXPORTS) if f.public)
    yield from (f for crate in house.crates() if house.is_program(crate) for f in functions_in(house, crate))


def meant(house, path):
    """the functions that a path of TRUSTED means: all of a program or of the library, or a public one"""
    crate = path.partition("::")[0]
    if path == crate:
        return [f for f in functions_in(house, crate) if f.public or house.is_program(crate)]
    return named(house, path, crate)


def trusted(house):
    """(name, words, functions) of what one may want to trust; a program that has no words yet is named by itself"""
    known = {path for _, _, paths in TRUSTED for path in paths}
    new = [crate for crate in house.crates() if house.is_program(crate) and crate not in known]
    for name, words, paths in TRUSTED + tuple((crate, "what `%s` prints" % crate, (crate,)) for crate in new):
        if not all(path.partition("::")[0] in house.crates() for path in paths):
            continue
        for path in paths:
            if not meant(house, path):
                house.lost.append("%s is counted from %s, and there is no such public function" % (name, path))
        yield name, words, [f for path in paths for f in meant(house, path)]


# ---- what is said

def contracts(house, functions, kinds=("ensures",)):
    """the definitions that contracts cite, each with its function"""
    for f in functions:
        by = "fn %s of %s" % (f.name, f.path)
        for token in sorted(set().union(*(f.cited[kind] for kind in kinds))):
            for d in house.resolve(token, f.source, by):
                yield d, by


def statement_files(house):
    """those of the demands, and of each further crate of promises"""
    yield from STATEMENTS
    for crate in (c for c in house.crates() if is_promises(c) and c != WORDS):
        proofs = "crates/%s/proofs" % crate
        names = os.listdir(house.path(proofs)) if os.path.isdir(house.path(proofs)) else []
        own = sorted(name for name in names if fnmatch.fnmatchcase(name, OTHER_STATEMENTS))
        yield from ("%s/%s" % (proofs, name) for name in own or [OTHER_STATEMENTS])


def statements(house):
    """the definitions that the public statements of the promises name, each with its statement"""
    for path in statement_files(house):
        if not os.path.exists(house.path(path)):
            house.lost.append("there is no %s" % path)
            continue
        source = house.source(path)
        for s in (d for d in source.definitions.values() if d.public):
            by = "%s of %s" % (s.name, path)
            for token in sorted(cited("\n".join(s.entries[0])) - {s.name}):
                for d in house.resolve(token, source, by):
                    yield d, by
