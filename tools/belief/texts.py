"""Texts as they stand: the names that a piece cites, and the definitions and imports of a file."""
import collections
import re

HOLE = "◌"
NAME = r"[^\s(){}\[\],;.\"]+"
IMPORT = re.compile(r"^\s*(?:ghost\s+|pub\s+)*use\s+([^\s{;]+?)(?:\.\{([^}]*)\}|\s+as\s+(%s))?\s*;?\s*$" % NAME, re.M)
PLACE = re.compile(r"^Rattle\.([\w-]+)\.(specs|proofs)\.(.+)$")
SIGNATURE = re.compile(r"^\s*((?:(?:pub|abbrev|unfoldable|opaque)\s+)*)(?:(data|record)\s+)?(%s)(?:\s+\{[^}]*\})*\s*(.*)$" % NAME, re.S)

Definition = collections.namedtuple("Definition", "place name public entries lines above")


# ---- the names of a text

def bare(text):
    """the text without strings, projections and the keys of records"""
    text = re.sub(r'"[^"\n]*"', " ", text)
    text = re.sub(r"([{;])\s*%s\s*=(?=\s)" % NAME, r"\1 ", text)
    return re.sub(r"(?<![^\s(){}\[\],;])\.\s*(?:«[^»]*»|%s)" % NAME, " ", text)


def tokens(text):
    return [t.rstrip(".") for t in re.split(r"[\s(){}\[\],;]+", bare(text)) if t.strip(".")]


def bound(text):
    """the names that are bound by λ, let and (x : A)"""
    names = set(re.findall(r"\blet\s+(%s)" % NAME, text))
    for group in re.findall(r"λ\s*([^.]*)\.", text) + re.findall(r"[({]([^(){}:]*?)\s:\s", text):
        names.update(tokens(re.sub(r":[^()]*", "", group)))
    return names


def cited(text):
    return set(tokens(text)) - bound(text)


def cited_in_clause(text):
    """the same of a clause, whose left side binds names too"""
    return cited(text) - set(tokens(re.split(r"\s=(?:\s|$)", text, maxsplit=1)[0])[1:])


def spoken(name):
    """how a name is written where it is used: `◌∙◌` as `∙`"""
    parts = [p for p in name.split(HOLE) if p]
    return parts[0] if name.startswith(HOLE) or name.endswith(HOLE) else name


# ---- one file of definitions

def without_comments(text):
    return [re.sub(r"(^|\s)--(\s.*)?$", "", line).rstrip() for line in text.split("\n")]


def indent(line):
    return len(line) - len(line.lstrip())


def entries_of(lines):
    """the runs of lines that begin at the indent of the first"""
    entries, depth = [], None
    for line in (l for l in lines if l.strip()):
        depth = indent(line) if depth is None else depth
        if indent(line) <= depth:
            entries.append([line])
        else:
            entries[-1].append(line)
    return entries


def declared(entry):
    """(name, public) where the entry is a signature"""
    m = SIGNATURE.match("\n".join(entry))
    if not m or m.group(3) in ("use", "unfolding", "module", "mod"):
        return None
    words, block, name, rest = m.groups()
    if words or block or rest.startswith(":"):
        return None if name == "mod" else (name, "pub" in words)
    return None


def definitions_of(place, lines, above=()):
    """name -> Definition; `above` are the headers of the modules around it"""
    found, name = {}, None
    for entry in entries_of(lines):
        if entry[0].split()[0] == "module":
            body = next((i for i, line in enumerate(entry, 1) if line.endswith("where")), len(entry))
            found.update(definitions_of(place, entry[body:], above + ("\n".join(entry[:body]),)))
            name = None
        elif declared(entry):
            name, public = declared(entry)
            found[name] = Definition(place, name, public, [entry], list(entry), above)
        elif name and not entry[0].lstrip().startswith("use "):
            found[name].entries.append(entry)
            found[name].lines.extend(entry)
    return found


def imports_of(text):
    """(name as written -> (place, name), alias -> place)"""
    names, aliases = {}, {}
    for path, listed, alias in IMPORT.findall(text):
        if not PLACE.match(path):
            continue
        if not listed:
            aliases[alias or path.split(".")[-1]] = path
        for word in (w.strip() for w in listed.split(",") if w.strip()):
            name, _, other = word.partition(" as ")
            names[spoken(other or name)] = (path, name)
    return names, aliases


def owners_of(definitions):
    """the constructors of each data type, and whose they are"""
    owners = {}
    for d in definitions.values():
        if re.match(r"\s*(pub\s+)?data\s", d.lines[0]):
            for line in d.lines[1:]:
                m = re.match(r"\s+(%s)\s*:(\s|$)" % NAME, line)
                if m:
                    owners[m.group(1)] = d.name
    return owners
