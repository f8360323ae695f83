"""The repository: its crates, its files, and what a definition rests on."""
import collections
import os

from belief.texts import PLACE, cited, cited_in_clause, definitions_of, imports_of, owners_of, spoken, without_comments
from blocks import read

Source = collections.namedtuple("Source", "definitions imports aliases owners")


class House:
    """the files of the repository, read once each; `lost` says what was named and not found"""

    def __init__(self, root):
        self.root, self.sources, self.lost = root, {}, []
        self.below = {}

    def path(self, *parts):
        return os.path.join(self.root, *parts)

    def crates(self):
        """in the order of crates.txt, lowest first"""
        lines = (line.split("#")[0] for line in read(self.path("crates.txt")).split("\n"))
        return [line.partition(":")[0].split()[0] for line in lines if line.strip()]

    def is_program(self, crate):
        return os.path.exists(self.path("crates", crate, "src", "main.rt"))

    def files(self, folder, ending):
        for base, _, names in sorted(os.walk(self.path(folder))):
            for name in sorted(names):
                if name.endswith(ending):
                    yield os.path.relpath(os.path.join(base, name), self.root)

    def source(self, place):
        if place not in self.sources:
            text = read(self.path(place))
            definitions = definitions_of(place, without_comments(text))
            names, aliases = imports_of(text)
            self.sources[place] = Source(definitions, names, aliases, owners_of(definitions))
        return self.sources[place]

    def file(self, path):
        """the file of an import path; none for the toolchain's and for declarations of src/"""
        crate, room, rest = PLACE.match(path).groups()
        if rest.split(".")[0] == "declared" or not os.path.isdir(self.path("crates", crate)):
            return None
        return "crates/%s/%s/%s.antt" % (crate, room, rest.replace(".", "/"))

    def definition(self, path, name, by):
        place = self.file(path)
        if place is None:
            return []
        if not os.path.exists(self.path(place)):
            # the constructors of a `data` type stand in a module of its name
            parent, _, owner = path.rpartition(".")
            held = self.file(parent) if PLACE.match(parent) else None
            if held and os.path.exists(self.path(held)) and owner in self.source(held).definitions:
                return [self.source(held).definitions[owner]]
            self.lost.append("%s names %s, and there is no %s" % (by, path, place))
            return []
        source = self.source(place)
        name = source.owners.get(name, name)
        if name in source.imports and name not in source.definitions:
            return self.definition(*source.imports[name], by)
        if name not in source.definitions:
            self.lost.append("%s names %s of %s, which does not declare it" % (by, name, place))
            return []
        return [source.definitions[name]]

    def resolve(self, token, source, by):
        """the definitions that a token means: 0 or 1"""
        if PLACE.match(token):
            return self.definition(*token.rsplit(".", 1), by)
        first, _, rest = token.partition(".")
        own = {spoken(n): n for n in source.definitions}
        if first in own or first in source.owners:
            return [source.definitions[own.get(first) or source.owners[first]]]
        if first in source.imports:
            path, name = source.imports[first]
            return self.definition(path, name, by)
        if rest and first in source.aliases:
            return self.definition(source.aliases[first], rest.split(".")[0], by)
        return []

    def rests_on(self, definition):
        key = (definition.place, definition.name)
        if key not in self.below:
            self.below[key] = self.looked_up(definition)
        return self.below[key]

    def looked_up(self, definition):
        source = self.source(definition.place)
        by = "%s of %s" % (definition.name, definition.place)
        signature, *clauses = ("\n".join(entry) for entry in definition.entries)
        words = cited("\n".join((signature,) + definition.above)).union(*map(cited_in_clause, clauses))
        return [d for word in sorted(words) for d in self.resolve(word, source, by)]

    def reach(self, starts):
        """place and name of every definition that the starts rest on -> it, and what led there"""
        came, todo = {}, collections.deque(starts)
        while todo:
            definition, by = todo.popleft()
            key = (definition.place, definition.name)
            if key not in came:
                came[key] = (definition, by)
                todo.extend((d, "%s of %s" % (definition.name, definition.place)) for d in self.rests_on(definition))
        return came
