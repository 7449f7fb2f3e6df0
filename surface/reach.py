"""What clauses speak of: definitions, types of the code, and what these speak of in turn."""

import collections
import re
import textwrap

from . import antt
from .antt import Definition, Unread
from .crates import Found, path_of
from .rust import PATH, Item, ghost_imports, levels, split, take_attributes, written

# Ghost lines that are proofs, or codes by which proofs tell values apart. Any will do.
PROOFS = ("coded", "laws", "inverse_ok", "size_decreases")
# The items of the code that clauses speak of.
SPOKEN_OF = ("const", "enum", "static", "struct", "type")
# The names that each clause has, and what the code has in scope everywhere.
GIVEN = ("self", "Self", "result")
IN_SCOPE = re.compile(
    r"bool|char|str|[iu](8|16|32|64|128|size)|f(32|64)"
    r"|Box|Err|None|Ok|Option|Result|Some|String|Vec"
)
COMMENT = re.compile(r'("(?:[^"\\]|\\.)*")|(?<!\S)//[^\n]*')
WIDTH = 100


def clause_of(nodes):
    """What is before the text of a clause, and the text, without comments and what proves it."""
    at = next(at for at, it in enumerate(nodes) if it.raw is not None)
    text = antt.without_comments(COMMENT.sub(lambda it: it[1] or "", nodes[at].raw))
    return written(nodes[:at]), " ".join(text.split())


def promised(item):
    """The ghost lines of an impl or a trait that are no proofs."""
    return [it for it in item.ghosts() if it.name not in PROOFS]


def parameters(item):
    """The names of the parameters of an item, with those that stand in `<..>`."""
    at = 1 if item.kind == "impl" else [it.text for it in item.head].index(item.name) + 1
    names, within = set(), []
    if item.head[at:] and item.head[at].text == "<":
        for level, node in levels(item.head[at:]):
            if not level:
                break
            within.append(node)
    for part in split(within[1:]):
        names.add(part[part[0].text == "const"].text)
    if item.kind == "fn":
        for part in split(next(it.inside for it in item.head[at:] if it.text == "(")):
            names.update(PATH.findall(written(antt.cut(part, ":")[0])))
    return names


class Scope:
    """Where the names of the clauses of an item come from.

    `bound` are those of its parameters, and of a struct those of its fields. `members` are the
    ghost members of a trait, which its clauses and those of its impls have without an import.
    """

    def __init__(self, item, is_constructor):
        self.item, self.is_imported_constructor = item, is_constructor
        self.bound, self.members = set(GIVEN), set()
        self.imports = list(item.module.all_ghost_imports())
        if item.kind == "struct":
            self.bound.update(it.name for it in item.fields)
        if item.kind != "ghost":
            self.bound |= parameters(item)
            self.bound.update(it[1].text for it in item.clauses if it[0].text == "ghost")
        if item.outer:
            self.bound |= parameters(item.outer)
            self.imports.insert(0, ghost_imports(item.outer.items))
            named = [item.outer, *item.module.items_named(item.outer.head)]
            traits = [it for it in named if it.kind in ("impl", "trait")]
            self.members.update(it.name for trait in traits for it in trait.ghosts())

    def find(self, parts):
        """What imports bring of a name, with what stands behind dots."""
        return next((found for it in self.imports if (found := it.find(parts))), [])

    def is_constructor(self, name):
        """Whether a name is that of a constructor."""
        return any(self.is_imported_constructor(it.path) for it in self.find((name,)))

    def spoken(self, text):
        """What a clause speaks of."""
        spoken = antt.Spoken(self.is_constructor)
        spoken.term(antt.nodes_of(text), frozenset(self.bound))
        return spoken

    def of_code(self, name):
        """The items of the code that a name means which no import brings."""
        found = self.item.module.find([name])
        if isinstance(found, Item) and found.kind in SPOKEN_OF:
            return [found]
        is_known = found or name in self.item.module.uses or name in self.members
        if not is_known and name not in antt.PRELUDE and not IN_SCOPE.fullmatch(name):
            raise Unread(f"the name {name} in a clause of {self.item.name}")
        return []


class Names:
    """Where names stand that texts import, and in which texts where they have several meanings."""

    def __init__(self):
        self.meanings = collections.defaultdict(lambda: collections.defaultdict(set))

    def add(self, brought, found, place):
        """Adds a name at a place, with its import and what that finds."""
        meaning = (brought.module, None) if brought.module else (found.module, found.name)
        if brought.name:
            self.meanings[brought.name, bool(brought.module)][meaning].add(place)

    def lines(self):
        """The modules, each with the names that stand there."""
        by_module = collections.defaultdict(list)
        for (name, _), meanings in self.meanings.items():
            for (module, original), places in meanings.items():
                text = {None: f"as {name}", name: name}.get(original, f"{original} as {name}")
                where = f" (in {'; '.join(sorted(places))})" if len(meanings) > 1 else ""
                by_module[module].append(text + where)
        how = {"break_long_words": False, "break_on_hyphens": False, "subsequent_indent": "    "}
        for module in sorted(by_module):
            text = f"{'.'.join(module)}: {', '.join(sorted(by_module[module]))}"
            yield from textwrap.wrap(text, WIDTH, **how)


class Reach:
    """What is reached: definitions and types, each by its identity, and the names of fields.

    `public` has the identities of the items that callers can name. `names` has those of each list.
    """

    def __init__(self, repository, public):
        self.repository, self.public = repository, public
        self.definitions, self.types, self.fields = {}, {}, set()
        self.names = collections.defaultdict(Names)
        self.waiting = []

    def clause(self, item, text, place):
        """Adds what a clause of an item speaks of. Its place is a list and a path in that."""
        scope = Scope(item, self.repository.is_constructor)
        spoken = scope.spoken(text)
        self.fields |= spoken.fields
        for parts in spoken.names:
            imports = scope.find(parts)
            self.imported(imports, place)
            for found in [] if imports else scope.of_code(parts[0]):
                path = path_of(found)
                self.add(found)
                self.name(antt.Import(parts[0], path), Found(found, path[:-1], path[-1]), place)

    def name(self, brought, found, place):
        """Adds a name that something in a list imports."""
        self.names[place[0]].add(brought, found, place[1])

    def imported(self, imports, place):
        """Adds what may be meant by a name at a place, by its imports."""
        found = [(it, found) for it in imports for found in self.repository.find(it.path)]
        if imports and not found:
            raise Unread(f"the path {'.'.join(imports[0].path)}")
        for it, at_path in found:
            self.add(at_path.item)
            self.name(it, at_path, place)

    def add(self, item):
        """Adds a definition, or an item of the code."""
        known = self.definitions if isinstance(item, Definition) else self.types
        if item and id(item) not in known:
            known[id(item)] = item
            self.waiting.append(item)

    def types_in(self, module, nodes):
        """Adds the types that stand among nodes of a module of the code."""
        for it in module.items_named(nodes):
            if it.kind in SPOKEN_OF:
                self.add(it)

    def go_on(self):
        """Adds what is reached from what was added. More fields may count then."""
        while self.waiting:
            while self.waiting:
                item = self.waiting.pop()
                if isinstance(item, Definition):
                    self.definition(item)
                elif id(item) not in self.public:
                    self.ghosts(item)
            for item in list(self.types.values()):
                self.parts(item)

    def definition(self, item):
        """Adds what a definition speaks of."""
        module = item.module
        place = f"{module.path[1]}.definitions", ".".join(module.path[3:])
        self.fields |= item.spoken.fields
        for parts in item.spoken.names:
            imports = module.imports.find(parts)
            own = [it for own in module.own.find(parts) for it in self.repository.find(own.path)]
            self.imported(imports, place)
            for it in own:
                self.add(it.item)
            if not imports and not own and parts[0] not in antt.PRELUDE:
                raise Unread(f"the name {'.'.join(parts)} in {'.'.join(module.path)}")

    def ghosts(self, item):
        """Adds what the ghost lines and ghost fields of a type speak of."""
        crate, *modules = item.module.path
        place = f"{crate}.definitions", ".".join(("declared", *modules))
        model = self.repository.models.get(id(item))
        for it in promised(model) if model else ():
            self.clause(it, clause_of(it.head)[1], place)
        for it in item.fields if item.kind == "struct" else ():
            if it.is_ghost():
                self.clause(item, clause_of(it.nodes)[1], place)

    def counts(self, item, field):
        """Whether a field of a struct counts: whether clauses may speak of it.

        They may where its name stands behind a dot in what is reached, or before `=`. A struct that
        no caller can name they may see whole, unless it has an impl of `Model`.
        """
        is_whole = id(item) not in self.public and id(item) not in self.repository.models
        return field.public or is_whole or field.name in self.fields

    def parts(self, item):
        """Adds the types in a type, or in a constant."""
        parts = [item.head]
        if item.kind == "struct":
            parts = [it.nodes for it in item.fields if self.counts(item, it) and not it.is_ghost()]
        elif item.kind == "enum":
            parts = split(item.body.inside)
        for part in parts:
            rest = collections.deque(part)
            take_attributes(rest)
            self.types_in(item.module, list(rest)[1:])
