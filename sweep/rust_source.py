"""What a crate's source declares: structs, enums and aliases, what each needs, and imports.

No compiler is asked. The source is cut into tokens, and of these only what stands around a
declaration is looked at. What macros make is not seen, and no `#[cfg(..)]` is asked. A name is
looked up as Rust does it: in its module, among the imports there, behind a `*`. Where that finds
nothing, the declaration of that name in the nearest module is taken.
"""

import collections
import dataclasses
import functools
import re

Token = collections.namedtuple("Token", "kind text start end")
TOKEN = re.compile(
    r"""
      (?P<space> \s+ | //[^\n]* )
    | (?P<comment> /\* )
    | (?P<text> [bc]?r(?P<hashes>\#*)".*?"(?P=hashes) | [bc]?"(?:[^"\\]|\\.)*" )
    | (?P<character> b?'(?:\\.[^']*|[^'\\])' )
    | (?P<lifetime> '[^\W\d]\w* )
    | (?P<name> (?:r\#)?[^\W\d]\w* )
    | (?P<number> \d\w*(?:\.\d\w*)? )
    | (?P<mark> :: | -> | => | << | . )
    """,
    re.VERBOSE | re.DOTALL,
)
COMMENT = re.compile(r"/\*|\*/")
OPEN = {"(": ")", "[": "]", "{": "}"}
CLOSE = set(OPEN.values())
KINDS = ("struct", "enum")
NOT_SERDE = {"rkyv", "miniserde"}  # Crates with a Deserialize that is not serde's.
ROOTS = ("lib", "main")  # Files that are the root of a crate.
# Names that mean the same in each module that declares no other.
PRELUDE = {"Option", "Vec", "String", "Box", "Result", "Self"}
WORDS = {"dyn", "mut", "const", "fn", "impl", "for", "as", "unsafe", "extern", "ref", "where"}
BASES = ("crate", "self", "super")  # What a path begins with that is of its own crate.
ATTRIBUTES = ("serde", "facet")
SKIPS = {"skip", "skip_deserializing"}
PROXIES = {"from", "try_from", "proxy"}


@dataclasses.dataclass
class Item:
    """A struct, an enum or an alias."""

    kind: str
    name: str
    scope: tuple  # The modules that it stands in, from the crate's root, and blocks of functions.
    file: str
    line: int  # Where its name stands.
    first_line: int  # Where its attributes begin.
    text: str
    attributes: list  # Each as its tokens.
    rest: list  # The tokens behind the name.
    is_top: bool  # Whether it stands in no mod or block of its file.

    @functools.cached_property
    def derived(self):
        """The paths ending in Deserialize of which a derive is asked."""
        lists = (it[1] for it in entries(self.attributes) if it[0] == "derive")
        found = {path for runs in lists for run in runs for path in paths(run)}
        return {path for path in found if path[-1] == "Deserialize"}

    @functools.cached_property
    def is_generic(self):
        """Whether it has parameters other than lifetimes."""
        head = self.rest[: angles_end(self.rest, 0)]
        return any(before.text in "<," and it.kind == "name" for before, it in pairs(head))

    @functools.cached_property
    def needs(self):
        """The paths of the types that it needs to be read, in order."""
        return list(dict.fromkeys(path for part in needed(self) for path in paths(part)))


def pairs(tokens):
    return zip(tokens, tokens[1:])


def tokens_of(text):
    """The tokens of a text, without spaces and comments."""
    tokens, at = [], 0
    while found := TOKEN.match(text, at):
        at = found.end()
        if found.lastgroup == "comment":
            at = comment_end(text, at)
        elif found.lastgroup != "space":
            kind = "text" if found["text"] else found.lastgroup
            tokens.append(Token(kind, found[0], found.start(), at))
    return tokens


def comment_end(text, at):
    """Where a comment ends that may hold others."""
    depth = 1
    while depth and (found := COMMENT.search(text, at)):
        depth += 1 if found[0] == "/*" else -1
        at = found.end()
    return len(text) if depth else at


def group_end(tokens, at):
    """The index behind the bracket that closes the one at an index."""
    depth = 0
    for index in range(at, len(tokens)):
        depth += (tokens[index].text in OPEN) - (tokens[index].text in CLOSE)
        if depth == 0:
            return index + 1
    return len(tokens)


def angles_end(tokens, at):
    """The index behind the `<..>` that begins at an index, or that index."""
    depth = 0
    for index in range(at, len(tokens)):
        depth += (tokens[index].text == "<") - (tokens[index].text == ">")
        if depth == 0:
            return index + 1 if tokens[index].text == ">" else at
    return at


def split(tokens, mark=","):
    """The runs of tokens between marks that stand outside brackets."""
    runs, depth = [[]], 0
    for token in tokens:
        depth += (token.text in OPEN or token.text == "<")
        depth -= (token.text in CLOSE or token.text == ">")
        if depth == 0 and token.text == mark:
            runs.append([])
        else:
            runs[-1].append(token)
    return [run for run in runs if run]


def entries(attributes):
    """The names of attributes with the tokens behind them, also of those in a cfg_attr."""
    for attribute in attributes:
        if not attribute:
            continue
        name, rest = attribute[0].text, attribute[1:]
        inner = split(rest[1:-1]) if rest and rest[0].text == "(" else []
        if name == "cfg_attr":
            yield from entries(inner[1:])
        else:
            yield name, inner or [rest]


def said(attributes):
    """The entries in attributes of serde and facet: a word and what is behind it."""
    for name, inner in entries(attributes):
        if name in ATTRIBUTES:
            yield from ((run[0].text, run[1:]) for run in inner if run)


def proxy(attributes):
    """The tokens of the type that something is read as, or None."""
    for word, rest in said(attributes):
        if word in PROXIES and len(rest) > 1:
            value = rest[1:]
            return tokens_of(literal(value[0].text)) if value[0].kind == "text" else value
    return None


def literal(text):
    """What stands between the quotes of a text."""
    return text[text.index('"') + 1 : text.rindex('"')]


def attributes_at(tokens, at):
    """The attributes from an index on, and the index behind them."""
    found = []
    while at + 1 < len(tokens) and tokens[at].text == "#" and tokens[at + 1].text == "[":
        end = group_end(tokens, at + 1)
        found.append(tokens[at + 2 : end - 1])
        at = end
    return found, at


def needed(item):
    """Runs of tokens that say the types that an item needs."""
    if (read_as := proxy(item.attributes)) is not None:
        return [read_as]
    rest = item.rest[angles_end(item.rest, 0) :]
    if item.kind == "type":
        return [rest]
    body = next((at for at, it in enumerate(rest) if it.text in "{(;"), len(rest))
    inner = rest[body + 1 : group_end(rest, body) - 1]
    if item.kind == "struct":
        return fields(inner)
    return [it for run in split(inner) for it in variant(run)]


def variant(run):
    """Runs of tokens that say the types that a variant needs."""
    attributes, at = attributes_at(run, 0)
    if any(word in SKIPS for word, _ in said(attributes)) or at + 1 >= len(run):
        return []
    inner = run[at + 1].text in "({"
    return fields(run[at + 2 : group_end(run, at + 1) - 1]) if inner else []


def fields(tokens):
    """Runs of tokens that say the types that fields need."""
    found = []
    for run in split(tokens):
        attributes, at = attributes_at(run, 0)
        if any(word in SKIPS for word, _ in said(attributes)):
            continue
        read_as = proxy(attributes)
        found.append(run[type_at(run, at) :] if read_as is None else read_as)
    return found


def type_at(run, at):
    """The index at which the type of a field begins."""
    if at < len(run) and run[at].text == "pub":
        at += 1
        if at < len(run) and run[at].text == "(" and run[at + 1].text in ("crate", "super", "in"):
            at = group_end(run, at)
    return at + 2 if at + 1 < len(run) and run[at + 1].text == ":" else at


def paths(tokens):
    """The paths among the tokens of a type."""
    path = []
    for before, token in pairs([Token("mark", "", 0, 0), *tokens]):
        if token.kind == "name" and token.text not in WORDS:
            if path and before.text != "::":
                yield tuple(path)
                path = []
            path.append(token.text)
        elif token.text != "::" and path:
            yield tuple(path)
            path = []
    if path:
        yield tuple(path)


def module_of(path):
    """The modules of a file below src/."""
    parts = path.with_suffix("").parts
    return parts[:-1] if parts[-1] in ("mod", *ROOTS) else parts


class Source:
    """What a crate declares."""

    def __init__(self):
        self.items = []
        self.imports = {}  # By scope and name, the path of what is imported.
        self.globs = collections.defaultdict(list)  # By scope the paths before a `*`.
        self.by_hand = set()  # The names of types with an impl of Deserialize.
        self.scopes = {()}
        self.roots = {()}  # The modules of files lib.rs and main.rs.

    def add(self, name, text, path):
        """Takes in a file by its path below src/."""
        module = module_of(path)
        if path.stem in ROOTS:
            self.roots.add(module)
        Walk(self, name, text, module).run()

    def root(self, scope):
        """The root of the crate that a scope is of: one folder can have several."""
        ends = range(len(scope), 0, -1)
        return next((scope[:end] for end in ends if scope[:end] in self.roots), ())

    def end(self):
        """Makes the tables that names are looked up in."""
        self.declared = collections.defaultdict(list)
        self.named = collections.defaultdict(list)
        for item in self.items:
            self.declared[item.scope, item.name].append(item)
            self.named[item.name].append(item)
            for end in range(len(item.scope) + 1):
                self.scopes.add(item.scope[:end])

    def derives(self, item):
        """Whether an item derives serde's Deserialize."""
        return any(not NOT_SERDE & {*self.written(item.scope, it)} for it in item.derived)

    def written(self, scope, path):
        """A path with its first name as it is imported."""
        for end in range(len(scope), -1, -1):
            if (scope[:end], path[0]) in self.imports:
                return (*self.imports[scope[:end], path[0]], *path[1:])
            if end and not scope[end - 1].startswith("{"):
                break
        return path

    def look_up(self, scope, path, depth=0):
        """The declarations that a path means in a scope. None where it is of another crate."""
        if depth > 8:
            return []
        if path[0] in BASES:
            return self.inside(*self.based(scope, path), depth)
        for end in range(len(scope), -1, -1):
            outer = scope[:end]
            if found := self.begun(outer, path, depth):
                return found
            if (outer, path[0]) in self.imports:
                target = (*self.imports[outer, path[0]], *path[1:])
                return self.imported(outer, target, depth)
            if end and not outer[-1].startswith("{"):
                break
        if len(path) > 1:
            return self.begun(self.root(scope), path, depth) or None
        return self.starred(scope, path, depth)

    def based(self, scope, path):
        """The module that a path begins at by crate, self and super, and the path from there."""
        module = tuple(part for part in scope if not part.startswith("{"))
        if path[0] == "crate":
            return self.root(module), path[1:]
        while path and path[0] in ("self", "super"):
            module = module[:-1] if path[0] == "super" else module
            path = path[1:]
        return module, path

    def begun(self, scope, path, depth):
        """What a path means that begins with a declaration or a module of a scope."""
        if len(path) == 1:
            return self.declared.get((scope, path[0]), [])
        inner = (*scope, path[0])
        return self.inside(inner, path[1:], depth) if inner in self.scopes else []

    def inside(self, scope, path, depth):
        """What a path means in a module, by its declarations and imports."""
        if not path:
            return []
        return self.look_up(scope, path, depth + 1)

    def imported(self, scope, path, depth):
        """What an imported path means. None where it is of another crate."""
        if path[0] in BASES:
            return self.inside(*self.based(scope, path), depth)
        for outer in (scope, self.root(scope), ()):
            if (*outer, path[0]) in self.scopes:
                return self.inside((*outer, path[0]), path[1:], depth)
        return None

    def starred(self, scope, path, depth):
        """What a name means by a `*` in a module."""
        for glob in self.globs.get(scope, ()):
            if glob and (found := self.imported(scope, (*glob, *path), depth + 1)):
                return found
        return []

    def found(self, item, path):
        """The declarations that a path means in an item, or those of the nearest module."""
        if path[0] in PRELUDE and (item.scope, path[0]) not in self.imports:
            return self.declared.get((item.scope, path[0]), [])
        found = self.look_up(item.scope, path)
        if found or found is None or len(path) > 1:
            return found or []
        return self.nearest(item.scope, path[0])

    def nearest(self, scope, name):
        """The declarations of a name in the module that shares most of its path with another."""
        named = [it for it in self.named.get(name, ()) if block_free(it)]
        if not named:
            return []
        best = max(named, key=lambda it: (common(it.scope, scope), -len(it.scope)))
        return self.declared[best.scope, name]

    def gathered(self, item):
        """The item and, behind it, all that it needs of the crate, and what these need."""
        found = {id(it): it for it in self.declared[item.scope, item.name]}
        found = {id(item): item, **found}
        queue = list(found.values())
        while queue:
            now = queue.pop(0)
            for path in now.needs:
                for other in self.found(now, path):
                    if id(other) not in found:
                        found[id(other)] = other
                        queue.append(other)
        return list(found.values())


def block_free(item):
    """Whether an item stands in modules alone."""
    return not any(part.startswith("{") for part in item.scope)


def common(one, other):
    """How many first parts two scopes share."""
    count = 0
    for left, right in zip(one, other):
        if left != right:
            break
        count += 1
    return count


class Walk:
    """Goes through the tokens of a file, and notes what it declares."""

    def __init__(self, source, name, text, module):
        self.source = source
        self.name = name
        self.text = text
        self.module = module
        self.tokens = tokens_of(text)
        # What each open brace is: a module, a block, the body of an impl, or None for a macro's.
        self.stack = []
        source.scopes.add(module)

    def scope(self):
        return (*self.module, *filter(None, self.stack))

    def run(self):
        at, opens = 0, None
        while at < len(self.tokens):
            token = self.tokens[at]
            if token.text == "{":
                is_call = at and self.tokens[at - 1].text == "!"
                self.stack.append(None if is_call else opens or f"{{{token.start}")
                opens = None
            elif token.text == "}" and self.stack:
                self.stack.pop()
            elif token.text in ("#", "pub", "struct", "enum", "type"):
                at = self.item(at)
                continue
            elif token.text == "mod" and self.text_at(at + 2) == "{":
                opens = self.text_at(at + 1)
                self.source.scopes.add((*self.scope(), opens))
            elif token.text in ("impl", "trait"):
                opens = "{impl"
                self.note_impl(at)
            elif token.text == ";":
                opens = None
            elif token.text == "use":
                at = self.use(at)
            elif self.is_macro(at):
                at = self.macro_end(at)
                continue
            at += 1

    def text_at(self, at):
        return self.tokens[at].text if at < len(self.tokens) else ""

    def line(self, at):
        return self.text.count("\n", 0, self.tokens[at].start) + 1

    def is_macro(self, at):
        """Whether a macro is declared here, or tokens are quoted."""
        return self.tokens[at].text in ("macro_rules", "quote") and self.text_at(at + 1) == "!"

    def macro_end(self, at):
        at += 2
        while at < len(self.tokens) and self.tokens[at].text not in OPEN:
            at += 1
        return group_end(self.tokens, at)

    def item(self, at):
        """Notes an item with its attributes, and gives the index behind it."""
        begin = at
        attributes, at = attributes_at(self.tokens, at)
        if self.text_at(at) == "pub":
            at += 1
            if self.text_at(at) == "(":
                at = group_end(self.tokens, at)
        kind, name = self.text_at(at), self.text_at(at + 1)
        is_name = at + 1 < len(self.tokens) and self.tokens[at + 1].kind == "name"
        if kind not in (*KINDS, "type") or not is_name or self.stack[-1:] == ["{impl"]:
            return max(at, begin + 1)
        end = self.item_end(kind, at + 2)
        if end is None:
            return at + 1
        self.note_item(kind, name, attributes, (begin, at + 2, end))
        return end

    def item_end(self, kind, at):
        """The index behind an item whose name ends at an index, or None where it is none."""
        start = at
        at = angles_end(self.tokens, at)
        if self.text_at(at) not in ("{", "(", ";", "where", "="):
            return None
        while at < len(self.tokens):
            text = self.tokens[at].text
            if text == ";":
                return at + 1
            if text == "{" and kind != "type":
                return group_end(self.tokens, at)
            at = group_end(self.tokens, at) if text in OPEN else at + 1
        return start

    def note_item(self, kind, name, attributes, bounds):
        begin, behind, end = bounds
        start, stop = self.tokens[begin].start, self.tokens[end - 1].end
        self.source.items.append(
            Item(
                kind=kind,
                name=name,
                scope=self.scope(),
                file=self.name,
                line=self.line(behind - 1),
                first_line=self.line(begin),
                text=self.text[start:stop],
                attributes=attributes,
                rest=self.tokens[behind:end],
                is_top=not self.stack,
            )
        )

    def note_impl(self, at):
        """Notes the type that an impl of Deserialize is for."""
        at = angles_end(self.tokens, at + 1)
        last, depth, trait = None, 0, None
        for token in self.tokens[at : at + 200]:
            if depth == 0 and token.text in ("{", ";", "where"):
                break
            depth += (token.text in "<([") - (token.text in ">)]")
            if depth == 0 and token.text == "for":
                trait, last = last, None
            elif depth == 0 and token.kind == "name":
                last = token.text
        if trait == "Deserialize" and last:
            self.source.by_hand.add(last)

    def use(self, at):
        """Notes what a `use` imports, and gives the index of its end."""
        end = at
        while end < len(self.tokens) and self.tokens[end].text != ";":
            end += 1
        self.tree(self.tokens[at + 1 : end], ())
        return end

    def tree(self, tokens, before):
        """Notes the imports of a tree behind a path."""
        names = []
        for at, token in enumerate(tokens):
            if token.text == "{":
                for run in split(tokens[at + 1 : group_end(tokens, at) - 1]):
                    self.tree(run, (*before, *names))
                return
            if token.text == "*":
                self.source.globs[self.scope()].append((*before, *names))
                return
            if token.text == "as":
                self.bind(tokens[at + 1].text, (*before, *names))
                return
            if token.kind == "name":
                names.append(token.text)
        if names == ["self"]:
            self.bind(before[-1] if before else "self", before)
        elif names:
            self.bind(names[-1], (*before, *names))

    def bind(self, name, path):
        """Notes a name for a path, unless it is the name of that in its own place."""
        if path and path != (name,):
            self.source.imports.setdefault((self.scope(), name), path)
