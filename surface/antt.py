"""The definitions of files `.antt`: their texts, and the names that these speak of.

A name that a text binds is none that it speaks of. These bind names: a `λ`, a `let`, the left of an
equation, a case of `elim`, the parameters of a type, a field for the fields below it, `(x : A)` for
what is behind it, and a `where` that is no type's. What stands behind a dot or before the `=` of a
`record` is a field.
"""

import collections
import dataclasses
import functools
import itertools
import re

NAME = r'(?:«[^»]*»|[^\s(){}.;,@"«»]+)'
TOKEN = re.compile(
    rf"""(?P<gap>\s+|--[^\n]*|\{{-.*?-\}})
    |"(?:[^"\\]|\\.)*"
    |(?P<path>{NAME}(?:\.{NAME})*)
    |.""",
    re.DOTALL | re.VERBOSE,
)
PART = re.compile(NAME)
COMMENT = re.compile(
    r'("(?:[^"\\]|\\.)*")|(?<![^\s(){}.;,@"«»])(?:--[^\n]*|\{-.*?-\})', re.DOTALL
)
CLOSING = {"(": ")", "{": "}", "[": "]"}
MARKS = ("pattern", "unfoldable", "abbrev", "axiom", "pub")
SIGNATURE = re.compile(
    rf"(?:(?:{'|'.join(MARKS)})\s+)*(?P<name>{NAME})(?:\s*\{{(?P<levels>[^}}]*)\}})?\s+:(?:\s|$)"
)
MEMBER = re.compile(rf"(?:pub )?(?P<names>{NAME}(?: {NAME})*?) :(?: |$)")
FIXITIES = ("infix", "infixl", "infixr")
# What may begin a declaration, and has no rule here.
UNREAD = ("open", "module", "ruleset", "deriving")
# Signs and words of the language.
WORDS = frozenset("→ × = : | ↦ _ Type elim as in do ← where unfold unfolding".split())
# What the language has in scope everywhere, so that no `use` line need bring it.
PRELUDE = frozenset(
    """
    Dec Discrete Id IsProp IsSet J Path Prim Unit absurd no refl squash₁ tt yes ¬ ↔ ⊎ ⊔ ⊥ ∗ ∥ ∥₁ ∣
    ∣₁ ⌜ ⌝ 𝓛 assumption cap cc first_of grind grw hlevel omega rw rw⁻¹ search simp
    """.split()
)
# Before these a part of a term ends, with the names that it binds.
ENDS = (";", ",", "|")
# They bind less tightly than `×`: a name that is bound before `×` is not bound behind them.
LOOSER = ("→", "↔", "⊎")


class Unread(Exception):
    """A form for which there is no rule."""


@dataclasses.dataclass
class Node:
    """A name with fields, a sign or a text, or an opening bracket with what is inside."""

    text: str
    inside: list = None

    def parts(self):
        """The names between dots."""
        return PART.findall(self.text) if PART.match(self.text) else []

    def is_name(self):
        """Whether it is one name, which a term may bind."""
        return self.inside is None and len(self.parts()) == 1 and self.text not in WORDS


def nodes_of(text):
    """The names, signs and brackets of a text, without comments."""
    top = Node("", [])
    opened = [top]
    for token in TOKEN.finditer(text):
        if token["gap"]:
            continue
        sign, around = token.group(), opened[-1]
        if sign in CLOSING:
            opened.append(Node(sign, []))
            around.inside.append(opened[-1])
        elif sign == CLOSING.get(around.text):
            opened.pop()
        elif sign in CLOSING.values():
            raise Unread(f"a {sign} that closes nothing")
        else:
            around.inside.append(Node(sign))
    return top.inside


def without_comments(text):
    """A text without comments."""
    return COMMENT.sub(lambda it: it[1] or "", text)


def cut(nodes, sign):
    """The nodes before the first of a sign, and those behind it, or None where there is none."""
    for at, node in enumerate(nodes):
        if node.text == sign and node.inside is None:
            return nodes[:at], nodes[at + 1 :]
    return nodes, None


def names_of(nodes):
    """The names among binders, also in brackets: a pair, or an implicit argument's after `=`."""
    names = frozenset(node.text for node in nodes if node.is_name())
    for node in nodes:
        if node.inside is not None:
            _, behind = cut(node.inside, "=")
            names |= names_of(node.inside if behind is None else behind)
    return names


def parted(nodes, signs):
    """The nodes between some signs."""
    parts = [[]]
    for node in nodes:
        if node.text in signs and node.inside is None:
            parts.append([])
        else:
            parts[-1].append(node)
    return [part for part in parts if part]


class Spoken:
    """What texts speak of: names, as tuples of what stands between dots, and fields."""

    def __init__(self, is_constructor):
        self.names, self.fields = {}, set()
        self.is_constructor = is_constructor

    def term(self, nodes, bound):
        """Adds what a term speaks of in which some names are bound."""
        rest, at_start, before_pair = collections.deque(nodes), bound, None
        is_behind_binder = False
        while rest:
            node = rest.popleft()
            was_behind_binder, is_behind_binder = is_behind_binder, False
            if node.inside is not None:
                names = self.group(node, bound)
                if names and rest and rest[0].text == "×" and before_pair is None:
                    before_pair = bound
                bound, is_behind_binder = bound | names, bool(names)
            elif node.text in ENDS:
                bound, before_pair = at_start, None
            elif node.text in LOOSER and before_pair is not None and not was_behind_binder:
                bound, before_pair = before_pair, None
            elif node.text == "λ":
                bound |= self.binders(rest, bound)
            elif node.text == "let":
                bound |= self.let(rest, bound)
            elif node.text == "record":
                self.literal(rest, bound)
            elif node.text == "." and rest:
                self.fields.update(rest.popleft().parts())
            else:
                self.path(node, bound)

    def path(self, node, bound):
        """Adds a name with fields, if nothing binds it."""
        parts = tuple(node.parts())
        if parts and parts[0] not in WORDS and not parts[0][0].isdigit():
            self.fields.update(parts[1:])
            if parts[0] not in bound:
                self.names[parts] = None

    def group(self, node, bound):
        """Adds what stands in brackets. Gives the names that it binds for what is behind it."""
        before, behind = cut(node.inside, ":")
        if node.text == "[":
            for part in parted(node.inside, ("|",)):
                self.equation(*cut(part, "↦"), bound)
        elif behind is not None and before and all(it.is_name() for it in before):
            self.term(behind, bound)
            return frozenset(it.text for it in before)
        elif node.text == "{":
            _, value = cut(node.inside, "=")
            self.term(node.inside if value is None else value, bound)
        else:
            self.term(node.inside, bound)
        return frozenset()

    def binders(self, rest, bound):
        """Takes the binders of a `λ`, and gives their names."""
        names = frozenset()
        while rest and rest[0].text != ".":
            node = rest.popleft()
            if node.inside is not None and cut(node.inside, ":")[1] is not None:
                names |= self.group(node, bound)
            else:
                names |= names_of([node])
        if rest:
            rest.popleft()
        return names

    def let(self, rest, bound):
        """Takes a `let` up to its `in`, and gives the names that it binds."""
        nodes, depth = [], 1
        while rest:
            node = rest.popleft()
            depth += (node.text == "let") - (node.text == "in")
            if not depth:
                break
            nodes.append(node)
        left, value = cut(nodes, "=")
        binders, its_type = cut(left, ":")
        self.term(its_type or [], bound)
        self.term(value or [], bound)
        return names_of(binders)

    def literal(self, rest, bound):
        """Takes a `record` with its fields, and what it is made from, if it is."""
        if rest and rest[0].text != "{":
            self.term([rest.popleft()], bound)
        if rest and rest[0].text == "{":
            for part in parted(rest.popleft().inside, ENDS):
                label, value = cut(part, "=")
                self.fields.update(it.text for it in label)
                self.term(value or [], bound)

    def pattern(self, nodes):
        """Adds what patterns speak of, which is constructors. Gives the names that they bind."""
        names = frozenset()
        for node in nodes:
            if node.inside is not None:
                _, value = cut(node.inside, "=")
                names |= self.pattern(node.inside if value is None else value)
            elif node.is_name() and not self.is_constructor(node.text):
                names |= {node.text}
            else:
                self.path(node, frozenset())
        return names

    def equation(self, left, right, bound):
        """Adds what patterns speak of, and the term that they bind names in, if there is one."""
        if right is None:
            self.term(left, bound)
        else:
            self.term(right, bound | self.pattern(left))


@dataclasses.dataclass(frozen=True)
class Import:
    """The path of the item that a name means, which a `use` line brings, or None for a whole path.

    Where the name is that of a module, `module` is its path.
    """

    name: str | None
    path: tuple
    module: tuple = None


def operator_parts(name):
    """The parts of an operator, between which its arguments stand."""
    return [part for part in name.split("◌") if part] if "◌" in name else []


class Imports:
    """What `use` lines bring: items and modules, and operators by their parts."""

    def __init__(self):
        self.items, self.modules, self.operators = {}, {}, {}

    def add(self, nodes):
        """Adds what stands behind `use`."""
        path, *rest = nodes
        words = [it.text for it in rest]
        if path.parts()[-1] == "*":
            raise Unread(f"use {path.text}")
        if words[:1] == ["."] and rest[1].inside is not None:
            for part in parted(rest[1].inside, (",",)):
                self.add_item((*path.parts(), *part[0].parts()), part[-1].parts()[-1])
        elif words and words[0] != "as":
            raise Unread(f"use {path.text}{''.join(words)}")
        else:
            self.modules[words[1] if words else path.parts()[-1]] = tuple(path.parts())

    def add_item(self, path, name):
        """Adds an item."""
        self.items[name] = Import(name, path)
        for part in operator_parts(name):
            self.operators.setdefault(part, []).append(self.items[name])

    def find(self, parts):
        """What may be meant by a name, with what stands behind dots."""
        head, *behind = parts
        if head in ("package", "Rattle") and behind:
            return [Import(None, tuple(parts[head == "package" :]))]
        found = [self.items[head]] if head in self.items else []
        found = found or self.operators.get(head.strip("◌"), [])
        if head in self.modules and behind:
            module = self.modules[head]
            found = [*found, Import(head, (*module, *behind), module)]
        return found


@dataclasses.dataclass(eq=False)
class Definition:
    """A definition, or several that stand in one another, with the lines of its text."""

    module: "Module"
    lines: list
    names: list  # What it defines: itself and, of a type, its constructors.
    constructors: list  # Those of them that a pattern matches.
    read: list  # What adds what its lines speak of, each with the names that are bound around it.

    @functools.cached_property
    def spoken(self):
        """What it speaks of."""
        spoken = Spoken(self.module.is_constructor)
        for read in self.read:
            read(spoken, frozenset())
        return spoken


def chunks(lines):
    """Each line that is not indented, with those below it that are, and what it closes."""
    found = []
    for line in lines:
        if found and (line[0].isspace() or line[0] in ")}]"):
            found[-1].append(line)
        else:
            found.append([line])
    return found


def dedented(lines):
    """Lines without the blanks that all of them begin with."""
    depth = min((len(it) - len(it.lstrip()) for it in lines), default=0)
    return [line[depth:] for line in lines]


def around_where(lines):
    """The lines up to a `where` that ends a line, and those behind it."""
    for at, line in enumerate(lines):
        if line.split()[-1] == "where":
            return [*lines[:at], line[: line.rindex("where")]], dedented(lines[at + 1 :])
    return lines, []


class Module:
    """A module: its definitions, what it imports, what it passes on, and what is its own.

    That is its definitions and the modules below it. `is_constructor` tells of the path of an
    import whether a constructor stands there.
    """

    def __init__(self, path, text, is_constructor):
        self.path, self.is_imported_constructor = path, is_constructor
        self.imports, self.passed, self.own = Imports(), Imports(), Imports()
        self.definitions, self.constructors, self.fixities = {}, set(), {}
        lines = without_comments(text).splitlines()
        for it in self.declarations([line.rstrip() for line in lines if line.strip()]):
            self.constructors.update(it.constructors)
            it.lines = [*(self.fixities[n] for n in it.names if n in self.fixities), *it.lines]
            for name in it.names:
                self.definitions.setdefault(name, []).append(it)
                self.own.add_item((*path, name), name)

    def refuse(self, what):
        """Tells of a form for which there is no rule."""
        raise Unread(f"{what} in {'.'.join(self.path)}")

    def declarations(self, lines):
        """The definitions that lines declare. Imports are added."""
        found, levels = [], frozenset()
        for chunk in chunks(lines):
            words = chunk[0].split()
            marks = list(itertools.takewhile(MARKS.__contains__, words))
            kind, name = [*words[len(marks) :], "", ""][:2]
            if kind == "use":
                nodes = nodes_of("\n".join(chunk))[len(marks) + 1 :]
                self.imports.add(nodes)
                if "pub" in marks:
                    self.passed.add(nodes)
            elif kind == "mod":
                self.own.modules[name] = (*self.path, name)
            elif kind in FIXITIES:
                self.fixities |= {operator: chunk[0] for operator in words[2:]}
            elif kind in UNREAD:
                self.refuse(kind)
            elif kind == "mutual":
                found.append(self.mutual(chunk))
            elif kind in ("data", "record"):
                found.append(self.type_of(kind, name, chunk))
            elif declared := SIGNATURE.match("\n".join(chunk)):
                names, read = [declared["name"]], [functools.partial(read_signature, chunk)]
                matched = names if "pattern" in marks else []
                found.append(Definition(self, chunk, names, matched, read))
                levels = frozenset((declared["levels"] or "").split())
            elif found:
                last = found[-1]
                last.lines = [*last.lines, *chunk]
                last.read.append(functools.partial(self.read_equation, chunk, last.names, levels))
            else:
                self.refuse(f"what begins with {kind}")
        return found

    def mutual(self, chunk):
        """Definitions that stand in one another."""
        found = Definition(self, chunk, [], [], [])
        for it in self.declarations(dedented(chunk[1:])):
            found.names += it.names
            found.constructors += it.constructors
            found.read += it.read
        return found

    def type_of(self, kind, name, chunk):
        """A type, with the names of its constructors."""
        found = Definition(self, chunk, [name], [], [functools.partial(read_type, chunk)])
        for member in chunks(around_where(chunk)[1]):
            declared = MEMBER.match(member[0])
            if not declared:
                self.refuse(f"a member of {name}")
            elif kind == "data":
                found.constructors += declared["names"].split()
        found.names += found.constructors
        return found

    def read_equation(self, lines, names, levels, spoken, bound):
        """Adds what an equation of a definition speaks of, and those behind its `where`."""
        lines, local = around_where(lines)
        inside = self.declarations(local)
        left, right = cut(nodes_of("\n".join(lines)), "=")
        bound |= levels | frozenset(name for it in inside for name in it.names)
        heads = [*names, *(part for name in names for part in operator_parts(name))]
        bound |= spoken.pattern([it for it in left if it.text not in heads])
        spoken.term(right or [], bound)
        for read in (read for it in inside for read in it.read):
            read(spoken, bound)

    def is_constructor(self, name):
        """Whether a name is that of a constructor."""
        is_own = any(it.name in self.constructors for it in self.own.find((name,)))
        brought = self.imports.find((name,))
        return is_own or any(self.is_imported_constructor(it.path) for it in brought)


def read_signature(lines, spoken, bound):
    """Adds what a signature speaks of."""
    left, right = cut(nodes_of("\n".join(lines)), ":")
    levels = frozenset(it.text for node in left for it in node.inside or ())
    spoken.term(right, bound | levels)


def read_type(lines, spoken, bound):
    """Adds what a type speaks of: its parameters, and its constructors or its fields."""
    head, members = around_where(lines)
    left, right = cut(nodes_of("\n".join(head)), ":")
    for node in left:
        if node.inside is not None:
            bound |= spoken.group(node, bound)
    spoken.term(right or [], bound)
    for member in chunks(members):
        names, its_type = cut(nodes_of("\n".join(member)), ":")
        spoken.term(its_type, bound)
        if "record" in lines[0].split():
            bound |= frozenset(it.text for it in names)
