"""The lists: what a caller of each library can reach, and the definitions that it speaks of."""

import collections

from .antt import Unread
from .reach import Reach, clause_of, promised
from .rust import split, subject, take_attributes, written

LISTED = ("const", "enum", "fn", "static", "struct", "trait", "type")


def indented(lines):
    """Lines one step further in."""
    return [f"    {line}" for line in lines]


def clause_line(nodes):
    """A clause on one line."""
    before, text = clause_of(nodes)
    return f"{before} {{ {text} }}"


def field_lines(fields, is_more):
    """Fields with their attributes, and `..` if there are more."""
    for it in fields:
        yield from it.attributes
        yield "pub " * it.public + (clause_line if it.is_ghost() else written)(it.nodes)
    yield from [".."] * is_more


def variant_lines(variants):
    """The variants of an enum, each with its contents."""
    for part in variants:
        rest = collections.deque(part)
        yield from take_attributes(rest)
        yield written(rest)


class Writer:
    """Writes what stands at a place of a list, and adds what it speaks of to what is reached."""

    def __init__(self, reach, *place):
        self.reach, self.place = reach, place

    def clause(self, item, nodes):
        """A clause of an item."""
        self.reach.clause(item, clause_of(nodes)[1], self.place)
        return clause_line(nodes)

    def clauses(self, item):
        """The clauses of a function."""
        self.reach.types_in(item.module, item.head)
        return [self.clause(item, it) for it in item.clauses]

    def item(self, item):
        """A declaration with its attributes and clauses."""
        if isinstance(item, str):
            return [item]
        if item.kind not in LISTED:
            raise Unread(f"a public {item.kind}: {item.name}")
        inside = []
        if item.kind == "fn":
            inside = self.clauses(item)
        elif item.kind == "trait":
            inside = self.members([it for it in item.items if it.name != "use"])
        else:
            self.reach.add(item)
        if item.kind == "struct":
            inside = self.fields(item)
        elif item.kind == "enum":
            inside = variant_lines(split(item.body.inside))
        return [*item.attributes, f"pub {written(item.head)}", *indented(inside)]

    def fields(self, item):
        """The fields of a struct: those that are public, and those that contracts alone see."""
        shown = [it for it in item.fields if it.public or it.is_ghost()]
        for it in shown:
            if it.is_ghost():
                self.clause(item, it.nodes)
        return field_lines(shown, len(shown) < len(item.fields))

    def members(self, items, are_own=False):
        """The members of a trait or of an impl, which may be the type's own."""
        for it in sorted(items, key=lambda it: (it.name, it.kind)):
            if are_own:
                yield from self.item(it)
            elif it.kind == "ghost":
                yield self.clause(it, it.head)
            else:
                yield from it.attributes
                yield written(it.head)
                yield from indented(self.clauses(it))


def listed(impl, is_of_trait):
    """The members of an impl that are listed.

    Those of the impl of a trait are its types and constants, its ghost lines but for proofs, and
    functions with clauses of their own. Those of another impl are what is public.
    """
    if not is_of_trait:
        return [it for it in impl.items if it.public]
    return [it for it in impl.items if it.kind in ("const", "type") or it.clauses] + promised(impl)


def impls_of(crates, paths, root):
    """The members of the impls.

    They are given by the path of their type, which is the root's where that is of another crate, by
    whether the impl is the type's own, and by its header. An impl counts where each name of these
    crates in its header can be reached.
    """
    members = collections.defaultdict(list)
    for impl in (impl for crate in crates for impl in crate.all_impls()):
        if any(id(it) not in paths for it in impl.module.items_named(impl.head)):
            continue
        path, is_of_trait = subject(impl)
        kept = listed(impl, is_of_trait)
        if kept or is_of_trait:
            of = paths.get(id(impl.module.find(path)), root)
            members[of, not is_of_trait, written(impl.head)] += kept
    return members


def surface(root, declared, reach):
    """The list of what a caller of a library can reach, by the paths of its public items."""
    repository = reach.repository
    crates = [repository.code[it] for it in (*repository.below[root], root)]
    members = impls_of(crates, {id(item): path for path, item in declared.items()}, root)
    lines = [f"# What a caller of {root} can reach, as surface/list reads it from the sources."]
    for path in sorted({*declared, *(of for of, _, _ in members)}):
        writer = Writer(reach, root, path)
        lines += [path, *indented(writer.item(declared[path]) if path in declared else [])]
        for of, is_own, header in sorted(members):
            if of == path:
                inside = writer.members(members[of, is_own, header], is_own)
                lines += indented([header, *indented(inside)])
    return lines


def type_lines(item, reach, writer):
    """A type or a constant of the code that definitions speak of.

    Of one that callers can name there are only private fields here.
    """
    is_public, shown, inside = id(item) in reach.public, [], []
    if item.kind == "struct":
        fields = [it for it in item.fields if not (is_public and (it.public or it.is_ghost()))]
        shown = [it for it in fields if reach.counts(item, it)]
        inside = field_lines(shown, len(shown) < len(fields))
    elif item.kind == "enum":
        inside = variant_lines(split(item.body.inside))
    if is_public and not shown:
        return []
    lines = ["pub " * is_public + written(item.head), *indented(inside)]
    model = reach.repository.models.get(id(item))
    if model and not is_public:
        lines += [written(model.head), *indented(writer.members(promised(model)))]
    return lines


def definitions(crate, reach):
    """The list of the definitions of a crate that are reached, and of its types beside them."""
    name, sections = f"{crate}.definitions", collections.defaultdict(list)
    for it in reach.definitions.values():
        if it.module.path[1] == crate:
            sections[".".join(it.module.path[3:]) or "Lib"].append((it.names[0], it.lines))
    for it in reach.types.values():
        section = ".".join(("declared", *it.module.path[1:]))
        if it.module.path[0] == crate:
            lines = type_lines(it, reach, Writer(reach, name, section))
            sections[section] += [(it.name, lines)] * bool(lines)
    lines = [f"# The definitions of {crate} that clauses speak of, as surface/list reads them."]
    for section in sorted(it for it in sections if sections[it]):
        lines += [section, *indented(it for _, some in sorted(sections[section]) for it in some)]
    return lines


def lists(repository):
    """Each list, by its name."""
    declared = {name: dict(code.reachable(name)) for name, code in repository.code.items()}
    public = {id(it) for items in declared.values() for it in items.values()}
    reach = Reach(repository, public)
    found = {name: surface(name, declared[name], reach) for name in repository.code}
    reach.go_on()
    found |= {f"{name}.definitions": definitions(name, reach) for name in repository.code}
    for name, lines in found.items():
        if names := list(reach.names[name].lines()):
            lines += ["# Where the names stand that it imports.", *names]
    return dict(sorted(found.items()))
