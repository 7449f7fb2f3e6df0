"""The items of Rattle sources, by their modules."""

import collections
import dataclasses
import functools
import re

from . import antt
from .antt import Unread

LITERAL = r"""b?"(?:[^"\\]|\\.)*"|b?r(?P<hashes>\#*)".*?"(?P=hashes)"""
CHARACTER = r"""b?'(?:[^'\\]|\\(?:[^ux]|x..|u\{\w+\}))'"""
TOKEN = re.compile(
    rf"(?P<gap>\s+|//[^\n]*)|{LITERAL}|{CHARACTER}|'?\w+|->|=>|::|.", re.DOTALL
)
BRACE = re.compile(rf"//[^\n]*|{LITERAL}|{CHARACTER}|[{{}}]", re.DOTALL)
PATH = re.compile(r"(?<!')\b[^\W\d]\w*(?:::\w+)*")
CLOSING = {"(": ")", "[": "]", "{": "}"}
CLAUSES = ("ghost", "requires", "ensures")
ENDS = {
    "const": (";",),
    "enum": ("{",),
    "fn": ("{", ";", *CLAUSES),
    "ghost": (";",),
    "impl": ("{",),
    "mod": ("{", ";"),
    "static": (";",),
    "struct": ("{", "(", ";"),
    "trait": ("{",),
    "type": (";",),
    "use": (";",),
}
# Attributes that speak to the prover and the compiler alone.
UNFELT = ("cycle", "inline", "tactic")


def read(file):
    """The text of a file."""
    return file.read_text(encoding="utf-8")


class Node:
    """A word or a sign, or an opening bracket with what is inside.

    `spaced` tells of white space before it. Of braces `raw` is the text inside, which is read only
    where what is inside is asked for: most are bodies of functions.
    """

    def __init__(self, text, spaced, nodes=None, raw=None):
        self.text, self.spaced, self.nodes, self.raw = text, spaced, nodes, raw

    @property
    def inside(self):
        """What is inside brackets, and None of what is none."""
        if self.raw is not None and self.nodes is None:
            self.nodes = nodes_of(self.raw)
            if self.nodes and self.nodes[-1].text == "," and self.raw[-1].isspace():
                self.nodes.pop()
        return self.nodes


def end_of(source, start):
    """Where the brace closes behind which a place is."""
    depth = 1
    for token in BRACE.finditer(source, start):
        depth += (token.group() == "{") - (token.group() == "}")
        if not depth:
            return token.start()
    raise Unread("a { that nothing closes")


def nodes_of(source):
    """The words, signs and brackets of a source, without comments."""
    top = Node("", False, [])
    opened, spaced, at = [top], False, 0
    while at < len(source):
        for token in TOKEN.finditer(source, at):
            text, around, at = token.group(), opened[-1], token.end()
            if token["gap"]:
                spaced = True
                continue
            if text == "{":
                end = end_of(source, at)
                around.nodes.append(Node(text, spaced, raw=source[at:end]))
                at, spaced = end + 1, False
                break
            if text in CLOSING:
                opened.append(Node(text, spaced, []))
                around.nodes.append(opened[-1])
            elif text == CLOSING.get(around.text):
                opened.pop()
                if spaced and around.nodes and around.nodes[-1].text == ",":
                    around.nodes.pop()
            elif text in CLOSING.values():
                raise Unread(f"a {text} that closes nothing")
            else:
                around.nodes.append(Node(text, spaced))
            spaced = False
    return top.nodes


def written(nodes):
    """Nodes as a text on one line."""
    text = ""
    for node in nodes:
        text += " " * node.spaced + node.text
        if node.inside is not None:
            inside = written(node.inside)
            text += f" {inside} " if inside and node.text == "{" else inside
            text += CLOSING[node.text]
    return text.strip()


def levels(nodes):
    """Nodes, each with the number of `<` that are open behind it."""
    level = 0
    for node in nodes:
        level += (node.text == "<") - (node.text == ">")
        yield level, node


def split(nodes):
    """The nodes between commas."""
    parts = [[]]
    for level, node in levels(nodes):
        if node.text == "," and level == 0:
            parts.append([])
        else:
            parts[-1].append(node)
    return [part for part in parts if part]


def take_attributes(rest):
    """Takes the attributes that come first, and gives those that a caller feels.

    The derived traits come first, then the others.
    """
    derived, others = [], []
    while rest and rest[0].text == "#":
        rest.popleft()
        attribute = rest.popleft().inside
        if attribute[0].text == "derive":
            derived += [written(part) for part in split(attribute[1].inside)]
        elif attribute[0].text not in UNFELT:
            others.append(f"#[{written(attribute)}]")
    return [f"#[derive({', '.join(sorted(derived))})]"] * bool(derived) + sorted(others)


def take_visibility(rest):
    """Takes what is said of visibility, and tells whether it is public to all."""
    if rest[0].text != "pub":
        return False
    rest.popleft()
    if rest[0].text == "(" and rest[0].inside[0].text in ("crate", "self", "super", "in"):
        rest.popleft()
        return False
    return True


@dataclasses.dataclass
class Field:
    """A field of a struct. One without a name has its number. Its nodes begin with either."""

    name: str
    public: bool
    attributes: list
    nodes: list

    def is_ghost(self):
        """Whether contracts alone see it."""
        return self.nodes[0].text == "ghost"


def field_of(number, part):
    """The field of a number."""
    rest = collections.deque(part)
    attributes, public = take_attributes(rest), take_visibility(rest)
    if not any(it.text == ":" for it in rest):
        rest[0].spaced = True
        rest.extendleft((Node(":", False), Node(f"{number}", False)))
    nodes = list(rest)
    at = next(at for at, it in enumerate(nodes) if it.text == ":")
    return Field(nodes[at - 1].text, public, attributes, nodes)


@dataclasses.dataclass(eq=False)
class Item:
    """An item.

    Its head is what comes before its clauses and its body, without what is said of visibility. A
    clause ends with its text in braces. An item in an impl or a trait has that as `outer`.
    """

    kind: str
    name: str
    public: bool
    attributes: list
    head: list
    clauses: list
    body: Node
    module: "Module" = None
    outer: "Item" = None

    @functools.cached_property
    def items(self):
        """The items in its body."""
        found = list(items_of(self.body.inside))
        for it in found:
            it.module, it.outer = self.module, self
        return found

    @functools.cached_property
    def fields(self):
        """The fields of a struct."""
        return [field_of(*it) for it in enumerate(split(self.body.inside or []))]

    def ghosts(self):
        """The ghost lines in its body that are no imports."""
        return [it for it in self.items if it.kind == "ghost" and it.name != "use"]


def take_item(rest):
    """Takes the item that comes first."""
    attributes = take_attributes(rest)
    public = take_visibility(rest)
    words = [node.text for node, _ in zip(rest, range(4))]
    kind = "fn" if words[0] in ("const", "unsafe", "final") and "fn" in words else words[0]
    if kind not in ENDS:
        raise Unread(f"what begins with {' '.join(words)}")
    head, clauses = [], []
    while rest[0].text not in ENDS[kind]:
        head.append(rest.popleft())
    while rest[0].text in CLAUSES:
        clauses.append([])
        while rest[0].text != "{":
            clauses[-1].append(rest.popleft())
        clauses[-1].append(rest.popleft())
    body = rest.popleft()
    while body.text == "(" and rest.popleft().text != ";":
        pass
    return Item(kind, words[words.index(kind) + 1], public, attributes, head, clauses, body)


def items_of(nodes):
    """The items among nodes."""
    rest = collections.deque(nodes)
    while rest:
        if rest[0].text == "#" and rest[1].text == "!":
            for _ in ("#", "!", "[..]"):
                rest.popleft()
        else:
            yield take_item(rest)


def imports(nodes, before=()):
    """The names that a `use` brings, each with its path."""
    for part in split(nodes):
        path = [*before, *(node.text for node in part if node.inside is None and node.text != "::")]
        if part[-1].inside is not None:
            yield from imports(part[-1].inside, path)
        elif path[-1] == "*":
            raise Unread(f"use {'::'.join(path)}")
        elif path[-1] == "self":
            yield path[-2], path[:-1]
        elif "as" in path:
            yield path[-1], path[:-2]
        else:
            yield path[-1], path


def ghost_imports(items):
    """What the `ghost use` lines among items bring."""
    found = antt.Imports()
    for item in items:
        if item.kind == "ghost" and item.name == "use":
            found.add(antt.nodes_of(written(item.head))[2:])
    return found


class Module:
    """A module: its items, uses, modules and impls. `folder` has the files of its modules."""

    def __init__(self, nodes, folder, path, parent, crates, is_file=True):
        self.path, self.parent, self.crates, self.is_file = path, parent, crates, is_file
        self.items, self.uses, self.modules, self.impls = {}, {}, {}, []
        self.ghosts, self.public = [], set()
        for item in items_of(nodes):
            if "#[cfg(test)]" not in item.attributes:
                self.add(item, folder)

    def add(self, item, folder):
        """Adds an item to the module."""
        names, item.module = [item.name], self
        if item.kind == "use":
            names = dict(imports(item.head[1:]))
            self.uses.update(names)
        elif item.kind == "mod":
            self.add_module(item, folder)
        elif item.kind == "impl":
            self.impls.append(item)
        elif item.kind == "ghost":
            self.ghosts.append(item)
        else:
            self.items[item.name] = item
        self.public.update(names if item.public else ())

    def add_module(self, item, folder):
        """Adds a module, which is a file or stands here."""
        is_file, path = item.body.text == ";", (*self.path, item.name)
        inside = nodes_of(read(folder / f"{item.name}.rt")) if is_file else item.body.inside
        inner = Module(inside, folder / item.name, path, self, self.crates, is_file)
        self.modules[item.name] = inner

    @functools.cached_property
    def ghost_imports(self):
        """What its `ghost use` lines bring."""
        return ghost_imports(self.ghosts)

    def all_ghost_imports(self):
        """What `ghost use` lines bring that serve its clauses: its own, and others of its file."""
        yield self.ghost_imports
        if not self.is_file:
            yield from self.parent.all_ghost_imports()

    def root(self):
        """The root of the crate."""
        return self.parent.root() if self.parent else self

    def find(self, path):
        """What a path means here: an item, a module, or None where it is of another crate."""
        first, *rest = path
        if first in ("crate", "self", "super"):
            found = {"crate": self.root(), "self": self, "super": self.parent}[first]
        elif not rest and first in self.items:
            found = self.items[first]
        elif rest and first in self.modules:
            found = self.modules[first]
        elif first in self.uses:
            found = self.find(self.uses[first])
        else:
            found = self.modules.get(first) or self.crates.get(first)
        return found.find(rest) if rest and isinstance(found, Module) else found

    def items_named(self, nodes):
        """The items that stand among nodes by their paths."""
        found = (self.find(path.split("::")) for path in PATH.findall(written(nodes)))
        return [it for it in found if isinstance(it, Item)]

    def all_impls(self):
        """The impls in this module and below it."""
        yield from self.impls
        for module in self.modules.values():
            yield from module.all_impls()

    def reachable(self, path):
        """The public items by path, with those of public modules.

        An item of another crate is given as its `use`.
        """
        for name in self.public:
            found = self.find([name])
            if isinstance(found, Module):
                yield from found.reachable(f"{path}::{name}")
            else:
                yield f"{path}::{name}", found or f"pub use {'::'.join(self.uses[name])}"


def subject(impl):
    """The path of the type that an impl is for, and whether it is the impl of a trait."""
    start, is_of_trait, head = 1, False, impl.head
    for at, (level, node) in enumerate(levels(head)):
        if node.text == ">" and level == 0 and start == 1 and head[1].text == "<":
            start = at + 1
        elif node.text == "for" and level == 0 and head[at + 1].text != "<":
            start, is_of_trait = at + 1, True
    return PATH.search(written(head[start:])).group().split("::"), is_of_trait
