"""Types and documents that are made up, and follow from a number.

Declarations are made up as Rust text, and a type of them: structs, enums of each representation,
both also flattened and optional, maps, catch-alls, lists, tuples, types that hold themselves. Then
documents are made up as the type says, and two in five are changed: a member is gone, renamed, new
or doubled, a value has another kind.
"""

import dataclasses
import json
import random
import unicodedata

DOCUMENTS = 1_000  # How many documents are made up for a number.
DEEPEST = 5  # From this depth on, what may be empty is.
COMMON = ("id", "kind", "a", "b", "x")  # Names that several lists of fields may have.
SCALARS = ("u8", "i16", "u64", "f64", "bool", "String", "char", "()")
TAGS = ("kind", "type", "t", "op")
REST = "HashMap"  # Stands for the catch-all among the names of a list of fields.


def rust_text(text):
    """A text as a literal of Rust."""
    letters = (f"\\u{{{ord(it):x}}}" if is_escaped(it) else it for it in text)
    return f'"{"".join(letters)}"'


def is_escaped(letter):
    """Whether a letter has no place of its own in such a literal."""
    return letter in '"\\' or unicodedata.category(letter) == "Cc"


def attributes(*parts):
    """The parts as an attribute of serde; nothing where there are none."""
    return f"#[serde({', '.join(parts)})]" if parts else ""


class Chance:
    """Random numbers that follow from a seed, alike in each version of Python."""

    def __init__(self, seed):
        self.source = random.Random(seed)

    def below(self, count):
        return int(self.source.random() * count)

    def one_in(self, count):
        return self.below(count) == 0

    def one_of(self, things):
        return things[self.below(len(things))]


@dataclasses.dataclass
class Field:
    """A field: its name, its type, and whether it is flattened, and has a default.

    The key is its name in documents, where that is another one. So it is of a variant and a tag.
    """

    name: str
    type: tuple
    is_flattened: bool = False
    has_default: bool = False
    key: str = ""

    def __str__(self):
        parts = ["flatten"] * self.is_flattened + ["default"] * self.has_default
        parts += [f"rename = {rust_text(self.key)}"] * bool(self.key)
        before = f"{attributes(*parts)} " if parts else ""
        return f"{before}{self.name}: {written(self.type)}"


@dataclasses.dataclass
class Variant:
    """A variant: fields with names, or the types of a tuple, or neither."""

    name: str
    fields: list = dataclasses.field(default_factory=list)
    types: list = dataclasses.field(default_factory=list)
    key: str = ""

    def __str__(self):
        before = f"{attributes(f'rename = {rust_text(self.key)}')} " if self.key else ""
        if self.fields:
            return f"{before}{self.name} {{ {', '.join(map(str, self.fields))} }}"
        types = f"({', '.join(map(written, self.types))})" if self.types else ""
        return f"{before}{self.name}{types}"


@dataclasses.dataclass
class Declared:
    """A struct with its fields, or an enum with its variants and how they are told."""

    name: str
    fields: list = dataclasses.field(default_factory=list)
    variants: list = dataclasses.field(default_factory=list)
    is_untagged: bool = False
    tag: str = ""
    content: str = ""
    tag_key: str = ""
    content_key: str = ""

    def __str__(self):
        if not self.variants:
            return f"struct {self.name} {{ {', '.join(map(str, self.fields))} }}"
        told = ["untagged"] * self.is_untagged
        told += [f"tag = {rust_text(self.tag_key or self.tag)}"] * bool(self.tag)
        told += [f"content = {rust_text(self.content_key or self.content)}"] * bool(self.content)
        before = f"{attributes(*told)}\n" if told else ""
        return f"{before}enum {self.name} {{ {', '.join(map(str, self.variants))} }}"


def written(type):
    """A type as Rust text: a word, and the types in it."""
    word, *inside = type
    if word == "tuple":
        return f"({''.join(f'{written(it)}, ' for it in inside)})"
    if word == "HashMap":
        return f"HashMap<String, {written(*inside)}>"
    return f"{word}<{', '.join(map(written, inside))}>" if inside else word


class Types:
    """Declarations that are made up. Each is of those before it, and of itself in a `Box`."""

    def __init__(self, chance):
        self.chance = chance
        self.declared = {}
        self.own = ""  # The name of the one that is being made up.
        self.count = 0  # Of the fields that were made up.
        for number in range(3 + chance.below(5)):
            self.declare(number)

    def key(self, name):
        """The name in documents of what has this name, where it is another one."""
        return ""

    def declare(self, number):
        chance = self.chance
        self.own = name = f"{'S' if chance.one_in(2) else 'E'}{number}"
        if name.startswith("S"):
            self.declared[name] = Declared(name, self.fields())
            return
        letter = "V" if chance.one_in(4) else "ABCDEFGH"[number]
        variants = [self.variant(f"{letter}{at}") for at in range(1 + chance.below(5))]
        for it in variants:
            it.key = self.key(it.name)
        made = Declared(name, variants=variants)
        match chance.below(5):
            case 0 | 1:
                made.is_untagged = True
            case 2:
                made.tag = chance.one_of(TAGS)
            case 3:
                made.tag, made.content = chance.one_of(TAGS), "c"
        made.tag_key, made.content_key = self.key(made.tag), self.key(made.content)
        self.declared[name] = made

    def variant(self, name):
        match self.chance.below(6):
            case 0:
                return Variant(name)
            case 1 | 2:
                return Variant(name, types=[self.type()])
            case 3 if self.chance.one_in(3):
                return Variant(name, types=[self.type(), self.type()])
        return Variant(name, fields=self.fields())

    def fields(self):
        """Fields of which mostly no two know the same name."""
        fields, known = [], set()
        for _ in range(1 + self.chance.below(4)):
            field = self.field()
            names = self.names_of(field)
            is_new = field.name not in (it.name for it in fields)
            if is_new and (not names & known or self.chance.one_in(40)):
                field.key = "" if field.is_flattened else self.key(field.name)
                fields.append(field)
                known |= names
        return fields

    def names_of(self, field):
        """The names of members that a field knows."""
        if not field.is_flattened:
            return {field.name}
        word, *inside = field.type
        if word == REST:
            return {REST}
        declared = self.declared[inside[0][0] if inside else word]
        names = {declared.tag, declared.content} - {""}
        for variant in declared.variants:
            if not declared.tag and not declared.is_untagged:
                names.add(variant.name)
            elif not declared.content:
                names |= self.names_of_all(variant.fields)
                names |= self.names_of_content(variant)
        return names | self.names_of_all(declared.fields)

    def names_of_all(self, fields):
        return set().union(*(self.names_of(it) for it in fields))

    def names_of_content(self, variant):
        """The names that the single type of a variant knows, where it has them."""
        if len(variant.types) != 1:
            return set()
        word = variant.types[0][0]
        is_block = word in self.declared or word == REST
        return self.names_of(Field("", variant.types[0], True)) if is_block else set()

    def field(self):
        chance = self.chance
        self.count += 1
        if chance.one_in(4):
            return Field(chance.one_of(COMMON), ("u64",), has_default=chance.one_in(4))
        name = chance.one_of(COMMON) if chance.one_in(8) else f"f{self.count}"
        known = list(self.declared)
        if known and chance.one_in(2):
            type = (chance.one_of(known),)
            return Field(name, ("Option", type) if chance.one_in(3) else type, is_flattened=True)
        if chance.one_in(16):
            return Field(name, (REST, ("u64",)), is_flattened=True)
        return Field(name, self.type(), has_default=chance.one_in(8))

    def type(self):
        chance = self.chance
        known = list(self.declared)
        match chance.below(12):
            case 0:
                return ("Option", self.type())
            case 1:
                return ("Vec", self.type())
            case 2:
                return ("HashMap", self.type())
            case 3:
                return ("tuple", self.type(), self.type())
            case 4:
                return ("Option", ("Box", (chance.one_of([*known, self.own]),)))
            case 5 | 6 | 7 if known:
                return (chance.one_of(known),)
            case 8 if chance.one_in(3):
                return ("Value",)
        return (chance.one_of(SCALARS),)

    def text(self):
        return "".join(f"{it}\n" for it in self.declared.values())


class Object(list):
    """An object, as a list of members: names and values."""


class Documents:
    """Documents that are made up as a type says."""

    def __init__(self, chance, types):
        self.chance = chance
        self.declared = types.declared

    def name(self, name):
        """A name of a member that no type declares, or that takes the place of another."""
        return name

    def value(self, type, depth=0):
        word, *inside = type
        match word:
            case "Option":
                if depth > DEEPEST or self.chance.one_in(3):
                    return None
                return self.value(inside[0], depth)
            case "Box":
                return self.value(inside[0], depth)
            case "Vec":
                count = 0 if depth > DEEPEST else self.chance.below(3)
                return [self.value(inside[0], depth + 1) for _ in range(count)]
            case "HashMap":
                count = 0 if depth > DEEPEST else self.chance.below(3)
                names = [self.name(f"k{at}") for at in range(count)]
                return Object((it, self.value(inside[0], depth + 1)) for it in names)
            case "tuple":
                return [self.value(it, depth + 1) for it in inside]
        if word in self.declared:
            return self.of_declared(self.declared[word], depth)
        return self.scalar(word)

    def scalar(self, word):
        match word:
            case "bool":
                return self.chance.one_in(2)
            case "String":
                return self.chance.one_of(("", "A0", "text", "\u00e9\n"))
            case "char":
                return self.chance.one_of(("c", "\u6f22"))
            case "f64":
                return self.chance.one_of((0, 1.5, -2e9))
            case "()":
                return None
            case "Value":
                return self.chance.one_of((None, 300, "A1", [], Object([("a", 1)])))
        return self.chance.below(256) - (20 if word == "i16" else 0)

    def of_declared(self, declared, depth):
        if not declared.variants:
            return Object(self.members(declared.fields, depth))
        return self.of_variant(declared, self.chance.one_of(declared.variants), depth)

    def members(self, fields, depth):
        """The members of an object's fields."""
        members = []
        for field in fields:
            if field.is_flattened:
                inner = self.value(field.type, depth + 1)
                members += inner if isinstance(inner, Object) else []
            elif not (self.is_optional(field) and self.chance.one_in(3)):
                members.append((field.key or field.name, self.value(field.type, depth + 1)))
        return members

    def is_optional(self, field):
        return field.has_default or field.type[0] == "Option"

    def content(self, variant, depth):
        """The content of a variant; None where it has none."""
        if variant.fields:
            return Object(self.members(variant.fields, depth))
        values = [self.value(it, depth + 1) for it in variant.types]
        return values[0] if len(values) == 1 else values or None

    def of_variant(self, declared, variant, depth):
        content = self.content(variant, depth)
        has_content = bool(variant.fields or variant.types)
        if declared.is_untagged:
            return content
        name = variant.key or variant.name
        if not declared.tag:
            return Object([(name, content)]) if has_content else name
        tag = (declared.tag_key or declared.tag, name)
        if declared.content:
            key = declared.content_key or declared.content
            return Object([tag, *[(key, content)] * has_content])
        return Object([tag, *(content if isinstance(content, Object) else [])])

    def changed(self, value):
        """The value with a change somewhere in it."""
        chance = self.chance
        if not isinstance(value, list) or not value or chance.one_in(12):
            return self.scalar(chance.one_of((*SCALARS, "Value", "String")))
        at = chance.below(len(value))
        if isinstance(value, Object):
            return self.changed_object(value, at)
        return [*value[:at], self.changed(value[at]), *value[at + 1 :]]

    def changed_object(self, members, at):
        """The object with a change of the member at an index."""
        chance = self.chance
        members = [*members]
        name, inner = members[at]
        match chance.below(7):
            case 0:
                del members[at]
            case 1:
                members.insert(at, (self.name(chance.one_of((*COMMON, "f1", "f2", "new"))), 1))
            case 2:
                members[at] = (self.name(chance.one_of((*COMMON, "f3", "A0", "B1"))), inner)
            case 3 if chance.one_in(8):
                members.append((name, inner))
            case _:
                members[at] = (name, self.changed(inner))
        return Object(members)

    def document(self, type):
        value = self.value(type)
        for _ in range(self.chance.one_of((0, 0, 0, 1, 2))):
            value = self.changed(value)
        return value


def as_json(value):
    """A value as JSON. A name may stand twice in an object."""
    if isinstance(value, Object):
        members = (f"{json.dumps(name)}: {as_json(inner)}" for name, inner in value)
        return f"{{{', '.join(members)}}}"
    if isinstance(value, list):
        return f"[{', '.join(map(as_json, value))}]"
    return json.dumps(value)


def made_up(number):
    """The declarations of a number, the type that is read, and the documents."""
    chance = Chance(number)
    types = Types(chance)
    root = list(types.declared)[-1]
    source = Documents(chance, types)
    documents = (as_json(source.document((root,))) for _ in range(DOCUMENTS))
    return types.text(), root, "".join(f"{it}\n" for it in documents)
