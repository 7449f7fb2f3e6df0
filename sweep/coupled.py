"""Types whose variants may share documents, and documents of a few names, by a number.

A number is of one of five kinds: small types; two lists with selections and names in common; values
that are read as one another; blocks; those of everyday. A name stands once in an object, and each
variant has a name of its own.
"""

import dataclasses
import itertools
import json

from sweep.made_up import Chance, Declared, Field, Variant

NAMES = "abcd"  # Names of members.
REST = "rest"  # Stands for the catch-all among the names of an object.
ALL = (*NAMES, REST)
OTHERS = ("z", "0", "true")  # Those that only catch-alls know.
LETTERS = "WXYZ"
SCALARS = ("u8", "u8", "i8", "String", "String", "bool", "char", "f64", "f32", "()")
KEYS = ("String", "String", "u8", "bool", "char")
MADE = 18  # So many declarations are flattened at most.
RANDOM = 150  # How many documents are made up for a number, beside those of the alphabet.


@dataclasses.dataclass(frozen=True)
class Kind:
    """How often what is made up, in a hundred."""

    name: str
    depth: int  # How deep types nest.
    flattened: int  # One more flattened field.
    optional: int  # It may be absent.
    alone: int  # A variant has a type in place of fields.
    told: int  # An enum is told by a tag or by a name.
    again: int  # A type that there is already is taken.


KINDS = (
    Kind("small", depth=2, flattened=15, optional=40, alone=15, told=20, again=0),
    Kind("lists", depth=3, flattened=60, optional=40, alone=15, told=30, again=20),
    Kind("values", depth=3, flattened=12, optional=40, alone=60, told=25, again=45),
    Kind("blocks", depth=4, flattened=70, optional=65, alone=12, told=20, again=30),
    Kind("everyday", depth=3, flattened=35, optional=40, alone=30, told=65, again=20),
)


class Types:
    """Declarations that are made up, and the type that is read."""

    def __init__(self, number):
        self.kind = KINDS[number % len(KINDS)]
        self.chance = Chance(f"coupled {number}")
        self.declared = []
        self.count = 0
        self.values, self.open = [], []
        self.blocks = {}  # Of each declaration that is flattened the names that it may have.
        if self.kind.name == "lists":
            self.root = self.two_lists()
        elif self.kind.name in ("blocks", "everyday") and self.has(40):
            self.root = self.struct(self.kind.depth, ALL)
        else:
            self.root = self.enum(self.kind.depth, ALL, is_flattened=False)

    def __str__(self):
        return "".join(f"{it}\n" for it in self.declared)

    def has(self, hundredths):
        return self.chance.below(100) < hundredths

    def new_name(self, letter):
        self.count += 1
        return f"{letter}{self.count}"

    def declare(self, *parts, **more):
        made = Declared(*parts, **more)
        self.declared.append(made)
        return made.name

    def two_lists(self):
        """An untagged enum of two structs."""
        sides = [self.struct(self.kind.depth, ALL) for _ in range(2)]
        variants = [Variant(f"R{it}", types=[(it,)]) for it in sides]
        return self.declare("R", variants=variants, is_untagged=True)

    def scalar(self):
        return (self.chance.one_of(SCALARS),)

    def simple(self):
        return self.chance.one_of((("u8",), ("String",), ("Option", ("u8",)), ("Option", ("String",))))

    def type(self, depth):
        """A type of values."""
        rolled = self.chance.below(100)
        if depth <= 0 or rolled < 40:
            return self.scalar()
        if rolled < 55:
            return ("Option", self.type(depth - 1))
        if rolled < 61:
            return ("Vec", self.type(depth - 1))
        if rolled < 66:
            return ("tuple", self.type(depth - 1), self.type(depth - 1))
        if rolled < 70:
            return self.map(self.type(depth - 1))
        if self.open and rolled < 75:
            within = (self.chance.one_of(self.open),)
            return self.chance.one_of((("Option", ("Box", within)), ("Vec", within)))
        if self.values and self.has(self.kind.again):
            return (self.chance.one_of(self.values),)
        name = self.one_of_both(depth - 1, ALL, is_flattened=False)
        self.values.append(name)
        return (name,)

    def one_of_both(self, depth, names, is_flattened):
        if self.has(40):
            return self.struct(depth, names)
        return self.enum(depth, names, is_flattened)

    def map(self, value):
        return ("BTreeMap", (self.chance.one_of(KEYS),), value)

    def fields(self, depth, names):
        """Fields of some of the names, of which they leave the others."""
        fields = []
        for _ in range(self.chance.one_of((0, 1, 1, 2, 2, 3))):
            if left := [it for it in names if it != REST]:
                type = self.simple() if self.has(65) else self.type(depth - 1)
                names.remove(name := self.chance.one_of(left))
                fields.append(Field(name, type, has_default=self.has(8)))
        while depth > 0 and self.count < MADE and self.has(self.kind.flattened):
            if block := self.block(depth, names):
                fields.append(block)
        if REST in names and self.has(12):
            names.remove(REST)
            value = self.chance.one_of((("u8",), ("String",)))
            fields.append(Field(self.new_name("r"), self.map(value), is_flattened=True))
        return self.mixed(fields)

    def taken(self, names):
        """One of the names, which is taken from them."""
        return names.pop(self.chance.below(len(names)))

    def mixed(self, things):
        things = [*things]
        return [self.taken(things) for _ in range(len(things))]

    def block(self, depth, names):
        """A flattened field, of some of the names, or one that there is already."""
        name = self.new_name("f")
        there = [it for it, inside in self.blocks.items() if inside <= {*names}]
        if there and self.has(self.kind.again):
            made = self.chance.one_of(there)
            names[:] = [it for it in names if it not in self.blocks[made]]
        else:
            inside = [self.taken(names) for _ in range(min(len(names), 1 + self.chance.below(3)))]
            made = self.one_of_both(depth - 1, inside, is_flattened=True)
            self.blocks[made] = {*inside}
        type = ("Option", (made,)) if self.has(self.kind.optional) else (made,)
        return Field(name, type, is_flattened=True)

    def struct(self, depth, names):
        name = self.new_name("S")
        self.open.append(name)
        fields = self.fields(depth, [*names])
        self.open.remove(name)
        return self.declare(name, fields)

    def enum(self, depth, names, is_flattened):
        name, told = self.new_name("E"), self.told(names)
        known = self.mixed(it for it in names if it != REST)
        tag = known[0] if told in ("tag", "content") else ""
        content = known[1] if told == "content" else ""
        names = [it for it in names if it not in (tag, content)]
        self.open.append(name)
        variants = [
            self.variant(depth, f"{name}{letter}", names, told, is_flattened)
            for letter in LETTERS[: self.chance.one_of((2, 2, 3, 3, 4))]
        ]
        self.open.remove(name)
        return self.declare(
            name, variants=variants, tag=tag, content=content, is_untagged=told == "untagged"
        )

    def told(self, names):
        """How the variants of an enum are told."""
        if not self.has(self.kind.told):
            return "untagged"
        known = len({*names} - {REST})
        ways = ["name", *["tag"] * (known > 0), *["content"] * (known > 1)]
        return self.chance.one_of(ways)

    def variant(self, depth, name, names, told, is_flattened):
        if told in ("name", "content"):
            names = ALL
            if self.has(20):
                return Variant(name)
        if told != "tag" and self.has(self.kind.alone // 3 if is_flattened else self.kind.alone):
            match self.chance.below(8):
                case 0:
                    return Variant(name)
                case 1:
                    return Variant(name, types=[self.type(depth - 1), self.type(depth - 1)])
                case 2:
                    return Variant(name, types=[self.map(self.scalar())])
            return Variant(name, types=[self.type(depth)])
        return Variant(name, fields=self.fields(depth - 1, [*names]))

    def words(self):
        """The names of the variants."""
        return [it.name for declared in self.declared for it in declared.variants]


def alphabet():
    """Values, all objects of a few names and members, and these within others."""
    simple = [None, True, 0, -1, 300, 0.5, "", "a", [], {}]
    members = [
        {key: value for key, value in zip(NAMES, values) if value != "absent"}
        for values in itertools.product(("absent", 0, "", None), repeat=len(NAMES))
    ]
    yield from simple
    yield from members
    yield from (it | {key: 0} for it in members[::3] for key in OTHERS)
    small = [it for it in members if len(it) < 2] + [{"a": 0, "b": 0}, {"a": "", "b": 0}]
    for value in (*simple, *small):
        yield from ({key: value} for key in NAMES)
        yield from ({"a": {key: value}} for key in NAMES)
        yield from ({"a": 0, "b": value}, {"a": value, "b": value}, {"z": value})
        yield from ([value], [value, value], [value, 0])


ALPHABET = [*dict.fromkeys(map(json.dumps, alphabet()))]


def document(chance, words, depth):
    """A value that is made up, of the names and of the names of variants."""
    rolled = chance.below(100)
    if depth <= 0 or rolled < 35:
        if words and rolled % 4 == 0:
            return chance.one_of(words)
        return chance.one_of((0, "", None, 1, True, "a", 0.5, [], {}))
    if rolled < 45:
        return [document(chance, words, depth - 1) for _ in range(chance.below(3))]
    keys = [chance.one_of((*NAMES, *NAMES, *OTHERS)) for _ in range(chance.below(5))]
    if words and rolled < 60:
        keys = [chance.one_of(words)]
    return {key: document(chance, words, depth - 1) for key in keys}


def made_up(number):
    """The kind of a number, its types, the one that is read, and its documents, all once."""
    types = Types(number)
    chance, words = Chance(f"documents {number}"), types.words()
    more = [json.dumps(document(chance, words, 3)) for _ in range(RANDOM)]
    named = [json.dumps({word: value}) for word in words for value in (0, "", None, {}, {"a": 0})]
    documents = [*dict.fromkeys([*ALPHABET, *map(json.dumps, words), *named, *more])]
    return types.kind.name, str(types), types.root, documents
