"""Types and documents of odd names, texts, numbers and depths, which follow from a number too.

They are made up as the others (`made_up.py`), but names in documents have other characters in them,
or a thousand bytes, keys of maps have other types than `String`, and more is empty. Of some numbers
the types hold themselves, and the documents nest up to 132 levels deep.
"""

import json

from sweep.made_up import DEEPEST, Chance, Declared, Documents, Field, Object, Types, Variant

DOCUMENTS = 100  # How many documents are made up for a number.
FIRST = 1_000_010  # The seed of the first number.
LONG = 1_000  # The bytes of a long name or text.
# What a name or a text has beside letters. Each stands for a kind of character.
ODD = ('"', "\\", "/", "'", ".", " ", "\n", "\t", "\0", "\x1b", "\x7f", "\x85", "é", "漢", "😀")
ODD += ("\u2028", "\ufeff", "\u202e", "\U0010fffd")
NUMBERS = ("0", "-0", "1.5", "1E5", "-1e-400", "0.1000000000000000055511151231257827")
NUMBERS += ("123456789012345678901234567890123456789012",)
CHARACTERS = ("c", '"', "\\", "\n", "\0", "\x85", "é", "漢", "😀")
DEEP = 6  # One number in so many is deep.
MOST_DEEP = 132  # The most levels of its documents.
# The names that a map has for keys of a type, beside those that it makes up.
KEYS = {
    "u8": ("0", "7", "255"),
    "i16": ("-32768", "0", "-1"),
    "u128": ("0", "340282366920938463463374607431768211455"),
    "bool": ("true", "false"),
    "char": CHARACTERS,
    "Key": ("Up", '"', "é\n"),
    "Num": ("1", "65535"),
    "f64": ("1.5", "any name", "é"),
}
# Names that none of these takes, but `f64`.
NO_KEYS = ("+1", "01", "-0", "", "yes")
# Types that each text declares, and that are read as such alone.
EXTRA = {
    "Empty": Declared("Empty"),
    "Key": Declared("Key", variants=[Variant("Up"), Variant("A", key='"'), Variant("B", key="é\n")]),
    "Told": Declared("Told", [Field("variants", ("Vec", ("u8",))), Field("value", ("Value",))]),
}
NUM = "struct Num(u16);\n"
OWN = ("Option", ("Box", ("Deep",)))
DEEP_TYPES = {
    "More": Declared(
        "More",
        variants=[
            Variant("End"),
            Variant("On", types=[("Box", ("More",))], key='o"n'),
            Variant("At", fields=[Field("more", ("Box", ("More",)), key="mé")]),
        ],
    ),
    "Deep": Declared(
        "Deep",
        [
            Field("next", OWN, key='n"'),
            Field("list", ("Vec", ("Deep",)), has_default=True, key="l\n"),
            Field("map", ("BTreeMap", ("u8",), ("Deep",)), has_default=True),
            Field("more", ("Option", ("More",))),
            Field("any", ("Option", ("Value",)), key="é"),
        ],
    ),
}


class Number(str):
    """A number as it is written."""


class OddTypes(Types):
    """Declarations whose names in documents are odd ones."""

    def __init__(self, chance):
        self.keys = {"": ""}
        super().__init__(chance)

    def key(self, name):
        if name not in self.keys:
            self.keys[name] = odd(self.chance, name)
        return self.keys[name]

    def type(self):
        match self.chance.below(8):
            case 0:
                return ("BTreeMap", (self.chance.one_of([*KEYS]),), self.type())
            case 1:
                return (self.chance.one_of([*EXTRA, "Num", "Value", "String"]),)
        return super().type()

    def text(self):
        return NUM + "".join(f"{it}\n" for it in EXTRA.values()) + super().text()


class OddDocuments(Documents):
    """Documents with odd names and values."""

    def __init__(self, chance, types):
        super().__init__(chance, types)
        self.declared = types.declared | EXTRA
        self.keys = types.key
        self.kinds = set()  # Those of the keys of maps of the document that is made up.

    def name(self, name):
        if self.chance.one_in(20):
            return ""
        return self.keys(name) if self.chance.one_in(2) else odd(self.chance, name)

    def value(self, type, depth=0):
        word, *inside = type
        if word == "Num":
            return self.chance.below(65_536)
        if word != "BTreeMap":
            return super().value(type, depth)
        count = 0 if depth > DEEPEST else self.chance.below(4)
        names = {self.map_key(inside[0][0]): None for _ in range(count)}
        if names:
            self.kinds.add(f"keys of {inside[0][0]}")
        return Object((name, self.value(inside[1], depth + 1)) for name in names)

    def map_key(self, word):
        if self.chance.one_in(30):
            return self.chance.one_of(NO_KEYS)
        if word in ("u8", "Num") and self.chance.one_in(2):
            return str(self.chance.below(256))
        return self.chance.one_of(KEYS[word])

    def scalar(self, word):
        match word:
            case "String":
                return "" if self.chance.one_in(6) else odd(self.chance, "text")
            case "char":
                return self.chance.one_of(CHARACTERS)
            case "f64":
                return Number(self.chance.one_of(NUMBERS))
            case "Value":
                return self.any_value(self.chance.below(4))
        return super().scalar(word)

    def any_value(self, levels):
        """A value of any kind, in which so many lists and objects may nest."""
        kind = self.chance.below(5 if levels else 3)
        if kind < 3:
            return self.scalar(self.chance.one_of(("String", "f64", "bool", "()")))
        inner = [self.any_value(levels - 1) for _ in range(self.chance.below(3))]
        if kind == 3:
            return inner
        return Object((self.name(f"m{at}"), it) for at, it in enumerate(inner))

    def document(self, type):
        self.kinds = set()
        return super().document(type)


class DeepTypes:
    """Declarations that hold themselves."""

    def __init__(self):
        self.declared = DEEP_TYPES

    def text(self):
        return "".join(f"{it}\n" for it in self.declared.values())


class DeepDocuments:
    """Documents in which so many lists and objects nest as a number says."""

    def __init__(self, chance):
        self.chance = chance
        self.kinds = set()

    def document(self, type):
        self.kinds = set()
        if self.chance.one_in(2):
            return self.deep(MOST_DEEP - 8 + self.chance.below(9))
        return self.deep(1 + self.chance.below(MOST_DEEP))

    def deep(self, levels):
        way = self.chance.below(40)
        if levels == 1:
            return Object([])
        if levels > 2 and way < 8:
            return Object([("l\n", [self.deep(levels - 2)])])
        if levels > 2 and way < 16:
            self.kinds.add("keys of u8")
            return Object([("map", Object([("7", self.deep(levels - 2))]))])
        if way == 38:
            return Object([("more", self.more(levels - 1))])
        if way == 39:
            return Object([("é", self.nested(levels - 1))])
        return Object([('n"', self.deep(levels - 1))])

    def more(self, levels):
        value = "End"
        for _ in range(levels - 1):
            value = Object([('o"n', value)])
        if levels > 1 and self.chance.one_in(2):
            return value
        return Object([('o"n', value)])

    def nested(self, levels):
        value = [] if self.chance.one_in(2) else Object([])
        for _ in range(levels - 1):
            value = [value] if self.chance.one_in(2) else Object([("\n", value)])
        return value


def odd(chance, name):
    """A name that no other name becomes, mostly with an odd character before, behind or within."""
    part = chance.one_of(ODD)
    match chance.below(12):
        case 0:
            return name
        case 1:
            return f"{name}{part}" * (LONG // len(f"{name}{part}".encode()) + 1)
        case 2 | 3 | 4:
            return f"{name}{part}"
        case 5:
            return f"{part}{name}{chance.one_of(ODD)}"
    return f"{part}{name}"


def as_json(value, is_ascii):
    """A value as JSON, in which characters past ASCII are escaped, or stand for themselves."""
    if isinstance(value, Object):
        pairs = (
            f"{json.dumps(name, ensure_ascii=is_ascii)}: {as_json(it, is_ascii)}"
            for name, it in value
        )
        return f"{{{', '.join(pairs)}}}"
    if isinstance(value, list):
        return f"[{', '.join(as_json(it, is_ascii) for it in value)}]"
    return value if isinstance(value, Number) else json.dumps(value, ensure_ascii=is_ascii)


def made_up(number):
    """The declarations of a number, the type that is read, and the documents.

    Of each document there are its text and the kinds of its keys of maps.
    """
    chance = Chance(FIRST + number)
    if number % DEEP == 1:
        types, source = DeepTypes(), DeepDocuments(chance)
    else:
        types = OddTypes(chance)
        source = OddDocuments(chance, types)
    root, documents = [*types.declared][-1], []
    for _ in range(DOCUMENTS):
        text = as_json(source.document((root,)), is_ascii=chance.one_in(2))
        documents.append((text, source.kinds))
    return types.text(), root, documents
