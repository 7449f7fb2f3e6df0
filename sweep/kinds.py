"""Which kinds of names, texts, values and depths a document has."""

import unicodedata

LONG = 1_000  # The bytes of a long name or text.
DIGITS = 20  # The digits of a long number.
# The kinds of characters in a name or a text, each with how one is known.
CHARACTERS = {
    "a quote": lambda it: it == '"',
    "a backslash": lambda it: it == "\\",
    "a control": lambda it: it < " ",
    "a control past ASCII": lambda it: it >= "\x7f" and unicodedata.category(it) == "Cc",
    "a character past ASCII": lambda it: "\xa0" <= it <= "\uffff",
    "one past 16 bits": lambda it: it > "\uffff",
}
OTHERS = ("a thousand bytes", "nothing")
KEYS = ("u8", "i16", "u128", "bool", "char", "Key", "Num", "f64")
# All kinds, of which each has to be reached by a document that is read.
KINDS = (
    *(f"{part} with {it}" for part in ("name", "text") for it in (*CHARACTERS, *OTHERS)),
    "number with many digits",
    "empty object",
    "empty list",
    "object with the members variants and value",
    "127 levels",
    "128 levels",
    *(f"keys of {it}" for it in KEYS),
    "as it is",
    "strictly",
)


def of_text(part, text):
    """The kinds of a name or a text, which is the part."""
    for kind, has in CHARACTERS.items():
        if any(map(has, text)):
            yield f"{part} with {kind}"
    if len(text.encode()) >= LONG:
        yield f"{part} with a thousand bytes"
    if not text:
        yield f"{part} with nothing"


def of_value(value):
    """The kinds of a value and of those in it, in which a number is a pair with its text."""
    if isinstance(value, dict):
        if not value:
            yield "empty object"
        if value.keys() == {"variants", "value"}:
            yield "object with the members variants and value"
        for name, inner in value.items():
            yield from of_text("name", name)
            yield from of_value(inner)
    elif isinstance(value, list):
        if not value:
            yield "empty list"
        for inner in value:
            yield from of_value(inner)
    elif isinstance(value, str):
        yield from of_text("text", value)
    elif isinstance(value, tuple) and sum(map(str.isdigit, value[1])) >= DIGITS:
        yield "number with many digits"


def of_document(value, levels, of_keys, is_strict):
    """The kinds of a document in which so many levels nest, whose maps have such keys."""
    found = {*of_value(value), *of_keys, "strictly" if is_strict else "as it is"}
    return found | ({f"{levels} levels"} if levels in (127, 128) else set())
