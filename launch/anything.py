"""Types of which a text says too little, each read as a value of any kind."""

import re

from .joined import STAND_INS

ANY = "IgnoredAny"  # A value of any kind, in a text of types.
WHERE = "--any"  # What a line that is added here comes from.
MOST_ROUNDS = 100
NAME = r"((?:r#)?[^\W\d]\w*)"
PATH = rf'"(?:\w+\s*::\s*)*{NAME}"'  # A type that a text says, as that of `from`.
VALUES = "Value|JsonValue|RawValue|OwnedValue"  # Those that are a value of any kind anyway.
# What the program says of a type that is unknown, that is not read by its declaration, that takes
# types as another one of its name, that is one of another crate, or that code reads.
FAULT = re.compile(
    rf"^((.+?):(\d+):(\d+)): (?:unknown type '(?:{NAME}|{PATH})'"
    rf"|'{NAME}' (?:derives no |has its own impl of )|'({VALUES})' takes no types"
    r"|'((?:deserialize_)?with|remote)' cannot be said)",
    re.MULTILINE,
)
# The struct or enum on which an attribute stands.
SUBJECT = re.compile(rf"\b(?:struct|enum)\s+{NAME}")
# The code that reads a type: its stand-in has the last name of its path.
CODE = re.compile(r'(?:deserialize_)?with\s*=\s*"(?:\w+\s*::\s*)*([^\W\d]\w*)"')
# A stand-in of such a name would be that of all these, too.
SCALARS = {"bool", "char", "str", "f32", "f64"} | {
    f"{sign}{size}" for sign in "iu" for size in (8, 16, 32, 64, 128, "size")
}


def code_at(types, file, line, column):
    """The name of the stand-in for the code that an attribute at a place names, or nothing."""
    found = CODE.match(types.behind(file, line, column))
    return found[1] if found and found[1] not in SCALARS else None


def subject_at(types, file, line, column):
    """The name of what is declared behind an attribute at a place, or nothing."""
    found = SUBJECT.search(types.behind(file, line, column))
    return found and found[1]


def named_at(attribute, types, file, line, column):
    """The name of the stand-in for which an attribute at a place asks, or nothing."""
    name = subject_at if attribute == "remote" else code_at
    return name(types, file, line, column) if attribute else None


def faults(types, said):
    """The types of which too little is said, by their names without `r#`: where, and as written."""
    found = {}
    for place, file, line, column, *names, attribute in FAULT.findall(said):
        name = "".join(names) or named_at(attribute, types, file, int(line), int(column))
        if name:
            found.setdefault(name.removeprefix("r#"), (place, name))
    return found


def stand_ins(types, said):
    """Adds to a text a stand-in for each type of which it says too little, until none is left.

    It gives where each of these is, and its name, but for those that stay a fault, as code that
    reads a variant. `said` says what the program says of the text.
    """
    known = {ANY: None}  # It would stand for itself.
    stay = set()
    for _ in range(MOST_ROUNDS):
        found = faults(types, said())
        stay = found.keys() & known.keys()
        new = {name: it for name, it in found.items() if name not in known}
        if not new:
            break
        lines = [f"type {name} = {ANY};" for _, name in new.values()]
        types.add(WHERE, [STAND_INS], "\n".join(lines))
        known |= new
    return [it for name, it in known.items() if it and name not in stay]
