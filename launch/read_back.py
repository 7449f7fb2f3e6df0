"""What a document and the answers to it say, by Python's JSON, which is no program of ours."""

import json

MOST_LEVELS = 128  # The lists and objects that may nest in a document.
BAD = object()  # Stands for the value of a bad document. None is that of null.


class Wrong(ValueError):
    """A text that is no JSON, or has a name twice."""


def members(pairs):
    """The members of an object, of which no two have one name."""
    if len(pairs) > len(dict(pairs)):
        raise Wrong(f"a name stands twice: {[name for name, _ in pairs]}")
    return dict(pairs)


def no_number(text):
    """Refuses what Python takes beside the numbers of JSON."""
    raise Wrong(f"{text} is no number of JSON")


def json_value(text):
    """The value of a text of JSON, in which numbers stay as they are written."""
    kept = {"parse_int": lambda it: ("number", it), "parse_float": lambda it: ("number", it)}
    return json.loads(text, object_pairs_hook=members, parse_constant=no_number, **kept)


def levels(value):
    """How many lists and objects nest in a value."""
    found, within = 0, [value]
    while within:
        inner = [it for it in within if isinstance(it, (dict, list))]
        within = [it for part in inner for it in (part.values() if isinstance(part, dict) else part)]
        found += bool(inner)
    return found


def document_of(text):
    """The value of a document, or BAD."""
    try:
        value = json_value(text)
    except (ValueError, RecursionError):
        return BAD
    return value if levels(value) <= MOST_LEVELS else BAD


def is_read_as(reading, document, is_whole):
    """Whether a reading has the value of a document, but for the variants beside values.

    Members of objects may be missing in it, unless it has to be whole.
    """
    if isinstance(reading, dict) and reading.keys() == {"variants", "value"}:
        if is_variants(reading["variants"]) and is_read_as(reading["value"], document, is_whole):
            return True
    if isinstance(reading, dict) and isinstance(document, dict):
        if not reading.keys() <= document.keys() or is_whole and len(reading) < len(document):
            return False
        return all(is_read_as(it, document[name], is_whole) for name, it in reading.items())
    if isinstance(reading, list) and isinstance(document, list):
        both = zip(reading, document)
        return len(reading) == len(document) and all(is_read_as(*it, is_whole) for it in both)
    return type(reading) is type(document) and reading == document


def is_variants(value):
    """Whether this is what stands beside a value: by their paths variants, or null."""
    if not isinstance(value, dict) or not value:
        return False
    return all(it is None or isinstance(it, str) and "::" in it for it in value.values())
