"""A document of TOML, as the JSON that the program reads."""

import ast
import json
import math
import re
import unicodedata

MOST_NESTED = 128  # The lists and objects that may nest in a document of the program.
# What tomllib says, and where.
SAID = re.compile(r"(.*) \(at (?:line (\d+), column (\d+)|end of document)\)", re.DOTALL)
# The names of a table, as tomllib writes them.
NAME = r"""(?:'(?:[^'\\]|\\.)*'|"(?:[^"\\]|\\.)*")"""
NAMES = re.compile(rf"\({NAME}(?:,|(?:, {NAME})+)\)")
# The fraction of a second, with zeros at its end.
FRACTION = re.compile(r"(\.\d+?)0+(?=[+-]|$)")


class BadDocument(Exception):
    """A document that is no TOML, or has what JSON cannot say. The text tells it."""


class Number(str):
    """A number with a fraction or an exponent, as the document writes it."""


def json_of(document):
    """The bytes of JSON with the values of a document of TOML, which is bytes.

    A table becomes an object, with its members in the order in which the document begins them. A
    date or a time becomes a text of RFC 3339. A number keeps its value, and its digits where it has
    a fraction or an exponent.
    """
    import tomllib  # Python has it since 3.11.

    text = decoded(document).replace("\r\n", "\n")
    try:
        table = tomllib.loads(text, parse_float=Number)
    except tomllib.TOMLDecodeError as error:
        raise BadDocument(f"document:{place_and_reason(str(error), text)}") from error
    except RecursionError as error:
        raise BadDocument(nests_too_deep([])) from error
    except ValueError as error:
        raise BadDocument("the document: a whole number has too many digits") from error
    return written(table, []).encode() + b"\n"


def decoded(document):
    """The text of a document. Where it is none that is told as the program does."""
    try:
        return document.decode()
    except UnicodeDecodeError as error:
        line = document.count(b"\n", 0, error.start) + 1
        raise BadDocument(f"document:{line}: no UTF-8 at byte {error.start}") from error


def place_and_reason(said, text):
    """What tomllib says of a text, with the line and the column before it."""
    reason, line, column = SAID.fullmatch(said).groups()
    if line is None:
        line, column = text.count("\n") + 1, len(text) - text.rfind("\n")
    reason = NAMES.sub(lambda it: place_of(ast.literal_eval(it[0])), reason)
    return f"{line}:{column}: invalid TOML: {reason[:1].lower()}{reason[1:]}"


def place_of(names):
    """A place in the document, as the program writes it."""
    text = ".".join(map(str, names)) or "the document"
    return "".join("\N{REPLACEMENT CHARACTER}" if is_control(it) else it for it in text)


def is_control(character):
    return unicodedata.category(character) == "Cc"


def nests_too_deep(place):
    return f"{place_of(place)}: more than {MOST_NESTED} lists and objects nest"


def written(value, place):
    """A value as JSON. The place is its own, for what is told of it."""
    match value:
        case dict() | list() if len(place) >= MOST_NESTED:
            raise BadDocument(nests_too_deep(place))
        case dict():
            members = (f"{quoted(it)}: {written(value[it], [*place, it])}" for it in value)
            return f"{{{', '.join(members)}}}"
        case list():
            items = (written(it, [*place, index]) for index, it in enumerate(value))
            return f"[{', '.join(items)}]"
        case Number():
            return written_number(value, place)
        case str():
            return quoted(value)
        case bool():
            return "true" if value else "false"
        case int():
            return written_integer(value, place)
        case _:
            return quoted(written_time(value))


def quoted(text):
    return json.dumps(text, ensure_ascii=False)


def written_integer(value, place):
    try:
        return str(value)
    except ValueError as error:
        text = f"{place_of(place)}: a whole number has too many digits"
        raise BadDocument(text) from error


def written_number(text, place):
    """A number with a fraction or an exponent. JSON takes its digits as they are."""
    if not math.isfinite(float(text)):
        why = "is too large for a float" if text[-1].isdigit() else "is no number of JSON"
        raise BadDocument(f"{place_of(place)}: {text} {why}")
    return text.replace("_", "").removeprefix("+")


def written_time(value):
    """A date or a time. tomllib has cut the fraction of a second to six digits."""
    text = FRACTION.sub(r"\1", value.isoformat())
    return f"{text[:-6]}Z" if text.endswith("+00:00") else text
