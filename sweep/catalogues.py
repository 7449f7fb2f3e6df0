"""Catalogues that are made up as inputs of facet_solver_program."""

import json

TEXT = {"id": "String", "kind": "scalar", "scalar": "string"}


def struct(*fields):
    return {"id": "S", "kind": "struct", "fields": list(fields)}


def enum(*variants, identifier="E"):
    return {"id": identifier, "kind": "enum", "variants": list(variants)}


def unit(name):
    return {"name": name, "kind": "unit"}


def variant(name, *fields):
    return {"name": name, "kind": "struct", "fields": list(fields)}


def newtype(name, shape):
    return {"name": name, "kind": "tuple", "fields": [field("0", shape)]}


def field(name, shape):
    return {"name": name, "shape": shape}


def flattened(name, shape):
    return field(name, shape) | {"flatten": True}


def given(shapes, document):
    """The input with these shapes, of which the last is the root."""
    input = {
        "shapes": shapes,
        "root": len(shapes) - 1,
        "build": "flattened",
        "document": document,
    }
    return json.dumps(input)


def flattened_structs(depth):
    """Structs, each flattened in the next. The innermost has the one field."""
    innermost = struct(field("last", 0))
    return [TEXT, innermost, *(struct(flattened("inside", n)) for n in range(1, depth))]


def nested_structs(depth):
    """Structs, each a regular field of the next."""
    innermost = struct(field("last", 0))
    return [TEXT, innermost, *(struct(field("a", n)) for n in range(1, depth))]
