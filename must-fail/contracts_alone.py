"""Leaves of a crate's functions their contracts alone, but for those that are asked about.

A function is proved by its own body and by the contracts of what it calls. So where some functions
of a crate are checked, the others need no bodies and no proofs: in a copy of the crate each of them
gets a body that never ends, and a proof that is left open. Then a check takes seconds in place of
minutes, and says `no holes` or `depends on a hole` of a function that is proved.

Functions of traits, of cycles of calls and constant ones stay as they are. What is read is the form
that `rt fmt` gives to a source.
"""

import dataclasses
import re
import shutil

WORD = r"(?:pub(?:\([a-z: ]+\))? )?"
FUNCTION = re.compile(rf"^(?:    )?{WORD}(const )?(?:unsafe )?fn (\w+)")
BLOCK = re.compile(r"^impl(?:<.*?>)? (.*? for )?(\w+)")
TYPE = re.compile(rf"^{WORD}(?:struct|enum) (\w+)")
TRAIT = re.compile(rf"^{WORD}trait ")
CYCLE = re.compile(r"^ *#\[cycle\(")
ATTRIBUTE_OR_COMMENT = re.compile(r"^ *(?:#\[|//)")
BODY = "loop {}"
ROOTS = ("lib", "main")
OPEN_PROOF = """\
use Rattle.{crate}.proofs.{path}.Statement as stated

pub {name}_spec : {{M : Type 1}} → stated.statement M
{name}_spec = ?
"""


@dataclasses.dataclass
class Function:
    """A function that can lose its body: the words of its path, and the lines of its body."""

    path: list
    first: int
    end: int


def module_of(file, source):
    """The words of the path of the module that stands in a file."""
    words = list(file.relative_to(source).with_suffix("").parts)
    return [] if words[-1:] and words[0] in ROOTS and len(words) == 1 else words


def modules_of_types(texts):
    """The modules that declare a type of a name, for each name."""
    found = {}
    for module, lines in texts.values():
        for it in filter(None, map(TYPE.match, lines)):
            found.setdefault(it[1], []).append(module)
    return found


def owner_of(header, module, types):
    """The path of the type that a block is of; None for a trait's, and where it is not clear."""
    block = BLOCK.match(header)
    if not block or block[1]:
        return None
    declared = types.get(block[2], [])
    if module not in declared and len(declared) != 1:
        return None
    return [*(module if module in declared else declared[0]), block[2]]


def body_of(lines, at):
    """The lines of the body of the function whose header begins there: the first, and the end.

    None where it has no line.
    """
    indent = re.match(" *", lines[at])[0]
    ends = [f"{indent}{{", f"{indent}{{}}"]
    for number in range(at, len(lines)):
        line = lines[number]
        is_last = number == at or line.startswith(f"{indent})")
        if line in ends or is_last and line.endswith((" {", " {}")):
            return None if line.endswith("}") else (number + 1, lines.index(f"{indent}}}", number))
    return None


def functions_of(module, lines, types):
    """The functions in the lines of a module that can lose their bodies."""
    owner, is_inside, is_in_cycle = None, False, False
    for at, line in enumerate(lines):
        if line.startswith("impl") or TRAIT.match(line):
            end = next(it for it in range(at, len(lines)) if lines[it].endswith(("{", "{}")))
            owner, is_inside = owner_of(" ".join(lines[at : end + 1]), module, types), True
        elif line.startswith("}"):
            owner, is_inside = None, False
        function = FUNCTION.match(line)
        if function and not function[1] and not is_in_cycle:
            path = owner if is_inside else module
            if path is not None and line.startswith(" ") == is_inside:
                if body := body_of(lines, at):
                    yield Function([*path, function[2]], *body)
        is_in_cycle = bool(CYCLE.match(line)) or is_in_cycle and bool(
            ATTRIBUTE_OR_COMMENT.match(line)
        )


def leave_open(folder, crate, path):
    """Leaves the proof of a function open."""
    proof = folder / "proofs" / "/".join(path)
    shutil.rmtree(proof, ignore_errors=True)
    proof.mkdir(parents=True)
    text = OPEN_PROOF.format(crate=crate, path=".".join(path), name=path[-1])
    (proof / "Proof.antt").write_text(text)


def leave_contracts_alone(folder, crate, kept, texts):
    """Does so with the copy of a crate in a folder.

    The functions of the paths `kept` stay, and each that has one of these texts in a line of its
    body.
    """
    source = folder / "src"
    files = {
        file: (module_of(file, source), file.read_text().splitlines())
        for file in sorted(source.rglob("*.rt"))
    }
    types = modules_of_types(files)
    for file, (module, lines) in files.items():
        made, behind = [], 0
        for it in functions_of(module, lines, types):
            body = lines[it.first : it.end]
            if "::".join(it.path) in kept or any(text in line for text in texts for line in body):
                continue
            made += [*lines[behind : it.first], BODY]
            behind = it.end
            leave_open(folder, crate, it.path)
        file.write_text("".join(f"{line}\n" for line in [*made, *lines[behind:]]))
