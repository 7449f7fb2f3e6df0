"""A folder of Rust files, or one file, as one text of Rust."""

import os
import pathlib
import re

from .joined import Joined

ENDING = ".rs"
# Files that stand for the folder in which they are, and so add no module.
OF_FOLDER = ("lib", "main", "mod")
# What Cargo builds stands there.
BUILT = "target"
# Words that can be names of modules in Rust only behind `r#`.
WORDS = frozenset(
    """as async await become box break const continue do dyn else enum extern false final fn for
    gen if impl in let loop macro match mod move mut override priv pub ref return static struct
    trait true try type typeof unsafe unsized use virtual where while yield abstract""".split()
)


def module(name):
    """A name of a file or a folder, as the name of a module."""
    name = re.sub(r"\W", "_", name)
    if name in WORDS:
        return f"r#{name}"
    return name if name.isidentifier() else f"_{name}"


def modules_of(path):
    """The modules that the path of a file below the folder names."""
    *folders, file = path.with_suffix("").parts
    names = folders if file in OF_FOLDER else [*folders, file]
    return [module(name) for name in names]


def unlisted(error):
    """Ends the walk where a folder cannot be listed, which would be passed over else."""
    raise error


def files_below(folder):
    """The paths of all Rust files below a folder, in order, as they stand below it."""
    found = []
    for below, folders, names in os.walk(folder, onerror=unlisted):
        folders[:] = [name for name in folders if name[0] != "." and name != BUILT]
        here = pathlib.Path(below).relative_to(folder)
        found += [here / name for name in names if name.endswith(ENDING)]
    return sorted(found, key=lambda path: path.parts)


def read(path):
    """A file, or all Rust files below a folder, each in the modules of its path, as one text."""
    found = Joined()
    if not os.path.isdir(path):
        found.add_file(path)
        return found
    folder = pathlib.Path(path)
    for file in files_below(folder):
        found.add_file(folder / file, modules_of(file))
    return found
