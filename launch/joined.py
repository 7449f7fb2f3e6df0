"""Files of Rust, as one text of Rust."""

import bisect
import contextlib
import dataclasses
import os
import pathlib
import re
import tempfile

from .streams import write

# What is declared in a module of this name stands in for other declarations of its name.
STAND_INS = "stand_ins"
MARK = "\N{BYTE ORDER MARK}"
# The first line of a script. `#![..]` is an attribute.
SCRIPT = re.compile(r"\A#!(?!\s*\[).*")


class NoText(Exception):
    """A file that is no text. The words tell it, and where."""


@dataclasses.dataclass
class Joined:
    """A text, and which file each of its lines comes from."""

    lines: list = dataclasses.field(default_factory=list)
    # Of each file the first line, counted from 0, that behind its last, and its path.
    begins: list = dataclasses.field(default_factory=list)
    ends: list = dataclasses.field(default_factory=list)
    files: list = dataclasses.field(default_factory=list)

    def add(self, path, modules, text):
        """Adds the text of a file, in these modules."""
        self.lines.append("".join(f"mod {name} {{ " for name in modules))
        self.begins.append(len(self.lines))
        self.files.append(path)
        self.lines += text.split("\n")
        self.ends.append(len(self.lines))
        self.lines.append("} " * len(modules))

    def add_file(self, path, modules=()):
        """Adds the file that a path names."""
        self.add(path, modules, decoded(path))

    def stand_in(self, path):
        """Adds a file whose declarations stand in for others."""
        self.add_file(path, [STAND_INS])

    def text(self):
        """The text, in bytes."""
        return "\n".join(self.lines).encode()

    def behind(self, file, line, column):
        """What a file has from a place on, or nothing where there is no such line."""
        for begin, end, path in zip(self.begins, self.ends, self.files):
            if str(path) == file:
                return "\n".join(self.lines[begin + line - 1 : end])[column - 1 :]
        return ""

    def copied(self):
        """A path of a file with the text, for this process and those that it starts."""
        return copied(self.text())

    def place(self, line, column):
        """The file, the line and the column there of a place in the text, all counted from 1."""
        at = bisect.bisect_right(self.begins, line) - 1
        if line == self.begins[at] and column == 1 and at > 0:
            # A `mod` is told where something else was expected, by what is left open before it.
            at -= 1
        file, begin, end = self.files[at], self.begins[at], self.ends[at]
        if line <= begin:
            return file, 1, 1
        if line > end:
            return file, end - begin, len(self.lines[end - 1]) + 1
        return file, line - begin, column

    def named(self, said, path, name):
        """What was said of the text under a path: of the files, or of all under this name."""
        pattern = re.compile(rf"^{re.escape(path)}(?::(\d+):(\d+))?(?=: )", re.MULTILINE)

        def in_file(found):
            if not found[1]:
                return name
            file, line, column = self.place(int(found[1]), int(found[2]))
            return f"{file}:{line}:{column}"

        return pattern.sub(in_file, said)


@contextlib.contextmanager
def copied(text):
    """A path of a file with these bytes, for this process and those that it starts.

    It has no name, so that nothing of it is left, however the script ends.
    """
    with tempfile.TemporaryFile() as copy:
        write(copy.fileno(), text)
        yield f"/proc/{os.getpid()}/fd/{copy.fileno()}"


def decoded(path):
    """The text of a file, without what may stand before its first line."""
    data = pathlib.Path(path).read_bytes()
    try:
        text = data.decode()
    except UnicodeDecodeError as error:
        line = data.count(b"\n", 0, error.start) + 1
        raise NoText(f"{path}:{line}: no UTF-8 at byte {error.start}") from error
    return SCRIPT.sub("", text.removeprefix(MARK))
