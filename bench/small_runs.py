"""The small runs of `costs.txt`, and what they write, which is stored in `outputs.txt`.

A program of workloads tells each part in a line, and the words of the errors of a part in a line
`text PART HASH`: words may change where answers stay.

Of an output of more than LONG bytes the digest is stored, and how many bytes it has.
"""

import dataclasses
import hashlib
import pathlib
import re

HERE = pathlib.Path(__file__).resolve().parent
COSTS, OUTPUTS, WORKLOADS = HERE / "costs.txt", HERE / "outputs.txt", HERE / "workloads.txt"
INPUTS = HERE / "inputs.txt"
LONG = 1_000
LINE = re.compile(r"(\w+): (\w+) ([^|]+?)(?: \(status (\d+)\))?( \(stack\))?(?: \| (.*))?")
MADE = re.compile(r"<?out/(.+)")
HEAD = re.compile(rb"^== (\w+)\n", re.MULTILINE)
TEXT = re.compile(rb"^text .*\n", re.MULTILINE)


class WrongFile(Exception):
    """A file of bench/ has a wrong line, or lacks one."""


@dataclasses.dataclass(frozen=True)
class SmallRun:
    """A run: its name, its crate, its words, and the text of its costs, if that is stored."""

    name: str
    crate: str
    words: tuple
    # The status that it has to end with, and whether its stack is counted.
    status: int
    has_stack: bool
    costs: str | None

    def __str__(self):
        words = " ".join([self.crate, *self.words])
        status = f" (status {self.status})" if self.status else ""
        return f"{self.name}: {words}{status}{' (stack)' if self.has_stack else ''}"

    def arguments(self):
        """The words that its program is given."""
        return [word for word in self.words if not word.startswith("<")]

    def given(self):
        """The file that is its standard input, if there is one."""
        return HERE / self.words[-1][1:] if self.words[-1].startswith("<") else None

    def inputs(self):
        """The names of its inputs that are made."""
        return [made[1] for word in self.words if (made := MADE.fullmatch(word))]


def small_runs():
    """The runs, at least one of each workload."""
    found = []
    for line in COSTS.read_text().splitlines():
        if not (it := LINE.fullmatch(line)):
            raise WrongFile(f"{COSTS.name} has a wrong line: {line}")
        name, crate, words, status, stack, costs = it.groups()
        words = tuple(words.split())
        found.append(SmallRun(name, crate, words, int(status or 0), bool(stack), costs))
    names = [run.name for run in found]
    if names != sorted({*names}):
        raise WrongFile(f"{COSTS.name} is not sorted by name, or has a name twice")
    for name, *_ in workloads():
        if name not in names:
            raise WrongFile(f"{COSTS.name} has no line for {name}")
    return found


def workloads():
    """The workloads, of which there is at least one: the name, the crate, and the words of each."""
    lines = WORKLOADS.read_text().splitlines()
    found = [tuple(line.split()) for line in lines if line.split()]
    names = [name for name, *_ in found]
    if not names or len(names) > len({*names}) or min(map(len, found)) < 3:
        raise WrongFile(f"{WORKLOADS.name} has no line, a wrong one, or a name twice")
    return found


def digest(text):
    """How bytes are stored that are many."""
    return f"{len(text):,} bytes, sha256 {hashlib.sha256(text).hexdigest()}"


def as_stored(wrote):
    """What was written, as it is stored: by its digest where it is long."""
    return f"{digest(wrote)}\n".encode() if len(wrote) > LONG else wrote


def stored_inputs():
    """The digest of each input that is made, by its name: of those of the runs, and of no other."""
    found = [line.partition(": ")[::2] for line in INPUTS.read_text().splitlines()]
    if [name for name, _ in found] != sorted({it for run in small_runs() for it in run.inputs()}):
        raise WrongFile(f"{INPUTS.name} has not the inputs of {COSTS.name}, each once, by name")
    return dict(found)


def store_inputs(inputs):
    """Stores the digests of the inputs, given by their names."""
    lines = (f"{name}: {digest(text)}\n" for name, text in sorted(inputs.items()))
    INPUTS.write_text("".join(lines))


def stored_outputs():
    """What each run has to write, as it is stored, by its name. It has nothing else."""
    before, *parts = HEAD.split(OUTPUTS.read_bytes())
    names = [name.decode() for name in parts[::2]]
    if before or sorted(names) != [run.name for run in small_runs()]:
        raise WrongFile(f"{OUTPUTS.name} has not the runs of {COSTS.name}, each once")
    return dict(zip(names, parts[1::2]))


def store_outputs(outputs):
    """Stores what each run wrote."""
    OUTPUTS.write_bytes(
        b"".join(b"== %s\n%s" % (it.encode(), as_stored(wrote)) for it, wrote in outputs.items())
    )


def answers(wrote):
    """What was written, without the words of errors."""
    return TEXT.sub(b"", wrote)


def texts(wrote):
    """The lines of the words of errors."""
    return TEXT.findall(wrote)
