#!/usr/bin/env python3
"""Stands in for rt: it proves nothing, and says what rt says.

`rt try` runs the script `program` of the crate in which it is called, with `--cases` on each file.
`rt ci` prints what LAST has, and ends with the status STATUS. `rt check` takes a line of
`src/lib.rt` as a function, `fn NAME: BODY`: the bodies `right` and `weak` are proved, the second
above an open proof. Of `wrong GOAL ..` it says that these goals are not, of `calls NAME` that it
calls one that is not, and of any other body nothing.
"""

import os
import pathlib
import re
import shutil
import subprocess
import sys
import tempfile

HERE = pathlib.Path.cwd()
SUFFIXES = (".args", ".stdout")


def tell(text):
    print(text, file=sys.stderr, flush=True)


def options(words):
    """The options of `rt try`: the folder of cases, the files of data, and the arguments."""
    cases, data = None, []
    while words and words[0] != "--":
        if words[0] == "--cases":
            cases = pathlib.Path(words[1])
        elif words[0] == "--data":
            data.append(words[1].split("=", 1))
        words = words[2:]
    return cases, data, words[1:]


def try_case(case, data, words):
    """Runs the program on a file, and says how it ended."""
    extra, wanted = (case.with_name(case.name + it) for it in SUFFIXES)
    words = [str(case) if it == "{}" else it for it in words]
    words += extra.read_text().splitlines() if extra.exists() else []
    with tempfile.TemporaryDirectory() as name, open(case, "rb") as given:
        for path, file in data:
            (pathlib.Path(name) / path).parent.mkdir(parents=True, exist_ok=True)
            shutil.copy(file, pathlib.Path(name) / path)
        how = {"cwd": name, "stdin": given, "capture_output": True}
        it = subprocess.run([HERE / "program", *words], **how)
    output = ""
    if wanted.exists():
        is_wanted = it.stdout == wanted.read_bytes()
        output = f" output={'expected' if is_wanted else 'differs'}"
    else:
        sys.stdout.buffer.write(b"== %s\n%s" % (case.name.encode(), it.stdout))
    sys.stdout.flush()
    sys.stderr.buffer.write(it.stderr)
    tell(f"case={case.name} run=ended status={it.returncode}{output} runners=1 proved=no")


def try_program(words):
    cases, data, words = options(words)
    if cases:
        for case in sorted(it for it in cases.iterdir() if it.suffix not in SUFFIXES):
            try_case(case, data, words)
        return 0
    status = subprocess.run([HERE / "program", *words]).returncode
    tell(f"run=ended status={status} runners=1 proved=no")
    return status


def check(words):
    """Says of functions whether they are proved."""
    bodies = dict(re.findall(r"^fn (\S+): (.*)$", (HERE / "src/lib.rt").read_text(), re.MULTILINE))
    proved = {"right": "no holes", "weak": "depends on a hole in `Rattle.a.proofs.b.Proof.b_spec`"}
    asked = words[words.index("--only") + 1 :: 2]
    for function in asked:
        kind, _, rest = bodies[function].partition(" ")
        for goal in rest.split() if kind == "wrong" else ():
            print(f"note: src/lib.rt:1:1: it is not proved that it holds (`{goal}`)")
        said = proved.get(kind, "no proof" if kind == "wrong" else "")
        if kind == "calls":
            said = f"no proof: it calls {rest}, which is not proved"
        if said:
            print(f"fn {HERE.name}::{function}: {said}")
    print(f"only={len(asked)} holes=1")
    return 0


def main(words):
    match words:
        case ["try", *rest]:
            return try_program(rest)
        case ["check", *rest]:
            return check(rest)
        case ["ci"]:
            print(os.environ.get("LAST", ""))
            return int(os.environ.get("STATUS", "0"))
    return 2


if __name__ == "__main__":
    sys.exit(main(sys.argv[1:]))
