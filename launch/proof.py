"""What a proof of a program stands on, and the stamp beside the program that keeps this.

A program is proved if its stamp says what holds now. No time of a file counts: an older file may
come in the place of a newer one, and a build may be cut off behind the program.
"""

import collections
import hashlib
import os
import pathlib
import re
import shutil
import subprocess

TOP = pathlib.Path(__file__).resolve().parent.parent
KINDS = ("src", "specs", "proofs")
LINE = re.compile(r"^([a-z]+) (.+)$", re.MULTILINE)
# What a stamp says, and why a program does not count as proved where that is otherwise now.
KEPT = {
    "sources": "a source has changed since the program was proved",
    "kit": "the program was proved with another kit",
    "program": "the program is not the one that was proved",
}


class Basis(collections.namedtuple("Basis", ("kit", "sources", "marks"))):
    """What a proof stands on: the kit, and the sources of a crate and of those below it.

    The marks change where a source is written, also where it is then written back.
    """


def basis(crate):
    """What a proof of the crate that begins now stands on."""
    return Basis(kit(), marks=tuple(marks(crate)), sources=checksum_of_sources(crate))


def kit():
    """What `rt version` says of the kit on the path, or None where rt is missing."""
    rt = shutil.which("rt")
    if not rt:
        return None
    # The file that `rt version` prints, which takes it longer than all else that is done here.
    file = pathlib.Path(rt).resolve().parent.parent / "KIT-ID"
    if file.is_file():
        return " ".join(file.read_text().split())
    how = {"stdin": subprocess.DEVNULL, "capture_output": True, "text": True}
    return " ".join(subprocess.run([rt, "version"], **how).stdout.split())


def lines_of(crate):
    """The lines of `crates.txt` of a crate and of those of this repository below it, by name."""
    lines = {}
    for line in (TOP / "crates.txt").read_text().splitlines():
        name, colon, libraries = line.partition("#")[0].partition(":")
        if colon:
            lines[name.split()[0]] = name.split(), libraries.replace(",", " ").split()
    found = [crate]
    for name in found:
        found += [it for it in lines[name][1] if it in lines and it not in found]
    return {name: lines[name] for name in found}


def walked(folder):
    """What is in a folder and in those below it, in order: each path, and what reads it if it can.

    No link is followed, and a folder that is not there has nothing.
    """
    try:
        entries = sorted(os.scandir(folder), key=lambda it: it.name)
    except FileNotFoundError:
        return
    yield folder, None
    for entry in entries:
        if entry.is_dir(follow_symlinks=False):
            yield from walked(entry.path)
        else:
            yield entry.path, read_link if entry.is_symlink() else read_file


def read_link(path):
    """Where a link leads. rt refuses it, so of a link nothing else counts."""
    return os.fsencode(os.readlink(path))


def read_file(path):
    with open(path, "rb", buffering=0) as file:
        return file.read()


def places(crate):
    """The paths of the sources of a crate and of those below it, and what reads each."""
    for name in lines_of(crate):
        for kind in KINDS:
            yield from walked(f"{TOP}/crates/{name}/{kind}")


def marks(crate):
    """What the file system notes of each source and each folder of them."""
    for path, _ in places(crate):
        it = os.lstat(path)
        yield path, it.st_ino, it.st_size, it.st_mtime_ns, it.st_ctime_ns


def checksum_of_sources(crate):
    """A checksum of the lines of the crates, and of the name and the bytes of each source.

    It takes some 25 ms for this repository, so each call of a script can afford it.
    """
    found = hashlib.blake2b(repr(lines_of(crate)).encode())
    above = len(f"{TOP}/")
    for path, read in places(crate):
        if read:
            data = read(path)
            found.update(f"{path[above:]!r} {len(data)} ".encode(errors="surrogateescape"))
            found.update(data)
    return found.hexdigest()


def checksum_of_file(path):
    return hashlib.blake2b(path.read_bytes()).hexdigest()


def fault(stamp, program, crate):
    """Why a program does not count as proved, or None where its stamp says what holds now."""
    if not program.exists():
        return "nothing is proved"
    try:
        said = dict(LINE.findall(stamp.read_text(errors="replace")))
    except FileNotFoundError:
        return "no stamp says that the program is proved"
    now = {"sources": checksum_of_sources(crate), "program": checksum_of_file(program)}
    now["kit"] = said.get("kit") if (found := kit()) is None else found  # None: there is no other.
    return next((why for kind, why in KEPT.items() if said.get(kind) != now[kind]), None)


def keep(stamp, program, crate, before):
    """Stamps a program that was proved since then, and gives whether its sources are untouched.

    A stamp that is cut off says something else than what holds, so it counts for nothing.
    """
    if basis(crate) != before:
        return False
    lines = {"sources": before.sources, "kit": before.kit, "program": checksum_of_file(program)}
    stamp.write_text("".join(f"{kind} {it}\n" for kind, it in lines.items()))
    return True
