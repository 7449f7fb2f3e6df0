"""A small repository with the scripts of this one, and a kit whose rt stands in for the real one."""

import os
import pathlib
import re
import shutil
import subprocess
import sys
import tempfile
import unittest
from unittest import mock

from launch import proof

TOP = pathlib.Path(__file__).resolve().parent.parent.parent
HERE = TOP / "checks" / "tests"
SECONDS = 600  # How long a call may take, also where much else runs.
# What is copied, and which files in that are not: what the scripts read stands in FILES.
COPIED = ("test", "solve", "facet-read", "checks", "docs", "examples", "must-fail", "surface")
COPIED += ("sweep", "bench", "launch")
SCRIPTS = re.compile(r"[\w-]+|\w+\.(?:py|c)")


def scripts():
    """The scripts of this repository, by their paths."""
    for name in COPIED:
        for file in [TOP / name, *(TOP / name).glob("*")]:
            if file.is_file() and SCRIPTS.fullmatch(file.name):
                yield file.relative_to(TOP)


def toolchain():
    """Where the real kit has its compiler, which stands beside its rt."""
    rt = shutil.which("rt")
    if not rt:
        raise FileNotFoundError("rt is missing, beside which the compiler stands")
    return pathlib.Path(rt).resolve().parent.parent / "toolchain"


def compiled(folder, *names):
    """The program of program.c, with a fault by each of these names. It needs the C library alone.

    That library is the one on which Python runs.
    """
    maps = pathlib.Path("/proc/self/maps").read_text()
    library = re.search(r"/\S*/libc\.so\.6$|/\S*/libc-\S+\.so$", maps, re.MULTILINE)[0]
    made = folder / "-".join(["program", *names])
    if not made.exists():
        words = [toolchain() / "bin" / "clang", "-fno-builtin", "-nostdlib", "-fuse-ld=lld"]
        words += [f"-D{name}" for name in names]
        words += ["-Wl,--dynamic-linker=/lib64/ld-linux-x86-64.so.2", "-o", made]
        subprocess.run([*words, HERE / "program.c", library], check=True)
    return made


class Repository(unittest.TestCase):
    """A test in a fresh repository, which has the scripts and the files of FILES."""

    FILES: dict = {}

    def setUp(self):
        room = tempfile.TemporaryDirectory()
        self.addCleanup(room.cleanup)
        self.room = pathlib.Path(room.name).resolve()
        self.top, self.kit = self.room / "top", self.room / "kit"
        for file in scripts():
            (self.top / file).parent.mkdir(parents=True, exist_ok=True)
            shutil.copy2(TOP / file, self.top / file)
        self.write("../kit/KIT-ID", "a kit\n")
        self.write("../kit/bin/rt", (HERE / "rt.py").read_text(), mode=0o755)
        for path, text in self.FILES.items():
            is_script = text.startswith("#!")
            self.write(path, text, mode=0o755 if is_script else 0o644)
        # Python without the packages of the machine, of which no script needs one: it starts faster.
        self.write("../kit/bin/python3", f'#!/bin/sh\nexec "{sys.executable}" -S "$@"\n', mode=0o755)
        path = os.pathsep.join([f"{self.kit}/bin", os.environ["PATH"]])
        self.environment = os.environ | {"PATH": path}
        self.environment |= {"PYTHONDONTWRITEBYTECODE": "1", "TMPDIR": str(self.room)}

    def write(self, path, text, mode=0o644):
        """Writes a file of the repository."""
        file = self.top / path
        file.parent.mkdir(parents=True, exist_ok=True)
        file.write_text(text)
        file.chmod(mode)

    def edit(self, path, old, new):
        """Replaces a text that stands in a file once."""
        text = (self.top / path).read_text()
        self.assertEqual(text.count(old), 1, path)
        (self.top / path).write_text(text.replace(old, new))

    def remove(self, *paths):
        for path in paths:
            (self.top / path).unlink()

    def call(self, *words, **how):
        """Calls a script, and gives its status and all that it says."""
        how = {"cwd": self.top, "env": self.environment, "timeout": SECONDS} | how
        how |= {"stdout": subprocess.PIPE, "stderr": subprocess.STDOUT}
        it = subprocess.run(words, stdin=subprocess.DEVNULL, **how)
        return it.returncode, it.stdout.decode(errors="replace")

    def expect_passes(self, *words):
        """The call passes, and what it says is given."""
        status, said = self.call(*words)
        self.assertEqual(status, 0, said)
        return said

    def expect_told(self, words, *texts, status=1):
        """The call fails with this status, and says each of the texts."""
        came, said = self.call(*words)
        self.assertEqual(came, status, said)
        for text in texts:
            self.assertIn(text, said)

    def only_path(self, *names):
        """Leaves on the path the kit, with its Python, and programs of these names."""
        for name in names:
            (self.kit / "bin" / name).symlink_to(shutil.which(name))
        self.environment["PATH"] = str(self.kit / "bin")

    def store_totals(self, **numbers):
        """Stores the numbers of some kinds, in whose names `_` stands for a blank."""
        lines = (f"{kind.replace('_', ' ')}: {number}\n" for kind, number in numbers.items())
        self.write("checks/totals.txt", "".join(lines))

    def use_toolchain(self):
        """Gives the kit the compiler of the real one."""
        (self.kit / "toolchain").symlink_to(toolchain())

    def prove(self, crate, program):
        """Puts a program into a crate, as one that is proved."""
        made = self.top / "crates" / crate / "out" / crate
        made.parent.mkdir(parents=True, exist_ok=True)
        shutil.copy2(program, made)
        path = {"PATH": self.environment["PATH"]}
        with mock.patch.object(proof, "TOP", self.top), mock.patch.dict(os.environ, path):
            stamp = made.with_name(f"{crate}.proved")
            self.assertTrue(proof.keep(stamp, made, crate, proof.basis(crate)))
