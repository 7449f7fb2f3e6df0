"""Tests of folders of Rust files, as one text."""

import pathlib
import signal
import tempfile
import unittest
from unittest import mock

from launch import folder, joined

from .stand_in import WORD, Repository

FILES = {
    "lib.rs": "mod a;\nstruct Root;\n",
    "a/mod.rs": "struct Of;\n",
    "a/b-c.rs": "#!/bin/run\nstruct In;",
    "a/type.rs": "#![allow(unused)]\n",
    "main.rs": '\N{BYTE ORDER MARK}fn main() { run("#!/bin/run"); }\n',
    "note.txt": "no Rust",
    ".git/x.rs": "hidden",
    "target/y.rs": "built",
}
TEXT = """\
mod a { mod b_c { 

struct In;
} } 
mod a { 
struct Of;

} 
mod a { mod r#type { 
#![allow(unused)]

} } 

mod a;
struct Root;



fn main() { run("#!/bin/run"); }

"""


def write_files(top, files):
    for name, text in files.items():
        path = top / name
        path.parent.mkdir(parents=True, exist_ok=True)
        path.write_bytes(text if isinstance(text, bytes) else text.encode())


class Folders(unittest.TestCase):
    """A folder is read as one text."""

    def setUp(self):
        room = tempfile.TemporaryDirectory()
        self.addCleanup(room.cleanup)
        self.top = pathlib.Path(room.name)
        write_files(self.top, FILES)

    def test_each_file_stands_in_its_modules(self):
        self.assertEqual(folder.read(self.top).text().decode(), TEXT)

    def test_a_place_is_that_in_its_file(self):
        found = folder.read(self.top)
        lines = found.text().decode().split("\n")
        for name, line in (("a/b-c.rs", "struct In;"), ("lib.rs", "struct Root;")):
            file, number, column = found.place(lines.index(line) + 1, 8)
            text = (self.top / name).read_text().split("\n")
            self.assertEqual((file, text[number - 1], column), (self.top / name, line, 8))

    def test_the_first_line_of_each_file_is_its_own(self):
        found = folder.read(self.top)
        for file, begin in zip(found.files, found.begins):
            self.assertEqual(found.place(begin + 1, 8), (file, 1, 8))

    def test_what_stands_around_a_file_is_told_at_its_ends(self):
        found = folder.read(self.top)
        for place, (file, *wanted) in {
            (1, 1): ("a/b-c.rs", 1, 1),
            (1, 16): ("a/b-c.rs", 1, 1),
            (4, 1): ("a/b-c.rs", 2, 11),
            (5, 1): ("a/b-c.rs", 2, 11),
            (5, 7): ("a/mod.rs", 1, 1),
            (8, 1): ("a/mod.rs", 2, 1),
        }.items():
            self.assertEqual(found.place(*place), (self.top / file, *wanted))

    def test_what_is_said_names_the_files(self):
        said = "t.rs:3:8: a fault\nt.rs: another\nx t.rs:3:8: no place\nt.rs:15:1: last\n"
        named = folder.read(self.top).named(said, "t.rs", "here")
        self.assertEqual(
            named,
            f"{self.top}/a/b-c.rs:2:8: a fault\nhere: another\nx t.rs:3:8: no place\n"
            f"{self.top}/lib.rs:2:1: last\n",
        )

    def test_a_file_that_is_no_text_is_told(self):
        write_files(self.top, {"a/b-c.rs": b"one\ntwo \xff"})
        with self.assertRaises(joined.NoText) as told:
            folder.read(self.top)
        self.assertEqual(str(told.exception), f"{self.top}/a/b-c.rs:2: no UTF-8 at byte 8")

    def test_a_folder_that_cannot_be_listed_is_not_passed_over(self):
        with mock.patch("os.scandir", side_effect=PermissionError):
            self.assertRaises(PermissionError, folder.read, self.top)

    def test_a_name_is_that_of_a_module(self):
        for name, wanted in (("a-b.c", "a_b_c"), ("2d", "_2d"), ("fn", "r#fn"), ("ok", "ok")):
            self.assertEqual(folder.module(name), wanted)


class Reading(Repository):
    """`./facet-read` takes a folder."""

    def expect(self, ended):
        status, output, said = ended
        self.assertEqual(status, WORD, said)
        self.assertIn("Root", output)
        self.assertIn("mod a { mod b_c { ", said)
        self.expect_nothing_left()

    def test_without_proofs(self):
        write_files(self.top / "source", FILES)
        self.expect(self.read("source", "Root"))

    def test_by_the_proved_program(self):
        write_files(self.top / "source", FILES)
        self.prove()
        self.expect(self.read("source", "Root"))

    def test_with_a_document_of_toml(self):
        write_files(self.top / "source", FILES)
        for is_proved in (False, True):
            with self.subTest(is_proved=is_proved):
                status, output, said = self.read("source", "Root", "--toml", document=b"a = 1.0\n")
                lines = ["read", "Root", '{"a": 1.0}']
                self.assertEqual((status, output.splitlines()), (WORD, lines), said)
                self.expect_nothing_left()
            self.prove()

    def use_program(self, text):
        """Proves another program, for a folder with a file."""
        write_files(self.top / "source", {"x.rs": "struct S;"})
        (self.kit / "program").write_text(f"#!/bin/sh\n{text}\n")
        self.prove()
        (self.kit / "pid").unlink()

    def test_a_signal_that_ends_the_program_gives_the_status(self):
        self.use_program("kill -KILL $$")
        self.assertEqual(self.read("source"), (128 + signal.SIGKILL, "", ""))

    def test_a_write_that_fails_is_told_by_the_program(self):
        """So it ignores the signal of a pipe that nobody reads, as without a folder."""
        self.use_program("grep SigIgn: /proc/$$/status")
        status, output, said = self.read("source")
        self.assertEqual(status, 0, said)
        self.assertTrue(int(output.split()[1], 16) >> signal.SIGPIPE - 1 & 1, output)

    def test_a_signal_that_ends_the_script_ends_the_program(self):
        self.use_program(f'echo $$ >"{self.kit}/pid"; exec sleep 100')
        process = self.start("./facet-read", "check", "source")
        program = int(self.text_of(self.kit / "pid"))
        process.send_signal(signal.SIGTERM)
        self.assertEqual(process.wait(), 128 + signal.SIGTERM)
        self.expect_gone(program)
        self.expect_nothing_left()

    def test_a_file_that_cannot_be_read(self):
        write_files(self.top / "source", {"x.rs": "struct S;"})
        (self.top / "source" / "y.rs").symlink_to("nowhere")
        ended = self.read("source")
        self.assertEqual(ended, (64, "", "facet-read: source/y.rs: No such file or directory\n"))

    def test_a_file_that_is_no_text(self):
        write_files(self.top / "source", {"x.rs": b"\xff"})
        self.prove()
        ended = self.read("source")
        self.assertEqual(ended, (3, "", "source/x.rs:1: no UTF-8 at byte 0\n"))
