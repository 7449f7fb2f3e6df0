"""Tests of `./facet-read --with FILE`: declarations that stand in for others."""

import select
import signal
import subprocess
import unittest

from launch.joined import Joined

from .teller import Teller

JOINED = """
struct A { u: Uuid, d: Date }


mod stand_ins { 
type Uuid = u8;

} 
mod stand_ins { 
type Date = u8;

} """


class Places(unittest.TestCase):
    """What is told around a file is said of the one that is at fault."""

    def test_of_two_files(self):
        text = Joined()
        text.add("types.rs", (), "struct A;\nstruct")
        text.add("ids.rs", ["stand_ins"], "struct B {\n")
        cases = {
            "expected a name, met 'mod'": ((5, 1), ("types.rs", 2, 7)),
            "'{' is not closed": ((5, 15), ("ids.rs", 1, 1)),
            "expected a name, met '}'": ((8, 1), ("ids.rs", 2, 1)),
        }
        for fault, (place, wanted) in cases.items():
            with self.subTest(fault=fault):
                self.assertEqual(text.place(*place), wanted)


class With(Teller):
    """Most calls are made without proofs, and then by the proved program."""

    def setUp(self):
        super().setUp()
        self.write(types="struct A { u: Uuid, d: Date }\n")
        self.write(ids="type Uuid = u8;\n", dates="type Date = u8;\n")

    def expect(self, wanted, *words, **how):
        """Expects how a call ends: its status, and what it says."""
        for status, output, told in self.ends(*words, **how):
            self.assertEqual((status, output, told), (wanted[0], "", [*wanted[1:]]))

    def test_all_is_one_text(self):
        words = "types.rs", "A", "--strict", "--with", "ids.rs", "--json", "--with", "dates.rs"
        for status, output, told in self.ends("read", *words, document=b"{}"):
            wanted = f"read A --strict --json\n{JOINED}\n{{}}\n"
            self.assertEqual((status, output, told), (0, wanted, []))

    def test_of_each_command(self):
        words = "--with", "ids.rs", "types.rs", "--with", "dates.rs"
        for command in ("check", "catalogue"):
            for status, output, told in self.ends(command, *words):
                wanted = f"{command}\n{JOINED}\nno document\n"
                self.assertEqual((status, output, told), (0, wanted, []))

    def test_a_document_of_toml(self):
        words = "types.rs", "--toml", "--with", "ids.rs", "--with", "dates.rs"
        for status, output, told in self.ends("read", *words, document=b"a = 1\n"):
            self.assertEqual((status, told), (0, []))
            self.assertTrue(output.endswith('{"a": 1}\n\n'), output)

    def test_a_fault_is_told_of_its_file(self):
        self.write(ids='\nstruct Uuid { a: u8, b: "c::D" }')
        wanted = "types.rs:1:24: unknown type 'Date': skip"
        wanted_of_ids = "ids.rs:2:25: unknown type '\"c::D\"': skip"
        self.expect((3, wanted, wanted_of_ids), "check", "types.rs", "--with", "ids.rs")

    def test_a_file_is_named_as_it_was_given(self):
        wanted = "./types.rs:1:24: unknown type 'Date': skip"
        self.expect((3, wanted), "check", "./types.rs", "--with", "ids.rs")
        self.write(dates="struct Date { a: Strng }")
        wanted = f"{self.top}/dates.rs:1:18: unknown type 'Strng': skip"
        words = "--with", "ids.rs", "--with", f"{self.top}/dates.rs"
        self.expect((3, wanted), "check", "types.rs", *words)

    def test_a_fault_without_a_place_is_told_of_types(self):
        words = "types.rs", "Nothing", "--with", "ids.rs", "--with", "dates.rs"
        self.expect((3, "types.rs: unknown type 'Nothing'"), "check", *words)

    def test_a_folder(self):
        (self.top / "source").mkdir()
        (self.top / "types.rs").rename(self.top / "source" / "a.rs")
        wanted = "source/a.rs:1:24: unknown type 'Date': skip"
        self.expect((3, wanted), "check", "source", "--with", "ids.rs")
        words = "source", "--with", "ids.rs", "--with", "dates.rs"
        for status, output, told in self.ends("check", *words):
            self.assertEqual((status, told), (0, []))
            self.assertIn("mod a { \nstruct A { u: Uuid, d: Date }\n\n} \nmod stand_ins { ", output)

    def test_no_file_stands_behind_it(self):
        wanted = 64, "", "facet-read: no FILE stands behind --with\n"
        for words in (["--with"], ["--with", "--strict"], ["--with", "ids.rs", "--with"]):
            self.assertEqual(self.read("types.rs", *words), wanted)
        self.assertEqual(self.call("./facet-read", "check", "--with"), wanted)

    def test_files_that_cannot_be_opened(self):
        missing, folder = "No such file or directory", "Is a directory"
        for name, why in (("none.rs", missing), ("launch", folder)):
            wanted = 64, "", f"facet-read: {name}: {why}\n"
            self.assertEqual(self.read("types.rs", "--with", "ids.rs", "--with", name), wanted)
        wanted = 64, "", f"facet-read: none.rs: {missing}\n"
        self.assertEqual(self.read("none.rs", "--with", "ids.rs"), wanted)
        (self.top / "empty").mkdir()
        wanted = 64, "", "facet-read: empty: no file below it ends with .rs\n"
        self.assertEqual(self.read("empty", "--with", "ids.rs"), wanted)

    def test_files_that_are_no_text(self):
        (self.top / "bad.rs").write_bytes(b"\ntype A\xff")
        wanted = 3, "", "bad.rs:2: no UTF-8 at byte 7\n"
        self.assertEqual(self.read("types.rs", "--with", "bad.rs"), wanted)
        self.assertEqual(self.read("bad.rs", "--with", "ids.rs"), wanted)

    def test_a_name_of_a_file_that_is_no_text(self):
        self.prove()
        name = b"\xff.rs"
        with open(bytes(self.top) + b"/" + name, "wb") as file:
            file.write(b"struct B { a: C }")
        words = ["./facet-read", "check", "types.rs", "--with", "ids.rs", "--with", name]
        it = subprocess.run(words, cwd=self.top, env=self.environment, capture_output=True)
        said = b"types.rs:1:24: unknown type 'Date': skip\n\xff.rs:1:15: unknown type 'C': skip\n"
        self.assertEqual((it.returncode, it.stdout, it.stderr), (3, b"", said))

    def test_types_that_are_not_named_are_told_by_the_program(self):
        (self.kit / "program").write_text('#!/bin/sh\necho "$@"\nexit 64\n')
        for status, output, told in self.ends("check", "--with", "ids.rs"):
            self.assertEqual((status, output, told), (64, "check\n", []))

    def test_without_it_the_program_has_the_words_as_they_are(self):
        (self.kit / "program").write_text('#!/bin/sh\necho "$@"\n')
        for line in ("check types.rs A", "--help --with", "--version --any", "reed types.rs --any"):
            for status, output, told in self.ends(*line.split()):
                self.assertEqual((status, output, told), (0, f"{line}\n", []))

    def test_lines_are_answered_as_they_come(self):
        self.prove()
        words = "types.rs", "--lines", "--with", "ids.rs", "--with", "dates.rs"
        how = {"stdin": subprocess.PIPE, "stdout": subprocess.PIPE, "bufsize": 1}
        process = self.start("./facet-read", "read", *words, **how)
        for line in ("1\n", "2\n"):
            process.stdin.write(line)
            self.assertTrue(select.select([process.stdout], [], [], 60)[0], "no answer came")
            self.assertEqual(process.stdout.readline(), f"answer {line}")
        output, said = process.communicate()
        self.assertEqual((process.returncode, output, said), (0, "", "2 lines\n"))
        self.expect_nothing_left()

    def test_lines_without_proofs(self):
        words = "types.rs", "--lines", "--with", "ids.rs", "--with", "dates.rs"
        for status, output, told in self.ends("read", *words, document=b"1\n2\n"):
            self.assertEqual((status, output, told), (0, "answer 1\nanswer 2\n", ["2 lines"]))

    def test_a_signal_that_ends_the_script_ends_the_program(self):
        held = f'#!/bin/sh\necho $$ >"{self.kit}/pid"; exec sleep 100\n'
        (self.kit / "program").write_text(held)
        self.prove()
        for option in (["--with", "ids.rs"], ["--any"]):
            (self.kit / "pid").unlink()
            process = self.start("./facet-read", "check", "types.rs", *option)
            program = self.rt_process()
            process.send_signal(signal.SIGTERM)
            self.assertEqual(process.wait(), 128 + signal.SIGTERM)
            self.expect_gone(program)
            self.expect_nothing_left()
