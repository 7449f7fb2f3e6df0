"""Tests of sweep/types: a text with a wrong answer, with none, and texts that are passed over."""

from .scratch import Repository

CRATE = "crates/facet_solver_tests"
# It answers the texts of a file: a text with the word `wrong` is accepted, and refused once printed.
PROGRAM = """#!/usr/bin/env python3
import sys

texts = open(sys.argv[2]).read().split("\\0")
letters = ["p" if "wrong" in text else "a" for text in texts]
print("".join(letters))
print(0, 100)
sys.exit(0)
"""
TYPES = "examples/a/types.rs"
CALL = ("sweep/types", "20")


class Types(Repository):
    FILES = {
        f"{CRATE}/program": PROGRAM,
        f"{CRATE}/data/some.txt": "transcript a\ntypes struct A;: A\ntypes struct:\n",
        TYPES: "struct S;\n",
        "examples/faults/f.rs": "struct {\n",
        "crates.txt": "facet_solver_tests:\n",
    }

    def expect_both(self, *texts, status=1):
        """It is told without proofs, and with the proved program."""
        self.expect_told(CALL, *texts, status=status)
        self.prove("facet_solver_tests", self.top / CRATE / "program")
        self.expect_told(CALL, *texts, status=status)

    def test_nothing_wrong(self):
        count = sum(map(len, ("struct S;\n", "struct {\n", "struct A;", "struct"))) + 4 + 20
        said = f"\n{count} texts of 4 sources, 0 wrong answers, without proofs\n"
        self.assertIn(said, self.expect_passes(*CALL))
        self.prove("facet_solver_tests", self.top / CRATE / "program")
        said = f"\n{count} texts of 4 sources, 0 wrong answers, by the proved program\n"
        self.assertIn(said, self.expect_passes(*CALL))

    def test_a_wrong_answer(self):
        self.write(TYPES, "struct wrong;\n")
        self.expect_both("accepted, and refused once printed: 'struct wrong'")

    def test_an_answer_that_there_is_not(self):
        self.edit(f"{CRATE}/program", '"p" if', '"?" if')
        self.write(TYPES, "struct wrong;\n")
        self.expect_both("KeyError: '?'")

    def test_a_text_without_an_answer(self):
        self.edit(f"{CRATE}/program", "letters))", "letters[1:]))")
        self.expect_both("types: no end of ", status=2)

    def test_a_status(self):
        self.edit(f"{CRATE}/program", "sys.exit(0)", "sys.exit(3)")
        self.expect_both("types: no end of ", status=2)

    def test_a_run_that_does_not_end(self):
        self.edit(f"{CRATE}/program", "print(0, 100)", "")
        self.expect_both("types: no end of ", status=2)

    def test_no_texts(self):
        self.remove(TYPES, "examples/faults/f.rs", f"{CRATE}/data/some.txt")
        self.expect_told(CALL, "types: there is no text of types", status=2)

    def test_rt_is_missing(self):
        self.only_path()
        self.remove("../kit/bin/rt")
        self.expect_told(CALL, "rt is missing", status=2)
