"""Tests of checks/totals: a number that fell, a file that no check looks at."""

from .scratch import Repository

TESTS, TOOL = "crates/facet_solver_tests", "crates/facet_solver_tool"
DATA = f"{TESTS}/data/some.txt"
A = "examples/a/documents"
TOTALS = "checks/totals.txt"
CALL = ("checks/totals",)
LINE = "transcripts: 3\n"
CHECK = "./facet-read check examples/a/types.rs"


class Totals(Repository):
    FILES = {
        TOTALS: "",
        "README.md": "    $ ./solve < one.json\n    resolved 0\n\n```rust\nfn a() {}\n```\n",
        f"{TESTS}/args": "some.txt\nsizes.txt\nin_code\n",
        f"{TESTS}/stdout": "ok first\nok large\nok a_check\n",
        DATA: "transcript first\nstruct S { a: u8 }\n# holds at most 9 bytes\nsee a: b\n",
        f"{TESTS}/data/sizes.txt": "transcript large\nfinish:\n",
        "crates/facet_solver_program/stdin": "ok\n",
        "crates/facet_solver_program/stdout": "resolved 0\n",
        "crates/facet_solver_workloads/stdout": "first\na 1\n",
        "bench/program_small.json": "ok\n",
        "bench/workloads.txt": "program a <program_small.json\n",
        "bench/costs.txt": "program: a <program_small.json\n",
        "bench/outputs.txt": "== program\nresolved 0\n",
        "sweep/digests.txt": "00\n11\n",
        "sweep/odd_digests.txt": "33\n",
        "sweep/inputs/rows/one.json": "ok\n",
        "sweep/inputs/rows/one.end": "0\nresolved 0\n",
        "surface/a.txt": "a\n",
        "must-fail/a/edit.edit": "refused: f\nclause: c\n",
        "part/tests/__init__.py": "",
        "part/tests/test_a.py": (
            "import unittest\n\n\nclass A(unittest.TestCase):\n    def test_a(self):\n        pass\n"
        ),
        "examples/a/types.rs": "struct S;\n",
        "examples/a/check.end": "0\nroot: S\n",
        "examples/notice/types.rs": "struct S;\n",
        "examples/notice/check.end": "2\nS: A and B\n",
        "examples/notice/check_strictly.end": "0\nroot: S\n",
        "examples/notice/check.json_end": '2\n{"root": "S"}\n{"document": {"a": 1}}\n',
        "examples/calls/known": '{"owner": "S"}\n',
        "examples/calls/a.call": f"{CHECK} --accept examples/calls/known\n",
        "examples/calls/a.end": "7\n",
        "examples/c/src/a/b.rs": "struct C;\n",
        "examples/c/root": "C\n",
        "examples/c/check.end": "0\nroot: C\n",
        f"{A}/some.json": "ok\n",
        f"{A}/some.end": "0\na: 1\n",
        f"{A}/some.json_end": "0\n{}\n",
        f"{A}/two_events.jsonl": "ok\n",
        f"{A}/two_events.end": "0\n{}\n1 of 1 documents read\n",
        **{f"examples/faults/{it}.rs": "" for it in ("alias", "misspelt_type", "holds_itself")},
        **{f"examples/faults/{it}.end": "3\n" for it in ("alias", "misspelt_type", "holds_itself")},
    }

    stored = ""  # The totals of the files as they are, for all tests.

    def setUp(self):
        super().setUp()
        if not Totals.stored:
            self.expect_passes("checks/totals", "--write")
            Totals.stored = (self.top / TOTALS).read_text()
        self.write(TOTALS, self.stored)

    def expect_fewer(self, *kinds):
        texts = [f"the number of {kind}: was " for kind in kinds]
        self.expect_told(CALL, *texts, "checks/totals --write stores")

    def test_nothing_wrong(self):
        self.assertEqual(self.expect_passes(*CALL), "")
        text = (self.top / TOTALS).read_text()
        self.assertIn("questions of the examples: 13\n", text)
        self.assertIn("sweeps: 14\nsweeps that refuse requests: 10\n", text)

    def test_something_is_gone(self):
        """Each is gone with all that would tell it elsewhere."""
        gone = {
            "questions of the examples": (f"{A}/some.json", f"{A}/some.end", f"{A}/some.json_end"),
            "ends of questions": (f"{A}/some.json_end",),
            "inputs of the program": ("sweep/inputs/rows/one.json", "sweep/inputs/rows/one.end"),
            "edits that must fail": ("must-fail/a/edit.edit",),
            "surfaces": ("surface/a.txt",),
            "tests of scripts": ("part/tests/test_a.py",),
        }
        for files in gone.values():
            for file in files:
                (self.top / file).unlink(missing_ok=True)
        self.expect_fewer(*gone)

    def test_something_is_edited_away(self):
        edits = {
            "digests of readings": ("sweep/digests.txt", "11\n", ""),
            "quotes": ("README.md", "```rust", "```rs"),
            "commands in README.md": ("README.md", "    resolved 0\n", ""),
            "transcripts": (f"{TESTS}/stdout", "ok a_check\n", ""),
            "transcripts that say what a solver holds": (DATA, "# holds", "# has"),
            "sweeps that refuse requests": (f"{A}/some.end", "0\n", "4\n"),
            "small workloads": ("crates/facet_solver_workloads/stdout", "first\na 1\n", ""),
        }
        for file, old, new in edits.values():
            self.edit(file, old, new)
        self.expect_fewer(*edits)

    def test_more_is_told_too(self):
        self.edit("sweep/digests.txt", "11\n", "11\n22\n")
        self.expect_told(CALL, "the number of digests of readings: was 3, and is 4")

    def test_a_file_that_no_check_looks_at(self):
        files = [f"{A}/other.end", f"{A}/other.json_end", f"{A}/other.yaml", "examples/b/x.rs"]
        files += ["examples/c/src/a/note.txt", "examples/c/src/target/d.rs"]
        files += ["sweep/inputs/rows/other.end", "must-fail/a/b.edits", "must-fail/a/b/c.edit"]
        for file in files:
            self.write(file, "0\n")
        self.write("part/tests/a_test.py", (self.top / "part/tests/test_a.py").read_text())
        files.append("part/tests/a_test.py")
        self.expect_told(CALL, *(f"{file}: no check looks at it" for file in files))

    def test_types_that_are_gone(self):
        self.remove("examples/a/types.rs")
        self.expect_told(CALL, f"{A}/some.json: no check looks at it", "check.end: no check looks")

    def test_a_file_of_transcripts_that_is_not_read(self):
        self.edit(f"{TESTS}/args", "some.txt\n", "")
        self.expect_told(CALL, f"{DATA}: args has no line for it")

    def test_a_transcript_without_a_call(self):
        self.edit(DATA, "see a: b\n", "")
        self.expect_told(CALL, f"{DATA}: first makes no call")

    def test_a_transcript_without_a_line(self):
        self.edit(DATA, "transcript first", "transcript second\nsee a: b\ntranscript first")
        self.expect_told(CALL, "has no line for second")

    def test_stored_totals_that_are_missing_or_cut(self):
        self.write(TOTALS, (self.top / TOTALS).read_text().replace("quotes: 1\n", ""))
        self.expect_told(CALL, "the number of quotes: was not stored, and is 1")
        self.write(TOTALS, "")
        self.expect_told(CALL, "the number of transcripts: was not stored, and is 3")
        self.remove(TOTALS)
        self.expect_told(CALL, "totals.txt'")

    def test_a_number_of_none(self):
        self.remove("surface/a.txt")
        self.expect_passes("checks/totals", "--write")
        self.expect_told(CALL, "the number of surfaces: there are none")
