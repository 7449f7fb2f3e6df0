"""Tests of the part `inputs` of test, and of `readme`, which shows some of them."""

from .scratch import Repository

CRATE = "crates/facet_solver_program"
# It answers an input that is the word `ok`.
PROGRAM = """#!/bin/sh
read -r word
[ "$word" = ok ] || { echo bad input; exit 4; }
echo resolved 0
"""
INPUT = "examples/a/one.json"
END = "examples/a/one.end"
TYPES = "examples/a/types.rs"
DOCUMENT = "examples/a/documents/some.json"
README = f"""
    $ ./solve < {INPUT}
    resolved 0

    $ ./facet-read read {TYPES} < {DOCUMENT}
    a: 1
"""
CALL = ("./test", "inputs")
SHOW = ("./test", "readme")


class Inputs(Repository):
    FILES = {
        f"{CRATE}/program": PROGRAM,
        f"{CRATE}/stdin": "ok\n",
        f"{CRATE}/stdout": "resolved 0\n",
        INPUT: "ok\n",
        END: "0\nresolved 0\n",
        "sweep/inputs/rows/bad.json": "no\n",
        "sweep/inputs/rows/bad.end": "4\nbad input\n",
        "bench/program_small.json": "ok\n",
        "bench/workloads.txt": "program a <program_small.json\n",
        "bench/costs.txt": "program: a <program_small.json\n",
        "bench/outputs.txt": "== program\nresolved 0\n",
        TYPES: "struct S;\n",
        DOCUMENT: '{"a": 1}\n',
        "examples/a/documents/some.end": "0\na: 1\n",
        "README.md": README,
        "checks/totals.txt": "inputs of the program: 4\ncommands in README.md: 2\n",
    }

    def test_nothing_wrong(self):
        self.assertIn("8 passed, 0 failed", self.expect_passes("./test", "inputs", "readme"))

    def test_another_output(self):
        ends = {
            "examples/a/one.end": ("resolved 0", "resolved 1"),
            "sweep/inputs/rows/bad.end": ("bad input\n", "bad input"),
            f"{CRATE}/stdout": ("0", "1"),
            "bench/outputs.txt": ("0", "1"),
        }
        for file, (old, new) in ends.items():
            self.edit(file, old, new)
        _, said = self.call(*CALL)
        self.assertEqual(said.count("came:   run=ended status=0 output=differs"), 3, said)
        self.assertEqual(said.count("came:   run=ended status=4 output=differs"), 1, said)

    def test_another_status(self):
        self.edit("sweep/inputs/rows/bad.end", "4\n", "5\n")
        self.expect_told(CALL, "wanted: run=ended status=5 output=expected")

    def test_a_missing_end(self):
        self.remove(END)
        self.expect_told(CALL, f"{END}'")

    def test_a_missing_input_whose_end_is_gone_too(self):
        self.remove(INPUT, END)
        self.expect_told(CALL, "the number of inputs of the program\n  wanted: 4\n  came:   3")

    def test_an_input_that_is_not_run(self):
        self.edit("../kit/bin/rt", "case=", "other=")
        self.expect_told(CALL, "failed: 4 inputs\n  wanted: runs\n  came:   status 0")

    def test_another_line_in_readme(self):
        self.edit("README.md", "resolved 0", "resolved 1")
        self.edit("README.md", "a: 1", "a: 2")
        self.expect_told(SHOW, f"./solve < {INPUT}", f"./facet-read read {TYPES} < {DOCUMENT}")

    def test_a_command_in_readme_that_would_be_passed_over(self):
        self.edit("README.md", "    $ ./solve", "    $ ./solve < other\n\n    $ ./solve")
        self.expect_told(SHOW, "failed: README.md: ./solve < other")

    def test_a_command_that_readme_shows_no_more(self):
        self.edit("README.md", "    resolved 0\n", "")
        self.expect_told(SHOW, "a command `./solve < FILE`", "the number of commands in README.md")
        self.write("README.md", "")
        self.expect_told(SHOW, "a command `./facet-read read TYPES < FILE`")

    def test_a_command_in_readme_without_a_stored_end(self):
        self.edit("README.md", INPUT, "examples/a/none.json")
        self.edit("README.md", DOCUMENT, "examples/a/documents/none.json")
        self.expect_told(SHOW, "came:   no stored end", "came:   ('no stored end', '')")
