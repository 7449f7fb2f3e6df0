"""Tests of sweep/ambiguities: what is told too much, what is missed, and answers that are none."""

import unittest

from .scratch import Repository

TOOL = "facet_solver_tool"
# It stands in for the tool: {"a": 0} is read by V and W, and no other document in several ways. A
# test puts a fault before it answers.
PROGRAM = r"""#!/usr/bin/env python3
import json
import sys

several = ["V", "W"]
shown = '{"a": 0}'
told = {"owner": "E", "field": "", "variants": ["E::V", "E::W"]}
told |= {"document": json.loads(shown), "path": [], "ignored": []}
told, status, documents = [told], 2, sys.stdin.read().splitlines()
FAULT
if sys.argv[1] == "check":
    for line in ({"root": "E"}, *told):
        print(json.dumps(line), file=sys.stderr if status else sys.stdout)
    sys.exit(status)
error = {"status": 2, "error": f"the document: several variants fit: {', '.join(several)}"}
for document in documents:
    print(json.dumps(error if document == shown else {"reading": None}))
sys.exit(2)
"""
CALL = ("sweep/ambiguities", "1")
STORED = "sweep/ambiguities.txt"
KIND = "types_0.rs: small: "
# A fault, and what is told of it.
FAULTS = {
    "told, status = [], 0": 'it does not tell V and W, which both read {"a": 0}',
    "told[0]['variants'].append('E::X'); several.append('Y')": "it does not tell V and Y, which",
    "told[0]['document'] = {'b': 0}": 'it shows {"b": 0}, which has not several readings',
    "status = 0": "check ends with status 0, and 2 follows from what it tells",
    "status = 6": "check ends with status 6, and 2 follows from what it tells",
    "told, status = [told[0] | {'document': None}], 2": "it shows null, which has not several",
    "status = 70": "no answer: check ends with status 70",
    "documents.pop() if documents else None": " documents: ",
    "told = [{'variants': []}]": "check ends with status 2, and 6 follows",
    "print('none', file=sys.stderr)": "no answer: ",
}
NO_OTHERS = "told = [{'owner': 'E', 'variants': ['V', 'W'], 'maybe': 'steps'}]; status = 6"


class Ambiguities(Repository):
    FILES = {"crates.txt": f"{TOOL}:\n", STORED: ""}

    def setUp(self):
        super().setUp()
        self.edit("sweep/ambiguities", "TYPES = 400", "TYPES = 5")
        self.use_program()

    def use_program(self, fault=""):
        self.write("program", PROGRAM.replace("FAULT", fault), mode=0o755)
        self.prove(TOOL, self.top / "program")

    def test_nothing_wrong(self):
        said = self.expect_passes(*CALL)
        small = "1 types, 0 refused, 0 certain, 1 ambiguities, 0 may be, 1 documents"
        self.assertIn(f"small --strict: {small}", said)
        self.assertEqual(said.splitlines()[-1], "1 types, 0 wrong")

    def test_what_may_be_covers_its_variants(self):
        self.use_program(NO_OTHERS)
        self.assertIn("1 may be", self.expect_passes(*CALL))

    def test_refused_types(self):
        self.use_program("status = 3")
        self.assertIn("1 refused", self.expect_passes(*CALL))

    def test_faults(self):
        for fault, told in FAULTS.items():
            with self.subTest(fault=fault):
                self.use_program(fault)
                self.expect_told(CALL, KIND, told, "1 types, 1 wrong")

    def test_counts_are_stored(self):
        self.expect_told(CALL[:1], f"{STORED} has other lines", "5 types, 0 wrong")
        self.assertEqual(self.call(*CALL[:1], "--write")[0], 0)
        self.expect_passes(*CALL[:1])

    def test_program_that_is_not_proved(self):
        self.write("crates.txt", f"{TOOL}: more\nmore:\n")
        self.expect_told(CALL, "facet-read --prove", status=2)

    def test_wrong_arguments(self):
        for words in (("1", "2"), ("--all",), ("-1",)):
            self.expect_told((*CALL[:1], *words), "usage: sweep/ambiguities")


if __name__ == "__main__":
    unittest.main()
