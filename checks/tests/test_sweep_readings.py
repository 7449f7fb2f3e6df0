"""Tests of sweep/readings: other answers, answers that are no JSON, and a digest less."""

import unittest

from sweep.lines import count_of

from .scratch import Repository

TOOL = "facet_solver_tool"
# It stands in for the tool: each document is read as what it says, and no value has variants. A
# test puts a fault before the answers are counted, and one behind that.
PROGRAM = r"""#!/usr/bin/env python3
import json
import sys

sys.path.insert(0, "TOP")
from launch.read_back import BAD, document_of
from sweep.lines import count_of


def answer(document):
    if document_of(document) is BAD:
        return '{"status": 4, "error": "a bad document"}'
    return '{"reading": ' + document + "}"


is_strict = "--strict" in sys.argv
documents = sys.stdin.buffer.read().decode().split("\n")[:-1]
answers = [answer(it) for it in documents]
FAULT
status, count = count_of(answers)
BEHIND
sys.stdout.buffer.write("".join(f"{it}\n" for it in answers).encode())
sys.stderr.buffer.write(count)
sys.exit(status)
"""
DIGESTS, ODD = "sweep/digests.txt", "sweep/odd_digests.txt"
CALL = ("sweep/readings",)
FEW = (*CALL, "1")
FILES = "types_0.rs, documents_0.jsonl: "
# What the first three answers may be, each with what is told of it.
WRONG = (
    {
        '{"reading": 1': "line 1: no answer: ",
        '{"reading": 1, "reading": 1}': "line 2: no answer: a name stands twice",
        '{"reading": NaN}': "line 3: no answer: NaN is no number of JSON",
    },
    {
        '{"reading": 1, "more": 1}': "line 1: no answer: it is neither a reading nor a status",
        '{"status": 3, "error": "no"}': "line 2: no answer: it is neither a reading nor a status",
        '{"status": 1, "error": 2}': "line 3: no answer: it is neither a reading nor a status",
    },
    {
        '{"status": 4, "error": "no"}': "line 1: status 4, and Python takes the document",
        '{"reading": {"no": 1}}': "line 2: the reading is another value than the document",
        "[]": "line 3: no answer: it is neither a reading nor a status",
    },
)
# What all of an answer may be.
ENDS = {
    ("answers.pop()", ""): "19 answers to 20 documents",
    ("answers.clear()", ""): "nothing is answered, with status 0",
    ("", "status += 1"): "do not follow from the answers",
    ("", "count = count[1:]"): "do not follow from the answers",
}


class Counts(unittest.TestCase):
    """The end of `--lines`, as examples/README.md has it."""

    def test_the_first_of_5_4_2_and_1_counts(self):
        ends = {(0,): 0, (0, 1): 1, (1, 2): 2, (2, 1, 0): 2, (2, 4, 1): 4, (4, 5, 0): 5}
        for statuses, wanted in ends.items():
            lines = [f'{{"status": {it}}}' if it else '{"reading": 1}' for it in statuses]
            self.assertEqual(count_of(lines)[0], wanted, statuses)


class Readings(Repository):
    FILES = {"crates.txt": f"{TOOL}:\n", DIGESTS: "0\n", ODD: "0\n"}

    def setUp(self):
        super().setUp()
        self.edit("sweep/made_up.py", "DOCUMENTS = 1_000", "DOCUMENTS = 20")
        self.edit("sweep/odd.py", "DOCUMENTS = 100", "DOCUMENTS = 20")
        self.use_program()

    def use_program(self, fault="", behind=""):
        text = PROGRAM.replace("TOP", str(self.top))
        text = text.replace("FAULT", fault).replace("BEHIND", behind)
        self.write("program", text, mode=0o755)
        self.prove(TOOL, self.top / "program")

    def store(self, plain_ones=1, odd_ones=1):
        return self.call(*CALL, "--write", str(plain_ones), str(odd_ones))

    def test_nothing_wrong(self):
        status, said = self.store(1, 23)  # As many as reach all kinds.
        self.assertEqual(status, 0, said)
        said = self.expect_passes(*CALL)
        self.assertRegex(said.splitlines()[-1], r"^24 types, .*0: \d+, 4: \d+; 0 types differ$")
        self.assertRegex(said, r"(?m)^\| 128 levels \| [1-9]\d* \| [1-9]\d* \|$")

    def test_other_answers(self):
        self.store()
        self.use_program("answers[0] = '{\"status\": 1, \"error\": \"no\"}'")
        told = f"{FILES}their digest is another one", "types_odd_0.rs", "; 2 types differ"
        self.expect_told(FEW, *told)

    def test_wrong_answers(self):
        for lines in WRONG:
            self.use_program(behind=f"answers[:3] = {[*lines]}")
            told = [f"{FILES}{told}" for told in lines.values()]
            self.expect_told(FEW, *told, "types_odd_0.rs", "; 2 types differ")

    def test_answers_that_are_missing_and_other_ends(self):
        for fault, told in ENDS.items():
            with self.subTest(fault=fault):
                self.use_program(*fault)
                self.expect_told(FEW, told, "; 2 types differ")

    def test_a_member_that_is_lost(self):
        """Without `--strict` nothing may take it, and so it may be missing."""
        empty = """answers = ['{"reading": {}}' if '{"reading": {' in it else it for it in answers]"""
        self.use_program(empty)
        status, said = self.store()
        self.assertEqual(status, 1, said)
        self.assertNotIn(FILES, said)
        self.assertIn("types_odd_0.rs, documents_odd_0.jsonl: line ", said)
        self.assertIn("the reading is another value than the document", said)

    def test_other_variants_with_strict(self):
        variants = '{"reading": {"variants": {"": "E::A"}, "value": '
        other = f"""it.replace('{{"reading": ', '{variants}') + "}}" if "reading" in it[:12] else it"""
        self.use_program(f"answers = [{other} for it in answers] if is_strict else answers")
        self.expect_told(FEW, "with --strict a document is read as another value")

    def test_bad_documents_that_are_read(self):
        self.use_program("answers = ['{\"reading\": ' + it + '}' for it in documents]")
        self.write(ODD, "0\n" * 6)
        self.expect_told(CALL, "and Python refuses the document")

    def test_a_digest_less_or_none(self):
        self.store(2, 1)
        self.write(DIGESTS, (self.top / DIGESTS).read_text().splitlines()[0] + "\n")
        self.assertIn("\n2 types, ", self.call(*CALL)[1])
        self.expect_told((*CALL, "2"), "there is no digest of 1 to compare with", status=2)
        for file in (DIGESTS, ODD):
            text = (self.top / file).read_text()
            self.write(file, "")
            self.expect_told(CALL, "there is no digest of ", status=2)
            self.remove(file)
            self.expect_told(CALL, f"{file}'")
            self.write(file, text)

    def test_a_kind_that_is_never_read(self):
        self.store()
        self.expect_told(CALL, "no document that is read has this: 128 levels", "0 types differ")

    def test_a_program_that_fails_or_is_not_proved(self):
        self.use_program("sys.exit(9)")
        self.expect_told(CALL, "types_0.rs: status 9", status=2)
        self.write("crates.txt", f"{TOOL}: json\n")
        self.expect_told(CALL, "./facet-read --prove proves", status=2)
