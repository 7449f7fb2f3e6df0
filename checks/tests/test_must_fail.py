"""Tests of must-fail/run: an edit that its clause does not refuse, and an edit that is gone."""

from .scratch import Repository

SOURCE = "fn first: right\nfn second: right\n// end\n"
FIRST = "must-fail/a/first_is_wrong.edit"
SECOND = "must-fail/a/second_is_wrong.edit"
EDIT = "refused: {0}\nclause: sum\nfile: src/lib.rt\nold: fn {0}: right\nnew: fn {0}: {1}\n"
WRONG = "wrong returns-clause-sum"
LIST = "a first_is_wrong first sum\na second_is_wrong second sum\n"
CALL = ("must-fail/run",)


class MustFail(Repository):
    FILES = {
        "crates.txt": "a:\n",
        "crates/a/src/lib.rt": SOURCE,
        FIRST: EDIT.format("first", WRONG),
        SECOND: EDIT.format("second", WRONG),
        "must-fail/list.txt": LIST,
    }

    def test_nothing_wrong(self):
        said = self.expect_passes(*CALL)
        self.assertIn("a: first_is_wrong: refused by sum of first", said)
        self.assertTrue(said.endswith("\n2 edits refused\n"), said)

    def test_an_edit_that_is_not_refused(self):
        bodies = {
            "weak": "it is proved",
            "wrong returns-clause-other": "not proved: returns-clause-other",
            "wrong loop-sum-init": "not proved: loop-sum-init",
            "wrong index-in-range": "not proved: index-in-range",
            f"{WRONG} index-in-range": "not proved: returns-clause-sum, index-in-range",
            "nothing that is read": "not proved: nothing is said of it",
        }
        for body, told in bodies.items():
            with self.subTest(body=body):
                self.write(SECOND, EDIT.format("second", body))
                text = f"a: second_is_wrong: not refused by sum of second: {told}"
                self.expect_told(CALL, text, "\n1 edits refused")

    def test_an_edit_whose_function_waits_for_none(self):
        self.write(SECOND, EDIT.format("second", "calls third"))
        self.expect_told(CALL, "a: second_is_wrong: not refused by sum of second")

    def test_an_edit_that_waits_for_another(self):
        self.write(SECOND, EDIT.format("first", WRONG))
        self.write("must-fail/list.txt", LIST.replace("second sum", "first sum"))
        self.assertIn("\n2 edits refused\n", self.expect_passes(*CALL))

    def test_an_edit_that_cannot_be_applied(self):
        for old in ("fn third: right", "fn", "right"):
            with self.subTest(old=old):
                self.write(SECOND, EDIT.format("second", WRONG).replace("fn second: right", old))
                self.expect_told(CALL, "second_is_wrong: an old text does not stand", "\n0 edits")

    def test_an_edit_of_a_file_that_is_not_there(self):
        self.edit(SECOND, "src/lib.rt", "src/other.rt")
        self.expect_told(CALL, "second_is_wrong: an old text does not stand")

    def test_an_edit_that_changes_nothing(self):
        self.edit(SECOND, f"new: fn second: {WRONG}", "new: fn second: right")
        self.expect_told(CALL, "second_is_wrong: not refused by sum of second: it is proved")

    def test_a_function_that_is_not_proved_without_edits(self):
        self.edit("crates/a/src/lib.rt", "fn first: right", "fn first: wrong returns-clause-sum")
        self.edit(FIRST, "first: right", "first: wrong returns-clause-sum")
        self.expect_told(CALL, "a without edits: not all of these functions are proved")

    def test_a_proof_of_nothing(self):
        self.edit("../kit/bin/rt", "        if said:", "        if said and function != 'first':")
        self.expect_told(CALL, "a without edits: not all of these functions are proved")

    def test_a_missing_edit(self):
        self.remove(SECOND)
        gone = "in list.txt, but no such edit is there: a second_is_wrong second sum"
        self.expect_told(CALL, gone, "\n0 edits refused")
        self.write("must-fail/b/second_is_wrong.edit", EDIT.format("second", WRONG))
        self.expect_told(CALL, gone, "not in list.txt: b second_is_wrong second sum")

    def test_a_new_edit(self):
        self.write("must-fail/a/third.edit", EDIT.format("second", WRONG))
        self.expect_told(CALL, "not in list.txt: a third second sum", "\n0 edits refused")

    def test_a_list_that_is_missing_or_empty(self):
        self.remove("must-fail/list.txt")
        self.expect_told(CALL, "there are no edits", "not in list.txt: a first_is_wrong")
        self.remove(FIRST, SECOND)
        self.write("must-fail/list.txt", "")
        self.expect_told(CALL, "there are no edits", "0 edits refused")

    def test_an_edit_with_an_odd_line(self):
        for line in ("clauses: sum", "new: twice", "old: without a new text"):
            with self.subTest(line=line):
                self.write(SECOND, EDIT.format("second", WRONG) + f"{line}\n")
                self.expect_told(CALL, f"second sum: an odd line: {line}", "\n0 edits refused")

    def test_an_edit_without_a_clause(self):
        self.edit(SECOND, "clause: sum\n", "")
        self.expect_told(CALL, "`refused:` or `clause:` is missing")

    def test_a_crate_without_edits(self):
        self.write("crates.txt", "a:\nb: a\n")
        self.expect_told((*CALL, "b"), "b: there are no edits")
        self.expect_told((*CALL, "c"), "usage: must-fail/run", status=2)
