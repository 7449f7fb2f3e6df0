"""Tests of bench/run: two checkouts whose answers differ, and a comparison of nothing."""

from .scratch import Repository

PROGRAM = """#!/bin/sh
echo "$1 $2"
echo "text $1 1"
"""
OLD, NEW = "old/crates/a/out/a", "new/crates/a/out/a"
CALL = ("bench/run", "old", "new")


class Run(Repository):
    FILES = {
        "bench/workloads.txt": "first a first SEED\nsecond a <given.json\n",
        "bench/given.json": "ok\n",
        OLD: PROGRAM,
        NEW: PROGRAM,
    }

    def test_nothing_wrong(self):
        said = self.expect_passes(*CALL)
        self.assertEqual(len(said.splitlines()), 2 + 2, said)
        said = self.expect_passes("bench/run", "--only", "second", *CALL[1:], "2")
        self.assertEqual(len(said.splitlines()), 2 + 1, said)

    def test_other_answers(self):
        for file in (OLD, NEW):
            self.edit(file, '"$1 $2"', '"$1 other"')
            self.expect_told(CALL, "bench: first: the two give different answers")
            self.edit(file, '"$1 other"', '"$1 $2"')

    def test_the_table(self):
        self.edit(OLD, "#!/bin/sh\n", "#!/bin/sh\nsleep 0.2\n")
        said = self.expect_passes("bench/run", "--only", "first", *CALL[1:])
        old, new, ratio = map(float, said.splitlines()[-1].split("|")[2:5])
        self.assertGreaterEqual(old, 0.2)
        self.assertEqual(ratio > 1, old > new, said)

    def test_other_words_of_errors(self):
        self.edit(NEW, "text $1 1", "text $1 2")
        self.assertIn("the words of errors differ: first", self.expect_passes(*CALL))
        self.edit(NEW, 'echo "text $1 2"', "")
        self.assertIn("the words of errors differ: first", self.expect_passes(*CALL))

    def test_answers_that_change_by_turns(self):
        """Whichever of the runs it is that has another answer."""
        for file in (OLD, NEW):
            for run in (2, 3, 7):
                with self.subTest(file=file, run=run):
                    count = f'echo >>"$0.runs"; [ $(wc -l <"$0.runs") = {run} ] && echo other\n'
                    self.edit(file, "#!/bin/sh\n", f"#!/bin/sh\n{count}")
                    self.expect_told(CALL, "bench: first: the two give different answers")
                    self.edit(file, count, "")
                    self.remove(f"{file}.runs")

    def test_a_status_and_nothing_written(self):
        for file in (OLD, NEW):
            for text in (f"{PROGRAM}exit 3\n", "#!/bin/sh\n", '#!/bin/sh\necho "text a 1"\n'):
                with self.subTest(file=file, text=text):
                    self.write(file, text, mode=0o755)
                    self.expect_told(CALL, "out/a first 1 ended with status")
            self.write(file, PROGRAM, mode=0o755)

    def test_a_program_that_is_not_built(self):
        for file in (OLD, NEW):
            self.remove(file)
            self.expect_told(CALL, "is not built")
            self.write(file, PROGRAM, mode=0o755)

    def test_a_workload_that_there_is_not(self):
        call = ("bench/run", "--only", "first", "--only", "third", "old", "new")
        self.expect_told(call, "bench: there is no workload third")

    def test_lists_that_are_empty_wrong_or_missing(self):
        for text in ("", "\n", "first\n", "first a 1\nfirst a 2\n"):
            self.write("bench/workloads.txt", text)
            self.expect_told(CALL, "bench: workloads.txt has no line, a wrong one, or a name twice")
        self.remove("bench/workloads.txt")
        self.expect_told(CALL, "workloads.txt'")

    def test_an_input_that_is_missing(self):
        self.remove("bench/given.json")
        self.expect_told(CALL, "given.json'")
