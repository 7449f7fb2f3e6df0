"""Tests of the parts `workloads` and `start` of test."""

from .scratch import Repository

CRATE = "crates/facet_solver_workloads"
PROGRAM = """#!/bin/sh
[ "$*" = "first 1 second 2" ] || exit 64
printf 'first\\na 1\\ntext a 2\\n\\nsecond\\nb 1\\n'
"""
SOLVES = "#!/bin/sh\necho resolved 0\n"
CALL = ("./test", "workloads")
START = ("./test", "start")
PERSON = ("-c", "user.name=a", "-c", "user.email=a@b.c")


class Workloads(Repository):
    FILES = {
        f"{CRATE}/program": PROGRAM,
        f"{CRATE}/args": "first 1\nsecond 2\n",
        f"{CRATE}/stdout": "first\na 1\ntext a 2\n\nsecond\nb 1\n",
        "crates/facet_solver_program/program": SOLVES,
        "crates.txt": "facet_solver_program:\nfacet_solver_workloads: json\n",
        "bench/program_small.json": "ok\n",
        "bench/workloads.txt": "program a <program_small.json\n",
        "bench/costs.txt": "program: a <program_small.json\n",
        "bench/outputs.txt": "== program\nresolved 0\n",
        "docs/PERF.md": "no start yet\n",
        "checks/totals.txt": "small workloads: 2\n",
    }

    def begin(self):
        """Makes of the files a first commit, which is the start."""
        for words in (("init", "--quiet"), ("add", "."), (*PERSON, "commit", "-qm", "a start")):
            self.expect_passes("git", *words)
        commit = self.expect_passes("git", "rev-parse", "HEAD").strip()
        self.write("docs/PERF.md", f"The start is commit {commit}: more.\n")

    def test_nothing_wrong(self):
        self.assertIn("4 passed, 0 failed", self.expect_passes(*CALL))
        self.begin()
        self.assertIn("6 passed, 0 failed", self.expect_passes(*START))

    def test_other_answers(self):
        self.edit(f"{CRATE}/program", "a 1", "a 2")
        self.expect_told(CALL, "failed: workload first in")

    def test_other_words_of_errors(self):
        self.edit(f"{CRATE}/program", "text a 2", "text a 3")
        self.expect_told(CALL, "failed: workload first in")

    def test_a_missing_workload_and_a_new_one(self):
        self.edit(f"{CRATE}/stdout", "second", "third")
        told = "wanted: third\nb 1\n\n  came:   None", "wanted: None\n  came:   second"
        self.expect_told(CALL, *told)

    def test_a_workload_twice(self):
        self.edit(f"{CRATE}/program", "second\\n", "first\\na 2\\n\\nsecond\\n")
        self.expect_told(CALL, "failed: workload first in")

    def test_a_status(self):
        self.edit(f"{CRATE}/program", "b 1\\n'", "b 1\\n'; exit 1")
        self.expect_told(CALL, "failed: the workloads in", "came:   status 1")

    def test_nothing_stored_and_nothing_written(self):
        self.write(f"{CRATE}/stdout", "")
        self.write(f"{CRATE}/program", "#!/bin/sh\n", mode=0o755)
        self.store_totals(small_workloads=0)
        self.expect_told(CALL, "failed: the number of small workloads")

    def test_other_answers_at_the_start(self):
        self.edit("crates/facet_solver_program/program", "0", "1")
        self.begin()
        self.edit("crates/facet_solver_program/program", "1", "0")
        self.expect_told(START, "failed: workload program at the start", "resolved 1")

    def test_a_start_that_is_not_there(self):
        self.begin()
        self.write("docs/PERF.md", f"The start is commit {'0' * 40}: more.\n")
        self.expect_told(START, "failed: bench/lay")
        self.write("docs/PERF.md", "There is no start.\n")
        self.expect_told(START, "failed: the part start")

    def test_without_the_earlier_states(self):
        said = self.expect_passes(*START)
        self.assertIn("not compared: the answers at the start, since this is no clone", said)
        self.begin()
        self.expect_passes("git", "clone", "--quiet", "--depth", "1", f"file://{self.top}", "other")
        said = self.expect_passes("other/test", "start")
        self.assertIn("not compared: the answers at the start, since this is a shallow", said)

    def test_git_is_missing(self):
        self.begin()
        self.write("../kit/bin/git", "#!/bin/sh\nexit 1\n", mode=0o755)
        self.expect_told(START, "failed: bench/lay")
