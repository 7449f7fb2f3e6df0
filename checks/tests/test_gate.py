"""Tests of the steps of `./test --all`: each that fails, or looks at less, is told."""

from .scratch import TOP, Repository

# Each step that another script makes: its name, the script, and its last line where all is well.
STEPS = {
    "solve": ("sweep/solve", "9 calls of ./solve and ./facet-read, 0 faults"),
    "edits": ("must-fail/run", "83 edits refused"),
    "types": ("sweep/types", "7 texts of 3 sources, 0 wrong answers, by the proved program"),
    "readings": ("sweep/readings", "220 types, documents by status: 0: 9; 0 types differ"),
    "ambiguities": ("sweep/ambiguities", "300 types, 0 wrong"),
    "sizes": ("sweep/sizes", "60 sizes, 0 faults"),
    "costs": ("bench/costs", "13 runs compared, 0 differ"),
    "sweep": ("sweep/run", "596 sweeps, 99 runs, 9 requests refused, 0 faults"),
}
# Lines that say that less was looked at, or that something is wrong, also where the status is 0.
OTHERS = (
    {
        "solve": "0 calls of ./solve and ./facet-read, 0 faults",
        "edits": "82 edits refused",
        "types": "7 texts of 2 sources, 0 wrong answers, by the proved program",
        "readings": "219 types, documents by status: 0: 9; 0 types differ",
        "ambiguities": "299 types, 0 wrong",
        "sizes": "59 sizes, 0 faults",
        "costs": "12 runs compared, 0 differ",
        "sweep": "595 sweeps, 99 runs, 9 requests refused, 0 faults",
    },
    {
        "solve": "9 calls of ./solve and ./facet-read, 1 faults",
        "edits": "0 edits refused",
        "types": "7 texts of 3 sources, 0 wrong answers, without proofs",
        "readings": "0 types, documents by status: ; 0 types differ",
        "ambiguities": "300 types, 1 wrong",
        "sizes": "60 sizes, 1 faults",
        "costs": "13 runs compared, 1 differ",
        "sweep": "596 sweeps, 0 runs, 9 requests refused, 0 faults",
    },
    {
        "types": "7 texts of 3 sources, 1 wrong answers, by the proved program",
        "readings": "220 types, documents by status: 0: 9; 1 types differ",
        "sweep": "596 sweeps, 99 runs, 0 requests refused, 0 faults",
    },
    {
        "edits": "some edits refused",
        "sizes": "0 sizes, 0 faults",
        "sweep": "596 sweeps, 99 runs, 9 requests refused, 1 faults",
    },
    {step: "" for step in STEPS},
    # More than is stored is told too.
    {
        "edits": "84 edits refused",
        "types": "7 texts of 4 sources, 0 wrong answers, by the proved program",
        "readings": "221 types, documents by status: 0: 9; 0 types differ",
        "ambiguities": "301 types, 0 wrong",
        "costs": "14 runs compared, 0 differ",
        "sweep": "597 sweeps, 99 runs, 9 requests refused, 0 faults",
    },
)
# What each step counts, by its name in the stored totals.
KINDS = {"edits": "edits that must fail", "types": "texts of types", "solve": "calls"}
KINDS |= {"readings": "digests of readings", "costs": "costs", "sweep": "sweeps"}
KINDS |= {"sizes": "sizes", "ambiguities": "types that are checked"}
# The parts, by the words before their names.
PARTS = {
    (): "totals surfaces quotes statuses examples scripts readme transcripts inputs questions "
    "workloads start types",
    ("--all",): "totals surfaces quotes statuses examples scripts solve ci edits proved readme "
    "questions types readings ambiguities sizes costs start sweep",
}
TOTALS = {"edits_that_must_fail": 83, "texts_of_types": 3, "digests_of_readings": 220}
TOTALS |= {"costs": 13, "sizes": 60, "sweeps": 596, "types_that_are_checked": 300}


class Gate(Repository):
    FILES = {"crates.txt": "a:\nb:\n", "crates/a/src/lib.rt": "", "crates/b/src/lib.rt": ""}

    def setUp(self):
        super().setUp()
        self.store_totals(**TOTALS)

    def says(self, script, line, status=0):
        """Has a script say a line, and end with a status."""
        self.write(script, f"#!/bin/sh\necho some\necho '{line}'\nexit {status}\n", mode=0o755)

    def all_well(self):
        for script, line in STEPS.values():
            self.says(script, line)

    def test_nothing_wrong(self):
        self.all_well()
        said = self.expect_passes("./test", "--all", *STEPS)
        self.assertIn(f"{83 + 1 + 1 + 2 * 6} passed, 0 failed", said)

    def test_a_step_that_fails(self):
        for script, line in STEPS.values():
            self.says(script, line, status=1)
        texts = [f"failed: {script}" for script, _ in STEPS.values()]
        self.expect_told(("./test", "--all", *STEPS), *texts, f"passed, {len(STEPS)} failed")

    def test_a_step_that_cannot_be_started(self):
        self.remove(*(script for script, _ in STEPS.values()))
        self.expect_told(("./test", "--all", *STEPS), *(script for script, _ in STEPS.values()))

    def test_a_step_that_looks_at_less(self):
        for lines in OTHERS:
            for step, line in lines.items():
                self.says(STEPS[step][0], line)
            status, said = self.call("./test", "--all", *lines)
            self.assertEqual(status, 1, said)
            for step, line in lines.items():
                names = STEPS[step][0], f"the end of {STEPS[step][0]}", f"the number of {KINDS[step]}"
                self.assertTrue(any(f"failed: {it}\n" in said for it in names), (line, said))

    def test_the_end_of_rt_ci(self):
        ends = {
            ("2 passed, 0 failed", 0): 0,
            ("3 passed, 0 failed", 1): 1,
            ("3 passed, 1 failed", 1): 1,
            ("1 passed, 0 failed", 0): 1,
            ("0 passed, 0 failed", 0): 1,
            ("2 passed, 0 failed (a and the crates below alone: not the gate)", 0): 1,
            ("", 0): 1,
        }
        for (line, number), status in ends.items():
            with self.subTest(line=line):
                self.environment |= {"LAST": line, "STATUS": str(number)}
                came, said = self.call("./test", "--all", "ci")
                self.assertEqual(came, status, said)

    def test_proofs_that_fail(self):
        for script in ("solve", "facet-read"):
            self.says("solve", "well")
            self.says("facet-read", "well")
            self.assertIn("2 passed", self.expect_passes("./test", "--all", "proved"))
            self.says(script, "not proved", status=70)
            self.expect_told(("./test", "--all", "proved"), f"failed: ./{script} --prove")

    def test_what_is_not_compared_is_told(self):
        self.write("examples/check", "#!/bin/sh\necho 'not compared: why'\n", mode=0o755)
        said = self.expect_passes("./test", "examples")
        self.assertTrue(said.splitlines()[0] == "not compared: why", said)
        self.says("bench/costs", "not compared: why\n13 runs compared, 0 differ")
        said = self.expect_passes("./test", "--all", "costs")
        self.assertIn("not compared: why\nall of it took", said)

    def test_a_part_with_a_fault(self):
        self.edit("test", "QUICK = {", 'QUICK = {"wrong": lambda: 1 // 0, "none": Outcome,')
        told = "failed: the part wrong", "ZeroDivisionError", "0 passed, 2 failed"
        self.expect_told(("./test", "wrong", "none"), "failed: the part none", *told)

    def test_a_part_that_there_is_not(self):
        for words in (["other"], ["--al"], ["--all", "other"], ["totals", "--all"]):
            self.expect_told(("./test", *words), "usage: ./test [--all] [PART ..]")


class Nothing(Repository):
    """A repository that has the scripts alone: no part may pass there."""

    FILES = {"../kit/bin/rustc": "#!/bin/sh\nexit 1\n"}

    def test_each_part_fails(self):
        (self.top / ".git").mkdir()  # Otherwise the start would not be compared.
        for words, parts in PARTS.items():
            for part in parts.split():
                with self.subTest(words=words, part=part):
                    self.expect_told(("./test", *words, part), "failed: ")

    def test_no_part_is_left_out(self):
        for words, parts in PARTS.items():
            told = f"the parts are {', '.join(parts.split())}\n"
            self.expect_told(("./test", *words, "other"), told)


class Merge(Repository):
    """`.ci/run`, which is what a merge waits for."""

    def setUp(self):
        super().setUp()
        self.write(".ci/run", (TOP / ".ci/run").read_text(), mode=0o755)
        self.write("test", '#!/bin/sh\necho "test $*"\nexit 3\n', mode=0o755)

    def test_its_status_is_that_of_the_gate(self):
        self.expect_told([".ci/run"], "test --all", status=3)
        self.expect_told(["sh", "-c", "cd / && $OLDPWD/.ci/run"], "test --all", status=3)

    def test_valgrind_cannot_be_installed(self):
        self.only_path("sh", "dirname", "timeout")
        self.write("../kit/bin/apt-get", "#!/bin/sh\nexit 1\n", mode=0o755)
        self.expect_told([".ci/run"], "test --all", status=3)

    def test_the_gate_is_missing(self):
        self.remove("test")
        status, said = self.call(".ci/run")
        self.assertNotEqual(status, 0, said)
