"""Tests of sweep/run: a leak, a wrong count of bytes, another end, a transcript that is gone."""

import pathlib
import tempfile

from .scratch import Repository, compiled

TESTS, PROGRAM, TOOL = (f"facet_solver_{it}" for it in ("tests", "program", "tool"))
MARKS = ("BEGIN: usize = 1_000_003", "NO_REQUEST: usize = 1_000_005", "HELD: usize = 1_000_007")
MARKS += ("OUT_OF_MEMORY: usize = 1_000_009",)
DATA = f"crates/{TESTS}/data/some.txt"
A = "examples/a/documents"
COUNT = '{"reading": {"a": 1}}\n1 of 1 documents read\n'
CALL = ("sweep/run",)
# Faults of the programs, with what is told of each. Those of a part are made at once.
FAULTS = (
    {
        "LEAKS": "the program on facet_solver_program/stdin: request 0: leaked 1",
        "HOLDS_MORE": "first: request 0: held 101",
        "ASKS_MORE": "in_code: request 0: asked 1 where none is needed",
        "IS_SILENT": "the program on inputs/bad.json: request 1: status 5, output '', errors ''",
        "ENDS_OTHERWISE": "the tool: read examples/a/types.rs < some.json: request 0: status 2",
    },
    {
        "SAYS_SO": "first: request 0: out of memory without a refusal",
        "IS_CUT": "the program on facet_solver_program/stdin: reads of up to 1, all after 3 fail",
        "WRITES_ONCE": "the tool: read examples/a/types.rs < some.json: writes of one byte on 1",
        "PRINTS_MORE": "the program on a/one.json: request 0: status 0, output 'resolved 0\\n', e",
    },
)


class Sweep(Repository):
    FILES = {
        "crates.txt": f"{TESTS}:\n{PROGRAM}:\n{TOOL}:\n",
        f"crates/{TESTS}/src/marks.rt": "".join(f"const {it};\n" for it in MARKS),
        f"crates/{TESTS}/stdout": "ok first\nok second\nok large\nok a_check\n",
        DATA: "transcript first\n# holds at most 100 bytes\na: b\ntranscript second\na: b\n",
        f"crates/{TESTS}/data/sizes.txt": "transcript large\na: b\n",
        f"crates/{PROGRAM}/stdin": "ok\n",
        f"crates/{PROGRAM}/stdout": "resolved 0\n",
        "sweep/inputs/bad.json": "no\n",
        "sweep/inputs/bad.end": "4\nbad input\n",
        "examples/a/one.json": "ok\n",
        "examples/a/one.end": "0\nresolved 0\n",
        "examples/a/types.rs": "struct S;\n",
        "examples/a/check.end": "0\nroot: S\n",
        "examples/notice/types.rs": "struct S;\n",
        "examples/notice/check.end": "2\nroot: S\n",
        f"{A}/some.json": "ok\n",
        f"{A}/some.end": "0\na: 1\n",
        f"{A}/some.json_end": '0\n{"a": 1}\n',
        f"{A}/none.json": "no\n",
        f"{A}/none.end": "1\nno\n",
        f"{A}/two_events.jsonl": "ok\n",
        f"{A}/two_events.end": f"0\n{COUNT}",
    }
    for name in ("alias", "misspelt_type", "holds_itself"):
        FILES[f"examples/faults/{name}.rs"] = "struct\n"
        FILES[f"examples/faults/{name}.end"] = "3\nat fault\n"

    @classmethod
    def setUpClass(cls):
        room = tempfile.TemporaryDirectory()
        cls.addClassCleanup(room.cleanup)
        cls.made = pathlib.Path(room.name)

    def setUp(self):
        super().setUp()
        self.use_toolchain()
        self.use_program()
        # The stored input is short here, so that reads end early.
        self.edit("sweep/run", "((4096, 0), (1, 1), (1, 500), (5, 20))", "((4096, 0), (1, 1))")

    def use_program(self, *faults):
        for crate in (TESTS, PROGRAM, TOOL):
            self.prove(crate, compiled(self.made, *faults))

    def test_nothing_wrong(self):
        said = "17 sweeps, 152 runs, 18 requests refused, 0 faults\n"
        self.assertEqual(self.expect_passes(*CALL), said)

    def test_faults_of_the_programs(self):
        for part in FAULTS:
            self.use_program(*part)
            self.expect_told(CALL, *part.values())

    def test_other_ends(self):
        ends = {
            f"crates/{PROGRAM}/stdout": ("0", "1"),
            "sweep/inputs/bad.end": ("bad input\n", "bad input"),
            "examples/a/one.end": ("0\n", "1\n"),
            "examples/a/check.end": ("root: S", "root: T"),
            "examples/notice/check.end": ("2\n", "3\n"),
            f"{A}/some.json_end": ("1", "2"),
            f"{A}/none.end": ("no\n", "no"),
            f"{A}/two_events.end": ("1 of", "2 of"),
            "examples/faults/alias.end": ("3\n", "4\n"),
        }
        for file, (old, new) in ends.items():
            text = (self.top / file).read_text()
            (self.top / file).write_text(text.replace(old, new, 1))
        texts = ["the program on facet_solver_program/stdin: request 0: status 0"]
        texts += ["the program on inputs/bad.json: ", "the program on a/one.json: "]
        texts += [f"the tool: check examples/{it}/types.rs: " for it in ("a", "notice")]
        texts += ["types.rs --json < some.json: "]
        texts += ["types.rs < none.json: ", "--lines < two_events.jsonl: "]
        self.expect_told(CALL, *texts, "the tool: check examples/faults/alias.rs: ")

    def test_a_wrong_count_of_bytes(self):
        self.edit(DATA, "at most 100 bytes", "at most 99 bytes")
        self.expect_told(CALL, "first: request 0: held 100")
        self.edit(DATA, "at most 99 bytes", "no more than 99 bytes")
        self.expect_told(CALL, "first says in other words how much a new solver holds")

    def test_a_missing_transcript(self):
        self.edit(DATA, "transcript second\na: b\n", "")
        self.expect_told(CALL, "in_code: request 0: status 0, output 'ok a_check\\n'")

    def test_a_missing_list_or_line(self):
        self.edit(f"crates/{TESTS}/stdout", "ok second\n", "")
        self.expect_told(CALL, "has no line for second")
        self.remove(f"crates/{TESTS}/stdout")
        self.expect_told(CALL, "stdout'")

    def test_a_missing_end(self):
        for file in ("sweep/inputs/bad.end", f"{A}/none.end", "examples/a/check.end"):
            text = (self.top / file).read_text()
            self.remove(file)
            self.expect_told(CALL, f"{file}'")
            self.write(file, text)

    def test_a_missing_file_for_which_requests_are_refused(self):
        self.remove("examples/faults/alias.rs")
        self.expect_told(CALL, "no example is faults/alias.rs")
        self.write("examples/faults/alias.rs", "struct\n")
        self.remove(f"{A}/two_events.jsonl")
        self.expect_told(CALL, "no example is */documents/two_events.jsonl")

    def test_marks_that_the_guard_does_not_have(self):
        self.write(f"crates/{TESTS}/src/marks.rt", "// none\n")
        self.expect_told(CALL, "CalledProcessError")

    def test_a_guard_that_sees_nothing(self):
        self.edit("sweep/guard.c", 'tell("leaked %lu\\n", blocks);', "")
        self.expect_told(CALL, "the guard saw no end")
        self.edit("sweep/guard.c", 'tell("held %lu\\n", most - begun);', ";")
        self.expect_told(CALL, "first: request 0: the guard saw no new solver")
