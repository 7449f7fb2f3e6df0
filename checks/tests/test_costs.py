"""Tests of bench/costs: a run that costs more or less, writes something else or ends otherwise, an
input that is made otherwise, and what the real inputs are."""

import hashlib
import json
import pathlib
import re
import tempfile
import unittest

from bench import inputs, small_runs

from .scratch import Repository, compiled

# It stands in for callgrind, and counts what the file beside it says. Its status is the program's.
VALGRIND = """#!/bin/sh
shift 2
"$@"
status=$?
read -r count <"${0%/*}/instructions"
echo "Collected : $count" >&2
exit $status
"""
NUMBERS = "2.00 million instructions, 1 requests, 4,096 bytes"
OF_SOLVER = NUMBERS.replace("1 requests", "2 requests")  # Its room is made larger once.
CHECK = f"check: a check types.rs | {NUMBERS}\n"
COSTS, OUTPUTS, WORKLOADS = "bench/costs.txt", "bench/outputs.txt", "bench/workloads.txt"
RECIPES, INPUTS = "bench/inputs.py", "bench/inputs.txt"
CALL, WRITE = ("bench/costs", "--check"), ("bench/costs", "--write")
# How many bytes of stack more the program takes where it is deeper, as program.c says.
DEEPER = 65_536


def digest(text):
    bytes_of_it = text.encode()
    return f"{len(bytes_of_it):,} bytes, sha256 {hashlib.sha256(bytes_of_it).hexdigest()}"


class Built(Repository):
    """A repository whose program is built, and stands in for a proved one."""

    FILES = {
        "../kit/bin/valgrind": VALGRIND,
        "../kit/bin/instructions": "2000000\n",
        "crates/a/src/lib.rt": "",
        "bench/program_small.json": "ok\n",
        WORKLOADS: "program a <program.json\n",
        COSTS: f"{CHECK}program: a <program_small.json | {OF_SOLVER}\n",
        OUTPUTS: "== check\nroot: S\n== program\nresolved 0\n",
        RECIPES: "RECIPES = {}\n",
        INPUTS: "",
    }

    @classmethod
    def setUpClass(cls):
        room = tempfile.TemporaryDirectory()
        cls.addClassCleanup(room.cleanup)
        cls.made = pathlib.Path(room.name)

    def setUp(self):
        super().setUp()
        self.use_toolchain()
        self.write("crates/a/out/a", "", mode=0o755)
        self.program = self.top / "crates/a/out/a"
        self.build()

    def build(self, *faults):
        """Puts the program with these faults in its place."""
        self.program.write_bytes(compiled(self.made, *faults).read_bytes())


class Costs(Built):
    def test_nothing_wrong(self):
        for count in (2_000_000, 2_030_000, 1_970_000):
            self.write("../kit/bin/instructions", f"{count}\n")
            self.assertEqual(self.expect_passes(*CALL), "2 runs compared, 0 differ\n")

    def test_more_or_fewer_instructions(self):
        for count, told in ((2_050_000, "2.05 (+2.50%)"), (1_950_000, "1.95 (-2.50%)")):
            self.write("../kit/bin/instructions", f"{count}\n")
            text = f"check: millions of instructions were 2.0 and are {told}"
            self.expect_told(CALL, text, "2 runs compared, 2 differ")

    def test_more_or_fewer_requests_and_bytes(self):
        numbers = {
            ("1 requests", "2 requests"): "check: requests were 2 and are 1 (-50.00%)",
            ("1 requests", "0 requests"): "check: requests were 0 and are 1",
            ("4,096 bytes", "4,095 bytes"): "check: bytes were 4,095 and are 4,096 (+0.02%)",
        }
        for (old, new), told in numbers.items():
            self.edit(COSTS, CHECK, CHECK.replace(old, new))
            self.expect_told(CALL, told, "2 runs compared, 1 differ")
            self.edit(COSTS, CHECK.replace(old, new), CHECK)

    def test_another_output(self):
        for old, new in (("root: S\n", "root: T\n"), ("root: S\n", "root: S\nmore\n")):
            self.edit(OUTPUTS, old, new)
            self.expect_told(CALL, "check: --- stored", "2 runs compared, 1 differ")
            self.edit(OUTPUTS, new, old)

    def test_another_end_of_a_line(self):
        self.write(OUTPUTS, self.FILES[OUTPUTS].replace("root: S\n", "root: S\r\n"))
        self.expect_told(CALL, "check: --- stored", "2 runs compared, 1 differ")

    def test_a_run_whose_output_is_missing_or_stands_twice(self):
        text = (self.top / OUTPUTS).read_text()
        for wrong in (text.partition("== program")[0], text * 2, f"{text}== more\n", f"a\n{text}"):
            self.write(OUTPUTS, wrong)
            self.expect_told(CALL, "outputs.txt has not the runs of costs.txt", status=2)

    def test_a_missing_run(self):
        self.edit(COSTS, CHECK, "")
        self.expect_told(CALL, "outputs.txt has not the runs of costs.txt", status=2)
        self.edit(COSTS, "program:", "other:")
        self.expect_told(CALL, "costs.txt has no line for program", status=2)

    def test_empty_lists(self):
        for file in (COSTS, OUTPUTS, WORKLOADS):
            self.write(file, "")
        self.expect_told(CALL, "workloads.txt has no line", status=2)

    def test_missing_lists(self):
        for file in (COSTS, OUTPUTS, WORKLOADS, INPUTS):
            text = (self.top / file).read_text()
            self.remove(file)
            self.expect_told(CALL, f"{file}'", status=5)
            self.write(file, text)

    def test_a_line_without_numbers(self):
        self.edit(COSTS, CHECK, "check: a check types.rs\n")
        self.expect_told(CALL, "check: no costs are stored", "2 runs compared, 1 differ")
        self.edit(COSTS, "check: a check types.rs\n", CHECK.replace("2.00", "two"))
        self.expect_told(CALL, "costs.txt has wrong costs", status=2)

    def test_a_program_that_fails_or_is_not_built(self):
        self.edit(COSTS, CHECK, CHECK.replace("types.rs", "faults.rs"))
        self.expect_told(CALL, "check ended with 3, and has to end with 0", status=5)
        self.program.unlink()
        self.expect_told(CALL, "a is not built", status=3)

    def test_nothing_is_counted(self):
        self.write("../kit/bin/valgrind", '#!/bin/sh\nshift 2\n"$@"\n', mode=0o755)
        self.expect_told(CALL, "callgrind counted nothing", status=5)
        self.write("bench/count.c", "int nothing;\n")
        self.expect_told(CALL, "its requests were not counted", status=5)

    def test_valgrind_is_missing(self):
        self.remove("../kit/bin/valgrind")
        self.only_path()
        said = "not compared: valgrind is missing, so instructions are not counted\n"
        self.assertEqual(self.expect_passes(*CALL), f"{said}2 runs compared, 0 differ\n")
        self.edit(COSTS, CHECK, CHECK.replace("1 requests", "2 requests"))
        self.expect_told(CALL, "check: requests were 2 and are 1")

    def test_rt_is_missing(self):
        self.only_path()
        self.remove("../kit/bin/rt")
        self.expect_told(CALL, "rt is missing", status=4)


class Made(Built):
    """Runs whose inputs are made, one of which ends with another status, and one with its stack."""

    FILES = Built.FILES | {
        RECIPES: """\
def types():
    return "struct S;\\n"

def good():
    return "ok\\n"

RECIPES = {"types.rs": types, "faults.rs": types, "good.json": good}
""",
        INPUTS: "".join(
            f"{name}: {digest(text)}\n"
            for name, text in (
                ("faults.rs", "struct S;\n"),
                ("good.json", "ok\n"),
                ("types.rs", "struct S;\n"),
            )
        ),
        COSTS: f"""\
faults: a check out/faults.rs (status 3) | {NUMBERS}
program: a <out/good.json | {OF_SOLVER}
types: a check out/types.rs (stack) | {NUMBERS}, 1 bytes of stack
""",
        OUTPUTS: "== faults\nat fault\n== program\nresolved 0\n== types\nroot: S\n",
    }

    def setUp(self):
        super().setUp()
        self.expect_passes(*WRITE)

    def stack(self):
        """The stored bytes of stack."""
        found = re.findall(r", ([\d,]+) bytes of stack", (self.top / COSTS).read_text())
        self.assertEqual(len(found), 1)
        return int(found[0].replace(",", ""))

    def test_nothing_wrong(self):
        """All but the stack is written as it was stored before."""
        self.assertEqual(self.expect_passes(*CALL), "3 runs compared, 0 differ\n")
        stack = f"{self.stack():,} bytes of stack"
        stored = {file: text for file, text in self.FILES.items() if file in (OUTPUTS, INPUTS)}
        stored[COSTS] = self.FILES[COSTS].replace("1 bytes of stack", stack)
        for file, text in stored.items():
            self.assertEqual((self.top / file).read_text(), text)

    def test_another_status(self):
        for old, new in (("(status 3)", "(status 2)"), ("(status 3)", "(status 0)")):
            self.edit(COSTS, old, new)
            told = f"faults ended with 3, and has to end with {new[-2]}"
            self.expect_told(CALL, told, "at fault", status=5)
            self.edit(COSTS, new, old)
        self.edit(COSTS, "good.json |", "good.json (status 1) |")
        self.expect_told(CALL, "program ended with 0, and has to end with 1", status=5)

    def test_more_and_less_stack(self):
        before = self.stack()
        self.build("IS_DEEPER")
        self.expect_told(CALL, f"types: bytes of stack were {before:,}", "1 differ")
        self.expect_passes(*WRITE)
        # A compiler may align what it adds.
        self.assertIn(self.stack() - before, range(DEEPER, DEEPER + 64))
        self.build()
        self.expect_told(CALL, f"and are {before:,} (-", "1 differ")

    def test_stack_without_valgrind(self):
        self.remove("../kit/bin/valgrind")
        self.only_path()
        self.assertIn("3 runs compared, 0 differ", self.expect_passes(*CALL))
        self.build("IS_DEEPER")
        self.expect_told(CALL, "types: bytes of stack were", "1 differ")

    def test_the_environment_does_not_change_the_stack(self):
        """The path of the library that counts stands in the environment of a run."""
        folder = self.room / ("a" * 200)
        folder.mkdir()
        self.environment["TMPDIR"] = str(folder)
        stack = self.stack()
        self.expect_passes(*WRITE)
        self.assertEqual(self.stack(), stack)

    def test_a_stack_that_is_missing_or_too_many(self):
        stack = f", {self.stack():,} bytes of stack"
        for old, new in ((stack, ""), (" (stack)", "")):
            self.edit(COSTS, old, new)
            self.expect_told(CALL, "costs.txt has wrong costs", status=2)
            self.write(COSTS, self.FILES[COSTS].replace(", 1 bytes of stack", stack))

    def test_standard_error_is_compared(self):
        self.edit(OUTPUTS, "at fault", "all right")
        self.expect_told(CALL, "faults: -all right", "faults: +at fault", "1 differ")
        self.build("PRINTS_MORE")
        self.expect_told(CALL, "program: +more", "2 differ")

    def test_the_digest_of_a_long_output(self):
        told = "faults: -at fault", f"faults: +{digest('at fault' + chr(10))}", "1 differ"
        # Lines of 9 bytes are no more than 9, and more than 8.
        self.edit("bench/small_runs.py", "LONG = 1_000", "LONG = 9")
        self.edit(OUTPUTS, "resolved 0\n", f"{digest('resolved 0' + chr(10))}\n")
        self.assertIn("0 differ", self.expect_passes(*CALL))
        self.edit("bench/small_runs.py", "LONG = 9", "LONG = 8")
        self.expect_told(CALL, *told)
        self.expect_passes(*WRITE)
        self.assertIn(told[1].partition("+")[2], (self.top / OUTPUTS).read_text())
        self.edit(OUTPUTS, digest("at fault\n"), digest("at faulT\n"))
        self.expect_told(CALL, f"faults: -{digest('at faulT' + chr(10))}", *told[1:])

    def test_an_input_that_is_made_otherwise(self):
        self.edit(RECIPES, "struct S;", "struct T;")
        new, old = digest("struct T;\n"), digest("struct S;\n")
        told = (f"{it}: its input {it}.rs has {new}, and had {old}" for it in ("faults", "types"))
        self.expect_told(CALL, *told, "3 runs compared, 2 differ")
        self.assertEqual((self.top / "bench/out/types.rs").read_text(), "struct T;\n")
        self.expect_passes(*WRITE)
        self.assertIn("0 differ", self.expect_passes(*CALL))

    def test_an_input_that_is_read_no_more(self):
        self.edit(RECIPES, "ok", "no")
        told = "program: its input good.json has", "program ended with 4, and has to end with 0"
        self.expect_told(CALL, *told, status=5)

    def test_an_input_that_somebody_changed(self):
        self.write("bench/out/good.json", "bad\n")
        self.assertIn("0 differ", self.expect_passes(*CALL))

    def test_a_recipe_that_is_missing_or_too_many(self):
        self.edit(RECIPES, '"good.json"', '"best.json"')
        told = "costs.txt names other inputs than inputs.py has recipes for"
        self.expect_told(CALL, f"{told}: best.json, good.json", status=2)
        self.edit(RECIPES, '"best.json": good', "")
        self.expect_told(CALL, f"{told}: good.json", status=2)

    def test_a_digest_of_an_input_that_is_missing_or_too_many(self):
        text = (self.top / INPUTS).read_text()
        for wrong in (text.partition("\n")[2], f"{text}{text}", f"{text}z.rs: 1 bytes\n"):
            self.write(INPUTS, wrong)
            self.expect_told(CALL, "inputs.txt has not the inputs of costs.txt", status=2)


def levels(text, opening, closing):
    """How many brackets stand around the innermost place of a text, in which no string has one."""
    depth = most = 0
    for letter in text:
        depth += (letter in opening) - (letter in closing)
        most = max(most, depth)
    return most


def declared(text):
    """How many declarations a text of Rust has, which begin at the start of a line."""
    return len(re.findall(r"^(?:pub )?(?:struct|enum|type) ", text, re.MULTILINE))


class Recipes(unittest.TestCase):
    """The recipes of this repository."""

    def test_they_give_what_is_stored(self):
        stored = small_runs.stored_inputs()
        self.assertEqual({*stored}, {*inputs.RECIPES})
        for name, recipe in inputs.RECIPES.items():
            with self.subTest(name):
                self.assertEqual(digest(recipe()), stored[name])

    def test_documents_are_json(self):
        names = [name for name in inputs.RECIPES if name.endswith(".json")]
        self.assertTrue(names)
        for name in names:
            with self.subTest(name):
                json.loads(inputs.RECIPES[name]())

    def test_deep_ones_are_as_deep_as_the_pages_permit(self):
        self.assertEqual(levels(inputs.deep_document(), "[{", "]}"), 128)
        self.assertEqual(levels(inputs.nested_structs(), "[{", "]}"), 127)
        self.assertEqual(1 + levels(inputs.deep_types(), "<", ">"), 127)

    def test_sizes(self):
        self.assertEqual(declared(inputs.needed_types()), 300)
        self.assertEqual(len(inputs.lines().splitlines()), 1_000)
        for recipe in (inputs.unneeded_types, inputs.megabyte):
            self.assertAlmostEqual(len(recipe().encode()) / 1e6, 1, delta=0.05)
        self.assertEqual(len(json.loads(inputs.members())), 15_001)
