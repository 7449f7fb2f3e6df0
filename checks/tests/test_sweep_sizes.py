"""Tests of sweep/sizes: a wrong status, a wrong output, a run that goes on, and no size at all."""

from .scratch import Repository

SOLVER, TOOL = "facet_solver_program", "facet_solver_tool"
CALL = ("sweep/sizes",)
# It stands in for both programs. It counts its reads, and tells its limits of stack and addresses.
PROGRAM = """#!/usr/bin/env python3
import os
import resource
import sys

reads, text = 0, b""
while some := os.read(0, 1 << 20):
    reads, text = reads + 1, text + some
stack, _ = resource.getrlimit(resource.RLIMIT_STACK)
addresses, _ = resource.getrlimit(resource.RLIMIT_AS)
output, errors, status = f"{len(text)} {sys.argv[1:]}\\n", "", 0
FAULT
if text == b"reads":
    output = f"{reads}\\n"
if text == b"limits":
    output = f"{stack} {addresses}\\n"
if text == b"types":
    output = open("types.rs").read()
if text == b"large":
    output = "x" * 100_000
if text == b"terminal":
    output = f"{os.isatty(1)}\\n"
    errors += f"{os.isatty(2)}\\n"
sys.stdout.write(output)
sys.stderr.write(errors)
sys.exit(status)
"""
# The sizes of the tests, in the place of those of the script.
MADE = '''SIZES[:] = []


@size
def some_bytes():
    return Run(SOLVER, "some", End(0, "4 []\\n"))


@size
def words():
    return read("", ["S"], "some", End(0, "4 ['read', 'types.rs', 'S']\\n"))


@size
def types():
    return read("struct S;", [], "types", End(0, "struct S;"))


@size
def by_bytes():
    return Run(SOLVER, "reads", End(0, "5\\n"), is_by_bytes=True)


@size
def at_once():
    return Run(SOLVER, "reads", End(0, "1\\n"))


@size
def limits():
    return Run(SOLVER, "limits", End(0, "262144 1073741824\\n"), addresses=1 << 30)


@size
def slowly():
    return Run(SOLVER, "large", End(0, "x" * 100_000), is_slow=True)


@size
def beside_a_terminal():
    return Run(SOLVER, "terminal", End(0, "False\\n", "True\\n"), is_terminal=True)


'''
LAST = 'if __name__ == "__main__":\n    sys.exit(main())\n'
COUNT = 8


class Sizes(Repository):
    FILES = {"crates.txt": f"{SOLVER}:\n{TOOL}:\n"}

    def setUp(self):
        super().setUp()
        self.edit("sweep/sizes", LAST, MADE + LAST)
        self.use_program()

    def use_program(self, fault=""):
        self.write("program", PROGRAM.replace("FAULT", fault), mode=0o755)
        for crate in (SOLVER, TOOL):
            self.prove(crate, self.top / "program")

    def test_nothing_wrong(self):
        said = self.expect_passes(*CALL)
        self.assertEqual(said.splitlines()[-1], f"{COUNT} sizes, 0 faults")
        self.assertRegex(said, r"(?m)^\| some bytes \| \d+\.\d\d \|$")

    def test_a_wrong_status(self):
        self.use_program("status = 1")
        told = "some bytes: status 1, output '4 []\\n', errors ''; wanted: status 0, output "
        self.expect_told(CALL, told, f"{COUNT} sizes, {COUNT} faults")

    def test_a_signal(self):
        self.use_program("os.kill(os.getpid(), 11)")
        self.expect_told(CALL, "some bytes: status -11", f"{COUNT} sizes, {COUNT} faults")

    def test_a_wrong_output(self):
        self.use_program('output = output.replace("4", "5")')
        self.expect_told(CALL, "some bytes: status 0, output '5 []", f"{COUNT} sizes, 2 faults")
        self.use_program('errors = "more"')
        self.expect_told(CALL, "errors 'more'; wanted", f"{COUNT} sizes, {COUNT} faults")

    def test_a_wrong_byte_in_a_large_output(self):
        self.edit("sweep/sizes", '"x" * 100_000', '"x" * 99_999 + "y"')
        self.expect_told(CALL, "slowly: status 0, output 'xxx", " of 100000", " 1 faults")

    def test_a_run_that_goes_on(self):
        self.edit("sweep/sizes", "SECONDS = 120", "SECONDS = 3")
        self.use_program('if text == b"some":\n    import time\n    time.sleep(30)')
        told = "some bytes: it goes on after 3 seconds", "words: it goes on after 3 seconds"
        self.expect_told(CALL, *told, f"{COUNT} sizes, 2 faults")

    def test_no_size(self):
        self.edit("sweep/sizes", LAST, "SIZES.clear()\n" + LAST)
        self.expect_told(CALL, "0 sizes, 0 faults")

    def test_a_program_that_is_not_proved(self):
        for crate, script in ((SOLVER, "solve"), (TOOL, "facet-read")):
            self.use_program()
            self.remove(f"crates/{crate}/out/{crate}")
            self.expect_told(CALL, f"./{script} --prove proves", status=2)

    def test_words_that_it_does_not_take(self):
        self.expect_told((*CALL, "more"), "usage: sweep/sizes")
