"""Tests of the part `scripts` of test: that the tests of the scripts are run."""

from .scratch import Repository

HEAD = "import unittest\n\n\nclass Some(unittest.TestCase):\n"
PASSES = "    def test_{}(self):\n        pass\n"
FILE = "part/tests/test_some.py"
CALL = ("./test", "scripts")


class Scripts(Repository):
    FILES = {
        "part/tests/__init__.py": "",
        FILE: HEAD + PASSES.format("a") + PASSES.format("b"),
        "other/tests/__init__.py": "",
        "other/tests/test_other.py": HEAD + PASSES.format("c"),
        "checks/totals.txt": "tests of scripts: 3\n",
    }

    def test_nothing_wrong(self):
        self.assertIn("3 passed, 0 failed", self.expect_passes(*CALL))

    def test_a_test_that_fails(self):
        self.edit(FILE, "def test_b(self):\n        pass", "def test_b(self):\n        self.fail()")
        self.expect_told(CALL, f"failed: the tests in {FILE}", "FAIL: test_b")

    def test_a_test_that_is_left_out(self):
        self.edit(FILE, "    def test_b", "    @unittest.skip('why')\n    def test_b")
        self.expect_told(CALL, f"failed: the tests in {FILE}", "not all are run and pass")

    def test_a_missing_test(self):
        self.edit(FILE, "test_b", "no_test_b")
        self.expect_told(CALL, "the number of tests of scripts\n  wanted: 3\n  came:   2")

    def test_a_file_without_tests(self):
        self.write(FILE, HEAD + "    pass\n")
        self.expect_told(CALL, f"failed: the tests in {FILE}")

    def test_a_missing_folder(self):
        self.remove("other/tests/test_other.py")
        self.expect_told(CALL, "the number of tests of scripts\n  wanted: 3\n  came:   2")
        self.remove(FILE)
        self.expect_told(CALL, "the number of tests of scripts\n  wanted: 3\n  came:   none")

    def test_a_file_that_cannot_be_imported(self):
        self.write(FILE, "import nothing_of_that_name\n")
        self.expect_told(CALL, f"failed: the tests in {FILE}", "nothing_of_that_name")
