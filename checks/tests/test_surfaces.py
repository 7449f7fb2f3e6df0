"""Tests of the part `surfaces` of test: a list that is another one, missing, or of no library."""

from .scratch import Repository

SOURCE = "crates/a/src/lib.rt"
LIST = "surface/a.txt"
CALL = ("./test", "surfaces")


class Surfaces(Repository):
    FILES = {
        "crates.txt": "a:\nb: a\n",
        SOURCE: "//! A library.\n\n/// A number.\npub fn number() -> u8 {\n    7\n}\n",
        "crates/b/src/lib.rt": "//! Another.\n\n/// A number.\npub const NUMBER: u8 = 7;\n",
    }

    lists: dict = {}  # Those of the sources as they are, for all tests.

    def setUp(self):
        super().setUp()
        if not self.lists:
            for name in self.expect_passes("surface/list").split():
                self.lists[name] = self.expect_passes("surface/list", name)
        for name, text in self.lists.items():
            self.write(f"surface/{name}.txt", text)
        self.store_totals(surfaces=len(self.lists))

    def test_nothing_wrong(self):
        self.assertIn("3 passed, 0 failed", self.expect_passes(*CALL))

    def test_another_signature(self):
        self.edit(SOURCE, "u8", "u16")
        self.expect_told(CALL, "failed: surface/list --check", "u16")

    def test_a_function_that_is_gone(self):
        self.edit(SOURCE, "pub fn", "fn")
        self.expect_told(CALL, "failed: surface/list --check")

    def test_a_missing_list(self):
        self.remove(LIST)
        self.expect_told(CALL, "failed: surface/list --check", "failed: the lists in surface/")

    def test_a_list_of_no_library(self):
        self.write("surface/c.txt", "")
        self.expect_told(CALL, "failed: the lists in surface/")

    def test_a_library_that_is_passed_over(self):
        (self.top / SOURCE).rename(self.top / "crates/a/src/main.rt")
        self.expect_told(CALL, "failed: the lists in surface/")

    def test_no_libraries(self):
        self.write("crates.txt", "")
        self.expect_told(CALL, "failed: the lists in surface/")
        self.remove(*(f"surface/{name}.txt" for name in self.lists))
        self.expect_told(CALL, "failed: the number of surfaces", "came:   none")
