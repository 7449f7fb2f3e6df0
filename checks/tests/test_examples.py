"""Tests of examples/check: types that a Rust compiler refuses, and a compiler that is missing."""

from .scratch import Repository

# It stands in for rustc: it refuses a file, its last argument, that has the word `wrong`.
RUSTC = """#!/bin/sh
for file; do :; done
while read -r line
do
    case "$line" in *wrong*) echo "error in $file" >&2; exit 1 ;; esac
done <"$file"
"""
CALL = ("examples/check",)


class Examples(Repository):
    FILES = {
        "../kit/bin/rustc": RUSTC,
        "examples/derives.rs": "// derives\n",
        "examples/a/types.rs": "struct A;\n",
        "examples/b/types.rs": "struct B;\n",
        "examples/c/src/lib.rs": "struct C;\n",
    }

    def test_nothing_wrong(self):
        self.assertEqual(self.expect_passes(*CALL), "")

    def test_types_that_are_refused(self):
        for name in "ab":
            self.write(f"examples/{name}/types.rs", "struct wrong;\n")
            self.expect_told(CALL, f"examples/{name}/types.rs")
            self.write(f"examples/{name}/types.rs", "struct A;\n")

    def test_a_crate_that_is_refused_or_has_no_first_file(self):
        self.write("examples/c/src/lib.rs", "struct wrong;\n")
        self.expect_told(CALL, "examples/c/src/lib.rs")
        self.write("examples/c/src/main.rs", "struct C;\n")
        self.remove("examples/c/src/lib.rs")
        self.expect_told(CALL, "examples/c/src/lib.rs")

    def test_derives_that_are_refused_or_missing(self):
        self.write("examples/derives.rs", "wrong\n")
        self.expect_told(CALL, "examples/derives.rs")
        self.remove("examples/derives.rs")
        self.expect_told(CALL, "examples/derives.rs")

    def test_no_types(self):
        self.remove("examples/a/types.rs", "examples/b/types.rs", "examples/c/src/lib.rs")
        (self.top / "examples/c/src").rmdir()
        self.expect_told(CALL)

    def test_rustc_is_missing(self):
        self.remove("../kit/bin/rustc")
        self.only_path()
        said = self.expect_passes("./test", "examples")
        self.assertIn("not compared: rustc is missing", said)
