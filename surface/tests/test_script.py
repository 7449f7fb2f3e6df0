"""Tests of surface/list, on the repository that is made up."""

import pathlib
import shutil
import subprocess

from .made_up import MadeUp

HERE = pathlib.Path(__file__).resolve().parent.parent
NAMES = ["high", "high.definitions", "low", "low.definitions"]


class Script(MadeUp):
    """Each call has its own process, in which the script and its modules are copies."""

    def setUp(self):
        super().setUp()
        (self.top / "surface").mkdir()
        for file in (HERE / "list", *HERE.glob("*.py")):
            shutil.copy(file, self.top / "surface")

    def call(self, *words):
        """Calls the script, and gives its status and what it says."""
        how = {"cwd": self.top, "stdout": subprocess.PIPE, "stderr": subprocess.STDOUT}
        it = subprocess.run(["surface/list", *words], text=True, encoding="utf-8", **how)
        return it.returncode, it.stdout

    def kept(self):
        """The lists that are kept, by name."""
        files = sorted((self.top / "surface").glob("*.txt"))
        return {file.stem: file.read_text(encoding="utf-8") for file in files}

    def test_writes_compares_and_prints(self):
        self.assertEqual(self.call(), (0, "\n".join([*NAMES, ""])))
        status, said = self.call("--check")
        self.assertEqual(status, 1)
        self.assertIn("+++ the sources\n@@ -0,0 +1,", said)
        self.assertEqual(self.call("--write"), (0, ""))
        self.assertEqual(sorted(self.kept()), NAMES)
        self.assertEqual(self.call("--check"), (0, ""))
        for name, text in self.kept().items():
            self.assertEqual(self.call(name), (0, text))
        self.assertEqual("".join(f"{line}\n" for line in self.lists()["high"]), self.kept()["high"])

    def test_tells_a_difference_under_its_path(self):
        self.call("--write")
        before = self.kept()
        self.edit("crates/low/specs/Numbers.antt", ("n + n", "n"))
        self.edit("crates/high/src/store.rt", ("ensures put", "ensures first"))
        status, said = self.call("--check")
        self.assertEqual(status, 1)
        self.assertEqual(self.kept(), before)
        self.assertRegex(said, r"\n@@ .* @@ high::Store\n")
        self.assertRegex(said, r"\n@@ .* @@ Limits\n")
        for line in ("-            ensures put {", "+            ensures first {"):
            self.assertIn(line, said)
        for line in ("-    twice n = n + n\n", "+    twice n = n\n"):
            self.assertIn(line, said)
        self.call("--write")
        self.assertEqual(self.call("--check"), (0, ""))

    def test_a_list_of_no_library(self):
        self.call("--write")
        before = self.kept()
        (self.top / "surface" / "other.txt").write_text("a\nb\n", encoding="utf-8")
        status, said = self.call("--check")
        self.assertEqual(status, 1)
        self.assertIn("--- surface/other.txt\n+++ the sources\n", said)
        self.call("--write")
        self.assertEqual(self.kept(), before)

    def test_wrong_words_and_forms_without_a_rule(self):
        for words in (["--chek"], ["middle"], ["low", "high"], ["program"]):
            status, said = self.call(*words)
            self.assertEqual(status, 1)
            self.assertIn("usage: surface/list", said)
        self.edit("crates/low/specs/Numbers.antt", ("n + n", "n + m"))
        told = "surface: the list has no form for the name m in Rattle.low.specs.Numbers\n"
        self.assertEqual(self.call("--write"), (1, told))
        self.assertEqual(self.kept(), {})
