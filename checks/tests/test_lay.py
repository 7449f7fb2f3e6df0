"""Tests of bench/lay: what it lays, and a step that fails."""

import shutil

from .scratch import Repository

PERSON = ("-c", "user.name=a", "-c", "user.email=a@b.c")
CRATE = "facet_solver_workloads"
SOURCE = f"crates/{CRATE}/src/main.rt"
GONE = f"crates/{CRATE}/src/gone.rt"


class Lay(Repository):
    FILES = {
        "crates.txt": f"a:\nb: a\n{CRATE}: b json\n",
        "crates/a/src/lib.rt": "an old library\n",
        SOURCE: "an old workload\n",
        GONE: "a file of the old workload\n",
        "bench/workloads.txt": "an old list\n",
    }

    def setUp(self):
        super().setUp()
        self.old = self.commit("init", "--quiet")
        self.write("crates/a/src/lib.rt", "a new library\n")
        self.write(SOURCE, "a new workload\n")
        self.remove(GONE)
        self.write("bench/workloads.txt", "a new list\n")
        self.new = self.commit("status", "--short")

    def commit(self, *before):
        """Makes a commit of all files, behind another command of git, and gives its name."""
        for words in (before, ("add", "."), (*PERSON, "commit", "-qm", "a state")):
            self.expect_passes("git", *words)
        return self.expect_passes("git", "rev-parse", "HEAD").strip()

    def text(self, file):
        return (self.room / "laid" / file).read_text()

    def lay(self, commit, *folder):
        return ("bench/lay", commit, *(folder or (str(self.room / "laid"),)))

    def test_nothing_wrong(self):
        self.write(f"crates/{CRATE}/out/a", "what was built\n")
        self.expect_passes(*self.lay(self.old))
        self.assertEqual(self.text("crates/a/src/lib.rt"), "an old library\n")
        self.assertEqual(self.text(SOURCE), "a new workload\n")
        self.assertFalse((self.room / "laid" / GONE).exists())
        self.assertEqual(self.text("bench/workloads.txt"), "a new list\n")
        self.assertEqual(self.text("crates.txt"), f"a:\nb: a\n{CRATE}: b json\n")
        self.assertFalse((self.room / "laid" / "crates" / CRATE / "out").exists())

    def test_a_line_of_the_workloads_that_changed(self):
        self.write("crates.txt", f"a: other\nb: a\n{CRATE}: a b\n")
        self.expect_passes(*self.lay(self.old))
        self.assertEqual(self.text("crates.txt"), f"a:\nb: a\n{CRATE}: a b\n")

    def test_a_commit_that_there_is_not(self):
        for commit in ("0" * 40, "nothing", self.old + "0"):
            status, said = self.call(*self.lay(commit))
            self.assertEqual(status, 1, said)
            self.assertFalse((self.room / "laid").exists())

    def test_a_folder_that_is_there(self):
        (self.room / "laid").mkdir()
        self.expect_told(self.lay(self.old), "is there already")

    def test_a_library_that_was_not_there_then(self):
        self.write("crates.txt", f"a:\nb: a\nc:\n{CRATE}: b c json\n")
        self.expect_told(self.lay(self.old), f"{CRATE} stands on crates that are not there: c")

    def test_workloads_that_are_missing(self):
        shutil.rmtree(self.top / "crates" / CRATE)
        self.expect_told(self.lay(self.old), f"crates/{CRATE}'")
        shutil.rmtree(self.room / "laid")
        self.write("crates.txt", "a:\n")
        self.write(SOURCE, "a new workload\n")
        self.expect_told(self.lay(self.old), CRATE)

    def test_a_step_of_git_that_fails(self):
        git = shutil.which("git")
        for step in ("rev-parse", "clone", "checkout"):
            with self.subTest(step=step):
                fails = f'#!/bin/sh\ncase " $* " in *" {step} "*) exit 1 ;; esac\nexec {git} "$@"\n'
                self.write("../kit/bin/git", fails, mode=0o755)
                status, said = self.call(*self.lay(self.old))
                self.assertEqual(status, 1, said)
                shutil.rmtree(self.room / "laid", ignore_errors=True)

    def test_wrong_arguments(self):
        for words in ([], [self.old], [self.old, "a", "b"], ["--all", "a"]):
            self.expect_told(("bench/lay", *words), "usage: bench/lay COMMIT FOLDER", status=2)
