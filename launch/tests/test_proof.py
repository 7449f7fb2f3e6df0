"""Tests of when a program counts as proved, and of the ends that a proof may have."""

import functools
import os
import pathlib
import pty
import re
import shutil
import signal
import unittest
from unittest import mock

from launch import proof
from launch.program import ENDING, Program, progress

from .stand_in import CRATES, KINDS, NAME, TOP, WORD, Repository

HELD = "echo linked >held; exec sleep 100"  # What a proof does that does not end by itself.
GO = 'while [ -d "$kit" ] && [ ! -f "$kit/go" ]; do sleep 0.05; done'  # It waits for a file.
PROVING = "facet-read: proving and building the program ..\n"


class Stale(Repository):
    """What a proof stands on, and what it does not."""

    def setUp(self):
        super().setUp()
        self.prove()
        here = {"PATH": self.environment["PATH"]}
        for patch in (mock.patch.object(proof, "TOP", self.top), mock.patch.dict(os.environ, here)):
            patch.start()
            self.addCleanup(patch.stop)
        self.stand_in = Program("test", NAME)
        self.expect_proved()

    def expect_proved(self):
        self.assertIsNone(self.stand_in.why_unproved())

    def expect_unproved(self, words):
        self.assertIn(words, self.stand_in.why_unproved() or "")

    def test_a_source_of_each_crate(self):
        for crate in CRATES:
            for kind in KINDS:
                with self.subTest(crate=crate, kind=kind):
                    source = self.source(crate, kind)
                    text = source.read_bytes()
                    source.write_bytes(text.upper())
                    os.utime(source, (0, 0))
                    self.expect_unproved("a source has changed")
                    source.write_bytes(text)
                    self.expect_proved()

    def test_a_file_is_added_renamed_or_removed(self):
        for crate in CRATES:
            with self.subTest(crate=crate):
                source = self.source(crate, "proofs")
                other = source.with_name("a name with\nblanks = and a line feed")
                shutil.copy2(source, other)
                self.expect_unproved("a source has changed")
                source.rename(source.with_name("aside"))
                other.rename(source)
                self.expect_unproved("a source has changed")
                source.with_name("aside").unlink()
                self.expect_proved()
                source.unlink()
                self.expect_unproved("a source has changed")
                source.write_text(f"{crate} proofs\n")
                self.expect_proved()

    def test_a_file_that_has_the_name_and_the_bytes_of_the_next(self):
        first, second = (self.source("base", "src").with_name(it) for it in ("a", "b"))
        first.write_text("")
        second.write_text("x")
        sums = [proof.checksum_of_sources(NAME)]
        second.unlink()
        for between in (" ", " 1 "):
            first.write_text(f"{str(second.relative_to(self.top))!r}{between}x")
            sums.append(proof.checksum_of_sources(NAME))
        self.assertEqual(len({*sums}), len(sums))

    def test_an_older_file_comes_in_the_place_of_a_newer_one(self):
        source = self.source("base", "src")
        older = self.room / "older"
        older.write_text("an older text\n")
        os.utime(older, (0, 0))
        shutil.copy2(older, source)
        self.expect_unproved("a source has changed")

    def test_times_alone_change_nothing(self):
        self.source("base", "src").touch()
        os.utime(self.program, (0, 0))
        self.expect_proved()

    def test_links_are_sources_and_are_not_followed(self):
        link = self.source("base", "src").with_name("link")
        link.symlink_to("nowhere")
        self.expect_unproved("a source has changed")
        link.unlink()
        link.symlink_to(link.parent)
        self.expect_unproved("a source has changed")

    def test_lines_of_crates(self):
        file = self.top / "crates.txt"
        text = file.read_text()
        file.write_text(f"{text.replace('# the program', '')}more: base\n")
        self.expect_proved()
        file.write_text(text.replace("base:\n", "base: json\n"))
        self.expect_unproved("a source has changed")

    def test_crates_that_are_not_below(self):
        self.source("other", "src").write_text("another text\n")
        self.expect_proved()

    def test_another_kit(self):
        (self.kit / "KIT-ID").write_text("another kit\n")
        self.expect_unproved("another kit")
        (self.kit / "KIT-ID").unlink()
        self.expect_unproved("another kit")

    def test_a_kit_that_is_asked(self):
        file = self.kit / "bin" / "rt"
        file.write_text(f"#!/bin/sh\necho {(self.kit / 'KIT-ID').read_text()}")
        (self.kit / "KIT-ID").unlink()
        self.expect_proved()

    def test_without_rt_the_kit_is_not_asked(self):
        with mock.patch.dict(os.environ, {"PATH": "/nowhere"}):
            self.expect_proved()

    def test_another_program(self):
        self.program.write_text("#!/bin/sh\n")
        self.expect_unproved("not the one that was proved")
        self.program.unlink()
        self.expect_unproved("nothing is proved")

    def test_a_stamp_that_is_cut_off(self):
        text = self.stand_in.stamp.read_text()
        for count in range(len(text.rstrip("\n"))):
            self.stand_in.stamp.write_text(text[:count])
            self.assertFalse(self.stand_in.is_proved(), count)
        self.stand_in.stamp.unlink()
        self.expect_unproved("no stamp")


def ignoring(number):
    """Has a process ignore this one of the signals that end it alone, or none, whichever it was."""
    for it in ENDING:
        signal.signal(it, signal.SIG_IGN if it == number else signal.SIG_DFL)


class Proving(Repository):
    """The ends of a proof."""

    def expect_unproved(self, why):
        status, output, said = self.read("types.rs")
        self.assertEqual((status, output), (WORD, "read\n{}\n"))
        self.assertIn(f"facet-read: {why}", said)
        self.expect_nothing_left()

    def end_by(self, number):
        """Sends a signal to a script whose proof has linked, and gives its status."""
        self.environment["BEHIND"] = HELD
        held = self.program.parent.parent / "held"
        held.unlink(missing_ok=True)
        how = {"preexec_fn": functools.partial(ignoring, None), "start_new_session": True}
        process = self.start("./facet-read", "--prove", **how)
        self.text_of(held)
        rt = self.rt_process()
        process.send_signal(number)
        status = process.wait()
        if number == signal.SIGKILL:
            os.kill(rt, number)
        self.expect_gone(rt)
        return status

    def test_the_program_runs_then(self):
        self.prove()
        self.assertEqual(self.read("types.rs"), (WORD, "read\n{}\n", "struct Point;\n"))
        for script in ("./facet-read", "./solve"):
            status, _, said = self.call(script, "--prove")
            self.assertEqual(status, 0)
            self.assertIn("proved and built already", said)
        self.expect_nothing_left()

    def test_it_fails(self):
        self.environment["BEFORE"] = "echo a proof failed >&2; exit 1"
        for _ in range(2):
            said = f"{PROVING}a proof failed\nfacet-read: the program is not proved and built\n"
            self.assertEqual(self.call("./facet-read", "--prove"), (70, "", said))
            self.assertFalse(self.program.exists())
        self.expect_unproved("nothing is proved")

    def test_it_fails_beside_a_program_that_is_there(self):
        self.prove()
        self.source("base", "src").write_text("a wrong text\n")
        self.environment["BEFORE"] = "exit 1"
        self.assertEqual(self.call("./facet-read", "--prove")[0], 70)
        self.expect_unproved("a source has changed")

    def test_a_source_changes_meanwhile(self):
        for crate in CRATES:
            with self.subTest(crate=crate):
                self.environment["BEFORE"] = f"echo more >>../{crate}/src/deep/file"
                status, _, said = self.call("./facet-read", "--prove")
                self.assertEqual(status, 70)
                self.assertIn("a source changed meanwhile", said)
                self.expect_unproved("nothing is proved")

    def test_a_source_changes_and_changes_back(self):
        file = "../base/src/deep/file"
        self.environment["BEFORE"] = f"cp -p {file} kept; echo more >>{file}; cp -p kept {file}"
        self.assertEqual(self.call("./facet-read", "--prove")[0], 70)
        self.expect_unproved("nothing is proved")

    def test_a_file_comes_and_goes(self):
        self.environment["BEFORE"] = "touch ../base/src/file; rm ../base/src/file"
        self.assertEqual(self.call("./facet-read", "--prove")[0], 70)

    def test_another_crate_changes_meanwhile(self):
        self.environment["BEFORE"] = "echo more >>../other/src/deep/file"
        self.prove()

    def test_signals_end_it(self):
        for number in (signal.SIGINT, signal.SIGTERM, signal.SIGHUP):
            with self.subTest(signal=number):
                self.assertEqual(self.end_by(number), 128 + number)
                self.expect_unproved("no stamp says that the program is proved")

    def test_it_is_killed_behind_the_link(self):
        self.assertEqual(self.end_by(signal.SIGKILL), -signal.SIGKILL)
        self.expect_unproved("no stamp says that the program is proved")

    def test_a_signal_that_is_ignored_stays_so(self):
        self.environment["BEFORE"] = GO
        for number in ENDING:
            with self.subTest(signal=number):
                how = {"preexec_fn": functools.partial(ignoring, number)}
                how["start_new_session"] = True
                process = self.start("./facet-read", "--prove", **how)
                rt = self.rt_process()
                # In a session of its own the terminal does not reach it.
                self.assertEqual(os.getsid(rt) == rt, number == signal.SIGHUP)
                os.killpg(process.pid, number)
                (self.kit / "go").touch()
                said = process.communicate()[1]
                self.assertEqual(process.returncode, 0, said)
                for file in (self.kit / "go", self.kit / "pid", self.program):
                    file.unlink()

    def test_it_waits_for_another_rt(self):
        self.environment["BEFORE"] = f'echo "rt: waiting for another rt to finish" >&2; {GO}'
        process = self.start("./facet-read", "--prove")
        self.assertEqual(process.stderr.readline(), PROVING)
        self.assertIn("waiting for another rt to finish", process.stderr.readline())
        (self.kit / "go").touch()
        said = process.communicate()[1]
        self.assertEqual(process.returncode, 0, said)

    def test_how_far_it_is_stands_in_a_line_each_half_minute(self):
        script = self.top / "launch" / "program.py"
        text = script.read_text()
        for old, new in (("waits = 30, None", "waits = 2, None"), ("% 30 + 30", "% 2 + 2")):
            self.assertEqual(text.count(old), 1)
            text = text.replace(old, new)
        script.write_text(text)
        self.environment["BEFORE"] = f"echo so far: 3 of 9 functions; {GO}"
        process = self.start("./facet-read", "--prove")
        self.assertEqual(process.stderr.readline(), PROVING)
        said = "".join(process.stderr.readline() for _ in range(2))
        (self.kit / "go").touch()
        process.communicate()
        line = r"facet-read: beginning, 3 of 9 functions, (\d+) s\n"
        first, second = map(int, re.fullmatch(line * 2, said).groups())
        self.assertGreaterEqual(first, 2)
        self.assertGreater(second // 2, first // 2)

    def test_how_far_it_is_stands_in_one_line_of_a_terminal(self):
        self.environment["BEFORE"] = f"echo so far: 3 of 9 functions; {GO}"
        ours, theirs = pty.openpty()
        with open(ours, "rb", buffering=0) as terminal:
            process = self.start("./facet-read", "--prove", stderr=theirs)
            os.close(theirs)
            said = b""
            while b"3 of 9 functions" not in said:
                said += terminal.read(4096)
            (self.kit / "go").touch()
            self.assertEqual(process.wait(), 0)
            said += terminal.read(4096)
        self.assertIn(b"\r\033[Kbeginning, 3 of 9 functions, ", said)
        self.assertIn(b"\r\033[Kfacet-read: the program is proved and built, in ", said)

    def test_the_stamp_cannot_be_written(self):
        folder = pathlib.Path(f"{self.program}.proved")
        folder.mkdir(parents=True)
        status, _, said = self.call("./facet-read", "--prove")
        self.assertEqual(status, 70)
        self.assertIn("Is a directory", said)
        folder.rmdir()
        self.expect_unproved("no stamp says that the program is proved")

    def test_rt_is_missing(self):
        self.environment["PATH"] = "/usr/bin:/bin"
        for words in (["--prove"], ["check", "types.rs"]):
            status, output, said = self.call("./facet-read", *words)
            self.assertEqual((status, output), (127, ""))
            self.assertIn("rt is not on the path", said)

    def test_it_says_nothing_where_standard_error_is_closed(self):
        self.assertEqual(self.shell("./facet-read --prove 2>&-"), (0, "", ""))
        self.assertEqual(self.read("types.rs")[0], WORD)


class Gate(Repository):
    """What `rt ci` leaves, which `test` calls."""

    def ci(self, last, before=""):
        """Has `test` call `rt ci`, which ends with this line, and gives how many tests failed."""
        text = (TOP / "test").read_text().replace("sys.exit(main())", "print(ci().failed)")
        (self.top / "test").write_text(text)
        (self.top / "bench").mkdir(exist_ok=True)
        shutil.copy(TOP / "bench" / "small_runs.py", self.top / "bench")  # `test` imports it.
        (self.top / "crates" / NAME / "src" / "main.rt").touch()
        self.environment |= {"LAST": last, "BEFORE": before}
        status, output, said = self.call("python3", "test")
        self.assertEqual(status, 0, said)
        return int(output.splitlines()[-1])

    def expect_proved(self, wanted):
        """The program counts as proved, or does not."""
        _, _, said = self.read("types.rs")
        self.assertEqual("without proofs" not in said, wanted, said)

    def test_a_program_that_it_builds_is_proved(self):
        self.assertEqual(self.ci("5 passed, 0 failed"), 0)
        self.expect_proved(True)

    def test_one_that_it_builds_where_another_fails(self):
        self.assertEqual(self.ci("5 passed, 2 failed"), 2)
        self.expect_proved(True)

    def test_one_that_it_does_not_build_is_not(self):
        self.prove()
        self.assertEqual(self.ci("0 passed, 1 failed", before="echo $LAST; exit 1"), 1)
        self.expect_proved(False)

    def test_one_that_it_may_have_built_in_part_is_not(self):
        self.assertEqual(self.ci("Killed"), 1)
        self.expect_proved(False)

    def test_one_whose_source_changed_meanwhile_is_not(self):
        more = "echo more >>../middle/specs/deep/file"
        self.assertEqual(self.ci("5 passed, 0 failed", before=more), 0)
        self.expect_proved(False)


class Progress(unittest.TestCase):
    """What is said of a proof that goes on."""

    def test_of_what_rt_writes(self):
        texts = {
            "": "beginning",
            "rt: chose --jobs 2 for a\n": "a, reading",
            "rt: chose --jobs 2 for a\nso far: 3 of 9 functions\n": "a, 3 of 9 functions",
            "rt: waiting for another rt to finish in /x\n": (
                "waiting for another rt to finish in /x"
            ),
            "rt: waiting for another rt to finish in /x\nrt: chose --jobs 2 for a\n": "a, reading",
            "rt: a: another copy is building this library; waiting for it, to use its work\n": (
                "a: another copy is building this library; waiting for it, to use its work"
            ),
        }
        self.assertEqual({it: progress(it) for it in texts}, texts)


if __name__ == "__main__":
    unittest.main()
