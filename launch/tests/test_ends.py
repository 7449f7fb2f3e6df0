"""Tests of how a call ends where its streams are closed or full, and of where its types may be."""

import os
import pty
import resource
import signal

from .stand_in import NAME, UNWRITTEN, WORD, Repository

TYPES = "struct Point;\n"
READ = "./facet-read read types.rs"
BAD_INPUT = 4  # The status of the program of `./solve` where a write fails.


class Streams(Repository):
    """Each call is made without proofs, and then with the proved program."""

    def each(self, cases, expect):
        """Makes a call of the shell for each case, and compares how it ends."""
        for is_proved in (False, True):
            for line, wanted in cases.items():
                with self.subTest(line=line, is_proved=is_proved):
                    expect(wanted, *self.shell(line))
                    self.expect_nothing_left()
            self.prove()

    def expect_status(self, wanted, status, output, said):
        self.assertEqual(status, wanted, output + said)
        self.assertNotIn("Traceback", said)

    def test_output_that_nobody_reads_or_that_is_full_or_closed(self):
        many = "head -c 1000000 /dev/zero |"
        (self.top / "source").mkdir()
        (self.top / "source" / "lib.rs").write_text(TYPES)
        ends = {
            f"echo x | {READ} >&-": UNWRITTEN,
            f"echo x | {READ} >/dev/full": UNWRITTEN,
            f"echo x | {READ} 2>&- >&-": UNWRITTEN,
            f"{READ} </dev/null 2>/dev/full": UNWRITTEN,
            f"{many} {READ} | head -c 0; exit ${{PIPESTATUS[1]}}": UNWRITTEN,
            f"{many} {READ} | head -c 9; exit ${{PIPESTATUS[1]}}": UNWRITTEN,
            f"{many} ./facet-read read source | head -c 9; exit ${{PIPESTATUS[1]}}": UNWRITTEN,
            "./facet-read check types.rs 2>&- >&-": UNWRITTEN,
        }
        self.each(ends, self.expect_status)

    def test_solve_has_the_status_of_its_own_program(self):
        status, output, _ = self.shell("echo x | ./solve >/dev/full")
        self.assertEqual((status, output), (BAD_INPUT, ""))

    def test_input_that_is_closed_or_cannot_be_read(self):
        streams = "<&-", "0>/dev/null", "--toml <&-", "<&- >&- 2>&-"
        for line in (f"{READ} {it}" for it in streams):
            with self.subTest(line=line):
                status, output, said = self.shell(line)
                self.assertEqual((status, output), (64, ""), said)
                if "2>&-" not in line:
                    self.assertIn("facet-read: standard input: ", said)

    def test_all_that_it_says_is_lost(self):
        for line in ("./facet-read 2>&-", "./facet-read 2>/dev/full", "./facet-read >&- 2>&-"):
            with self.subTest(line=line):
                self.assertEqual(self.shell(line), (64, "", ""))

    def test_a_file_may_not_grow(self):
        few = {"preexec_fn": lambda: resource.setrlimit(resource.RLIMIT_FSIZE, (9, 9))}
        document = b"n = 1234567890\n"
        for words in ([], ["--toml"]):
            status, output, said = self.read("types.rs", *words, document=document, **few)
            self.assertEqual((status, output), (70, ""))
            self.assertIn("File too large", said)
            self.prove()
        self.assertEqual(self.read("types.rs", *words, document=document, **few)[0], 70)
        status, *_ = self.shell(f"ulimit -f 1; head -c 5000 /dev/zero | {READ} >answer")
        self.assertEqual(status, UNWRITTEN)
        self.expect_nothing_left()

    def test_the_disk_for_temporary_files_is_not_there(self):
        self.environment["TMPDIR"] = "/dev/null"
        status, output, said = self.shell(f"cd /sys; echo x | {self.top}/{READ} 2>&1")
        self.assertNotIn("Traceback", output + said)
        self.assertNotEqual(status, 1)

    def test_memory_runs_out(self):
        line = f"ulimit -v 400000; head -c 900000000 /dev/zero | {READ}"
        status, output, said = self.shell(line)
        self.assertEqual((status, output), (70, ""))
        self.assertIn("facet-read: out of memory", said)

    def test_an_input_that_is_too_large_to_run_without_proofs(self):
        script = self.top / "launch" / "program.py"
        text = script.read_text()
        self.assertEqual(text.count("MOST = 64 << 20 "), 1)
        script.write_text(text.replace("MOST = 64 << 20 ", "MOST = 9 "))
        self.assertEqual(self.read("types.rs", document=b"12345678")[0], WORD)
        for document in (b"123456789", b"1234567890"):
            status, output, said = self.read("types.rs", document=document)
            self.assertEqual((status, output), (70, ""))
            self.assertIn("an input of this size is for the proved program", said)
        self.prove()
        self.assertEqual(self.read("types.rs", document=b"123456789")[0], WORD)

    def test_a_fault_of_the_script(self):
        (self.top / "crates.txt").write_text("")
        self.program.parent.mkdir()
        for file in (self.program, self.program.with_name(f"{NAME}.proved")):
            file.write_text("")
        status, output, said = self.read("types.rs")
        self.assertEqual((status, output), (70, ""))
        self.assertIn("KeyError", said)

    def test_solve_takes_no_arguments(self):
        status, output, said = self.call("./solve", "x", input=b"{}")
        self.assertEqual((status, output), (64, ""))
        self.assertTrue(said.startswith("usage: "), said)

    def test_a_document_from_a_terminal(self):
        ours, theirs = pty.openpty()
        try:
            for words in (["./facet-read", "read", "types.rs"], ["./solve"]):
                status, output, said = self.call(*words, stdin=theirs)
                self.assertEqual((status, output), (64, ""))
                self.assertTrue(said.startswith("usage: "))
        finally:
            os.close(ours)
            os.close(theirs)

    def test_a_signal_ends_a_run_without_proofs(self):
        held = f'#!/bin/sh\necho $$ >"{self.kit}/pid"\nexec sleep 100\n'
        for number in (signal.SIGTERM, signal.SIGKILL):
            (self.kit / "bin" / "rt").write_text(held)
            process = self.start("./facet-read", "read", "types.rs")
            rt = self.rt_process()
            process.send_signal(number)
            ends = {signal.SIGTERM: 128 + number, signal.SIGKILL: -number}
            self.assertEqual(process.wait(), ends[number])
            if number == signal.SIGKILL:
                os.kill(rt, number)
            self.expect_gone(rt)
            self.expect_nothing_left()
            (self.kit / "pid").unlink()


class Places(Repository):
    """Where a file of types may be. The program names it by what it is given."""

    def place(self, name):
        file = self.top / name
        file.parent.mkdir(parents=True, exist_ok=True)
        file.write_text(TYPES)

    def test_of_types(self):
        names = ["a b.rs", "a=b.rs", "=/x.rs", "deep/down/x.rs", "deep/../x.rs", "é\n.rs"]
        names += ["stdin", "stdout", "stderr", "program/x.rs"]  # So rt calls files of its own.
        names += ["../x.rs", "link/x.rs", str(self.room / "a\tb =.rs")]
        (self.top / "link").symlink_to(self.room)
        for name in names:
            self.place(name)
        (self.top / "link.rs").symlink_to("types.rs")
        for is_proved in (False, True):
            for name in ("link.rs", *names):
                with self.subTest(name=name, is_proved=is_proved):
                    status, output, said = self.read(name, "Point", "--strict")
                    self.assertEqual(status, WORD, said)
                    self.assertEqual(output, "read\nPoint\n--strict\n{}\n")
                    self.assertTrue(said.endswith(TYPES))
                    self.expect_nothing_left()
            self.prove()

    def test_types_from_a_pipe(self):
        status, output, said = self.shell("./facet-read check <(cat types.rs)")
        self.assertEqual((status, output), (WORD, "check\n"))
        self.assertTrue(said.endswith(TYPES))

    def test_types_that_cannot_be_read(self):
        (self.top / "empty").mkdir()
        missing, none = "No such file or directory", "no file below it ends with .rs"
        for name, why in (("none.rs", missing), ("empty", none)):
            self.assertEqual(self.read(name), (64, "", f"facet-read: {name}: {why}\n"))

    def test_the_script_by_a_link_and_from_another_folder(self):
        (self.room / "reads").symlink_to(self.top / "facet-read")
        status, output, _ = self.shell("cd /; echo x | $OLDPWD/../reads read $OLDPWD/types.rs")
        self.assertEqual((status, output), (WORD, "read\nx\n"))
