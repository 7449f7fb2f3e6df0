"""A program of this repository, as a script at its top proves and runs it."""

import contextlib
import os
import re
import shutil
import signal
import subprocess
import sys
import tempfile
import time
import traceback

from . import proof
from .streams import ERRORS, INPUT, NAMES, OUTPUT, keep_numbers, tell, write

WRONG_ARGUMENTS, FAILED, UNWRITTEN, NO_RT = 64, 70, 74, 127
SECONDS = 600  # How long a run without proofs may take.
MOST = 64 << 20  # The bytes of an input from which on `rt try` cuts it.
ENDING = (signal.SIGINT, signal.SIGTERM, signal.SIGHUP)  # The signals that end a script.
# The last lines of `rt try` where the program ended. What it wrote to standard error stands before.
ENDED = re.compile(
    rb"^(?:interpreter: .*\n)?(?:checked: .*\n)?(?:races: .*\n)?run=ended status=(\d+) .*\n\Z",
    re.MULTILINE,
)
# Lines of `rt run`: which crate it begins, how many functions it has checked, that it waits, and
# that the program is proved and built, and runs.
BEGUN = re.compile(r"^rt: chose --jobs .* (\S+)$")
CHECKED = re.compile(r"^(?:so far: |checked .*, )(\d+ of \d+)(?: functions.*)?$")
WAITS = re.compile(r"^rt: (.*\bwaiting for .*)$")
RUNS = re.compile(r"^rt: running out/(\w+)\b", re.MULTILINE)


def progress(log):
    """How far a proof is, by what it has written: the crate, and how many functions are checked.

    Where it waits for another rt it is that instead.
    """
    crate, checked, waits = "beginning", "", None
    for line in log.splitlines():
        waits = WAITS.match(line)
        if found := BEGUN.match(line):
            crate, checked = found[1], ", reading"
        elif found := CHECKED.match(line):
            checked = f", {found[1]} functions"
    return waits[1] if waits else crate + checked


def text_of(file):
    """What an open file has, without moving the place where others write."""
    size = os.fstat(file.fileno()).st_size
    return os.pread(file.fileno(), size, 0).decode(errors="replace")


@contextlib.contextmanager
def held_signals():
    """Has the signals that end a script wait."""
    held = []
    old = {it: signal.getsignal(it) for it in ENDING}
    for number in (it for it in ENDING if old[it] != signal.SIG_IGN):
        signal.signal(number, lambda number, _: held.append(number))
    try:
        yield
    finally:
        for number, handler in old.items():
            signal.signal(number, handler)
        for number in held:
            signal.raise_signal(number)


def end(process):
    """Ends a process, if it goes on."""
    process.terminate()
    process.wait()


def has_ended(process, within):
    """Whether a process ends within so many seconds."""
    with contextlib.suppress(subprocess.TimeoutExpired):
        process.wait(within)
    return process.returncode is not None


class Program:
    """The program of a crate, for the script of this name.

    The program ends with the status `unwritten` where a write fails, and so does the script.
    """

    def __init__(self, script, crate, unwritten=UNWRITTEN):
        self.script = script
        self.crate = crate
        self.unwritten = unwritten
        self.folder = proof.TOP / "crates" / crate
        self.path = self.folder / "out" / crate
        self.stamp = self.path.with_name(f"{crate}.proved")
        self.remedy = f"./{script} --prove proves and builds the program"

    def say(self, text):
        tell(f"{self.script}: {text}\n")

    def stop(self, status, text):
        self.say(text)
        sys.exit(status)

    def why_unproved(self):
        """Why the program does not count as proved, or None where it does."""
        return proof.fault(self.stamp, self.path, self.crate)

    def is_proved(self):
        """Whether the program is there, and is proved from its sources as they are."""
        return self.why_unproved() is None

    def basis(self):
        """What a proof that begins now stands on."""
        return proof.basis(self.crate)

    def keep(self, before):
        """Notes that the program is proved, unless what the proof stands on was touched meanwhile.

        It gives whether that is so.
        """
        return proof.keep(self.stamp, self.path, self.crate, before)

    @contextlib.contextmanager
    def started(self, *words, **how):
        """A process of rt in the program's crate, which ends no later than this one."""
        if not shutil.which("rt"):
            self.stop(NO_RT, "rt is not on the path; it is in the folder bin of the Rattle kit")
        # `rt try` would end by the signal of a terminal that hangs up, also where it is ignored.
        how["start_new_session"] = signal.getsignal(signal.SIGHUP) == signal.SIG_IGN
        with contextlib.ExitStack() as ends:
            with held_signals():
                process = subprocess.Popen(["rt", *words], cwd=self.folder, **how)
                ends.callback(end, process)
            yield process

    def watch(self, process, log, begin):
        """Says how far a proof is, until it ends.

        On a terminal it does so in place, and elsewhere in a new line each half minute, and where
        it begins to wait for another rt.
        """
        is_terminal = os.isatty(ERRORS)
        next_line, waits = 30, None
        while not has_ended(process, within=1):
            seconds = round(time.monotonic() - begin)
            state = progress(text_of(log))
            waited, waits = waits, "waiting for" in state and state
            if is_terminal:
                tell(f"\r\033[K{state}, {seconds} s")
            elif seconds >= next_line or (waits and waits != waited):
                self.say(f"{state}, {seconds} s")
                next_line = seconds - seconds % 30 + 30
        if is_terminal:
            tell("\r\033[K")

    def prove(self):
        """Proves and builds the program, unless that is done."""
        if self.is_proved():
            self.say("the program is proved and built already, from the sources as they are")
            return 0
        begin, before = time.monotonic(), self.basis()
        with tempfile.TemporaryFile() as log:
            how = {"stdin": subprocess.DEVNULL, "stdout": log, "stderr": subprocess.STDOUT}
            with self.started("run", **how) as process:
                self.say("proving and building the program ..")
                self.watch(process, log, begin)
            said = text_of(log)
        # The status of `rt run` is that of the program where it runs.
        if self.crate not in RUNS.findall(said):
            tell(said)
            self.say("the program is not proved and built")
            return FAILED
        if not self.keep(before):
            # By its own stamp rt would take it again, where a source was written and written back.
            self.path.unlink(missing_ok=True)
            self.say("a source changed meanwhile, so the proof counts for nothing; prove it again")
            return FAILED
        self.say(f"the program is proved and built, in {round(time.monotonic() - begin)} s")
        return 0

    def become(self, words=(), given=None):
        """Runs the proved program in the place of the script, with these arguments.

        It has these bytes on standard input, if there are any given.
        """
        if given is not None:
            with tempfile.TemporaryFile() as file:
                write(file.fileno(), given)
                os.lseek(file.fileno(), 0, os.SEEK_SET)
                os.dup2(file.fileno(), INPUT)
        # Python ignores SIGPIPE and SIGXFSZ, and so does the program then: the write fails.
        os.execv(self.path, [self.path, *words])

    def tried(self, given, words, data):
        """What `rt try` writes to standard output, and to standard error."""
        options = ["--steps", "1", "--seconds", str(SECONDS)]
        for name, file in data:
            options += ["--data", f"{name}={file}"]
        how = {"stdout": subprocess.PIPE, "stderr": subprocess.PIPE}
        with tempfile.TemporaryFile() as file:
            write(file.fileno(), given)
            os.lseek(file.fileno(), 0, os.SEEK_SET)
            with self.started("try", *options, "--", *words, stdin=file, **how) as process:
                return process.communicate()

    def ended(self, words, given=None, answers=None):
        """Runs the proved program with these arguments, and gives how it ended: its status,
        nothing, and what it said. What it answers goes to standard output at once, or to the file
        `answers`.

        It has these bytes on standard input, if there are any given.
        """
        with contextlib.ExitStack() as ends:
            stdin = None
            if given is not None:
                stdin = ends.enter_context(tempfile.TemporaryFile())
                write(stdin.fileno(), given)
                os.lseek(stdin.fileno(), 0, os.SEEK_SET)
            # A write that fails is told by the program, as where it takes the place of the script.
            how = {"stdin": stdin, "stdout": answers, "stderr": subprocess.PIPE}
            with held_signals():
                process = subprocess.Popen([self.path, *words], restore_signals=False, **how)
                ends.callback(end, process)
            said = process.stderr.read()
            status = process.wait()
        return (status if status >= 0 else 128 - status), b"", said

    def ended_unproved(self, given, words=(), data=()):
        """Runs the program without proofs on these bytes, and gives how it ended, if it did: its
        status, what it answered, and what it said.

        It has these arguments, and in its folder a copy of each file of `data`, which has pairs of
        a name there and a file.
        """
        if len(given) >= MOST:
            self.say(f"an input of this size is for the proved program; {self.remedy}")
            return None
        output, said = self.tried(given, words, data)
        ended = ENDED.search(said)
        if not ended:
            tell(said.decode(errors="replace"))
            self.say("rt try did not run the program to its end")
            return None
        return int(ended[1]), output, said[: ended.start()]

    def run_unproved(self, given, words=(), data=()):
        """Runs the program without proofs, as `ended_unproved`, and gives its status."""
        ended = self.ended_unproved(given, words, data)
        return FAILED if ended is None else self.answer(*ended)

    def warn(self, why):
        """Says that an answer is without proofs."""
        self.say(f"{why}, so this answer is without proofs; {self.remedy}")

    def answer(self, status, output=b"", errors=b""):
        """Writes what the program answers, and gives its status."""
        for number, data in ((OUTPUT, output), (ERRORS, errors)):
            try:
                write(number, data)
            except OSError as error:
                self.say(f"{NAMES[number]}: {error.strerror}")
                return self.unwritten
        return status

    def end(self, main):
        """Ends the script with the status that `main` gives.

        A signal or a fault has another. A signal that is ignored when the script starts stays so.
        """
        keep_numbers()
        for number in ENDING:
            if signal.getsignal(number) != signal.SIG_IGN:
                signal.signal(number, lambda number, _: sys.exit(128 + number))
        try:
            status = main()
        except OSError as error:
            self.stop(FAILED, error)
        except MemoryError:
            self.stop(FAILED, "out of memory")
        except Exception:
            # 1 is a status of the program's, and means something else.
            self.stop(FAILED, traceback.format_exc().rstrip())
        sys.exit(status)
