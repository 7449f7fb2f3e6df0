"""A repository whose programs are small scripts, and a kit whose rt links them without a proof."""

import os
import pathlib
import re
import shutil
import subprocess
import sys
import tempfile
import textwrap
import time
import unittest

TOP = pathlib.Path(__file__).resolve().parent.parent.parent
NAME = "stand_in"
WORD = 7  # What the program ends with.
UNWRITTEN = 74  # What it ends with where a write fails.
SECONDS = 600  # How long a call may take, also where much else runs.
CRATES = (NAME, "middle", "base")  # Each stands on the next.
KINDS = ("src", "specs", "proofs")
KIT = "a kit\n"
# It prints its arguments and what standard input has, and a file of types to standard error.
PROGRAM = f"""\
#!/bin/sh
for word
do
    if [ -f "$word" ]; then cat "$word" >&2 || exit {UNWRITTEN}
    else echo "$word" || exit {UNWRITTEN}
    fi
done
cat || exit {UNWRITTEN}
exit {WORD}
"""
# `rt run` does what the variables BEFORE and BEHIND say, before it links and behind that. So does
# `rt ci`, whose last line is LAST.
RT = f"""\
#!/bin/sh
set -e
kit=$(dirname "$(dirname "$(readlink -f "$0")")")
verb=$1
shift
case $verb in
version) cat "$kit/KIT-ID" ;;
run | ci)
    [ "$verb" = run ] || cd crates/{NAME}
    echo $$ >"$kit/pid"
    eval "$BEFORE"
    mkdir -p out
    cp "$kit/program" out/{NAME}
    eval "$BEHIND"
    echo "rt: running out/{NAME}; to give it other input, run that file yourself" >&2
    echo "$LAST"
    ;;
try)
    room=$(mktemp -d)
    trap 'rm -r "$room"' EXIT
    while [ "$1" != -- ]
    do
        if [ "$1" = --data ]; then
            case "${{2%%=*}}" in
            program | program/* | stdin | stdout | stderr)
                echo "rt: --data cannot name ${{2%%=*}}" >&2
                exit 2 ;;
            esac
            mkdir -p "$room/$(dirname "${{2%%=*}}")"
            cat "${{2#*=}}" >"$room/${{2%%=*}}"
        fi
        shift
    done
    shift
    cd "$room"
    status=0
    "$kit/program" "$@" || status=$?
    echo "run=ended status=$status proved=no" >&2
    ;;
esac
"""


def is_alive(number):
    """Whether a process runs. One that has ended and that nobody has asked for does not."""
    try:
        stat = pathlib.Path(f"/proc/{number}/stat").read_text()
    except OSError:
        return False
    return stat.rpartition(")")[2].split()[0] != "Z"


class Repository(unittest.TestCase):
    """A test in a fresh repository, with an empty folder for temporary files."""

    def setUp(self):
        room = tempfile.TemporaryDirectory()
        self.addCleanup(room.cleanup)
        self.room = pathlib.Path(room.name).resolve()
        self.top, self.kit, self.temporary = (self.room / it for it in ("top", "kit", "temporary"))
        self.temporary.mkdir()
        self.write_kit()
        self.write_crates()
        self.write_scripts()
        folders = [f"{self.kit}/bin", os.path.dirname(sys.executable), os.environ["PATH"]]
        path = os.pathsep.join(folders)
        self.environment = os.environ | {"PATH": path, "TMPDIR": str(self.temporary)}
        self.program = self.top / "crates" / NAME / "out" / NAME

    def write_kit(self):
        (self.kit / "bin").mkdir(parents=True)
        (self.kit / "KIT-ID").write_text(KIT)
        for file, text in (("bin/rt", RT), ("program", PROGRAM)):
            (self.kit / file).write_text(text)
            (self.kit / file).chmod(0o755)

    def write_crates(self):
        for crate in (*CRATES, "other"):
            for kind in KINDS:
                source = self.source(crate, kind)
                source.parent.mkdir(parents=True)
                source.write_text(f"{crate} {kind}\n")
        (self.top / "crates.txt").write_text(
            f"# the crates\nbase:\nmiddle: base\n{NAME}: middle # the program\nother:\n"
        )

    def write_scripts(self):
        ignored = shutil.ignore_patterns("tests")
        shutil.copytree(TOP / "launch", self.top / "launch", ignore=ignored)
        for name in ("solve", "facet-read"):
            text = (TOP / name).read_text()
            (self.top / name).write_text(re.sub('"facet_solver_(program|tool)"', f'"{NAME}"', text))
            (self.top / name).chmod(0o755)
        (self.top / "types.rs").write_text("struct Point;\n")

    def source(self, crate, kind):
        """A source of a crate."""
        return self.top / "crates" / crate / kind / "deep" / "file"

    def call(self, *words, **how):
        """Calls a script, and gives how it ended: status, output, and what it said."""
        how = {"input": b"", "capture_output": True, "timeout": SECONDS} | how
        if "stdin" in how:
            del how["input"]
        it = subprocess.run(words, cwd=self.top, env=self.environment, **how)
        return it.returncode, *((text or b"").decode() for text in (it.stdout, it.stderr))

    def shell(self, line):
        """Runs a line of bash at the top, and gives how it ended, as `call` does."""
        return self.call("bash", "-c", textwrap.dedent(line))

    def read(self, *words, document=b"{}\n", **how):
        """How `./facet-read read` ends on a document."""
        return self.call("./facet-read", "read", *words, input=document, **how)

    def start(self, *words, **how):
        """Starts a script, which is ended with the test, and whatever its rt still does."""
        how = {"stdin": subprocess.DEVNULL, "stderr": subprocess.PIPE, "text": True} | how
        process = subprocess.Popen(words, cwd=self.top, env=self.environment, **how)
        self.addCleanup(process.__exit__, None, None, None)
        self.addCleanup(process.kill)
        return process

    def rt_process(self):
        """The number of the process of rt, once it runs."""
        return int(self.text_of(self.kit / "pid"))

    def text_of(self, file):
        """What a file has, once it has something."""
        end = time.monotonic() + SECONDS
        while time.monotonic() < end:
            if file.exists() and (text := file.read_text()).endswith("\n"):
                return text
            time.sleep(0.01)
        self.fail(f"{file} did not come")

    def expect_gone(self, number):
        """Waits until a process has ended."""
        end = time.monotonic() + SECONDS
        while is_alive(number):
            self.assertLess(time.monotonic(), end, "a process did not end")
            time.sleep(0.01)

    def prove(self):
        """Proves the program."""
        status, output, said = self.call("./facet-read", "--prove")
        self.assertEqual((status, output), (0, ""), said)

    def expect_nothing_left(self):
        """No temporary file is left, also none of rt's."""
        self.assertEqual(list(self.temporary.iterdir()), [])
