"""Tests of docs/statuses: a page, a help or a script that tells other statuses than the sources."""

import shutil

from .scratch import TOP, Repository

TOOL, PROGRAM = "crates/facet_solver_tool", "crates/facet_solver_program"
STATUS, HELP, COUNT = (f"{TOOL}/src/{it}.rt" for it in ("status", "help", "count"))
REPLY = f"{PROGRAM}/src/reply.rt"
PAGE = "examples/README.md"
CALL = ("docs/statuses",)
# Edits of files, each with what is told of it. Those of a part are made at once.
EDITS = (
    (
        (STATUS, "NoReading => 1", "NoReading => 8", f"{PAGE}: ./facet-read: there is no status 1"),
        (REPLY, "BadInput => 4", "BadInput => 3", "./solve: of status 3"),
        (REPLY, "OutOfMemory => 5", "OutOfMemory => 6", "./solve: the status 6 is missing"),
        ("facet-read", "127 where `rt`", "126 where `rt`", "of its own: the status 127 is missing"),
        ("sweep/run", "FAILED = 4 ", "FAILED = 9 ", "sweep/run: FAILED: it is 9"),
    ),
    (
        (STATUS, "BadTypes => 3", "BadTypes => 8", "--help: there is no status 3"),
        (COUNT, "            Status::NoReading\n", "            Status::Misused\n", "does not say"),
        (HELP, ", 74 a failed write", "", "--help: the status 74 is missing"),
        (PAGE, "| 2 | it has several;", "| 2 | it has some;", "2 nothing says 'several'"),
        (PAGE, "does not tell variants apart | `", "tells no variants | `", "2 nothing says 'apart'"),
        (PAGE, "| 3 | `bad catalogue NUMBER` |\n", "", "./solve: the status 3 is missing"),
        ("facet-read", "2 where it has several", "2 where it has two", "./facet-read: of status 2"),
        ("solve", "from 0 to 5", "from 0 to 4", "./solve: its head does not say 'from 0 to 5'"),
        ("launch/program.py", "NO_RT = 64, 70,", "NO_RT = 64, 69,", "of its own: the status 69"),
    ),
    (
        (HELP, "1 no reading, 2 several readings", "2 no reading, 1 several readings", "--help: of"),
        (HELP, "first of 5, 4, 2 and 1", "first of 5, 4, 1 and 2", "--help: with --lines it does"),
        (PAGE, "| 5 | memory ran out |", "| 6 | memory ran out |", "the status 5 is missing"),
        (PAGE, "| Status | Text |", "| State | Text |", "no page has a table of the statuses of ./so"),
        ("facet-read", "first of 5, 4, 2 and 1", "first of 5, 4, 2", "./facet-read: with --lines"),
        ("solve", "70 where the program", "71 where the program", "./solve, of its own: there is"),
    ),
    (
        (PAGE, "| 64 | the arg", "| 5 | the arg", f"{PAGE}: ./facet-read: a status stands twice"),
        (PAGE, "### What `./solve` answers", "### Answers", "a table of statuses of neither"),
    ),
)


class Statuses(Repository):
    FILES = {}

    def setUp(self):
        super().setUp()
        for file in (STATUS, HELP, COUNT, REPLY, PAGE):
            (self.top / file).parent.mkdir(parents=True, exist_ok=True)
            shutil.copy(TOP / file, self.top / file)

    def test_nothing_wrong(self):
        self.assertEqual(self.expect_passes(*CALL), "")

    def test_what_differs(self):
        for part in EDITS:
            before = {file: (self.top / file).read_text() for file, *_ in part}
            for file, old, new, _ in part:
                text = (self.top / file).read_text()
                self.assertIn(old, text)
                (self.top / file).write_text(text.replace(old, new))
            self.expect_told(CALL, *(told for *_, told in part))
            for file, text in before.items():
                (self.top / file).write_text(text)

    def test_a_missing_source_or_page(self):
        for file in (STATUS, HELP, COUNT, REPLY, PAGE, "facet-read", "solve", "sweep/run"):
            with self.subTest(file=file):
                (self.top / file).rename(self.top / "aside")
                self.expect_told(CALL, file.split("/")[-1])
                (self.top / "aside").rename(self.top / file)
