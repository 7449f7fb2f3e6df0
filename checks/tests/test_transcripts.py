"""Tests of the part `transcripts` of test."""

from .scratch import Repository

# It says of each transcript of its files whether it holds: one with a call of `wrong` does not.
PROGRAM = r"""#!/bin/sh
status=0
for file
do
    if [ "$file" = in_code ]; then echo ok a_check; continue; fi
    [ -f "$file" ] || { echo "no file $file"; exit 5; }
    while read -r word name
    do
        [ "$word" = transcript ] && echo "ok $name"
        [ "$word" = wrong ] && { echo "  wanted: $name"; status=1; }
    done <"$file"
done
exit $status
"""
CRATE = "crates/facet_solver_tests"
DATA = f"{CRATE}/data/some.txt"
CALL = ("./test", "transcripts")


class Transcripts(Repository):
    FILES = {
        f"{CRATE}/program": PROGRAM,
        f"{CRATE}/args": "some.txt\nsizes.txt\nin_code\n",
        f"{CRATE}/stdout": "ok first\nok second\nok large\nok a_check\n",
        DATA: "transcript first\na: b\ntranscript second\na: b\n",
        f"{CRATE}/data/sizes.txt": "transcript large\na: b\n",
        "checks/totals.txt": "transcripts: 4\n",
    }

    def test_nothing_wrong(self):
        self.assertIn("5 passed, 0 failed", self.expect_passes(*CALL))

    def test_a_wrong_transcript(self):
        self.edit(DATA, "second\na: b", "second\nwrong answer")
        said = "wanted: ok second\n  came:   ok second\n  wanted: answer"
        self.expect_told(CALL, "failed: second", said)

    def test_a_missing_transcript(self):
        self.edit(DATA, "transcript second\na: b\n", "")
        self.expect_told(CALL, "wanted: ok second\n  came:   no line")

    def test_a_missing_transcript_whose_line_is_gone_too(self):
        self.edit(DATA, "transcript second\na: b\n", "")
        self.edit(f"{CRATE}/stdout", "ok second\n", "")
        self.expect_told(CALL, "failed: the number of transcripts\n  wanted: 4\n  came:   3")

    def test_a_transcript_without_a_line(self):
        self.edit(DATA, "transcript second", "transcript third\na: b\ntranscript second")
        self.expect_told(CALL, "failed: third\n  wanted: no line\n  came:   ok third")

    def test_two_transcripts_of_one_name(self):
        self.edit(DATA, "transcript second", "transcript first\nwrong answer\ntranscript second")
        self.expect_told(CALL, "failed: first", "wanted: answer")

    def test_a_file_that_is_read_no_more(self):
        self.edit(f"{CRATE}/args", "some.txt\n", "")
        self.expect_told(CALL, "failed: first", "failed: second")

    def test_a_missing_list(self):
        for file in ("stdout", "args", "data/sizes.txt"):
            with self.subTest(file=file):
                text = (self.top / CRATE / file).read_text()
                self.remove(f"{CRATE}/{file}")
                self.expect_told(CALL, f"{file}'")
                self.write(f"{CRATE}/{file}", text)

    def test_empty_lists(self):
        for file in ("stdout", "args", "data/some.txt", "data/sizes.txt"):
            self.write(f"{CRATE}/{file}", "")
        self.expect_told(CALL, "the number of transcripts\n  wanted: 4\n  came:   none")
        self.store_totals(transcripts=0)
        self.expect_told(CALL, "the number of transcripts\n  wanted: 0\n  came:   none")

    def test_more_is_printed(self):
        self.edit(f"{CRATE}/program", "ok a_check", "'ok a_check\n\nmore'")
        self.expect_told(CALL, "failed: the end of the transcripts", "more")

    def test_a_status(self):
        self.edit(f"{CRATE}/program", "exit $status", "exit 3")
        self.expect_told(CALL, "failed: the end of the transcripts", "'status 3'")

    def test_a_run_that_does_not_end(self):
        self.write("../kit/bin/rt", "#!/bin/sh\necho 'ok first'\n", mode=0o755)
        self.expect_told(CALL, "wanted: a run to the end")

    def test_the_stored_totals_are_missing(self):
        self.remove("checks/totals.txt")
        self.expect_told(CALL, "totals.txt'")
