"""Tests of `./facet-read check --accept FILE`: the program has FILE, wherever it runs."""

from .stand_in import PROGRAM, WORD
from .teller import Teller

KNOWN = "# as ever\n"
TYPES = "struct A { u: Uuid }\n"


class Accept(Teller):
    """Each call is made without proofs, and then by the proved program.

    It prints its words, and each file that these name on standard error.
    """

    def setUp(self):
        super().setUp()
        (self.kit / "program").write_text(PROGRAM)
        (self.top / "known").write_text(KNOWN)
        self.write(types=TYPES, ids="type Uuid = u8;\n")

    def expect(self, printed, said, *words):
        """Expects which words and which files the program has."""
        for came in self.ends("check", *words):
            self.assertEqual(came, (WORD, printed, said))

    def test_wherever_it_stands_among_the_words(self):
        both = [TYPES.strip(), KNOWN.strip()]
        self.expect("check\n--accept\n", both, "types.rs", "--accept", "known")
        self.expect("check\n--accept\n--json\n", both[::-1], "--accept", "known", "--json", "types.rs")
        self.expect("check\n--accept\nA\n", both, "types.rs", "--accept", "known", "A")

    def test_by_a_path_that_leads_elsewhere(self):
        (self.room / "elsewhere").write_text("# elsewhere\n")
        wanted = [TYPES.strip(), "# elsewhere"]
        self.expect("check\n--accept\n", wanted, "types.rs", "--accept", f"{self.room}/elsewhere")

    def test_beside_stand_ins(self):
        words = "types.rs", "--accept", "known", "--with", "ids.rs"
        for status, printed, said in self.ends("check", *words):
            self.assertEqual((status, printed), (WORD, "check\n--accept\n"))
            self.assertIn("type Uuid = u8;", said)
            self.assertEqual(said[-1], f"}} {KNOWN.strip()}")

    def test_a_file_that_is_not_there(self):
        for words in ("types.rs",), ("types.rs", "--with", "ids.rs"):
            status, printed, said = self.call("./facet-read", "check", *words, "--accept", "none")
            self.assertEqual((status, printed), (64, ""))
            self.assertTrue(said.endswith("facet-read: none: No such file or directory\n"), said)

    def test_the_word_alone_and_for_another_command_is_the_programs_matter(self):
        self.expect("check\n--accept\n", [TYPES.strip()], "types.rs", "--accept")
        for status, printed, said in self.ends("catalogue", "types.rs", "--accept", "A"):
            self.assertEqual((status, printed), (WORD, "catalogue\n--accept\nA\n"))
            self.assertEqual(said, [TYPES.strip()])
