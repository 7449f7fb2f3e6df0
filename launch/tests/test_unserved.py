"""Tests of what `./facet-read read` says of `deny_unknown_fields` that the reader passes over."""

from .teller import Teller

LINE = "{}: deny_unknown_fields counts on the root alone; --strict refuses unknown members in all"
TYPES = "#[serde(deny_unknown_fields)] struct Item { size: u8 }\n"


class Unserved(Teller):
    """Each call is made without proofs, and then by the proved program."""

    def setUp(self):
        super().setUp()
        # What `check` answers: a line for each type, among others.
        lines = "root: Order", LINE.format("Item"), "Kind: untagged", LINE.format("Page<u8>")
        answer = "\n".join(lines)
        text = f"#!/bin/sh\nif [ $1 = check ]; then echo '{answer}'; else echo a reading; fi\n"
        (self.kit / "program").write_text(text)

    def expect(self, wanted, *words, answer="a reading\n"):
        """Expects what a call says, and its answer."""
        for came in self.ends(*words, document=b"{}"):
            self.assertEqual(came, (0, answer, wanted))

    def test_all_types_in_one_line(self):
        self.write(types=TYPES)
        wanted = [LINE.format("Item, Page<u8>")]
        for words in (), ("Order",), ("Order", "--json"), ("--lines",):
            self.expect(wanted, "read", "types.rs", *words)

    def test_of_a_folder_and_with_a_file(self):
        (self.top / "source").mkdir()
        (self.top / "source" / "a.rs").write_text(TYPES)
        (self.top / "other.rs").write_text("type Uuid = String;\n")
        wanted = [LINE.format("Item, Page<u8>")]
        self.expect(wanted, "read", "source")
        self.expect(wanted, "read", "source", "--with", "other.rs")

    def test_nothing_where_all_are_refused_and_where_no_type_has_it(self):
        self.write(types=TYPES)
        self.expect([], "read", "types.rs", "--strict")
        self.write(types="struct Item { size: u8 }\n")
        self.expect([], "read", "types.rs")

    def test_check_answers_it_alone(self):
        self.write(types=TYPES)
        for status, answer, said in self.ends("check", "types.rs", document=b""):
            self.assertEqual((status, said), (0, []))
            self.assertEqual(answer.count("deny_unknown_fields"), 2)
