"""Tests of what Python's JSON says of documents and of the answers to them."""

import unittest

from launch.read_back import BAD, document_of, is_read_as, json_value, levels

DOCUMENT = '{"a": 1.50, "b": [1, {"c": null}], "d": {"e": "é"}}'
# Readings of it that are whole.
WHOLE = (
    DOCUMENT,
    '{"d": {"e": "\\u00e9"}, "b": [1, {"c": null}], "a": 1.50}',
    '{"variants": {"": "E::A"}, "value": %s}' % DOCUMENT,
    DOCUMENT.replace("1.50", '{"variants": {"x": null}, "value": 1.50}'),
    DOCUMENT.replace('"é"', '{"variants": {"": "E::A", "::A": "F::B"}, "value": "é"}'),
)
# Those in which members that nothing takes are missing.
PARTS = ("{}", '{"a": 1.50}', DOCUMENT.replace('"c": null', ""), DOCUMENT.replace('"e": "é"', ""))
# What are none.
OTHERS = (
    *(DOCUMENT.replace("1.50", it) for it in ("1.5", "1.500", '"1.50"', "true", "null", "[1.50]")),
    *(DOCUMENT.replace("null", it) for it in ("0", "false", "{}", '""')),
    *(DOCUMENT.replace("[1, ", it) for it in ("[", "[1, 1, ", "[2, ")),
    DOCUMENT.replace('"a"', '"A"'),
    DOCUMENT.replace("é", "e"),
    "[]",
    "1",
    '{"variants": {}, "value": {}}',
    '{"variants": {"": "E"}, "value": {}}',
    '{"variants": {"": 1}, "value": {}}',
    '{"variants": ["E::A"], "value": {}}',
    '{"variants": {"": "E::A"}, "value": {}, "more": 1}',
)
BAD_ONES = ("", "{", "[1,]", '{"a": 1, "a": 1}', '[{"a": {"b": 1, "b": 2}}]', "NaN", "[-Infinity]")
BAD_ONES += ("01", "'a'", '"\n"', '"\\x"', "[" * 129 + "]" * 129, "[" * 5000 + "]" * 5000)


class ReadBack(unittest.TestCase):
    def expect(self, reading, is_part, is_whole):
        with self.subTest(reading=reading):
            values = json_value(reading), json_value(DOCUMENT)
            self.assertEqual(is_read_as(*values, is_whole=False), is_part)
            self.assertEqual(is_read_as(*values, is_whole=True), is_whole)

    def test_readings(self):
        for reading in WHOLE:
            self.expect(reading, True, True)
        for reading in PARTS:
            self.expect(reading, True, False)
        for reading in OTHERS:
            self.expect(reading, False, False)

    def test_a_document_with_the_members_variants_and_value(self):
        document = json_value('{"variants": {"": "E::A"}, "value": {"a": 1}}')
        for reading in ('{"variants": {"": "E::A"}, "value": {"a": 1}}',):
            value = json_value(reading)
            self.assertTrue(is_read_as(value, document, is_whole=True))
            wrapped = {"variants": {"": "F::B"}, "value": value}
            self.assertTrue(is_read_as(wrapped, document, is_whole=True))
        self.assertFalse(is_read_as(json_value('{"a": 1}'), document, is_whole=False))

    def test_bad_documents(self):
        for text in BAD_ONES:
            with self.subTest(text=text[:20]):
                self.assertIs(document_of(text), BAD)
        for text in ("{}", "null", "[" * 128 + "]" * 128, '{"a": {"a": 1}, "b": [{"a": 1}]}'):
            self.assertEqual(document_of(text), json_value(text))

    def test_levels(self):
        for text, wanted in (("1", 0), ("[]", 1), ('{"a": 1}', 1), ('[1, {"a": [[]]}, []]', 4)):
            self.assertEqual(levels(json_value(text)), wanted, text)


if __name__ == "__main__":
    unittest.main()
