"""Tests of documents of TOML."""

import json
import unittest

from launch.toml import BadDocument, json_of

from .stand_in import WORD, Repository

# Documents, with the JSON of each.
DOCUMENTS = {
    "": "{}",
    "a = 1\r\n# a comment\r\nb = 2": '{"a": 1, "b": 2}',
    "a = 1\nb = +2\nc = -0\nd = 1_000\ne = 0xff\nf = 0o17\ng = 0b11": (
        '{"a": 1, "b": 2, "c": 0, "d": 1000, "e": 255, "f": 15, "g": 3}'
    ),
    "a = 340282366920938463463374607431768211455": (
        '{"a": 340282366920938463463374607431768211455}'
    ),
    "a = 1.0\nb = +1_0.5_0\nc = -0.0\nd = 1e06\ne = 5E+3\nf = 1.7976931348623157e308": (
        '{"a": 1.0, "b": 10.50, "c": -0.0, "d": 1e06, "e": 5E+3, "f": 1.7976931348623157e308}'
    ),
    "a = 0.1000000000000000055511151231257827\nb = 1e-400": (
        '{"a": 0.1000000000000000055511151231257827, "b": 1e-400}'
    ),
    "a = true\nb = false": '{"a": true, "b": false}',
    "a = \"q\\\" \\u00e9 \\U0001F600 \\t\"\nb = 'C:\\x'": (
        '{"a": "q\\" é 😀 \\t", "b": "C:\\\\x"}'
    ),
    'a = """\none\n  two \\\n  three"""': '{"a": "one\\n  two three"}',
    "a = 1979-05-27T07:32:00Z\nb = 1979-05-27 07:32:00.50-07:00\nc = 1979-05-27T07:32:00": (
        '{"a": "1979-05-27T07:32:00Z", "b": "1979-05-27T07:32:00.5-07:00",'
        ' "c": "1979-05-27T07:32:00"}'
    ),
    "a = 1979-05-27\nb = 07:32:00\nc = 07:32:00.120\nd = 00:00:00.123456789": (
        '{"a": "1979-05-27", "b": "07:32:00", "c": "07:32:00.12", "d": "00:00:00.123456"}'
    ),
    "a = 1979-05-27T07:32:10.000-00:00\nb = 1979-05-27T07:32:10.100+00:30": (
        '{"a": "1979-05-27T07:32:10Z", "b": "1979-05-27T07:32:10.1+00:30"}'
    ),
    "z = 1\na = 2\n[m.n]\nx = 1\n[b]\n[m]\ny = 2": (
        '{"z": 1, "a": 2, "m": {"n": {"x": 1}, "y": 2}, "b": {}}'
    ),
    'a.b.c = 1\na."b.c" = 2\n"" = 3': '{"a": {"b": {"c": 1}, "b.c": 2}, "": 3}',
    "[[a]]\nb = 1\n[[a.c]]\n[[a]]": '{"a": [{"b": 1, "c": [{}]}, {}]}',
    "a = [1, 'x', [2.0], {b = {}, c = 07:00:00}]": (
        '{"a": [1, "x", [2.0], {"b": {}, "c": "07:00:00"}]}'
    ),
}
# Documents that are bad, with what is told of each.
BAD = {
    "a = 1\nb = ": "document:2:5: invalid TOML: invalid value",
    "a = [1,\n": "document:2:1: invalid TOML: invalid value",
    "a": "document:1:2: invalid TOML: expected '=' after a key in a key/value pair",
    "a = 1\r\nb = é": "document:2:5: invalid TOML: invalid value",
    "a = 1\na = 2": "document:2:6: invalid TOML: cannot overwrite a value",
    "['a b'.c]\n['a b'.c]": "document:2:9: invalid TOML: cannot declare a b.c twice",
    "[\"it's\"]\n[\"it's\"]": "document:2:8: invalid TOML: cannot declare it's twice",
    "['\"']\n['\"']": 'document:2:5: invalid TOML: cannot declare " twice',
    '["\\u001b"]\n["\\u001b"]': (
        "document:2:10: invalid TOML: cannot declare \N{REPLACEMENT CHARACTER} twice"
    ),
    "a = inf": "a: inf is no number of JSON",
    "a.b = [0, {c = -nan}]": "a.b.1.c: -nan is no number of JSON",
    "a = 1e400": "a: 1e400 is too large for a float",
    "a = -1e400": "a: -1e400 is too large for a float",
    '"a\\nb" = inf': "a\N{REPLACEMENT CHARACTER}b: inf is no number of JSON",
    f"a = {'9' * 5000}": "the document: a whole number has too many digits",
    f"a = 0x{'f' * 5000}": "a: a whole number has too many digits",
    f"a = {'[' * 5000}": "the document: more than 128 lists and objects nest",
    f"a = {'[' * 128}{']' * 128}": f"a{'.0' * 127}: more than 128 lists and objects nest",
    f"{'.'.join('a' * 5000)} = 1": f"{'.'.join('a' * 128)}: more than 128 lists and objects nest",
}


def told(document):
    """What is told of a document."""
    try:
        return json_of(document)
    except BadDocument as error:
        return str(error)


class Toml(unittest.TestCase):
    """The JSON of a document."""

    def test_documents(self):
        for document, wanted in DOCUMENTS.items():
            with self.subTest(document=document):
                came = told(document.encode())
                self.assertEqual(came, f"{wanted}\n".encode())
                json.loads(came)

    def test_bad_documents(self):
        for document, wanted in BAD.items():
            with self.subTest(document=document):
                self.assertEqual(told(document.encode()), wanted)

    def test_bytes_that_are_no_text(self):
        self.assertEqual(told(b"a = 1\nb = '\xff'"), "document:2: no UTF-8 at byte 11")

    def test_as_deep_as_may_be(self):
        came = told(f"a = {'[' * 127}{']' * 127}".encode())
        self.assertEqual(came, f'{{"a": {"[" * 127}{"]" * 127}}}\n'.encode())


class Call(Repository):
    """`./facet-read read TYPES --toml`."""

    def test_the_program_is_given_json(self):
        for is_proved in (False, True):
            for words in (["--toml"], ["Point", "--toml", "--json"], ["--toml", "--toml"]):
                with self.subTest(words=words, is_proved=is_proved):
                    status, output, said = self.read("types.rs", *words, document=b"a.b = 1.0\n")
                    rest = [it for it in words if it != "--toml"]
                    lines = ["read", *rest, '{"a": {"b": 1.0}}']
                    self.assertEqual((status, output.splitlines()), (WORD, lines), said)
                    self.expect_nothing_left()
            self.prove()

    def test_a_bad_document(self):
        ended = self.read("types.rs", "--toml", document=b"a = \n")
        self.assertEqual(ended, (4, "", "document:1:5: invalid TOML: invalid value\n"))
        self.assertEqual(self.shell("echo a | ./facet-read read x --toml 2>/dev/full")[0], 74)

    def test_with_lines(self):
        status, output, said = self.read("types.rs", "--toml", "--lines")
        self.assertEqual((status, output), (64, ""))
        self.assertIn("facet-read: --toml is for one document", said)

    def test_other_commands_are_given_the_word(self):
        self.prove()
        ended = self.call("./facet-read", "check", "types.rs", "--toml", input=b"x")
        self.assertEqual(ended[:2], (WORD, "check\n--toml\nx"))

    def test_a_python_without_tomllib(self):
        folder = self.room / "modules"
        folder.mkdir()
        (folder / "tomllib.py").write_text("raise ModuleNotFoundError\n")
        self.environment["PYTHONPATH"] = str(folder)
        status, output, said = self.read("types.rs", "--toml")
        self.assertEqual((status, output), (70, ""))
        self.assertIn("facet-read: --toml needs Python 3.11", said)
        self.assertEqual(self.read("types.rs")[0], WORD)
