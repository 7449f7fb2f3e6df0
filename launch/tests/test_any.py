"""Tests of `./facet-read --any`: types of which too little is said are values of any kind."""

from launch import anything
from launch.joined import Joined

from .teller import Teller

TOLD = "{}: '{}' is read as any value; in a file for --with: type {} = IgnoredAny;"


def told(place, name):
    return TOLD.format(place, name, name)


def read_by(*attributes):
    """A struct with a field for each attribute, each in a line behind the first."""
    fields = (f"    #[serde({it})] a{at}: u8,\n" for at, it in enumerate(attributes))
    return f"struct A {{\n{''.join(fields)}}}\n"


class Any(Teller):
    """Each call is made without proofs, and then by the proved program."""

    def expect(self, wanted, *words, status=0):
        """Expects how a call ends, what it says, and gives what it answers."""
        answer = None
        for came, answer, said in self.ends(*words, document=b"{}"):
            self.assertEqual((came, said), (status, wanted), answer)
        return answer

    def tell_until_any(self, fault):
        """Has the program tell a fault, in its text, until a value of any kind stands there."""
        unless = 'grep -q IgnoredAny "$2"'
        lines = "#!/bin/sh", f'{unless} || echo "$2{fault}" >&2', f"{unless} || exit 3", ""
        (self.kit / "program").write_text("\n".join(lines))

    def test_each_kind_in_one_round(self):
        self.write(types="struct A { a: Uuid }\nstruct B { b: Plain, c: Own, d: r#type }\n")
        places = "types.rs:1:15", "types.rs:2:15", "types.rs:2:25", "types.rs:2:33"
        names = "Uuid", "Plain", "Own", "r#type"
        answer = self.expect([*map(told, places, names)], "read", "types.rs", "A", "--any")
        lines = "".join(f"type {name} = IgnoredAny;\n" for name in names)
        self.assertIn(f"mod stand_ins {{ \n{lines}}} ", answer)
        self.assertTrue(answer.startswith("read A\n") and answer.endswith("{}\n"), answer)

    def test_of_each_command(self):
        self.write(types="struct A { a: Uuid }")
        for command in ("check", "catalogue"):
            wanted = [told("types.rs:1:15", "Uuid")]
            answer = self.expect(wanted, command, "--any", "types.rs")
            self.assertTrue(answer.startswith(f"{command}\n"), answer)

    def test_in_two_rounds(self):
        self.write(types="struct A { a: Pair<X Y>, b: Z }")
        places = "types.rs:1:20", "types.rs:1:29", "types.rs:1:22"
        self.expect([*map(told, places, "XZY")], "check", "types.rs", "--any")

    def test_a_name_is_told_once_at_its_first_place(self):
        self.write(types="struct A { a: X,\nb: X }\nstruct B { c: X, d: Pair<Y X> }")
        places = "types.rs:1:15", "types.rs:3:26"
        self.expect([*map(told, places, "XY")], "check", "types.rs", "--any")

    def test_of_a_folder(self):
        (self.top / "source").mkdir()
        (self.top / "source" / "a.rs").write_text("\nstruct A { a: X }")
        self.expect([told("source/a.rs:2:15", "X")], "check", "source", "--any")

    def test_the_last_name_of_a_path_in_a_text(self):
        self.write(types='struct A { a: "a::B", b: "C" }')
        places = "types.rs:1:15", "types.rs:1:26"
        self.expect([*map(told, places, "BC")], "check", "types.rs", "--any")

    def test_what_is_no_name_stays_a_fault(self):
        self.write(types='struct A { a: X, b: "a b" }')
        fault = "types.rs:1:21: unknown type '\"a b\"': skip"
        wanted = [told("types.rs:1:15", "X"), fault]
        self.expect(wanted, "read", "types.rs", "--any", status=3)

    def test_an_unknown_root_stays_a_fault(self):
        self.write(types="struct A { a: X }")
        wanted = [told("types.rs:1:15", "X"), "types.rs: unknown type 'Nothing'"]
        self.expect(wanted, "check", "types.rs", "Nothing", "--any", status=3)

    def test_what_code_reads(self):
        """Its stand-in has the last name of the path, and the place is that of the attribute."""
        codes = 'with = "a::hex"', 'default, deserialize_with = "text"', 'with = "b::hex"'
        self.write(types=read_by(*codes))
        wanted = [told("types.rs:2:13", "hex"), told("types.rs:3:22", "text")]
        answer = self.expect(wanted, "read", "types.rs", "A", "--any")
        lines = "type hex = IgnoredAny;\ntype text = IgnoredAny;\n"
        self.assertIn(f"mod stand_ins {{ \n{lines}}} ", answer)

    def test_what_code_reads_in_a_file_of_a_folder(self):
        (self.top / "source" / "b").mkdir(parents=True)
        for file, name in (("a", "hex"), ("b/a", "text"), ("b/c", "hex")):
            (self.top / "source" / f"{file}.rs").write_text(read_by(f'with = "c::{name}"'))
        places = "source/a.rs:2:13", "source/b/a.rs:2:13"
        self.expect([*map(told, places, ("hex", "text"))], "check", "source", "--any")

    def test_what_code_reads_where_a_file_declares_it(self):
        self.write(types=read_by('with = "a::hex"', 'with = "a::text"'))
        self.write(hex="type hex = u8;\n" + read_by('with = "a::day"'))
        wanted = [told("types.rs:3:13", "text"), told("hex.rs:3:13", "day")]
        answer = self.expect(wanted, "check", "types.rs", "--any", "--with", "hex.rs")
        self.assertNotIn("type hex = IgnoredAny;", answer)

    def test_code_of_a_name_that_is_built_in_stays_a_fault(self):
        self.write(types=read_by('with = "u64"', 'with = "a::text"'))
        fault = "types.rs:2:13: 'with' cannot be said: skip"
        wanted = [told("types.rs:3:13", "text"), fault]
        self.expect(wanted, "check", "types.rs", "--any", status=3)

    def test_code_whose_text_stands_in_another_line(self):
        self.write(types=read_by('with =\n"a::hex"'))
        self.tell_until_any(":3:13: 'with' cannot be said: skip")
        self.expect([told("types.rs:2:13", "hex")], "check", "types.rs", "--any")

    def test_another_type_of_a_known_name(self):
        """Only where that is a value of any kind: a stand-in stands in for both."""
        value = "$2:2:3: 'Value' takes no types"
        number = "$2:3:3: 'u8' takes no types"
        unless = f"grep -q 'type Value' \"$2\" || echo \"{value}\" >&2"
        (self.kit / "program").write_text(f'#!/bin/sh\n{unless}\necho "{number}" >&2\nexit 3\n')
        self.write(types="struct A {\n  a: B,\n  b: u8 }")
        wanted = [told("types.rs:1:3", "Value"), "types.rs:2:3: 'u8' takes no types"]
        self.expect(wanted, "check", "types.rs", "--any", status=3)

    def test_what_is_declared_for_another_crate(self):
        """Its stand-in has the name of the struct or enum on which the attribute stands."""
        lines = "", '#[serde(remote = "a::B")]', "/// words", "pub struct r#type<T> { c: T }"
        self.write(types="\n".join(lines))
        self.tell_until_any(":3:9: 'remote' cannot be said: declare")
        self.expect([told("types.rs:2:9", "r#type")], "check", "types.rs", "--any")

    def test_a_line_that_no_file_has(self):
        text = Joined()
        text.add("types.rs", (), 'with = "a::b"')
        cases = ("types.rs", 1, "b"), ("types.rs", 2, None), ("none.rs", 1, None)
        for file, line, wanted in cases:
            self.assertEqual(anything.code_at(text, file, line, 1), wanted)
            self.assertIsNone(anything.subject_at(text, file, line, 1))

    def test_another_fault_stays(self):
        fault = "types.rs:1:1: expected an item, met '}'"
        (self.kit / "program").write_text(f'#!/bin/sh\necho "$2{fault[8:]}" >&2\nexit 3\n')
        self.expect([fault], "check", "types.rs", "--any", status=3)

    def test_what_stays_a_fault_is_not_told_as_any_value(self):
        self.write(types=read_by('with = "a::hex"'))
        fault = ":{}:13: 'with' cannot be said: skip"
        # The text that the program is given has a line more at its begin.
        program = f'#!/bin/sh\necho "$2{fault.format(3)}" >&2\nexit 3\n'
        (self.kit / "program").write_text(program)
        self.expect(["types.rs" + fault.format(2)], "check", "types.rs", "--any", status=3)

    def test_where_nothing_is_at_fault(self):
        self.write(types="struct A { a: u8 }")
        self.assertNotIn("stand_ins", self.expect([], "read", "types.rs", "--any"))

    def test_what_a_file_declares_is_no_other_value(self):
        self.write(types="struct A { a: X, b: Y }", of_x="type X = u8;", of_z="struct Z { a: V }")
        words = "--with", "of_x.rs", "--any", "--with", "of_z.rs"
        wanted = [told("types.rs:1:21", "Y"), told("of_z.rs:1:15", "V")]
        answer = self.expect(wanted, "check", "types.rs", *words)
        self.assertNotIn("type X = IgnoredAny;", answer)

    def test_the_value_of_any_kind_cannot_stand_for_itself(self):
        said = "t.rs:1:2: 'IgnoredAny' derives no Deserialize"
        self.assertEqual(list(anything.stand_ins(None, lambda: said)), [])

    def test_it_comes_to_an_end(self):
        """Also where the program tells another name each time."""
        told = "$2:1:1: unknown type 'X$(wc -l <$2)': skip"
        (self.kit / "program").write_text(f'#!/bin/sh\necho "{told}" >&2\nexit 3\n')
        self.prove()
        status, output, said = self.read("types.rs", "--any")
        *lines, last = said.splitlines()
        self.assertEqual((status, output, len(lines)), (3, "", anything.MOST_ROUNDS))
        self.assertTrue(all("is read as any value" in line for line in lines), said)
        self.assertTrue(last.endswith(": skip"), last)

    def test_a_run_that_does_not_end(self):
        rt = self.kit / "bin" / "rt"
        rt.write_text("#!/bin/sh\necho no room >&2\n")
        status, output, said = self.read("types.rs", "--any")
        self.assertEqual((status, output), (70, ""))
        self.assertIn("facet-read: rt try did not run the program to its end\n", said)
        self.expect_nothing_left()
