"""Tests of the part `questions` of test, without proofs and with the proved program."""

from .scratch import Repository

CRATE = "crates/facet_solver_tool"
# It reads `{"a": 1}` as a text or as JSON, refuses types with `wrong` and says what else is wrong. Of
# types with `both` it tells that `{"b": 1}` is read in several ways.
PROGRAM = r"""#!/bin/sh
[ -f "$2" ] || exit 64
case $1 in
check)
    line=$(grep -n wrong "$2" | cut -d : -f 1)
    [ -z "$line" ] || { echo "$2:$line:8: at fault" >&2; exit 3; }
    case $(cat "$2") in
    *both*)
        case " $* " in
        *--accept*) cat "$4" && exit 0 || exit 64 ;;
        *--strict*) echo strictly; exit 0 ;;
        *--json*) echo '{"root": "S"}'; echo '{"document": {"b": 1}}' ;;
        *) echo both ;;
        esac
        exit 2 ;;
    esac
    echo "root: ${3:-S}"
    exit 0 ;;
esac
case " $* " in
*--lines*)
    cat >/dev/null
    echo '{"reading": {"a": 1}}'
    echo "1 of 1 documents read" >&2
    exit 0 ;;
esac
read -r document
case "$document" in
'{"a": 1}' | '{"a": 1, "b": 2}') ;;
'{"b": 1}') echo "a: several" >&2; exit 2 ;;
*) echo "a: no" >&2; exit 1 ;;
esac
case " $* " in
*--json*) echo '{"variants": {"": "S::A"}, "value": {"a": 1}}' ;;
*) echo "a: 1"; case "$document" in *b*) echo 'ignored "b"' ;; esac ;;
esac
"""
A = "examples/a/documents"
ENDS = {"some": "0\na: 1\n", "none": "1\na: no\n", "more": '0\na: 1\nignored "b"\n'}
CALL = ("./test", "questions")
GATE = ("./test", "--all", "questions")
JSON_END = f"{A}/some.json_end"
TOLD = "examples/e/check.json_end"
ACCEPT = "./facet-read check examples/e/types.rs --accept"


class Questions(Repository):
    FILES = {
        f"{CRATE}/program": PROGRAM,
        f"{CRATE}/src/main.rt": "fn main() {}\n",
        "crates.txt": "facet_solver_tool:\n",
        "examples/a/types.rs": "struct S;\n",
        "examples/a/check.end": "0\nroot: S\n",
        "examples/c/src/lib.rs": "mod below;\n",
        "examples/c/src/below.rs": "struct C;\nstruct D;\n",
        "examples/c/root": "C\n",
        "examples/c/check.end": "0\nroot: C\n",
        "examples/c/documents/some.json": '{"a": 1}\n',
        "examples/c/documents/some.end": "0\na: 1\n",
        "examples/d/src/lib.rs": "struct D;\n",
        "examples/d/root": "D\n",
        "examples/d/stand_ins.rs": "\nstruct wrong;\n",
        "examples/d/check.end": "3\nexamples/d/stand_ins.rs:2:8: at fault\n",
        "examples/e/types.rs": "struct both;\n",
        "examples/e/check.end": "2\nboth\n",
        "examples/e/check_strictly.end": "0\nstrictly\n",
        TOLD: '2\n{"root": "S"}\n{"document": {"b": 1}}\n',
        "examples/calls/known": "accepted\n",
        "examples/calls/accept.call": f"{ACCEPT} examples/calls/known\n",
        "examples/calls/accept.end": "0\naccepted\n",
        "examples/calls/root.call": "./facet-read check examples/a/types.rs 'Vec<S>'\n",
        "examples/calls/root.end": "0\nroot: Vec<S>\n",
        "examples/calls/none.call": "./facet-read check none.rs\n",
        "examples/calls/none.end": "64\n",
        "examples/calls/read.call": f"./facet-read read examples/a/types.rs < {A}/some.json\n",
        "examples/calls/read.end": "0\na: 1\n",
        "examples/faults/f.rs": "struct wrong\n",
        "examples/faults/f.end": "3\nexamples/faults/f.rs:1:8: at fault\n",
        "examples/faults/g/lib.rs": "mod below;\n",
        "examples/faults/g/below/it.rs": "struct C;\nstruct wrong;\n",
        "examples/faults/g.end": "3\nexamples/faults/g/below/it.rs:2:8: at fault\n",
        f"{A}/some.json": '{"a": 1}\n',
        JSON_END: '0\n{"variants": {"": "S::A"}, "value": {"a": 1}}\n',
        f"{A}/none.json": "[]\n",
        f"{A}/more.json": '{"a": 1, "b": 2}\n',
        f"{A}/table.toml": "a = 1\n",
        f"{A}/bad.toml": "a = \n",
        f"{A}/bad.end": "4\ndocument:1:5: invalid TOML: invalid value\n",
        f"{A}/lines.jsonl": '{"a": 1}\n',
        f"{A}/lines.end": '0\n{"reading": {"a": 1}}\n1 of 1 documents read\n',
        f"{A}/table.end": "0\na: 1\n",
        **{f"{A}/{name}.end": end for name, end in ENDS.items()},
        "checks/totals.txt": "questions of the examples: 26\nends of questions: 20\n",
    }

    def test_nothing_wrong(self):
        self.prove("facet_solver_tool", self.top / CRATE / "program")
        for call in (CALL, GATE):
            self.assertIn("29 passed, 0 failed", self.expect_passes(*call))

    def test_another_end(self):
        names = ["a/check", "c/check", "d/check", "c/documents/some", "faults/f", "faults/g"]
        names += ["calls/none", "calls/read", "calls/root", "calls/accept"]
        names += ["e/check", "e/check_strictly"]
        for name in (*names, *(f"a/documents/{it}" for it in (*ENDS, "bad"))):
            file = self.top / "examples" / f"{name}.end"
            file.write_text(file.read_text() + "more\n")
        status, said = self.call(*CALL)
        # Of documents that are not read the end is also that with `--json`.
        self.assertEqual((status, said.count("failed: ./facet-read")), (1, 16 + 2), said)

    def test_another_status(self):
        self.edit(f"{A}/none.end", "1\n", "2\n")
        self.edit("examples/faults/f.end", "3\n", "4\n")
        self.edit("examples/faults/g.end", "3\n", "4\n")
        told = [f"read examples/a/types.rs < {A}/none.json", "check examples/faults/f.rs"]
        told.append("check examples/faults/g\n")
        self.expect_told(CALL, *told)

    def test_a_told_document_that_has_one_reading(self):
        for file in (TOLD, f"{CRATE}/program"):
            self.edit(file, '{"document": {"b": 1}}', '{"document": {"a": 1}}')
        told = """failed: ./facet-read read examples/e/types.rs <<< '{"a": 1}'\n  wanted: status 2"""
        self.expect_told(CALL, told)

    def test_a_missing_end(self):
        files = ["a/check.end", "faults/f.end", *(f"a/documents/{it}.end" for it in ENDS)]
        files += ["c/check.end", "c/documents/some.end", "d/check.end"]
        files += ["calls/read.end", "faults/g.end"]
        for file in (*files, "a/documents/bad.end", "a/documents/lines.end"):
            self.remove(f"examples/{file}")
        texts = [f"the end in examples/{it}, which is missing" for it in files]
        self.expect_told(CALL, *texts)

    def test_a_missing_end_of_json(self):
        self.remove(JSON_END)
        self.expect_told(CALL, "the number of ends of questions\n  wanted: 20\n  came:   19")

    def test_a_missing_document_whose_end_is_gone_too(self):
        self.remove(f"{A}/none.json", f"{A}/none.end")
        told = "the number of questions of the examples\n  wanted: 26\n  came:   24"
        self.expect_told(CALL, told)

    def test_missing_types(self):
        self.remove("examples/a/types.rs")
        self.expect_told(CALL, "the number of questions of the examples\n  wanted: 26\n  came:   14")

    def test_a_folder_whose_fault_stands_in_another_place(self):
        for old, new in (("g/below/it.rs:2", "g/below/it.rs:1"), ("g/below/it.rs", "g/lib.rs")):
            with self.subTest(new=new):
                self.edit("examples/faults/g.end", old, new)
                self.expect_told(CALL, "failed: ./facet-read check examples/faults/g\n")
                self.edit("examples/faults/g.end", new, old)

    def test_a_folder_without_the_file_of_its_root(self):
        self.remove("examples/c/root")
        self.expect_told(CALL, "examples/c/root'")

    def spoil(self, old, new):
        """Changes what the program says with `--json`, and what is stored of it."""
        for file in (JSON_END, f"{CRATE}/program"):
            self.edit(file, f'"value": {old}', f'"value": {new}')

    def test_an_answer_that_is_no_json(self):
        self.spoil('{"a": 1}}', '{"a": 1}')
        self.expect_told(CALL, f"< {A}/some.json: the value", f"< {A}/table.toml: the value")

    def test_an_answer_with_another_value(self):
        for value in ('{"a": 1.0}', '{"a": 1, "a": 1}'):
            with self.subTest(value=value):
                self.spoil('{"a": 1}', value)
                self.expect_told(CALL, f"< {A}/some.json: the value")
                self.spoil(value, '{"a": 1}')

    def test_a_program_that_is_not_proved(self):
        self.prove("facet_solver_tool", self.top / CRATE / "program")
        self.edit(f"{CRATE}/src/main.rt", "{}", "{ }")
        self.expect_told(GATE, "a source has changed since the program was proved")

    def test_a_question_that_is_not_answered(self):
        self.edit("../kit/bin/rt", "case=", "other=")
        self.expect_told(CALL, "failed: 24 questions\n  wanted: runs")
