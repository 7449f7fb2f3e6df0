"""A program that tells unknown types, and answers with the text that it was given."""

import sys

from .stand_in import Repository

# Of each field it tells the first name in its type that is neither built in nor declared right in
# a module `stand_ins`. How it does so goes by the first letter of the name. It tells each attribute
# that names code in the same way, by the last name of the path. Where it tells none, it
# prints its command and options, the text of types, and the document. With `--lines` it answers
# each line as it comes, and tells how many there were.
TELLER = f"""\
#!{sys.executable}
import re, sys

command, path, *options = sys.argv[1:]
text = open(path).read()
known = {{"u8", "Pair", "IgnoredAny"}}
for part in re.findall(r"(?ms)^mod stand_ins {{(.*?)^}} $", text):
    known |= set(re.findall(r"(?:struct|type) (\\S+)", part))
kinds = {{"P": "{{}} derives no Deserialize: skip", "O": "{{}} has its own impl of Facet: skip"}}
faults = 0
for number, line in enumerate(text.split("\\n"), 1):
    for field in re.finditer(r": ([^,}}]+)", line):
        for name in re.finditer(r'"[^"]*"|(?:r#)?\\w+', field[1]):
            if name[0].strip('"').split("::")[-1] in known:
                continue
            place = f"{{path}}:{{number}}:{{field.start(1) + name.start() + 1}}"
            kind = kinds.get(name[0][0], "unknown type {{}}: skip")
            print(f"{{place}}: {{kind}}".format(f"'{{name[0]}}'"), file=sys.stderr)
            faults += 1
            break
    for code in re.finditer(r'((?:deserialize_)?with) =(?: "(?:\\w+::)*(\\w+)")?', line):
        if code[2] not in known:
            place = f"{{path}}:{{number}}:{{code.start() + 1}}"
            print(f"{{place}}: '{{code[1]}}' cannot be said: skip", file=sys.stderr)
            faults += 1
if "Nothing" in options:
    print(f"{{path}}: unknown type 'Nothing'", file=sys.stderr)
if faults or "Nothing" in options:
    sys.exit(3)
if "--lines" in options:
    count = 0
    for line in sys.stdin:
        print("answer", line, end="", flush=True)
        count += 1
    print(count, "lines", file=sys.stderr)
else:
    print(command, *options)
    print(text)
    print(sys.stdin.read() if command == "read" else "no document")
"""


class Teller(Repository):
    """A test with this program."""

    def setUp(self):
        super().setUp()
        (self.kit / "program").write_text(TELLER)

    def write(self, **texts):
        """Writes files of Rust at the top, by their names without the ending."""
        for name, text in texts.items():
            (self.top / f"{name}.rs").write_text(text)

    def ends(self, *words, document=b""):
        """How `./facet-read` ends without proofs, and then by the proved program."""
        found = []
        for is_proved in (False, True):
            status, output, said = self.call("./facet-read", *words, input=document)
            self.expect_nothing_left()
            unproved = [it for it in said.splitlines() if "so this answer is without proofs" in it]
            self.assertEqual(len(unproved), 0 if is_proved else 1, said)
            told = [it for it in said.splitlines() if it not in unproved]
            found.append((status, output, told))
            self.prove()
        self.program.unlink()
        return found
