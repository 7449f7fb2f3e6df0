"""Tests of sweep/solve: scripts that prove nothing, lose bytes or do not say what they do."""

from .scratch import Repository

# It proves a library whose word is 7. The program ends with that word, and prints what it is given.
RT = r"""#!/bin/sh
word=$(sed -n 's/^    \([0-9]\)$/\1/p' ../stand_in_word/src/lib.rt)
program() {
    echo '#!/bin/sh'
    echo 'for word; do case "$word" in *.rs) cat "$word" >&2 ;; *) echo "$word" ;; esac; done'
    echo "cat; exit $word"
}
case $1 in
run)
    [ "$word" = 7 ] || exit 1
    mkdir -p out
    program >out/stand_in
    chmod +x out/stand_in
    echo "rt: running out/stand_in; to give it other input, run that file yourself" ;;
try)
    room=$(mktemp -d)
    trap 'rm -r "$room"' EXIT
    program >"$room/program"
    chmod +x "$room/program"
    while [ "$1" != -- ]
    do
        if [ "$1" = --data ]; then
            mkdir -p "$room/$(dirname "${2%%=*}")"
            cat "${2#*=}" >"$room/${2%%=*}"
        fi
        shift
    done
    shift
    cd "$room"
    ./program "$@"
    echo "run=ended status=$? proved=no" >&2 ;;
esac
"""
CALL = ("sweep/solve",)
PROGRAM = "launch/program.py"
# Faults of the scripts: a file, a text of it, and what stands in its place.
FAULTS = {
    "an answer loses a byte": (PROGRAM, "write(number, data)", "write(number, data[1:])"),
    "a status is lost": (PROGRAM, "        return status\n\n", "        return status * 0\n\n"),
    "nobody says that nothing is proved": (PROGRAM, 'self.say(f"{why}, so', 'str(f"{why}, so'),
    "all counts as proved": ("launch/proof.py", "said.get(kind) != now[kind]", "not said"),
    "a proof that fails counts": (PROGRAM, "if self.crate not in RUNS", "if None in RUNS"),
    "a missing file is passed over": ("facet-read", "return path.read_bytes()", 'return b""'),
}


class Solve(Repository):
    def setUp(self):
        super().setUp()
        self.write("../kit/bin/rt", RT, mode=0o755)

    def test_nothing_wrong(self):
        said = "9 calls of ./solve and ./facet-read, 0 faults\n"
        self.assertEqual(self.expect_passes(*CALL), said)

    def test_faults_of_the_scripts(self):
        for name, (file, old, new) in FAULTS.items():
            with self.subTest(name=name):
                self.edit(file, old, new)
                self.expect_told(CALL, "\n  wanted: status", "9 calls of ./solve")
                self.edit(file, new, old)

    def test_a_kit_that_proves_all(self):
        self.edit("../kit/bin/rt", '[ "$word" = 7 ] || exit 1', "")
        self.expect_told(CALL, "./solve --prove\n  wanted: status 70", ", 2 faults")

    def test_a_kit_that_proves_nothing(self):
        self.edit("../kit/bin/rt", '"$word" = 7', "1 = 2")
        self.expect_told(CALL, "./solve --prove\n  wanted: status 0")

    def test_scripts_that_are_missing(self):
        self.remove("facet-read")
        self.expect_told(CALL, "facet-read'")

    def test_rt_is_missing(self):
        self.only_path()
        self.remove("../kit/bin/rt")
        self.expect_told(CALL, "9 calls of ./solve and ./facet-read, ")
