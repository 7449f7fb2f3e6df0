"""Tests of docs/quotes: code on a page that stands in no source."""

from .scratch import Repository

SAMPLE = "fn sample() {}\n"
CALLER = "fn caller() {}\n"
CONTRACT = "fn contract() {}\n"
INPUT = '{"document": {}}\n'
CALL = ("docs/quotes",)


class Quotes(Repository):
    FILES = {
        "crates/facet_solver_tests/src/readme.rt": f"// A head.\n{SAMPLE}",
        "crates/facet_solver_tests/src/calling.rt": CALLER,
        "crates/facet_solver/src/schema.rt": CONTRACT,
        "examples/a/input.json": INPUT,
        "README.md": f"```rust\n{SAMPLE}```\n```rs\nstruct S;\n```\n",
        "docs/CALLING.md": f"```rust\n{CALLER}```\n```\nno code\n```\n",
        "docs/OTHER.md": f"```rust\n{CONTRACT}```\n",
        "examples/README.md": f"```json\n{INPUT}```\n",
    }

    def test_nothing_wrong(self):
        self.expect_passes(*CALL)

    def test_a_changed_quote(self):
        for page in ("README.md", "docs/CALLING.md", "docs/OTHER.md", "bench/README.md"):
            with self.subTest(page=page):
                text = (self.top / page).read_text() if (self.top / page).exists() else ""
                self.write(page, text + "```rust\nfn other() {}\n```\n")
                self.expect_told(CALL, f"{page}: in no source: fn other() {{}}")
                self.write(page, text)

    def test_a_changed_source(self):
        self.edit("crates/facet_solver/src/schema.rt", "contract", "new_contract")
        self.expect_told(CALL, "docs/OTHER.md: in no source: ", "no page shows a contract")

    def test_a_changed_input(self):
        self.edit("examples/README.md", "{}", "[]")
        self.expect_told(CALL, "examples/README.md: in no source: ")

    def test_what_is_shown_no_more(self):
        self.edit("README.md", "```rust", "```rs")
        self.expect_told(CALL, "README.md: the sample is not shown")
        self.edit("docs/CALLING.md", "```rust", "```")
        self.expect_told(CALL, "docs/CALLING.md: the program of a caller is not shown")
        self.edit("examples/README.md", "```json", "```")
        self.expect_told(CALL, "examples/README.md: no input is shown")

    def test_an_empty_block(self):
        self.edit("README.md", SAMPLE, "\n")
        self.expect_told(CALL, "README.md: an empty block", "the sample is not shown")

    def test_blocks_that_would_be_passed_over(self):
        for begin in ("```Rust", "```rust ", " ```rust", "~~~rust", "```text"):
            with self.subTest(begin=begin):
                self.write("docs/MORE.md", f"{begin}\nfn other() {{}}\n```\n")
                self.expect_told(CALL, f"docs/MORE.md: a block of another kind: {begin}")

    def test_a_block_that_is_not_closed(self):
        self.write("docs/MORE.md", "```rust\nfn other() {}\n")
        self.expect_told(CALL, "docs/MORE.md: a block is not closed: ```rust")

    def test_a_page_or_a_source_that_is_missing(self):
        for file in ("README.md", "docs/CALLING.md", "crates/facet_solver_tests/src/readme.rt"):
            with self.subTest(file=file):
                text = (self.top / file).read_text()
                self.remove(file)
                self.expect_told(CALL, file)
                self.write(file, text)
