"""Tests of must-fail/contracts_alone.py: which functions of a crate's copy lose body and proof."""

import importlib
import pathlib
import sys
import tempfile
import unittest

from .scratch import TOP

SHAPE = """\
pub struct Shape<'c> {
    name: &'c str,
}

impl<'c> Shape<'c> {
    /// Its name.
    pub fn name(&self) -> &'c str
        ensures { result ≡ self.now.name }
    {
        self.name
    }

    pub(crate) fn longest(
        &self,
        other: &Shape<'c>,
    ) -> usize {
        if other.name.len() > self.name.len() {
            return other.name.len();
        }
        self.name.len()
    }

    const fn zero() -> usize {
        0
    }

    fn nothing(&self) {}
}

impl Display for Shape<'_> {
    fn fmt(&self) -> Result {
        self.name.fmt()
    }
}

trait Named {
    fn named(&self) -> bool;
}

pub fn law()
    ensures { 0 ≡ 0 }
{}
"""
OTHER = """\
impl Shape<'_> {
    fn length(&self) -> usize {
        self.name.len()
    }
}

#[cycle(parity)]
/// Whether it is even.
fn even(n: usize) -> bool {
    n == 0 || odd(n - 1)
}

fn told(n: usize) -> bool {
    fn inner(n: usize) -> bool {
        n > 3
    }
    inner(n)
}

fn asked(n: usize) -> bool {
    n < 3
}
"""
PROOFS = ("Shape/name", "shape/Shape/name", "other/told", "other/asked", "shape/Shape/length")


class ContractsAlone(unittest.TestCase):
    def setUp(self):
        sys.path.insert(0, str(TOP / "must-fail"))
        self.addCleanup(sys.path.pop, 0)
        self.leave = importlib.import_module("contracts_alone").leave_contracts_alone
        room = tempfile.TemporaryDirectory()
        self.addCleanup(room.cleanup)
        self.folder = pathlib.Path(room.name)
        (self.folder / "src").mkdir()
        (self.folder / "src" / "shape.rt").write_text(SHAPE)
        (self.folder / "src" / "other.rt").write_text(OTHER)
        for proof in PROOFS:
            (self.folder / "proofs" / proof).mkdir(parents=True)
            (self.folder / "proofs" / proof / "Answers.antt").write_text("returns c = ..\n")

    def sources(self):
        return [(self.folder / "src" / it).read_text() for it in ("shape.rt", "other.rt")]

    def opened(self):
        proofs = self.folder / "proofs"
        return sorted(str(it.parent.relative_to(proofs)) for it in proofs.rglob("Proof.antt"))

    def test_functions_that_are_asked_about_stay(self):
        self.leave(self.folder, "a", {"other::asked", "shape::Shape::length"}, [])
        self.assertEqual(
            ["other/told", "shape/Shape/longest", "shape/Shape/name"],
            self.opened(),
        )
        shape, other = self.sources()
        name = "        self.name\n"
        longest = SHAPE[SHAPE.index("        if other") : SHAPE.index("    }\n\n    const")]
        self.assertEqual(SHAPE.replace(name, "loop {}\n").replace(longest, "loop {}\n"), shape)
        told = OTHER[OTHER.index("    fn inner") : OTHER.index("}\n\nfn asked")]
        self.assertEqual(OTHER.replace(told, "loop {}\n"), other)

    def test_a_proof_is_left_open_where_its_type_is_declared(self):
        self.leave(self.folder, "a", set(), [])
        self.assertIn("shape/Shape/length", self.opened())
        proof = self.folder / "proofs" / "shape" / "Shape" / "length"
        self.assertEqual(["Proof.antt"], [it.name for it in proof.iterdir()])
        self.assertEqual(
            "use Rattle.a.proofs.shape.Shape.length.Statement as stated\n\n"
            "pub length_spec : {M : Type 1} → stated.statement M\nlength_spec = ?\n",
            (proof / "Proof.antt").read_text(),
        )

    def test_a_function_with_a_text_stays(self):
        self.leave(self.folder, "a", set(), ["n > 3", "other.name.len();"])
        self.assertEqual(
            ["other/asked", "shape/Shape/length", "shape/Shape/name"], self.opened()
        )

    def test_functions_of_traits_and_cycles_stay(self):
        self.leave(self.folder, "a", set(), [])
        shape, other = self.sources()
        self.assertIn(SHAPE[SHAPE.index("    const fn") :], shape)
        self.assertIn(OTHER[OTHER.index("#[cycle") : OTHER.index("fn told")], other)
