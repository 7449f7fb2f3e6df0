"""A repository that is made up: a library `high`, and `low` below it."""

import difflib
import pathlib
import tempfile
import textwrap
import unittest

from surface.crates import Repository
from surface.lines import lists

FILES = {
    "crates.txt": """
        # a crate, and the libraries that it stands on
        low:
        high: low
        program: high
    """,
    "crates/low/src/lib.rt": """
        #![tactic(auto)]

        mod limit;

        pub use limit::{Limit, LAST};
    """,
    "crates/low/src/limit.rt": """
        ghost use Rattle.std.specs.Prelude.{◌≡◌, ◌≤◌};
        ghost use Rattle.low.specs.Limits.{IsAtMost};

        pub const LAST: u64 = 8;

        pub struct Limit {
            value: u64,
            spare: Spare,
        }

        /// Nothing speaks of it.
        struct Spare {
            room: u64,
        }

        impl Limit {
            /// At most so many.
            pub fn new(value: u64) -> Self
                requires { value ≤ LAST }
                ensures { IsAtMost value result }
            {
                Limit { value, spare: Spare { room: 0 } }
            }
        }
    """,
    "crates/low/specs/Lib.antt": """
        pub mod Limits
        pub mod Numbers
    """,
    "crates/low/specs/Limits.antt": """
        -- Limits.
        use Rattle.std.specs.Prelude.{ℕ, ◌≤◌}
        use Rattle.low.specs.declared.limit.Limit.{Limit}

        -- a limit that is no higher
        abbrev pub IsAtMost : ℕ → Limit → Type 0
        IsAtMost value limit = limit.value ≤ value
    """,
    "crates/low/specs/Numbers.antt": """
        -- Numbers.
        use Rattle.std.specs.Prelude.{ℕ, ◌+◌, ◌*◌}

        -- twice a number
        abbrev pub twice : ℕ → ℕ
        twice n = n + n

        -- its square, which nothing speaks of
        abbrev pub square : ℕ → ℕ
        square n = n * n
    """,
    "crates/high/src/lib.rt": """
        //! What is made up.
        #![tactic(auto)]

        mod kind;
        pub mod laws;
        mod store;

        pub use kind::{Kind, Weighed};
        pub use low::Limit;
        pub use store::Store;
    """,
    "crates/high/src/kind.rt": """
        ghost use Rattle.std.specs.Prelude.{◌≡◌, Some, codes, ℕ};
        ghost use Rattle.high.specs.Kinds.{weight, text_of};
        ghost use Rattle.high.specs.Kinds as kinds;

        use std::fmt;

        #[derive(Debug, Drop)]
        pub enum Kind {
            Light,
            Heavy(u64),
        }

        pub trait Weighed {
            ghost weight_of: { Self → ℕ };

            fn weight(&self) -> u64
                ensures { result ≡ weight_of self.now };
        }

        impl Weighed for Kind {
            ghost weight_of = { weight };

            fn weight(&self) -> u64 {
                0
            }
        }

        impl fmt::Display for Kind {
            ghost output = { λ kind. Some (text_of kind) };

            fn fmt(&self, f: &mut fmt::Formatter) -> fmt::Result {
                write!(f, "kind")
            }
        }

        impl Drop for Kind {
            fn drop(&mut self)
                requires { kinds.may_end self.old }
            {}
        }
    """,
    "crates/high/src/laws.rt": """
        //! Laws.
        ghost use Rattle.std.specs.Prelude.{◌≡◌};
        ghost use Rattle.high.specs.declared.kind.Kind.{Kind};
        ghost use Rattle.high.specs.Kinds.{weight, HasWeight};

        /// No kind has two weights.
        pub fn weights_are_alone()
            ensures of_one { (k : Kind) → HasWeight k (weight k) }
            ensures of_two { (j k : Kind) → weight j ≡ weight k → HasWeight j (weight k) }
        {}
    """,
    "crates/high/src/store.rt": """
        ghost use Rattle.std.specs.Prelude.{◌≡◌, ◌∷◌, IfOk, length};
        ghost use Rattle.high.specs.Stores.{AreAll, is_full, kept};

        use crate::kind::Kind;
        use std::alloc::{AllocError, Global};
        use std::marker::Model;

        const MOST: usize = 9;

        /// Kinds.
        pub struct Store {
            shelf: Shelf,
            spare: usize,
            ghost rise: { AreAll shelf } by { all_of shelf },
        }

        struct Shelf {
            kinds: Vec<Kind>,
            marks: usize,
        }

        impl Model for Shelf {
            ghost use Rattle.std.specs.Prelude.{List};
            ghost use Rattle.high.specs.declared.kind.Kind.{Kind};

            ghost Value = { List Kind };

            ghost use Rattle.high.specs.Stores.{shown, shelf_code};

            ghost coded = { shelf_code };

            ghost view = { λ s. shown s.kinds.items };
        }

        impl Store {
            #[tactic(auto, using(crate::proofs::Kept))]
            pub fn put(&mut self, alloc: Global, kind: Kind) -> Result<(), AllocError>
                ensures put { IfOk result (λ done. kept self.new ≡ kind ∷ kept self.old) }
                ensures full {
                    is_full (length (kept self.old)) MOST → kept self.new ≡ kept self.old }
            {
                self.shelf.kinds.push(kind)
            }

            fn private(&self)
                ensures { kept self.now ≡ kept self.now }
            {}
        }
    """,
    "crates/high/specs/Lib.antt": """
        pub use Rattle.low.specs.Numbers
        pub mod Kinds
        pub mod Stores
        pub mod parts
    """,
    "crates/high/specs/parts.antt": """
        -- Parts.
        pub mod Weights
    """,
    "crates/high/specs/parts/Weights.antt": """
        -- Weights.
        use Rattle.std.specs.Prelude.{ℕ}
        use Rattle.high.specs.Numbers.{twice}

        -- a weight on a scale
        pub record Scale : Type 0 where
          pub weight : ℕ
          pub unit : ℕ

        -- it is doubled
        abbrev pub scaled : ℕ → Scale
        scaled n = record { weight = twice n; unit = 1 }
    """,
    "crates/high/specs/Kinds.antt": """
        -- Kinds.
        use Rattle.std.specs.Prelude.{ℕ, Bool, true, false, IsTrue, List, codes, ◌≡◌}
        use Rattle.high.specs.declared.kind.Kind.{Kind}
        use Rattle.high.specs.declared.kind.Kind.TheVariants.{Light as NoWeight, Heavy}
        use Rattle.high.specs.parts.Weights as weights

        -- its weight
        abbrev pub weight : Kind → ℕ
        weight NoWeight = 0
        weight (Heavy n) = (weights.scaled n).weight

        -- it has a weight
        pub record HasWeight (k : Kind) (n : ℕ) : Type 0 where
          pub is : weight k ≡ n

        -- its text
        abbrev pub text_of : Kind → List ℕ
        text_of NoWeight = codes "light"
        text_of _ = codes "heavy"

        -- whether it is light
        abbrev pub is_light : Kind → Bool
        is_light NoWeight = true
        is_light (Heavy n) = false

        -- it may end
        abbrev pub may_end : Kind → Type 0
        may_end kind = IsTrue (is_light kind)
    """,
    "crates/high/specs/Stores.antt": """
        -- Stores.
        use Rattle.std.specs.Prelude.{ℕ, List, [], ◌∷◌, ◌≤◌, Bool, true, ⊤}
        use Rattle.std.specs.Coded.{Coded, coded_list}
        use Rattle.high.specs.declared.kind.Kind.{Kind}
        use Rattle.high.specs.declared.store.Store.{Store}
        use Rattle.high.specs.Kinds.{weight}

        -- what is kept
        abbrev pub kept : Store → List Kind
        kept store = store.shelf

        -- what is shown
        abbrev pub shown : List Kind → List Kind
        shown kinds = kinds

        -- by a proof alone
        abbrev pub shelf_code : Coded (List Kind)
        shelf_code = coded_list

        -- all are
        abbrev pub AreAll : List Kind → Type 0
        AreAll kinds = All_are kinds 0

        abbrev mutual
          -- the first, and then the others
          pub All_are : List Kind → ℕ → Type 0
          All_are [] n = ⊤
          All_are (k ∷ kinds) n = Others kinds (weight k)

          -- the others
          pub Others : List Kind → ℕ → Type 0
          Others kinds n = All_are kinds n

        -- it is full
        abbrev pub is_full : ℕ → ℕ → Type 0
        is_full most few = few ≤ most
    """,
}


class MadeUp(unittest.TestCase):
    """The lists of the repository that is made up."""

    def setUp(self):
        made = tempfile.TemporaryDirectory()
        self.addCleanup(made.cleanup)
        self.top = pathlib.Path(made.name)
        for name, text in FILES.items():
            self.write(name, text)

    def write(self, name, text):
        """Writes a file."""
        file = self.top / name
        file.parent.mkdir(parents=True, exist_ok=True)
        file.write_text(textwrap.dedent(text).lstrip(), encoding="utf-8")

    def edit(self, name, *pairs):
        """Puts texts in the place of others, each of which stands once in a file."""
        text = (self.top / name).read_text(encoding="utf-8")
        for old, new in pairs:
            self.assertEqual(text.count(old), 1, old)
            text = text.replace(old, new)
        (self.top / name).write_text(text, encoding="utf-8")

    def lists(self):
        """Each list."""
        return lists(Repository(self.top))

    def changed(self, name, *pairs):
        """The lines that change when a file is edited, each behind the name of its list."""
        before = self.lists()
        self.edit(name, *pairs)
        after, found = self.lists(), []
        for name, lines in after.items():
            for line in list(difflib.unified_diff(before[name], lines, n=0))[2:]:
                if not line.startswith("@@"):
                    found.append(f"{name}: {line[0]} {line[1:].strip()}")
        return found

    def listed(self, name, *lines):
        """Whether lines stand in a list, one behind the other."""
        stripped = [it.strip() for it in self.lists()[name]]
        count = len(lines)
        return any(stripped[at : at + count] == list(lines) for at in range(len(stripped)))
