"""Tests of what the lists hold: which lines change with an edit of sources and definitions."""

import re

from surface.antt import Unread

from .made_up import MadeUp

KINDS, STORES = "crates/high/specs/Kinds.antt", "crates/high/specs/Stores.antt"
WEIGHTS = "crates/high/specs/parts/Weights.antt"
KIND, STORE = "crates/high/src/kind.rt", "crates/high/src/store.rt"
NUMBERS, LIMIT = "crates/low/specs/Numbers.antt", "crates/low/src/limit.rt"
SQUARE = "square n = n * n"
# Equations in which something binds `square`, and others in which it is imported.
BOUND = (
    "may_end square = IsTrue (is_light square)",
    "may_end (Heavy square) = IsTrue square",
    "may_end kind = (λ square. IsTrue (is_light square)) kind",
    "may_end kind = (λ (square, n). square) kind",
    "may_end kind = (λ (square : ℕ). square) kind",
    "may_end kind = let square = is_light kind in IsTrue square",
    "may_end kind = let (n, square) = is_light kind in let n = n in IsTrue square",
    "may_end kind = (square : ℕ) → IsTrue square × (square ≡ 0)",
    "may_end kind = (n square : ℕ) {m : ℕ} → IsTrue square",
    "may_end kind = (square : ℕ) × IsTrue square",
    "may_end kind = elim kind [ Heavy square ↦ square | NoWeight ↦ 0 ]",
    "may_end kind = kind.square (is_light kind).square.n",
    "may_end kind = record kind { square = 0; n = record { square = 1 } }",
    "may_end kind = is_light {square = 0} kind",
    "may_end kind = kind\n  where\n    square : ℕ\n    square = 1",
)
FREE = (
    "may_end kind = IsTrue (square 1)",
    "may_end kind = (λ square. IsTrue (is_light square)) square",
    "may_end kind = let square = square 1 in IsTrue square",
    "may_end kind = ((square : ℕ) → ℕ) → IsTrue square",
    "may_end kind = (square : ℕ) × ℕ → IsTrue square",
    "may_end kind = (λ square. ℕ, square)",
    "may_end kind = (n : square 1) → ℕ",
    "may_end kind = elim kind [ Heavy square ↦ 0 | NoWeight ↦ square 1 ]",
    "may_end kind = record { n = λ square. ℕ; m = square 1 }",
    "may_end kind = is_light {n = square 1} kind",
    "may_end kind = n\n  where\n    n : ℕ\n    n = square 1",
)


class Clauses(MadeUp):
    """Clauses, laws and ghost lines."""

    def test_a_clause_is_dropped(self):
        line = "ensures put { IfOk result (λ done. kept self.new ≡ kind ∷ kept self.old) }"
        self.assertEqual(
            self.changed(STORE, (f"        {line}\n", "")),
            [
                f"high: - {line}",
                "high: - Rattle.std.specs.Prelude: IfOk, Some, length, ℕ, ◌∷◌, ◌≡◌, ◌≤◌",
                "high: + Rattle.std.specs.Prelude: Some, length, ℕ, ◌≡◌, ◌≤◌",
            ],
        )

    def test_a_clause_is_reworded(self):
        old, new = "ensures { IsAtMost value result }", "ensures { IsAtMost LAST result }"
        self.assertEqual(
            self.changed(LIMIT, (old, new)),
            [
                f"high: - {old}",
                f"high: + {new}",
                f"low: - {old}",
                f"low: + {new}",
            ],
        )

    def test_a_requirement_is_dropped(self):
        found = self.changed(LIMIT, ("requires { value ≤ LAST }\n", "\n"))
        self.assertIn("low: - requires { value ≤ LAST }", found)

    def test_a_law(self):
        old, new = "HasWeight k (weight k) }", "HasWeight k (weight k) → HasWeight k 0 }"
        found = self.changed("crates/high/src/laws.rt", (f"→ {old}", f"→ {new}"))
        self.assertEqual(
            found,
            [
                f"high: - ensures of_one {{ (k : Kind) → {old}",
                f"high: + ensures of_one {{ (k : Kind) → {new}",
            ],
        )

    def test_a_ghost_line_of_an_impl(self):
        found = self.changed(KIND, ("Some (text_of kind)", "Some (codes kind)"))
        self.assertIn("high: - ghost output = { λ kind. Some (text_of kind) }", found)
        self.assertIn("high: + ghost output = { λ kind. Some (codes kind) }", found)
        self.assertIn("high.definitions: - text_of NoWeight = codes \"light\"", found)

    def test_a_clause_of_a_function_of_an_impl_of_a_trait(self):
        found = self.changed(KIND, ("requires { kinds.may_end self.old }\n", "\n"))
        self.assertIn("high: - requires { kinds.may_end self.old }", found)

    def test_a_ghost_line_and_a_clause_of_a_trait(self):
        ensured = "ensures { result ≡ weight_of self.now }"
        found = self.changed(KIND, ("Self → ℕ }", "Self → ℕ → ℕ }"), (ensured, "ensures { ⊥ }"))
        self.assertIn("high: - ghost weight_of: { Self → ℕ }", found)
        self.assertIn(f"high: - {ensured}", found)

    def test_what_is_true_of_a_type(self):
        found = self.changed(STORE, ("ghost rise: { AreAll shelf }", "ghost rise: { ⊥ }"))
        self.assertIn("high: - ghost rise: { AreAll shelf }", found)
        self.assertIn("high: + ghost rise: { ⊥ }", found)

    def test_layout_order_and_proofs_are_left_out(self):
        self.assertEqual(
            self.changed(
                STORE,
                ("#[tactic(auto, using(crate::proofs::Kept))]", "#[tactic(auto)]"),
                ("by { all_of shelf }", "by { all_of shelf shelf }"),
                ("ghost coded = { shelf_code };", "ghost coded = { Prim.hlevel shelf_code };"),
                ("self.shelf.kinds.push(kind)", "self.shelf.kinds.push(kind, alloc)"),
                ("kept self.now ≡ kept self.now", "kept self.now ≡ unknown"),
                ("(λ done. kept self.new ≡", "(λ done.\n  kept self.new ≡ -- so\n  // and\n  "),
            ),
            [],
        )


class Definitions(MadeUp):
    """Definitions, wherever they stand."""

    def test_one_is_changed_that_is_reached_over_two_others(self):
        self.assertEqual(
            self.changed(KINDS, ("is_light (Heavy n) = false", "is_light (Heavy n) = true")),
            [
                "high.definitions: - is_light (Heavy n) = false",
                "high.definitions: + is_light (Heavy n) = true",
                "high.definitions: - Rattle.std.specs.Prelude: Bool, IsTrue, List, [], codes,"
                " false, true, ℕ, ⊤, ◌∷◌, ◌≡◌, ◌≤◌",
                "high.definitions: + Rattle.std.specs.Prelude: Bool, IsTrue, List, [], codes,"
                " true, ℕ, ⊤, ◌∷◌, ◌≡◌, ◌≤◌",
            ],
        )

    def test_one_is_made_to_say_nothing(self):
        found = self.changed(KINDS, ("IsTrue (is_light kind)", "Unit {0}"))
        self.assertIn("high.definitions: - may_end kind = IsTrue (is_light kind)", found)
        self.assertIn("high.definitions: + may_end kind = Unit {0}", found)
        self.assertIn("high.definitions: - is_light NoWeight = true", found)

    def test_one_is_changed_that_is_not_reached(self):
        self.assertEqual(self.changed(NUMBERS, ("n * n", "n * n * n")), [])

    def test_comments_and_the_order_of_definitions_are_left_out(self):
        first, second = "-- its weight", "-- its text"
        text = (self.top / KINDS).read_text(encoding="utf-8")
        head, one, two, end = re.split(r"\n\n(?=-- its weight|-- its text|-- whether)", text)
        one = one.replace("weight NoWeight = 0", "weight NoWeight = 0 -- none\n-- and others")
        before = self.lists()
        self.write(KINDS, "\n\n".join((head, two.replace(second, first), one, end)))
        self.assertEqual(self.lists(), before)

    def test_the_type_of_one(self):
        found = self.changed(STORES, ("is_full : ℕ → ℕ → Type 0", "is_full : ℕ → ℕ → Type 1"))
        self.assertIn("high.definitions: + abbrev pub is_full : ℕ → ℕ → Type 1", found)

    def test_a_field_of_a_record(self):
        for file, old, new in (
            (KINDS, "pub is : weight k ≡ n", "pub is : ⊤"),
            (WEIGHTS, "pub weight : ℕ\n", "pub weight : List\n"),
        ):
            with self.subTest(old):
                found = self.changed(file, (old, new), ("{ℕ", "{ℕ, List, ⊤, ◌∸◌"))
                self.assertIn(f"high.definitions: - {old.strip()}", found)

    def test_one_of_several_that_stand_in_one_another(self):
        found = self.changed(STORES, ("Others kinds n = All_are kinds n", "Others kinds n = ⊤"))
        self.assertEqual(
            found,
            [
                "high.definitions: - Others kinds n = All_are kinds n",
                "high.definitions: + Others kinds n = ⊤",
            ],
        )

    def test_one_in_a_crate_below(self):
        self.assertEqual(
            self.changed(NUMBERS, ("n + n", "n + n + n")),
            ["low.definitions: - twice n = n + n", "low.definitions: + twice n = n + n + n"],
        )

    def test_each_stands_once(self):
        lists = self.lists()
        for name in ("high.definitions", "low.definitions"):
            signatures = [it for it in lists[name] if it.startswith("    abbrev pub ")]
            self.assertEqual(len(signatures), len(set(signatures)))
        self.assertEqual(sum("pub twice" in it for some in lists.values() for it in some), 1)

    def test_one_of_many_forms(self):
        self.write(
            STORES,
            """
            use Rattle.std.specs.Prelude.{ℕ, suc, List, ◌≡◌}
            use Rattle.high.specs.declared.kind.Kind.{Kind}
            use Rattle.high.specs.declared.store.Store.{Store}

            pub data Tree {A : Type 0} (root : A) : Type 0 where
              leaf : Tree root
              node : (n : ℕ)
                  → Tree root → Tree root

            pub record Two : Type 0
              where
                pub one : Alias
                pub other : Tree one → ℕ

            abbrev pub Alias
                : Type 0
            Alias = ℕ

            infixl 70 ◌◁◌

            unfoldable pub ◌◁◌ : ℕ → ℕ → ℕ
            suc a ◁ b = local a
              where
                local : ℕ → ℕ
                local n = n ◁ beside n
            ◌◁◌ a b = b

            pub beside {ℓ} : ℕ → ℕ
            unfolding Alias
            beside n =
                elim (leaf {root = n}) [ leaf ↦ n | node m t u ↦ m ]

            abbrev pub kept : Store → List Kind
            kept store = record store { shelf = store.shelf }

            pub AreAll : List Kind → Type 0
            AreAll kinds = (two : Two) × (two ≡ record {
              one = 0;
              other = λ t. 0;
            })

            pub shown : List Kind → List Kind
            shown kinds = let (a, b) : ℕ = 1 ◁ 2 in kinds

            abbrev pub is_full : ℕ → ℕ → Type 0
            is_full most few = ℕ
            """,
        )
        lists = self.lists()
        for lines in (
            ["pub data Tree {A : Type 0} (root : A) : Type 0 where", "leaf : Tree root"],
            ["node : (n : ℕ)", "→ Tree root → Tree root"],
            ["pub record Two : Type 0", "where", "pub one : Alias", "pub other : Tree one → ℕ"],
            ["abbrev pub Alias", ": Type 0", "Alias = ℕ"],
            ["infixl 70 ◌◁◌", "unfoldable pub ◌◁◌ : ℕ → ℕ → ℕ", "suc a ◁ b = local a"],
            ["where", "local : ℕ → ℕ", "local n = n ◁ beside n"],
            ["pub beside {ℓ} : ℕ → ℕ", "unfolding Alias"],
            ["one = 0;", "other = λ t. 0;", "})"],
        ):
            self.assertTrue(self.listed("high.definitions", *lines), (lines, lists))


class Code(MadeUp):
    """Types and constants of the code that clauses speak of."""

    def test_a_field_and_the_view_of_a_type_that_no_caller_can_name(self):
        found = self.changed(STORE, ("kinds: Vec<Kind>", "kinds: Vec<u64>"))
        self.assertEqual(
            found,
            ["high.definitions: - kinds: Vec<Kind>", "high.definitions: + kinds: Vec<u64>"],
        )
        found = self.changed(STORE, ("shown s.kinds.items", "shown s.kinds.new"))
        self.assertIn("high.definitions: - ghost view = { λ s. shown s.kinds.items }", found)

    def test_a_private_field(self):
        self.assertTrue(self.listed("high.definitions", "pub struct Store", "shelf: Shelf", ".."))
        self.assertTrue(self.listed("low.definitions", "pub struct Limit", "value: u64", ".."))
        self.assertEqual(self.changed(LIMIT, ("room: u64", "room: u8")), [])
        found = self.changed(LIMIT, ("    value: u64,\n    spare", "    value: u8,\n    spare"))
        self.assertEqual(found, ["low.definitions: - value: u64", "low.definitions: + value: u8"])

    def test_a_constant(self):
        self.assertEqual(
            self.changed(STORE, ("MOST: usize = 9", "MOST: usize = 8")),
            [
                "high.definitions: - const MOST: usize = 9",
                "high.definitions: + const MOST: usize = 8",
            ],
        )

    def test_a_constant_that_a_definition_imports(self):
        line, constants = "use Rattle.high.specs.Kinds.{weight}", "declared.store.TheConstants"
        added = f"{line}\nuse Rattle.high.specs.{constants}.{{FEWEST}}"
        self.edit(STORES, (line, added), ("few ≤ most", "few ≤ FEWEST"))
        self.edit(STORE, ("const MOST", "const FEWEST: usize = 1;\nconst MOST"))
        self.assertTrue(self.listed("high.definitions", "const FEWEST: usize = 1"))
        self.edit(STORE, ("const FEWEST", "const LEAST"))
        with self.assertRaisesRegex(Unread, "the path .*TheConstants.FEWEST"):
            self.lists()

    def test_names_that_the_code_has_in_scope(self):
        new = "Kind.Heavy u64.MAX ≡ Ok }"
        found = self.changed(STORE, ("kept self.new ≡ kept self.old }", new))
        self.assertTrue([it for it in found if it.endswith(new)])


class Names(MadeUp):
    """What names mean."""

    def test_names_that_a_text_binds_reach_nothing(self):
        import_line = "use Rattle.low.specs.Numbers.{square}\nuse Rattle.high.specs.parts"
        self.edit(KINDS, ("use Rattle.high.specs.parts", import_line), ("{ℕ, ", "{ℕ, ◌×◌, "))
        text = (self.top / KINDS).read_text(encoding="utf-8")
        for is_reached, equations in ((False, BOUND), (True, FREE)):
            for it in equations:
                with self.subTest(it):
                    self.write(KINDS, text.replace("may_end kind = IsTrue (is_light kind)", it))
                    self.assertEqual(self.listed("low.definitions", SQUARE), is_reached)

    def test_parameters_reach_nothing(self):
        line = "ghost use Rattle.low.specs.Limits"
        added = f"ghost use Rattle.low.specs.Numbers.{{square as value}};\n{line}"
        self.edit(LIMIT, (line, added))
        self.assertFalse(self.listed("low.definitions", SQUARE))
        self.edit(LIMIT, ("(value: u64)", "(most: u64)"))
        self.assertTrue(self.listed("low.definitions", SQUARE))

    def test_a_name_in_a_pattern_is_bound_unless_a_constructor_has_it(self):
        old = "Light as NoWeight, Heavy}"
        found = self.changed(KINDS, (old, f"{old}\nuse Rattle.low.specs.Numbers.{{square as n}}"))
        self.assertEqual(found, [])
        odd = "pub data Odd : Type 0 where", "  odd : Odd"
        self.edit(NUMBERS, ("-- its square", "\n".join((*odd, "-- its square"))))
        self.edit(KINDS, ("{square as n}", "{odd as n}"))
        self.assertTrue(self.listed("low.definitions", odd[0], odd[1].strip()))
        self.edit(KINDS, ("(Heavy n) = (weights.scaled n)", "_ = ((λ n. weights.scaled n) 1)"))
        self.edit(KINDS, ("is_light (Heavy n) = false", "is_light _ = false"))
        self.assertFalse(self.listed("low.definitions", odd[0], odd[1].strip()))

    def test_a_pattern_that_has_a_name(self):
        self.edit(
            KINDS,
            ("-- it may end", "pattern abbrev pub Ten : Kind\nTen = Heavy 10\n\n-- it may end"),
            ("may_end kind = ", "may_end Ten = ⊥\nmay_end kind = "),
        )
        self.assertTrue(self.listed("high.definitions", "pattern abbrev pub Ten : Kind"))

    def test_an_import_is_of_something_else(self):
        for file, old, new, name in (
            (KINDS, "{Light as NoWeight, Heavy}", "{Heavy as NoWeight, Light as Heavy}", "high.d"),
            (WEIGHTS, "{twice}", "{square as twice}", "high.d"),
            (KIND, "Some, codes", "None as Some, codes", "high"),
            (STORE, "IfOk, length}", "IfErr as IfOk, length}", "high"),
        ):
            with self.subTest(new):
                found = self.changed(file, (old, new))
                self.assertTrue([it for it in found if it.startswith(name)], found)

    def test_an_import_is_of_something_else_in_one_place_of_several(self):
        none = "abbrev pub none : ℕ → ℕ\nnone n = 0\n\n"
        self.edit(NUMBERS, ("-- its square", f"{none}-- its square"))
        numbers = "use Rattle.high.specs.Numbers.{twice, none}\n"
        self.edit(WEIGHTS, ("{twice}", "{twice, none}"), ("unit = 1", "unit = none 1"))
        self.edit(KINDS, ("use Rattle.high.specs.parts", f"{numbers}use Rattle.high.specs.parts"))
        self.edit(KINDS, ("weight NoWeight = 0", "weight NoWeight = twice 0"))
        found = self.changed(KINDS, ("{twice, none}", "{none as twice, twice as none}"))
        self.assertEqual(
            found,
            [
                "high.definitions: - Rattle.low.specs.Numbers: none, twice",
                "high.definitions: + Rattle.low.specs.Numbers: none, none as twice (in Kinds),"
                " twice (in parts.Weights)",
            ],
        )

    def test_what_nothing_brings_ends_the_run(self):
        for file, old, new, told in (
            (KINDS, "weight k ≡ n", "weigth k ≡ n", "the name weigth in Rattle.high.specs.Kinds"),
            (KIND, "text_of kind)", "txt_of kind)", "the name txt_of in a clause of output"),
            (STORES, "Kinds.{weight}", "Kinds.{wight as weight}", "the path Rattle.high.specs"),
            (WEIGHTS, "abbrev pub scaled", "open x use {y}\nabbrev pub scaled", "open in Rattle"),
            (NUMBERS, "-- its square", "use Below.*\n-- its square", "use Below.*"),
            (LIMIT, "ghost use Rattle.low", "macro!{}\nghost use Rattle.low", "begins with macro"),
        ):
            with self.subTest(new):
                text = (self.top / file).read_text(encoding="utf-8")
                self.edit(file, (old, new))
                with self.assertRaisesRegex(Unread, re.escape(told)):
                    self.lists()
                self.write(file, text)
