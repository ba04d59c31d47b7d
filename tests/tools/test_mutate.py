"""Tests of what tools/mutate reads and changes: python3 -m unittest discover -s tests/tools"""

import pathlib
import sys
import tempfile
import unittest

sys.dont_write_bytecode = True
sys.path.insert(0, str(pathlib.Path(__file__).resolve().parents[2] / "tools"))

import changing
import copying
import reading

FILE = """-- A file.
use Rattle.std.specs.Prelude.{Bool, cond, ◌&&◌, ℕ, zero, suc, ◌+◌, eqb, ltb}

-- A type, a statement and a type-valued definition are left alone.
abbrev pub Bits : Type 0
Bits = ℕ → Bool

pub record Same (a b : ℕ) : Type 0 where
  pub is : a ≡ b + 1

unfoldable pub below : ℕ → ℕ → Bool
below a b = ltb a b && eqb b 4

-- by cases
unfoldable pub add : ℕ → ℕ → ℕ
add zero b = b
add (suc a) b = cond (eqb a 0) (a + b) (add a b)

module _ {A : Type 0} where
  unfoldable pub inner : A → ℕ
  inner a = 7
"""


def made(text: str) -> set[tuple[str, str]]:
    """The changes of a file: what stood there, and what stands there."""
    return {(text[c.start : c.end], c.new) for c in changing.changes(text)}


class Reading(unittest.TestCase):
    def test_clauses(self):
        self.assertEqual([c.name for c in reading.clauses(FILE)], ["below", "add", "add", "inner"])

    def test_every_definition_is_read(self):
        root = pathlib.Path(__file__).resolve().parents[2]
        for path in sorted(root.glob("crates/*/specs/*.antt")):
            text = path.read_text()
            for clause in reading.clauses(text):
                self.assertEqual(text[clause.start : clause.end].strip(), text[clause.start : clause.end], path)

    def test_fields_belong_to_what_stands_before(self):
        text = "unfoldable f : A → ℕ\nf a = g a.hit (x y).1.0 Tree.fill b\n"
        (clause,) = reading.clauses(text)
        self.assertEqual([p.kind for p in clause.body.parts], ["name", "projection", "projection", "name", "name"])
        inner, field = clause.body.parts[2].parts
        self.assertEqual((inner.kind, field.token.text), ("projection", ".0"))
        self.assertEqual(clause.body.parts[3].token.text, "Tree.fill")

    def test_operators_bind(self):
        text = "unfoldable f : ℕ → ℕ\nf a = (1 + a * 2) ∷ [] ++ b\n"
        (clause,) = reading.clauses(text)
        self.assertEqual(clause.body.token.text, "++")
        self.assertEqual(clause.body.parts[0].token.text, "∷")
        text = "unfoldable f : ℕ → Bool\nf a = g a == 1 && h a || b\n"
        (clause,) = reading.clauses(text)
        self.assertEqual(clause.body.token.text, "||")
        self.assertEqual(clause.body.parts[0].token.text, "&&")
        self.assertEqual(clause.body.parts[0].parts[0].token.text, "==")


class Changing(unittest.TestCase):
    def test_tests(self):
        found = made(FILE)
        for change in (
            ("ltb", "leb"),
            ("a b", "b a"),
            ("&&", "||"),
            ("eqb b 4", "not (eqb b 4)"),
            ("eqb b 4", "leb b 4"),
            ("ltb a b && eqb b 4", "ltb a b"),
            ("ltb a b && eqb b 4", "eqb b 4"),
            ("4", "5"),
            ("4", "3"),
        ):
            self.assertIn(change, found)

    def test_arms_and_clauses(self):
        found = made(FILE)
        self.assertIn(("cond (eqb a 0) (a + b) (add a b)", "cond (eqb a 0) (add a b) (a + b)"), found)
        self.assertIn(("cond (eqb a 0) (a + b) (add a b)", "(a + b)"), found)
        self.assertIn(("cond (eqb a 0) (a + b) (add a b)", "b"), found)
        self.assertIn(("+", "-"), found)

    def test_statements_stay(self):
        changed = [c for c in changing.changes(FILE) if c.start < FILE.index("unfoldable pub below")]
        self.assertEqual(changed, [])

    def test_names_are_brought_in(self):
        (change,) = [c for c in changing.changes(FILE) if c.new == "not (eqb b 4)"]
        self.assertIn("use Rattle.std.specs.Prelude.{not}\n", change.applied(FILE))
        (change,) = [c for c in changing.changes(FILE) if c.new == "||"]
        self.assertIn("use Rattle.std.specs.Prelude.{◌||◌}\n", change.applied(FILE))

    def test_equality_by_its_sign(self):
        text = "unfoldable f : ℕ → Bool\nf a = g a == 4\n"
        found = made(text)
        for new in ("not (g a == 4)", "leb (g a) 4", "leb 4 (g a)"):
            self.assertIn(("g a == 4", new), found)

    def test_records_and_lists(self):
        text = "unfoldable f : ℕ → R\nf a = record { hit = a.hit; fill = 1 ∷ b ∷ [] }\n"
        found = made(text)
        self.assertIn((".hit", ".fill"), found)
        self.assertIn(("a.hit", "1 ∷ b ∷ []"), found)
        self.assertIn(("1 ∷ b ∷ []", "b ∷ []"), found)


class Copying(unittest.TestCase):
    def test_modules_are_renamed(self):
        line = "use Rattle.tree.specs.declared.nodes.Nodes.{Nodes}"
        self.assertEqual(copying.turned(line), "use Rattle.model.specs.declared.tree_nodes.Nodes.{Nodes}")
        line = "use Rattle.command.specs.declared.Answer.TheVariants.{Hit}"
        self.assertEqual(copying.turned(line), "use Rattle.model.specs.declared.command.Answer.TheVariants.{Hit}")
        line = "use Rattle.steps.proofs.Computing.{computing}"
        self.assertEqual(copying.turned(line), "use Rattle.model.proofs.StepsComputing.{computing}")
        line = "use Rattle.lru_rule.specs.Lru as Lru"
        self.assertEqual(copying.turned(line), "use Rattle.model.specs.LruRuleLru as Lru")
        line = "use Rattle.std.specs.Prelude.{ℕ}"
        self.assertEqual(copying.turned(line), line)

    def test_types_of_a_source_are_taken(self):
        text = "use command::{Answer, Asked};\nuse crate::path;\n\n#[derive(Clone, Copy)]\npub struct Stepped {\n    pub answer: Answer,\n}\n\nfn step() {}\n"
        with tempfile.TemporaryDirectory() as name:
            folder = pathlib.Path(name)
            (folder / "lib.rt").write_text(text)
            made = copying.declared("cache", folder)
        self.assertEqual(made, {"cache": "use crate::command::Answer;\n\npub struct Stepped {\n    pub answer: Answer,\n}\n"})

    def test_closed_equations_are_taken(self):
        uses = "use Rattle.std.proofs.Common.{refl}\nuse Rattle.tree.proofs.TreeLaws.{f_known}\n"
        text = f"{uses}\n-- a case\nkept : f 1 ≡ 2\nunfolding f\nkept = refl\n\nlaw : (n : ℕ) → f n ≡ n\nlaw n = refl\n"
        taken = copying.computed_in(text)
        self.assertIn("kept = refl", taken)
        self.assertIn("Common", taken)
        self.assertNotIn("TreeLaws", taken)
        self.assertNotIn("law", taken)


if __name__ == "__main__":
    unittest.main()
