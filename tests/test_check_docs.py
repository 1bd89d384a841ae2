#!/usr/bin/env python3
"""The checker of documents, tried: on a small project that has no fault, and on copies of it with
one fault each, which it must name."""

import os
import sys
import unittest

sys.path.insert(0, os.path.dirname(os.path.abspath(__file__)))

import check_docs  # noqa: E402
from documents.small import FILES, GATES, SPECS  # noqa: E402
from documents.trying import Trying, found  # noqa: E402

LATE = """pub fn late() -> bool
    ensures { result ≡ true }
{
    true
}
"""


class Faults(Trying):
    """One fault each."""

    def test_no_fault(self):
        self.passed()
        self.passed(**{"crates.txt": "bench backend=rattle status=3: terms\nterms staticlib:\n"})

    def test_missing_page(self):
        for name in check_docs.PAGES:
            self.named(f"{name} is missing or empty", name, old="")

    def test_emptied_page(self):
        self.named("docs/SPEED.md: nothing stands under 'Speed'", "docs/SPEED.md",
                   new="# Speed\n\n")
        self.named("docs/REPLAY.md is missing or empty", "docs/REPLAY.md", new="\n")

    def test_section_without_rows(self):
        self.named("no row for the section 'Store file'", "docs/TRACE.md", "## Store file",
                   "## Files")

    def test_rule_without_its_row(self):
        self.named("no row of its own for '4. ALUOp", "docs/TRACE.md", "4. ALUOp and",
                   "3, 4: ALUOp")

    def test_form_without_its_row(self):
        self.named("no row of its own for '\"part of the image'", "docs/TRACE.md",
                   '"part of the image', "part")

    def test_sample_without_its_row(self):
        self.named("no row of its own for '* Its word 8'", "docs/TRACE.md", "* Its word 8", "* 8")

    def test_row_that_names_nothing(self):
        self.named("the row of A sentence and so on names nothing", "docs/TRACE.md",
                   "| A sentence and so on | `terms::doubled` |", "| A sentence and so on | here |")

    def test_empty_cell(self):
        self.named("docs/PROMISES.md: an empty cell", "docs/PROMISES.md", "| its number |", "| |")

    def test_rattle_item(self):
        self.named("terms::trebled names nothing", "docs/TRACE.md", "terms::doubled",
                   "terms::trebled")

    def test_rattle_item_of_module(self):
        self.named("terms::counts::hidden names nothing", "docs/DECISIONS.md", "counts::helper",
                   "counts::hidden")

    def test_rattle_method(self):
        self.named("terms::Cycles::amount names nothing", "docs/DECISIONS.md",
                   "terms::counts::helper", "terms::Cycles::amount")

    def test_rattle_type_alone(self):
        self.named("Cycles::amount names nothing", "README.md", "# A project",
                   "# A project\n\nSee `Cycles::amount`.")

    def test_antt_in_specs(self):
        self.named("terms.specs.Counts.thrice names nothing", "docs/REFERENCE.md",
                   new="# Reference\n\n`terms.specs.Counts.thrice`\n")

    def test_antt_in_proofs(self):
        self.named("terms.proofs.One.two_values names nothing", "docs/REPLAY.md",
                   new="# Replay\n\n`terms.proofs.One.two_values`\n")

    def test_antt_field(self):
        self.named("terms.specs.Counts.Pair.third names nothing", "docs/DECISIONS.md",
                   "Pair.first", "Pair.third")
        self.named("Pair.third names nothing", "docs/DECISIONS.md", "Pair.second", "Pair.third")

    def test_antt_file_that_is_not_checked(self):
        self.named("one_value`' names no theorem", "crates/terms/proofs/Lib.antt",
                   new="-- nothing\n")

    def test_bare_name(self):
        self.named("walk_from names nothing", "docs/DECISIONS.md", "is private",
                   "and `walk_from` are private")

    def test_path(self):
        for name in ("README.md", "docs/DECISIONS.md", "docs/REFERENCE.md", "docs/SPEED.md"):
            self.named(f"{name}: tests/nothing.py names nothing", name,
                       new=FILES[name] + "\nSee `tests/nothing.py`.\n")

    def test_path_in_code(self):
        self.named("README.md: sheets/second.hex names nothing", "README.md", "first.hex",
                   "second.hex")

    def test_path_out_of_the_project(self):
        self.named("../shared/speed names nothing", "docs/SPEED.md",
                   new="# Speed\n\nBy `../shared/speed`.\n")

    def test_link(self):
        self.named("OTHER.md names nothing", "docs/SPEED.md", new="# Speed\n\n[it](OTHER.md)\n")

    def test_no_theorem(self):
        cell = "`terms.proofs.One.one_value`"
        for other in ("none", "none yet", "`terms.proofs.One.three`", "`terms.specs.Counts.twice`"):
            self.named(f"'{other}' names no theorem", "docs/PROMISES.md", cell, other)

    def test_no_theorem_yet(self):
        """A crate that no program reaches may say so; one that is reached, by another, may not."""
        row = "| `later::late` | true | false; the other way round | %s |\n"
        page, readme = FILES["docs/PROMISES.md"], FILES["README.md"].replace(
            "| `bench` |", "| `later` | later |\n| `bench` |").replace("2 crates", "3 crates")
        more = {"crates/later/src/lib.rt": LATE, "README.md": readme,
                "docs/PROMISES.md": page + row % "none yet"}
        apart = "terms:\nlater: terms\nbench: terms\n"
        reached = "terms: later\nlater:\nbench: terms\n"
        self.assertEqual(found(dict(FILES, **more, **{"crates.txt": apart})), [])
        self.named("'none yet' names no theorem", "crates.txt", new=reached, **more)
        more["docs/PROMISES.md"] = page + row % "none"
        self.named("'none' names no theorem", "crates.txt", new=apart, **more)

    def test_promise_of_another(self):
        told = "terms::doubled: the promise names none of twice"
        self.named(told, "docs/PROMISES.md", "`terms.specs.Counts.twice`",
                   "`terms.specs.Counts.Pair`")
        page = FILES["docs/PROMISES.md"].replace("`terms.specs.Counts.twice`", "twice it")
        for cites, says in (("Counts as of", "of.twice n"), ("Counts.{twice as of'}", "of' n"),
                            ("Counts.{\n    twice,\n}", "twice n")):
            counts = FILES["crates/terms/src/counts.rt"].replace("Counts.{twice}", cites)
            counts = counts.replace("twice n }", says + " }")
            self.named(told, "docs/PROMISES.md", new=page, **{"crates/terms/src/counts.rt": counts})

    def test_promise_in_a_long_clause(self):
        clause = "ensures { result ≡ twice n }"
        for other in ("ensures { result\n        ≡ twice n }",
                      "ensures low { result ≤ 2 * n }\n    ensures exact { result ≡ twice n }"):
            self.assertIn(clause, FILES["crates/terms/src/counts.rt"])
            counts = FILES["crates/terms/src/counts.rt"].replace(clause, other)
            more = {"crates/terms/src/counts.rt": counts}
            self.passed(**more)
            self.named("terms::doubled: the promise names none of twice", "docs/PROMISES.md",
                       "`terms.specs.Counts.twice`", "twice it", **more)

    def test_one_wrong_answer(self):
        self.named("fewer than two wrong answers", "docs/PROMISES.md", "always 0; always 1",
                   "always 0")

    def test_edit_that_nothing_names(self):
        self.named("no document names crates/terms/must-fail/c.edit",
                   "crates/terms/must-fail/c.edit")

    def test_sheet_that_nothing_names(self):
        self.named("no document names sheets/second.hex", "sheets/second.hex")

    def test_store_that_nothing_names(self):
        self.named("no document names stores/own.txt", "stores/own.txt")

    def test_numbers(self):
        for said, told in (("2 must-fail edits", "7 must-fail edits, and there are 2"),
                           ("3 vectors", "7 vectors, and there are 3"),
                           ("1 sheets", "7 sheets, and there are 1"),
                           ("1 stores", "7 stores, and there are 1"),
                           ("2 crates", "7 crates, and there are 2"),
                           ("5 lines", "7 lines are to be believed, and there are 5"),
                           ("5 of them",
                            "7 of them without the crates that `watch` alone needs, and there are 5"),
                           ("0 of them",
                            "7 of them in crates that no program reaches, and there are 0")):
            self.named(told, "README.md", said, "7" + said[1:])

    def test_numbers_written(self):
        page = FILES["README.md"].replace("3 vectors", "7 vectors").replace("| 5 |", "| 6 |")
        self.assertEqual(found(dict(FILES, **{"README.md": page}), writing=True), [])

    def test_number_left_out(self):
        self.named("README.md does not say how many vectors: 3", "README.md", "3 vectors, ", "")

    def test_believed_lines_of_a_crate(self):
        self.named("README.md: 6 lines believed of terms, and they are 5", "README.md",
                   "| `terms` | 5 |", "| `terms` | 6 |")

    def test_believed_lines_without_imports(self):
        import_line = "use Rattle.std.specs.Prelude.{ℕ, ◌+◌}"
        other = import_line.replace("{", "{\n  ").replace("}", ",\n}")
        longer = FILES["crates/terms/specs/Counts.antt"].replace(
            import_line, other + "\npub use Rattle.more.specs.M.{a}")
        self.passed(**{"crates/terms/specs/Counts.antt": longer})

    def test_file_inside_a_crate(self):
        within = "-- Inside the crate: halves.\n\nabbrev pub half : ℕ → ℕ\nhalf n = n / 2\n"
        more = {"crates/terms/specs/Halves.antt": within}
        self.passed(**more)
        import_line = "use Rattle.std.specs.Prelude.{ℕ, ◌+◌}"
        for cites in ("Halves.{half}", "Halves.{\n  half,\n}", "Halves as of", "Halves"):
            self.named("Counts.antt: cites Halves, which is inside terms",
                       "crates/terms/specs/Counts.antt", import_line,
                       import_line + "\nuse Rattle.terms.specs." + cites, **more)
        for cites, says in (("Halves.{half}", "half"), ("Halves as of", "of.half"),
                            ("Halves.{half as h'}", "h'"), ("Halves.{\n    half,\n}", "half"),
                            ("Halves", "Halves.half")):
            gates = ("ghost use Rattle.terms.specs." + cites + ";\n"
                     + GATES.replace("(a && b)", says))
            self.named("both promises by", "crates/terms/src/gates.rt", new=gates, **more)
        for traits in (
                "pub trait Gate {\n    fn open() -> u32\n        ensures { result ≡ half 2 };\n}\n",
                "pub trait Gate {\n}\n\nimpl Gate for Cycles {\n    ghost worth = { half };\n}\n"):
            gates = "ghost use Rattle.terms.specs.Halves.{half};\n" + GATES + "\n" + traits
            self.named("Gate promises by half", "crates/terms/src/gates.rt", new=gates, **more)

    def test_crate_without_a_row(self):
        self.named("its first table lacks the crate words", "crates.txt",
                   new="terms:\nbench status=3: terms\nwords:\n")
        self.named("has words, which is no crate", "README.md", "| counts |",
                   "| counts |\n| `words` | none |")

    def test_pub_extern(self):
        self.named('`pub extern "" fn raw`: a function must be', "crates/terms/src/gates.rt",
                   new=GATES + '\npub extern "C" fn raw() {\n}\n')

    def test_module_inside_a_file(self):
        self.named("`mod more {`: a function must be", "crates/terms/src/gates.rt",
                   new=GATES + "\npub mod more {\n    pub fn raw() {\n    }\n}\n")
        tests = "\n#[cfg(test)]\nmod tests {\n    use super::*;\n}\n"
        self.passed(**{"crates/terms/src/gates.rt": GATES + tests})

    def test_names_passed_on_unsaid(self):
        self.named("`pub use counts::*`: a function must be", "crates/terms/src/lib.rt",
                   "pub use counts::doubled;", "pub use counts::*;")

    def test_function_without_a_row(self):
        self.named("docs/PROMISES.md lacks terms::gates::either", "crates/terms/src/gates.rt",
                   new=GATES + "\npub fn either(a: bool) -> bool {\n    a\n}\n")

    def test_function_that_promises_nothing(self):
        self.named("terms::gates::both has no `ensures`", "crates/terms/src/gates.rt",
                   "    ensures { result ≡ (a && b) }\n", "")

    def test_function_that_asks(self):
        for asks in ("requires { a ≡ b }", "requires* { a }",
                     "requires first { a ≡ b }\n    requires second { b ≡ a }"):
            self.named("terms::gates::both has a `requires`", "crates/terms/src/gates.rt",
                       "    ensures", f"    {asks}\n    ensures")

    def test_function_of_a_trait_without_a_row(self):
        for final in ("", "final "):
            trait = f"\npub trait Gate {{\n    {final}fn open(self);\n}}\n"
            self.named("docs/PROMISES.md lacks terms::gates::Gate::open", "crates/terms/src/gates.rt",
                       new=GATES + trait)
        trait = "\npub trait Gate<T>\nwhere\n    T: Copy,\n{\n    fn open(self) -> T;\n}\n"
        self.named("docs/PROMISES.md lacks terms::gates::Gate::open", "crates/terms/src/gates.rt",
                   new=GATES + trait)

    def test_function_beside_one_of_a_trait(self):
        own = FILES["crates/terms/src/counts.rt"].replace(
            "impl Cycles {", "impl Cycles {\n    pub fn more(self) -> u32 {\n        1\n    }\n")
        trait = "\ntrait Gate {\n    fn more(self) -> u32;\n}\n"
        impl = "\nimpl Gate for Cycles {\n    fn more(self) -> u32 {\n        2\n    }\n}\n"
        for told in ("docs/PROMISES.md lacks terms::Cycles::more",
                     "terms::Cycles::more has no `ensures`"):
            self.named(told, "crates/terms/src/counts.rt", new=own + trait + impl)
            self.named(told, "crates/terms/src/counts.rt", new=own,
                       **{"crates/terms/src/gates.rt": GATES + trait + impl})

    def test_impl_of_a_trait(self):
        impl = "\nimpl Gate for Cycles {\n    fn open(self) {\n    }\n}\n"
        self.named("`impl Gate for Cycles`: a function must be", "crates/terms/src/gates.rt",
                   new=GATES + impl)
        inner = "\nstruct Inner;\n" + impl.replace("Cycles", "Inner")
        self.passed(**{"crates/terms/src/gates.rt": GATES + inner})
        trait = "\ntrait Gate {\n    fn open(self);\n}\n"
        self.passed(**{"crates/terms/src/gates.rt": GATES + trait + impl})
        passed_on = "\nuse crate::gates::Gate;\n" + impl
        counts = FILES["crates/terms/src/counts.rt"] + passed_on
        self.passed(**{"crates/terms/src/gates.rt": GATES + "\npub(crate) " + trait[1:],
                       "crates/terms/src/counts.rt": counts})

    def test_impl_of_a_foreign_trait_of_the_same_name(self):
        trait = "\ntrait Gate {\n    fn open(self);\n}\n"
        for brings, path in (("use std::fmt;\n", "fmt::Gate"), ("use std::fmt::Gate;\n", "Gate")):
            impl = f"\n{brings}\nimpl {path} for Cycles {{\n    fn open(self) {{\n    }}\n}}\n"
            self.named(f"`impl {path} for Cycles`: a function must be", "crates/terms/src/counts.rt",
                       new=FILES["crates/terms/src/counts.rt"] + impl,
                       **{"crates/terms/src/gates.rt": GATES + trait})

    def test_model(self):
        model = "impl Model for Cycles {\n    ghost Value = { ℕ };\n}\n"
        files = dict(FILES, **{"crates/terms/src/gates.rt": GATES + "\n" + model})
        self.assertEqual(found(files), [])

    def test_method_without_a_row(self):
        self.named("docs/PROMISES.md lacks terms::Cycles::zero", "crates/terms/src/counts.rt",
                   "impl Cycles {", "impl Cycles {\n    pub fn zero() -> Cycles {\n    }\n")

    def test_passed_on_without_a_row(self):
        self.named("docs/PROMISES.md lacks terms::helper", "crates/terms/src/lib.rt",
                   "pub use counts::doubled;", "pub use counts::{doubled, helper};")

    def test_row_of_no_public_function(self):
        self.named("has terms::counts::helper, which is no public function", "docs/PROMISES.md",
                   "`terms::gates::both`", "`terms::counts::helper`")

    def test_row_under_another_name(self):
        self.named("has terms::counts::doubled, which is no public function", "docs/PROMISES.md",
                   "`terms::doubled`", "`terms::counts::doubled`")

    def test_two_rows(self):
        self.named("docs/PROMISES.md has terms::doubled twice", "docs/PROMISES.md",
                   "terms::gates::both", "terms::doubled")

    def test_two_names(self):
        self.named("are two names of one function", "crates/terms/src/lib.rt",
                   "pub mod gates;", "pub mod gates;\n\npub use gates::both;")

    def test_long_line_in_specs(self):
        self.named("crates/terms/specs/Counts.antt:4: 121 characters",
                   "crates/terms/specs/Counts.antt", "-- twice a number", "-- " + "x" * 118)

    def test_comment_above_use(self):
        for gap in ("\n", ""):
            self.named("a comment above the `use` lines", "crates/terms/specs/Counts.antt",
                       "\nuse Rattle", f"\n{gap}-- twice a number\nuse Rattle")

    def test_lemma_in_specs(self):
        for lemma, told in (("pub four : twice 2 ≡ 4\nfour = x", "four is neither a definition"),
                            ("abbrev pub four : twice 2 ≡ 4\nfour = x", "four is a lemma"),
                            ("abbrev pub four : Four\nfour = omega", "`omega` is a word of"),
                            ("abbrev pub four : Four\nfour = grind arith", "`grind` is a word of")):
            self.named(told, "crates/terms/specs/Counts.antt", new=SPECS + "\n" + lemma + "\n")


if __name__ == "__main__":
    unittest.main()
