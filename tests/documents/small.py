"""A small project that has no fault, for the checker's own tests to break."""

from . import tracing

LIB = """// Counts.
mod counts;
pub mod gates;

pub use counts::Cycles;
pub use counts::doubled;
"""
COUNTS = """// A count.
ghost use Rattle.std.specs.Prelude.{◌≡◌, nat_lt};
ghost use Rattle.terms.specs.Counts.{twice};

#[derive(Clone, Copy)]
pub struct Cycles(pub u32);

pub(crate) fn helper() -> u32 {
    0
}

// Twice the number.
#[tactic(auto, unfolding(crate::specs::Counts::twice))]
pub fn doubled(n: u32) -> u32
    ensures { result ≡ twice n }
{
    n + n
}

impl Cycles {
    // Its number.
    pub fn number(self) -> u32
        ensures { result ≡ self.0 }
    {
        self.0
    }
}
"""
GATES = """// A gate.
ghost use Rattle.std.specs.Prelude.{◌≡◌, ◌&&◌};

pub fn both(a: bool, b: bool) -> bool
    ensures { result ≡ (a && b) }
{
    if a { b } else { a }
}
"""
MAIN = """// Two cycles.
use terms::Cycles;

fn main() {
    let two = Cycles(2);
    two.number();
}
"""
SPECS = """-- Counts, and what is twice one.
use Rattle.std.specs.Prelude.{ℕ, ◌+◌}

-- twice a number
abbrev pub twice : ℕ → ℕ
twice n = n + n

-- a pair of counts
pub record Pair : Type 0 where
  pub first : ℕ
  pub second : ℕ
"""
PROOFS = """-- No second answer.
use Rattle.std.proofs.Common.{◌≡◌, ℕ, sym, ◌∙◌}

pub one_value {ℓ} : {A : Type ℓ} {x r s : A} → r ≡ x → s ≡ x → r ≡ s
one_value p q = p ∙ sym q

pub three : ℕ
three = 3
"""
README = """# A project

    ./bench < sheets/first.hex

| crate | what it is |
|---|---|
| `terms` | counts |
| `bench` | the program |

It has 2 crates, 2 must-fail edits, 3 vectors, 1 sheets and 1 stores.
5 lines are to be believed, 5 of them without the crates that `watch` alone needs,
0 of them in crates that no program reaches.

| crate | lines believed |
|---|---|
| `terms` | 5 |
"""
ROW = "| `terms::%s` | %s | always 0; always 1%s | `terms.proofs.One.one_value` |\n"
PROMISES = """# Promises

| function | promise | wrong answers | no second answer |
|---|---|---|---|
""" + "".join(ROW % cells for cells in (
    ("doubled", "`terms.specs.Counts.twice`", " (`crates/terms/must-fail/a.edit`)"),
    ("Cycles::number", "its number", " (`crates/terms/must-fail/b.edit`)"),
    ("gates::both", "a and b", "")))
DECISIONS = """# Decisions

A field is `terms.specs.Counts.Pair.first`, or `Pair.second`; `terms::counts::helper` is private.
"""


def trace():
    """A trace with a row for each section and each sentence that has one of its own."""
    page = "# Trace\n"
    for title in tracing.SECTIONS:
        page += f"\n## {title}\n\n| sentence | where |\n|---|---|\n"
        for start in tracing.OWN_ROWS.get(title, ("A sentence",)):
            page += f"| {start} and so on | `terms::doubled` |\n"
    return page


FILES = {
    "crates.txt": "# each by its name\nterms:\nbench: terms  # the program\n",
    "bench": "", ".ci/run": "", "crates/bench/src/main.rt": MAIN,
    "crates/terms/src/lib.rt": LIB, "crates/terms/src/counts.rt": COUNTS,
    "crates/terms/src/gates.rt": GATES,
    "crates/terms/specs/Lib.antt": "pub mod Counts\n", "crates/terms/specs/Counts.antt": SPECS,
    "crates/terms/proofs/Lib.antt": "pub mod One\n", "crates/terms/proofs/One.antt": PROOFS,
    "crates/terms/must-fail/a.edit": "", "crates/terms/must-fail/b.edit": "",
    "crates/replay/stdin": "decode 0\ndecode 1\ndecode 2",
    "sheets/README.md": "# Sheets\n\n| Sheet | Line |\n|---|---|\n| first | 1 |\n",
    "sheets/first.hex": "", "stores/fixed.txt": "",
    "stores/README.md": "# Stores\n\n| Store | read |\n|---|---|\n| fixed | 0 |\n",
    "README.md": README, "docs/PROMISES.md": PROMISES, "docs/TRACE.md": trace(),
    "docs/DECISIONS.md": DECISIONS, "docs/REFERENCE.md": "# Reference\n\nWhat it is.\n",
    "docs/REPLAY.md": "# Replay\n\nHow it is driven.\n",
    "docs/SPEED.md": "# Speed\n\nHow fast it is.\n",
}
