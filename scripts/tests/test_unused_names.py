"""Tests of `scripts/unused_names` on small crates."""

import unittest

from tests.support import ScriptTest

SPECS = """\
use Rattle.std.specs.Prelude.{ℕ, ◌≡◌}

-- used nowhere but in a comment of another file
abbrev pub IsLonely : ℕ → Type 0
IsLonely x = IsUsed x

abbrev pub IsUsed : ℕ → Type 0
IsUsed x = x ≡ 0
"""
PROOFS = """\
use Rattle.low.specs.Facts.{IsUsed}

pub repeats_itself : (x : ℕ) → IsUsed x
repeats_itself x = repeats_itself x

pub cited_above : (x : ℕ) → IsUsed x
cited_above x = x

pub named_in_code : (x : ℕ) → IsUsed x
named_in_code x = x
"""
# A name that another file defines and cites.
APART = """\
pub shared : ℕ
shared = 0
"""
ABOVE = """\
use Rattle.low.proofs.Lemmas.{cited_above}

pub shared : ℕ
shared = 1

pub other : cited_above 0
other = shared -- IsLonely

pub another : ℕ
another = other 0
"""
ANSWERS = """\
use Rattle.high.proofs.work.Goals as goal

pub returns-clause-value : goal.returns-clause-value
returns-clause-value c = helps c

helps : ℕ
helps = 0

left_over : ℕ
left_over = 0
"""
LOW = """\
mod parts;

pub use parts::{Counter, called_above, passed_on, unused_above};

fn main() {}
"""
PARTS = """\
/// Not `lonely()`, which this names in a comment.
pub fn called_above() {}

pub fn called_here() {}

pub fn passed_on(value: u32) -> u32 {
    value
}

pub fn unused_above() {
    called_here();
}

fn lonely() {
    let lonely = 1;
    unused_above();
}

#[tactic(auto, using(crate::proofs::Lemmas::named_in_code))]
fn counted() -> u32 {
    1
}

impl Counter {
    pub fn step(&self) {}

    pub fn stand_still(&self) {}
}

impl Iterator for Counter {
    fn next(&mut self) {
        for _ in 0..counted() {}
    }
}
"""
HIGH = """\
use low::{Counter, called_above as above, passed_on};

pub fn work(counter: &Counter) {
    above();
    counter.step();
    Some(1).map(passed_on);
}

#[test]
fn works() {
    work();
}
"""
LAWS = "pub fn no_caller() {}\n"
EXAMPLE = """\
use low::unused_above;

#[test]
fn works() {
    unused_above();
}
"""
UNUSED = """\
low/proofs/Lemmas.antt:3: repeats_itself: cited nowhere
low/proofs/Apart.antt:1: shared: cited nowhere
low/specs/Facts.antt:4: IsLonely: cited nowhere
high/proofs/work/Answers.antt:9: left_over: cited nowhere
high/proofs/Above.antt:9: another: cited nowhere
low/src/parts.rt:10: unused_above: exported, and called by no other crate
low/src/parts.rt:14: lonely: called nowhere
low/src/parts.rt:27: stand_still: called nowhere
"""
DECISIONS = """\
# Decisions

| `low` | `step` | not below the heading |

## Names that nothing uses

| Crate | Names | Why they stay |
|---|---|---|
| `low` | {} | they are for others |

## More

| `low` | `counted` | not below the heading |
"""


class UnusedNamesTest(ScriptTest):
    def setUp(self):
        super().setUp()
        self.put("low/specs/Facts.antt", SPECS)
        self.put("low/proofs/Lemmas.antt", PROOFS)
        self.put("low/proofs/Apart.antt", APART)
        self.put("low/src/lib.rt", LOW)
        self.put("low/src/parts.rt", PARTS)
        self.put("low/src/laws.rt", LAWS)
        self.put("high/proofs/Above.antt", ABOVE)
        self.put("high/proofs/work/Answers.antt", ANSWERS)
        self.put("high/src/lib.rt", HIGH)

    def put(self, name, text):
        file = self.folder / "crates" / name
        file.parent.mkdir(parents=True, exist_ok=True)
        file.write_text(text, encoding="utf-8")

    def decide(self, *names):
        docs = self.folder / "docs"
        docs.mkdir(exist_ok=True)
        listed = ", ".join(f"`{it}`" for it in names)
        (docs / "DECISIONS.md").write_text(DECISIONS.format(listed), encoding="utf-8")

    def lists(self, *lines):
        run = self.run_script("unused_names", self.folder)
        self.assertEqual((sorted(run.stdout.splitlines()), run.stderr), (sorted(lines), ""))
        self.assertEqual(run.returncode, 1 if lines else 0)

    def test_what_nothing_uses(self):
        self.lists(*UNUSED.splitlines())

    def test_what_was_built_is_no_source(self):
        self.put("low/out/specs/Facts.antt", "pub unseen : ℕ\n")
        self.put("low/out/src/lib.rt", "fn unseen() {}\n")
        self.lists(*UNUSED.splitlines())

    def test_names_that_stay(self):
        self.decide("repeats_itself", "shared", "IsLonely", "unused_above", "lonely", "stand_still")
        self.lists(*(it for it in UNUSED.splitlines() if it.startswith("high")))

    def test_a_name_that_stays_is_of_its_crate(self):
        self.decide(*(line.split(": ")[1] for line in UNUSED.splitlines()))
        self.lists(
            "docs/DECISIONS.md: another of low: used, or gone",
            "docs/DECISIONS.md: left_over of low: used, or gone",
            *(it for it in UNUSED.splitlines() if it.startswith("high")),
        )

    def test_names_that_stay_are_unused(self):
        self.decide("IsUsed")
        self.lists("docs/DECISIONS.md: IsUsed of low: used, or gone", *UNUSED.splitlines())

    def test_a_test_is_a_call(self):
        self.put("worked_ground/src/lib.rt", EXAMPLE)
        self.lists(*(it for it in UNUSED.splitlines() if "unused_above" not in it))


if __name__ == "__main__":
    unittest.main()
