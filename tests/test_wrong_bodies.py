"""Wrong bodies: each applies to the sources, and has its form. rt ci tries those of must-fail/.

The script that tries the others (tools/wrong_bodies.py) is tried over crs_decimal, which stands on no other crate: a body
that is wrong is refused, one that means what the code means is told as let through, and one that takes away a name that
an answer cites shows nothing.
"""
from typing import Optional

import pytest
import wrong_bodies
from build import needed
from support import ROOT

CRATES = ROOT / "crates"
WRONG = """file: src/decimal.rt
old: self.digits == 0
new: self.power == 0
"""
RIGHT = """file: src/decimal.rt
old: self.power as i32
new: let power = self.power; power as i32
"""
PROOFS = "Rattle.crs_decimal.proofs"
LEMMAS = """./proofs/LeafLemmas.antt:2:5: error: `leaf`: {told}
./proofs/NodeLemmas.antt:3:1: error: 2 declarations that depend on `leaf`, which was rejected, were not checked: node, crs
"""
NAMELESS = """file: src/short.rt
old: let (digits, zeros) = stripped(self.value);
new: let pair = stripped(self.value); let (digits, zeros) = (pair.0, pair.1);
"""
SOURCE = """fn first(a: u8) -> u8
    ensures { result ≡ a }
{
    let b = a;
    b
}

impl Short {
    fn second(
        &self,
    ) -> u8 {
        self.value
    }
}
"""


@pytest.mark.parametrize("crate", sorted(it.name for it in CRATES.iterdir()))
def test_applies(crate: str) -> None:
    _, faults = wrong_bodies.bodies_of(CRATES / crate, True)
    assert not faults


@pytest.mark.parametrize("crate", sorted(it.parent.name for it in CRATES.glob("*/wrong-bodies")))
def test_sentences(crate: str) -> None:
    """Each body begins with a sentence that says what it does."""
    bodies = (CRATES / crate / "wrong-bodies").read_text(encoding="utf-8").split("\n\n")
    for sentence in (it.partition("\n")[0] for it in bodies):
        assert sentence.startswith("# ") and sentence.endswith(".") and len(sentence) <= 120, sentence


def test_named() -> None:
    """rt ci tries the bodies that break a main promise, and no others: it checks their crate once more."""
    assert len(list(CRATES.glob("*/must-fail/*"))) == 26


@pytest.mark.parametrize(
    "head, name",
    [
        ("fn first() {", "crs::short::first"),
        ("impl Short {\n    fn second() {", "Short::second"),
        ("impl<'a> Part<Frame<'a>> for &'a Node<'_> {\n    fn second() {", "RefNodePart::second"),
        ("impl<'a, P: Part<Frame<'a>>> Fields<'a, P> {\n    fn second() {", "Fields::second"),
        ("impl<\n    'a,\n    P: Part<Frame<'a>>,\n> Fields<'a, P> {\n    fn second() {", "Fields::second"),
    ],
)
def test_enclosing(head: str, name: str) -> None:
    before = ["impl Other {", "    fn none() {}", "}", ""]
    assert wrong_bodies.enclosing("src/crs/short.rt", [*before, *head.split("\n")]) == name


@pytest.mark.parametrize(
    "told, is_of_names",
    [
        ("record .. has no field stripped (nearest: .short ..)", True),
        ("no clause zeros here (nearest: .digits)", True),
        ("`stripped` is not in scope", True),
        ("the two sides differ: 1 and 2", False),
    ],
)
def test_reason(told: str, is_of_names: bool) -> None:
    """A function whose answer names what isn't there is told apart from one that has a reason of its own."""
    trial = wrong_bodies.Trial(needed(["crs_decimal"])[-1], [])
    said = f"./proofs/short/write/Answers.antt:3:5 error: {told}"
    assert trial.reason("short::write", {"short::write": "not proved"}, {}, said) == (
        f"short::write: {told}",
        is_of_names,
    )


@pytest.mark.parametrize(
    "told, why", [("the two types differ", "`leaf`: the two types differ"), ("`x` is not in scope", None)]
)
def test_lemma_reason(told: str, why: Optional[str]) -> None:
    """A lemma is refused for a reason of its own, or only since it names what isn't there, or stands on one that is."""
    assert wrong_bodies.lemma_reason(LEMMAS.format(told=told)) == why


@pytest.mark.parametrize(
    "words, has_own",
    [
        ("proved", False),
        ("depends on a hole in `Rattle.crs_decimal.proofs.cutting.read.Proof.read_spec`", False),
        ("not proved; it calls `crs_decimal::cutting::read`, which is not proved", False),
        (
            "no proof: it calls `crs_decimal::cutting::read` and `crs_decimal::short::plain`, which are not proved",
            False,
        ),
        (f"not proved; it stands on `{PROOFS}.short.write.Answers.returns`, which antt refuses", True),
        (
            f"not proved; it stands on `{PROOFS}.a.Answers.x`, which antt refuses; it calls `a`, which is not proved",
            False,
        ),
        ("no proof: `search` did not prove `returns`; it calls `a`, which is not proved", True),
        ("not proved", True),
    ],
)
def test_rests(words: str, has_own: bool) -> None:
    """A function that isn't proved only since what it calls isn't has no reason of its own."""
    trial = wrong_bodies.Trial(needed(["crs_decimal"])[-1], [])
    assert (trial.reason("short::write", {"short::write": words}, {}, "") is not None) == has_own


@pytest.mark.parametrize(
    "path, owner",
    [
        ("cutting::fn::digits_len::take_while+FnMut::call_mut", "cutting::digits_len"),
        ("values::places::fn::Places::rank::partition_point", "values::places::Places::rank"),
        ("cutting::read", "cutting::read"),
    ],
)
def test_owner(path: str, owner: str) -> None:
    """A closure is changed with the function that it stands in."""
    assert wrong_bodies.owner_of(path) == owner


@pytest.mark.parametrize(
    "name, body", [("short::first", "    let b = a;\n    b\n"), ("Short::second", "        self.value\n")]
)
def test_emptied(name: str, body: str) -> None:
    """A function that is taken by its contract does nothing, on as many lines; the others are as they were."""
    nothing = "loop {}\n".ljust(len("loop {}") + body.count("\n"), "\n")
    text, names = wrong_bodies.emptied("src/short.rt", SOURCE, lambda it: it == name)
    assert (text, names) == (SOURCE.replace(body, nothing), [name])


@pytest.mark.gate
def test_trial() -> None:
    crate = needed(["crs_decimal"])[-1]
    crate.made = crate.folder / "out" / "rlib" / "crs_decimal.rlib"
    texts = {"nameless": NAMELESS, "right": RIGHT, "wrong": WRONG}
    trial = wrong_bodies.Trial(crate, [wrong_bodies.Body(it, text) for it, text in texts.items()]).run()
    nameless, right = sorted(trial.faults)
    assert trial.passed == 1
    assert nameless.startswith("nameless: REFUSED ONLY SINCE AN ANSWER NAMES")
    assert right.startswith("right: NOT REFUSED")
