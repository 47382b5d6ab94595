#!/usr/bin/env python3
"""Tries wrong bodies: edits of the code that change its meaning, each of which the prover must refuse.

    wrong_bodies.py [--applies] [NAME..]

The bodies of a crate stand in its file wrong-bodies, with a blank line between two. A body begins with a comment, the
sentence that says what it does. Lines `file: PATH`, `old: TEXT` and `new: TEXT` follow: the old text is in that file
exactly once, after the pairs before it. The function that the text stands in is the one that must be refused, or the
one that a line `in: FUNCTION` names, for an edit of a constant.

Functions are proved each against the contracts of those that it calls. So the bodies of a crate are put into one copy of
it, as many as stand in different functions, and the prover checks these functions alone. Where the crate as it stands
was proved, what no body changed is taken by its contract: its proof in the copy is a hole, and it has no body, since the
prover would make its steps. A body is refused where a function of its own isn't proved, for a reason of its own: a goal
that isn't proved, or an answer that is refused. Where one has none, and calls others that were refused, it waits for the
next round.

A body whose function fails only since an answer names a step that the body took away shows nothing of the contract, and
is a failure of the body. Of a body that changes a definition, a lemma that is refused tells as well.

NAME is a crate, or a body as it is printed here, such as crs_decimal/keeps_closing_zeros. The crates below are proved
first, as tools/build.py does it. With --applies nothing is proved: it checks that each body applies to the sources,
those of must-fail/ too, which rt ci tries.

Prints a line for each body, and last `N passed, M failed`.
"""
from __future__ import annotations

import argparse
import concurrent.futures
import json
import pathlib
import re
import shutil
import subprocess
import sys
import tempfile
import time
from typing import Callable, Dict, Iterable, List, Optional, Set, Tuple

ROOT = pathlib.Path(__file__).resolve().parent.parent
# The import of the file of tools/ leaves nothing in the repository.
sys.dont_write_bytecode = True
sys.path.insert(0, str(ROOT / "tools"))
import build
from build import Crate

FUNCTION = re.compile(r'\s*(?:pub(?:\([a-z]+\))? )?(?:const )?(?:unsafe )?(?:extern "C" )?fn (\w+)')
# What an impl is generic over, with types in types in types.
GENERICS = r"<(?:->|[^<>]|<(?:[^<>]|<[^<>]*>)*>)*>"
BLOCK = re.compile(
    r"(?:pub(?:\([a-z]+\))? )?"
    rf"(?:impl(?:{GENERICS})? (?:(?:\w+::)*(\w+)(?:<.*?>)? for )?(&?)(?:'\w+ )?(?:\w+::)*(\w+)|trait (\w+))"
)
# What the prover says of a function that rests on others, or on answers, of others too, that are refused; and of an answer
# that names what a body took away.
RESTS = re.compile(r"[;:] it calls .*which (is|are) not proved")
REFUSED = re.compile(r"; it stands on .*which antt refuses")
NAMES = re.compile(r"has no field|is not in scope|has no `|was not admitted|\(nearest: ")
# What it says of an answer or a lemma that stands on a lemma which is refused.
STANDS = re.compile(r"depends? on `\S+`, which was (?:not admitted|rejected)")
# What it says of a function that is proved: over holes, or without.
PROVED = ("proved", "no holes", "depends on a hole")
# What it says first of one that isn't.
VERDICTS = ("not proved", "no proof")
# Its goal is short: the prover prints it, and the statement of a function may be long.
HOLE = """use {module}.Statement.{{statement}}

taken {{ℓ}} : {{A : Type ℓ}} → A
taken = ?

pub {name}_spec : {{M : Type 1}} → statement M
{name}_spec = taken
"""
# How it names a closure: by its function, and the call that takes it.
CLOSURE = re.compile(r"(^|::)fn::((?:[A-Z]\w*::)?\w+)::.*")
# A goal that isn't proved; a function's goals stand before the line of its verdict.
GOAL = re.compile(r"note: (src/\S+ it is not proved .*)")


class Fault(Exception):
    """Why a body can't be applied."""


def block_head(lines: List[str], begin: int) -> str:
    """The head that a line begins, in one line: one that is generic over much has several."""
    if lines[begin] != "impl<":
        return lines[begin]
    end = next(at for at in range(begin, len(lines)) if lines[at].endswith("{"))
    return " ".join(line.strip() for line in lines[begin : end + 1])


def enclosing(path: str, lines: List[str]) -> Optional[str]:
    """The function that the last of these lines of a file stands in, or None: its path, or a method's type and name, since
    the prover names a method by the module of its type."""
    inside = path.removeprefix("src/").removesuffix(".rt")
    names = [] if inside in ("lib", "main") else inside.split("/")
    function = None
    for at in reversed(range(len(lines))):
        if function is None:
            found = FUNCTION.match(lines[at])
            if found:
                function = found[1]
                if not lines[at].startswith(" "):
                    return "::".join([*names, function])
        elif found := BLOCK.match(block_head(lines, at)):
            trait, lent, owner, declared = found.groups()
            return "::".join([declared or ("Ref" if lent else "") + owner + (trait or ""), function])
    return None


def body_lines(lines: List[str], head: int) -> Optional[Tuple[int, int]]:
    """The lines of the braces around a function's body, in a formatted file, or None where it has none."""
    margin = " " * (len(lines[head]) - len(lines[head].lstrip()))
    for at, line in enumerate(lines[head:], head):
        ends_head = at == head or line.startswith(f"{margin})")
        if line == f"{margin}{{" or ends_head and line.endswith(" {"):
            return at, lines.index(f"{margin}}}", at)
        if line and not ends_head and line != f"{margin}where" and not line.startswith(f"{margin} "):
            break
        if line.endswith(";"):
            break
    return None


def emptied(path: str, text: str, is_taken: Callable[[str], bool]) -> Tuple[str, List[str]]:
    """The text of a file, where the functions that are taken by their contracts do nothing, on as many lines, and which
    these are."""
    lines, names = text.split("\n"), list[str]()
    for head in range(len(lines)):
        name = enclosing(path, lines[: head + 1]) if FUNCTION.match(lines[head]) else None
        if name and is_taken(name) and (found := body_lines(lines, head)):
            first, last = found
            lines[first + 1 : last] = ["loop {}" if at == first + 1 else "" for at in range(first + 1, last)]
            names.append(name)
    return "\n".join(lines), names


def goals_by_function(crate: str, said: str) -> Dict[str, List[str]]:
    """The goals that the prover tells as not proved, by the function that they are of."""
    found: Dict[str, List[str]] = {}
    goals: List[str] = []
    for line in said.split("\n"):
        if goal := GOAL.match(line):
            goals.append(goal[1])
        elif verdict := re.match(rf"fn {crate}::(\S+): ", line):
            found[verdict[1]], goals = goals, []
    return found


def is_in_function(lines: List[str]) -> bool:
    """Whether the last of these lines of a file stands in a function, and not behind it."""
    heads = [at for at, line in enumerate(lines) if FUNCTION.match(line)]
    if not heads:
        return False
    margin = lines[heads[-1]][: -len(lines[heads[-1]].lstrip())]
    return f"{margin}}}" not in lines[heads[-1] :]


class Body:
    """A wrong body of a crate."""

    def __init__(self, name: str, text: str) -> None:
        self.name = name
        self.pairs: List[Tuple[str, str, str]] = []
        self.named: Optional[str] = None
        self.is_of_constant = False
        path: Optional[str] = None
        old: Optional[str] = None
        for line in text.split("\n"):
            word, _, rest = line.partition(":")
            rest = rest.removeprefix(" ")
            if word == "file":
                path = rest.strip()
            elif word == "in":
                self.named = rest.strip()
            elif word == "old":
                old = rest
            elif word == "new" and path is not None and old is not None:
                self.pairs.append((path, old, rest))
                old = None
            elif line.strip() and not line.startswith("# "):
                raise Fault(f"a line that says nothing: {line}")
        if not self.pairs:
            raise Fault("no pair of texts")

    def applied(self, texts: Dict[str, str], folder: pathlib.Path) -> Tuple[Dict[str, str], List[str]]:
        """The texts of files that it changes, over the texts given and the folder's files, and the functions that it
        changes. A Fault where an old text isn't there exactly once."""
        changed: Dict[str, str] = {}
        functions: List[str] = []
        for path, old, new in self.pairs:
            text = changed.get(path) or texts.get(path)
            if text is None:
                if not (folder / path).is_file():
                    raise Fault(f"no file {path}")
                text = (folder / path).read_text(encoding="utf-8")
            if text.count(old) != 1:
                raise Fault(f"its old text occurs {text.count(old)} times in {path}: {old}")
            front = text[: text.index(old)].split("\n")
            front[-1] += old.split("\n")[0]
            function = self.named or enclosing(path, front)
            self.is_of_constant |= self.named is not None and not is_in_function(front)
            # A function of its own, in front of the one that it stands at.
            own = [it for it in re.findall(r"\bfn (\w+)", new) if not re.search(rf"\bfn {it}\b", old)]
            if own and function:
                function = "::".join([*function.split("::")[:-1], own[0]])
            if function and function not in functions:
                functions.append(function)
            changed[path] = text.replace(old, new)
        if not functions and not self.is_of_definitions():
            raise Fault("it stands in no function, and has no line in: FUNCTION")
        return changed, functions

    def stands_alone(self) -> bool:
        """Whether it edits what stands in no function, on which others may rest."""
        return self.is_of_constant or self.is_of_definitions()

    def is_of_definitions(self) -> bool:
        return not self.named and any(not path.startswith("src/") for path, _, _ in self.pairs)


# Bodies that are tried together, each with its functions.
Batch = List[Tuple[Body, List[str]]]


def bodies_of(folder: pathlib.Path, has_named: bool = False) -> Tuple[List[Body], List[str]]:
    """The bodies of a crate's file, with those of must-fail/ where they are asked for, and what is wrong with any."""
    file = folder / "wrong-bodies"
    blocks = file.read_text(encoding="utf-8").strip("\n").split("\n\n") if file.is_file() else []
    found = [("_".join(re.findall(r"\w+", it.partition("\n")[0].lower())), it) for it in blocks]
    if has_named:
        found += [(it.stem, it.read_text(encoding="utf-8")) for it in sorted(folder.glob("must-fail/*.edit"))]
    bodies: Dict[str, Body] = {}
    faults: List[str] = []
    for name, text in found:
        try:
            body = Body(f"{folder.name}/{name}", text)
            body.applied({}, folder)
            if body.name in bodies:
                raise Fault("another body has its name")
            bodies[body.name] = body
        except Fault as why:
            faults.append(f"{folder.name}/{name}: {why}")
    return list(bodies.values()), faults


def plain_functions(folder: pathlib.Path, file: pathlib.Path) -> List[str]:
    """The functions of a file of the crate in this folder that are no methods, by their paths."""
    lines = file.read_text(encoding="utf-8").split("\n")
    path = str(file.relative_to(folder))
    heads = [at for at, line in enumerate(lines) if line and not line.startswith(" ") and FUNCTION.match(line)]
    return [it for at in heads if (it := enclosing(path, lines[: at + 1]))]


def functions_of(crate: Crate) -> List[str]:
    """The functions of a library that is proved as it stands, by their paths; none where it isn't. Of the library for C,
    which leaves no list, those that are no methods."""
    if crate.name == build.LIBRARY:
        files = sorted((crate.folder / "src").rglob("*.rt"))
        return [it for file in files for it in plain_functions(crate.folder, file)]
    file = crate.made / "toolchain" / "mir.json"
    if not crate.is_current() or not file.is_file():
        return []
    listed = json.loads(file.read_text(encoding="utf-8"))
    paths = [name.removeprefix(f"{crate.name}::") for name, _ in listed if not name.endswith("+decl")]
    return [it for it in paths if "++" not in it]


def is_of(path: str, ends: Iterable[str]) -> bool:
    """Whether a function is one of some that are given by the ends of their paths."""
    return f"::{path}".endswith(tuple(f"::{end}" for end in ends))


def owner_of(path: str) -> str:
    """The function that a closure stands in, or the function itself."""
    return CLOSURE.sub(r"\1\2", path)


def drop_closure(proofs: pathlib.Path, path: str) -> None:
    """Takes away the proofs of the closures of a function that has none any more."""
    folder = proofs.joinpath(*CLOSURE.sub(r"\1fn::\2", path).split("::"))
    shutil.rmtree(folder, ignore_errors=True)


def is_of_cycle(proofs: pathlib.Path, path: str) -> bool:
    """Whether a function calls itself: its proof is that of a cycle."""
    *modules, name = path.split("::")
    return proofs.joinpath(*modules, f"+{name}").is_dir()


def leave_hole(crate: str, proofs: pathlib.Path, path: str) -> None:
    """Has the prover take a function by its contract."""
    *modules, name = path.split("::")
    folder = proofs.joinpath(*modules, name)
    folder.mkdir(parents=True, exist_ok=True)
    for it in ("Answers.antt", "Invariants.antt"):
        (folder / it).unlink(missing_ok=True)
    module = ".".join([f"Rattle.{crate}.proofs", *modules, name])
    (folder / "Proof.antt").write_text(HOLE.format(module=module, name=name), encoding="utf-8")


class Trial:
    """The trial of a crate's bodies."""

    def __init__(self, crate: Crate, bodies: List[Body]) -> None:
        self.crate = crate
        self.proved_already = functions_of(crate)
        self.left = bodies
        self.passed, self.faults = 0, list[str]()
        # For a body that was tried: those that its function calls, and which were refused or not tried yet.
        self.waits: Dict[Body, List[Body]] = {}

    def run(self) -> Trial:
        # What a round has proved is kept for the next.
        with tempfile.TemporaryDirectory(prefix="wrong-bodies-") as self.proved:
            self.try_left()
        return self

    def try_left(self) -> None:
        while self.left:
            batch, texts = self.batch()
            self.try_batch(batch, texts)

    def batch(self) -> Tuple[Batch, Dict[str, str]]:
        """Bodies that stand in different functions, each with its functions, and the texts with all of them. Those that are
        known to call others wait for these."""
        batch: Batch = []
        texts: Dict[str, str] = {}
        taken: Set[str] = set()
        for body in self.left:
            try:
                changed, functions = body.applied(texts, self.crate.folder)
            except Fault:
                continue
            is_alone = body.stands_alone()
            is_early = any(it in self.left for it in self.waits.get(body, ()))
            if taken & set(functions) or batch and is_alone or is_early:
                continue
            batch.append((body, functions))
            texts.update(changed)
            taken.update(functions)
            if is_alone:
                break
        if not batch:
            # They call one another.
            self.waits.clear()
            return self.batch()
        return batch, texts

    def take_unchanged(self, room: pathlib.Path, functions: List[str]) -> bool:
        """In a copy of the crate, has the prover take what no body changed by its contract: with a hole for its proof, and
        without its body, whose steps it would make else. Whether there is any."""
        proofs = room / "proofs"
        unchanged = [it for it in self.proved_already if not is_of(owner_of(it), functions)]
        taken = {it for it in unchanged if not is_of_cycle(proofs, it)}

        def is_taken(name: str) -> bool:
            found = [it for it in self.proved_already if is_of(it, [name])]
            return bool(found) and taken.issuperset(found)

        gone: List[str] = []
        for file in sorted((room / "src").rglob("*.rt")):
            text, names = emptied(str(file.relative_to(room)), file.read_text(encoding="utf-8"), is_taken)
            file.write_text(text, encoding="utf-8")
            gone += names
        for path in sorted(taken):
            owner = owner_of(path)
            if owner != path and is_of(owner, gone):
                drop_closure(proofs, path)
            else:
                leave_hole(self.crate.name, proofs, path)
        return bool(taken)

    def check(self, batch: Batch, texts: Dict[str, str]) -> str:
        """What the prover says of the bodies' functions, with these texts in place of the crate's. The others are taken by
        their contracts, but for a body of definitions, which may change what they say."""
        functions = [it for _, functions in batch for it in functions]
        with tempfile.TemporaryDirectory(prefix="wrong-bodies-") as room:
            for part in build.PARTS:
                if (self.crate.folder / part).is_dir():
                    shutil.copytree(self.crate.folder / part, f"{room}/{part}")
            for path, text in texts.items():
                pathlib.Path(room, path).write_text(text, encoding="utf-8")
            is_of_definitions = batch[0][0].is_of_definitions()
            has_holes = not is_of_definitions and self.take_unchanged(pathlib.Path(room), functions)
            words = [
                *self.crate.words_to_check(1),
                *["--allow-holes", "--short-goals"] * has_holes,
                "--incremental",
                self.proved,
                *(it for name in functions for it in ("--only", name)),
            ]
            done = subprocess.run(
                [build.toolchain() / "bin" / "rattle", "check", *words],
                cwd=room,
                stdin=subprocess.DEVNULL,
                stdout=subprocess.PIPE,
                stderr=subprocess.STDOUT,
                errors="replace",
                check=False,
            )
        return done.stdout

    def try_batch(self, batch: Batch, texts: Dict[str, str]) -> None:
        began = time.monotonic()
        is_lone = len(batch) == 1 and batch[0][0].stands_alone()
        said = self.check(batch, texts)
        print(f"{self.crate.name}: {len(batch)} tried in {time.monotonic() - began:.0f} s", flush=True)
        told = dict(re.findall(rf"^fn {self.crate.name}::(\S+): (.*)$", said, re.M))
        if not told:
            self.halve(batch, said)
            return
        batch = [(body, [it for it in told if is_of(it, ends)]) for body, ends in batch]
        changed = {it for _, functions in batch for it in functions}
        for name, words in told.items():
            if not words.startswith(PROVED) and not RESTS.search(words) and name not in changed and not is_lone:
                self.faults.append(f"{self.crate.name}: no body changed {name}, and it isn't proved: {words}")
        settled = 0
        goals = goals_by_function(self.crate.name, said)
        for body, functions in batch:
            reasons = [it for name in functions or told if (it := self.reason(name, told, goals, said))]
            why = next((words for words, is_of_names in reasons if not is_of_names), None)
            if reasons and not why and body.is_of_definitions():
                why = lemma_reason(said)
            if why:
                self.settle(body, why)
                settled += 1
            elif reasons:
                self.fail(body, "REFUSED ONLY SINCE AN ANSWER NAMES WHAT THE BODY TOOK AWAY", reasons[0][0])
                settled += 1
            else:
                called = self.called(functions, told)
                self.waits[body] = [it for it, others in batch if it is not body and called & set(others)]
        if not settled:
            if len(batch) == 1:
                self.fail(batch[0][0], "NOT REFUSED", said)
            else:
                self.halve(batch, said)

    def called(self, functions: List[str], told: Dict[str, str]) -> Set[str]:
        """What isn't proved of all that these functions call, as far as the prover tells."""
        found: Set[str] = set()
        left = list(functions)
        while left:
            ends = re.findall(rf"`{self.crate.name}::(\S+?)`", told.get(left.pop(), "").partition("it calls")[2])
            # A block stands for each of its functions.
            further = {it for it in told for end in ends if it == end or it.startswith(f"{end}::")} - found
            found |= further
            left += further
        return found

    def reason(
        self, name: str, told: Dict[str, str], goals: Dict[str, List[str]], said: str
    ) -> Optional[Tuple[str, bool]]:
        """Why a function isn't proved, and whether only since answers name what a body took away; None where it is proved,
        or only what it calls isn't."""
        # The folder of a function that calls itself begins with a plus.
        *folders, last = name.split("::")
        folder = re.escape("".join(f"{it}/" for it in folders))
        module = re.escape("".join(f"{it}." for it in [self.crate.name, "proofs", *folders]))
        words = told.get(name, "proved")
        own = RESTS.sub("", words)
        if not re.search(rf"`Rattle\.{module}\+?{re.escape(last)}\.", own):
            own = REFUSED.sub("", own)
        if own != words and own in VERDICTS or not words.startswith(VERDICTS):
            return None
        if goals.get(name):
            return f"{name}: {goals[name][0]}", False
        errors = re.findall(rf"^\./proofs/{folder}\+?{last}/\S+ error: (.*)$", said, re.M)
        other = next((it for it in errors if not NAMES.search(it)), None)
        return f"{name}: {other or (errors or [words])[0]}", bool(errors) and not other

    def halve(self, batch: Batch, said: str) -> None:
        """Nothing is known of these bodies together: each half is tried for itself."""
        if len(batch) == 1:
            self.fail(batch[0][0], "CAN'T BE TRIED", said)
            return
        rest = self.left
        bodies = [body for body, _ in batch]
        for half in (bodies[: len(bodies) // 2], bodies[len(bodies) // 2 :]):
            self.left = half
            self.try_left()
        self.left = [it for it in rest if it not in bodies]

    def settle(self, body: Body, why: str) -> None:
        self.left = [it for it in self.left if it is not body]
        self.passed += 1
        print(f"{body.name}: refused in {why[:160]}", flush=True)

    def fail(self, body: Body, word: str, said: str) -> None:
        self.left = [it for it in self.left if it is not body]
        lines = said.split("\n")
        told = [it for it in lines if "error" in it or it.startswith("fn ") and not it.endswith(": proved")]
        self.faults.append(f"{body.name}: {word}: {' '.join((told or lines)[:2])[:300]}")


def lemma_reason(said: str) -> Optional[str]:
    """Why a lemma is refused where a body changes a definition, which is tried alone: so what is refused is so by it. None
    where each is refused only since it names what isn't there, or stands on one that is."""
    errors = re.findall(r"^\./proofs/\S+ error: (.*)$", said, re.M)
    return next((it for it in errors if not NAMES.search(it) and not STANDS.search(it)), None)


def try_all(names: List[str]) -> Tuple[int, List[str]]:
    """Tries the bodies of these crates, and those of these names, and returns how many were refused, and what is wrong."""
    bodies: Dict[str, List[Body]] = {}
    faults: List[str] = []
    for name in {it.partition("/")[0]: None for it in names}:
        found, wrong = bodies_of(ROOT / "crates" / name)
        bodies[name] = [it for it in found if name in names or it.name in names]
        faults += wrong
    known = [*bodies, *(it.name for found in bodies.values() for it in found)]
    faults += [f"{it}: no such body" for it in names if it not in known]
    crates = build.needed([it for it, found in bodies.items() if found])
    tried = [it for it in crates if bodies.get(it.name)]
    build.prove([it for it in crates if any(it in other.below for other in tried)], "what wrong bodies rest on")
    # Those with most bodies take longest, and go first.
    tried.sort(key=lambda it: -len(bodies[it.name]))
    with concurrent.futures.ThreadPoolExecutor(build.jobs_of_this_machine()) as pool:
        trials = [pool.submit(Trial(it, bodies[it.name]).run) for it in tried]
        done = [it.result() for it in trials]
    return sum(it.passed for it in done), [*faults, *(fault for it in done for fault in it.faults)]


def main() -> int:
    parser = argparse.ArgumentParser(description="Tries wrong bodies: the prover must refuse each.")
    parser.add_argument("--applies", action="store_true", help="proves nothing: says whether each applies")
    parser.add_argument("names", nargs="*", metavar="NAME", help="a crate, or CRATE/BODY")
    given = parser.parse_args()
    every = list(build.listed())
    if unknown := [it for it in given.names if it.partition("/")[0] not in every]:
        parser.error(f"crates.txt has no {unknown[0]}")
    if given.applies:
        found = [bodies_of(ROOT / "crates" / it, True) for it in every]
        passed, faults = sum(len(bodies) for bodies, _ in found), [it for _, wrong in found for it in wrong]
    else:
        try:
            passed, faults = try_all(given.names or every)
        except build.Stop as why:
            passed, faults = 0, [str(why)]
    for fault in faults:
        print(fault)
    print(f"{passed} passed, {len(faults)} failed")
    return 1 if faults else 0


if __name__ == "__main__":
    sys.exit(main())
