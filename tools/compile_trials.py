#!/usr/bin/env python3
"""compile_trials.py: inside the library no number of one sort is accepted for another.

Each trial changes one call of a crate, which the prover has accepted as it stands, in a copy of the repository; the
compiler must refuse it for the reason stated. To be run after `rt ci`, on what that proved.
"""
import pathlib
import shutil
import subprocess
import sys
import tempfile

HERE = pathlib.Path(__file__).resolve().parent.parent
TRIALS = [
    ("a tie for a mark", "rows", "offers.rt", "self.words.row(u)", "self.words.row(e)", "expected `Number<Marks>`, found `Number<Ties>`"),
    ("a mark for a tie", "tables", "runs.rt", "Tie::tested(e, ties).enters(", "v.enters(",
     "the method `enters` takes `self` as `Number<Ties>`, and is called on `Number<Marks>`"),
    ("a mark for a tie of a chain", "back", "fill.rt", "chain[i] = taken.tie.word()", "chain[i] = at.mark.word()",
     "the method `word` takes `self` as `Number<Ties>`, and is called on `Number<Marks>`"),
    ("a kind for a state", "tables", "steps.rt", "self.put(p, k, q)", "self.put(k, k, q)", "expected `Number<States>`, found `Number<Kinds>`"),
    ("a plain number for a state", "rows", "offers.rt", "lower(row, State::tested(n, states), w)", "lower(row, n, w)",
     "expected `Number<States>`, found `usize`"),
    ("a mark made without its entry", "rounds", "area.rt", "Mark::tested(v, marks)", "tables::numbers::Number(v, std::marker::PhantomData)",
     "the constructor of the tuple struct `Number` is private"),
]


def said_of(root, crate, file, old, new):
    """What the compiler says of the crate with the change, or None if it accepts it."""
    source = root / "crates" / crate / "src" / file
    text = source.read_text()
    assert text.count(old) == 1, f"{old} is not once in {source}"
    source.write_text(text.replace(old, new))
    run = subprocess.run(["rt", "check"], cwd=root / "crates" / crate, stdout=subprocess.PIPE, stderr=subprocess.STDOUT, text=True)
    source.write_text(text)
    return None if run.returncode == 0 else run.stdout


def main():
    with tempfile.TemporaryDirectory() as folder:
        root = pathlib.Path(folder)
        shutil.copytree(HERE / "crates", root / "crates", ignore=shutil.ignore_patterns("out"))
        shutil.copy(HERE / "crates.txt", root)
        for name, crate, file, old, new, reason in TRIALS:
            said = said_of(root, crate, file, old, new)
            if said is None:
                sys.exit(f"compile trial: {name} was accepted")
            if reason not in said:
                sys.exit(f"compile trial: {name} was refused for another reason: {said}")
            print(f"compile trial: {name} is refused: {reason}")


main()
