#!/usr/bin/env python3
"""One name, one meaning: no public name in specs/, nor one of a struct or enum in src/, nor one at the left margin of a
file of proofs/ stands for two things. (A law that stands in a module of its file is named with what the module is about.
What a folder proofs/FUNCTION holds answers that function's goals: its names are the toolchain's, and are left out.)

tests/names.py looks at crates/; tests/names.py --self-test shows that a name given twice is found."""
import pathlib
import re
import sys

ROOT = pathlib.Path(__file__).resolve().parent.parent / "crates"
DEFINED = re.compile(r"^ *pub (?:data |record )([^\s{(]+)"
                     r"|^ *(?:abbrev|unfoldable) pub ([^\s{(]+) .*:"
                     r"|^pub ([^\s{(]+) .*:")
PROVED = re.compile(r"^(?:(?:abbrev|unfoldable) )?pub (?:data |record |ruleset )?(?!mod )([^\s{(:]+)")
OF_A_FUNCTION = ("Invariants.antt", "Answers.antt", "Proof.antt")
DECLARED = re.compile(r"^(?:pub )?(?:struct|enum) (\w+)")


def names(text, pattern):
    """The names that a text defines, its comments left out."""
    for line in text.split("\n"):
        found = pattern.match(line.split("--")[0])
        if found:
            yield next(name for name in found.groups() if name)


def sources(root):
    for path in sorted(root.glob("*/specs/**/*.antt")):
        yield path, DEFINED
    for path in sorted(root.glob("*/proofs/**/*.antt")):
        if path.name not in ("Lib.antt", *OF_A_FUNCTION):
            yield path, PROVED
    for path in sorted(root.glob("*/src/**/*.rt")):
        yield path, DECLARED


def doubled(texts):
    """Names with more than one file; texts gives a place, its text and a pattern."""
    places = {}
    for place, text, pattern in texts:
        for name in names(text, pattern):
            places.setdefault(name, set()).add(str(place))
    return {name: sorted(files) for name, files in places.items() if len(files) > 1}


def self_test():
    first = "-- a record\npub record Ready (m : ℕ) : Type 0 where\n  pub deep : m ≤ 10\n"
    second = "module _ (keys : List ℕ) where\n  unfoldable pub step_of : ℕ → ℕ\n"
    third = "pub struct Ready {\n    pub deep: bool,\n}\n"
    law = "-- it holds\npub key_below : {m κ : ℕ} → κ < 5 ^ m\nkey_below = omega arith\n"
    assert not doubled([("a", first, DEFINED), ("b", second, DEFINED)])
    assert doubled([("a", first, DEFINED), ("b", third, DECLARED)]) == {"Ready": ["a", "b"]}
    assert doubled([("a", second, DEFINED), ("b", "abbrev pub step_of : (m : ℕ) → ℕ\n", DEFINED)])
    assert doubled([("a", first, DEFINED), ("b", "  pub data Ready : ℕ → Type 0 where\n", DEFINED)])
    assert doubled([("a", law, PROVED), ("b", "pub key_below {ℓ} : Type ℓ\n", PROVED)]) == {"key_below": ["a", "b"]}
    assert doubled([("a", law, PROVED), ("b", "pub key_below\n    : ℕ\n", PROVED)])
    assert doubled([("a", first, DEFINED), ("b", "abbrev pub Ready : ℕ → Type 0\n", PROVED)])
    assert doubled([("a", third, DECLARED), ("b", "pub data Ready : ℕ → Type 0 where\n", PROVED)])
    assert not doubled([("a", law, PROVED), ("b", "key_below : ℕ\n", PROVED), ("c", "  pub key_below : ℕ\n", PROVED)])
    assert not doubled([("a", law, PROVED), ("b", "-- pub key_below : ℕ\n", PROVED)])
    print("a name given twice is found")


def main():
    texts = [(path.relative_to(ROOT), path.read_text(), pattern) for path, pattern in sources(ROOT)]
    twice = doubled(texts)
    for name, files in sorted(twice.items()):
        print(f"{name} stands for {len(files)} things: {', '.join(files)}")
    number = len({name for _, text, pattern in texts for name in names(text, pattern)})
    print(f"{number} public names, {len(twice)} with more than one meaning")
    return 1 if twice or number < 2500 else 0


if __name__ == "__main__":
    sys.exit(self_test() if "--self-test" in sys.argv else main())
