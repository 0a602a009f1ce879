#!/usr/bin/env python3
"""Every file of definitions, proofs and code opens with a comment, and what it says it rests on is what it imports.

A name with a capital behind "Rests on" is a module that the file imports, and one behind a crate's name, as in "laws'
First and Records", is a module that it imports from that crate; "nothing" is said only where it imports nothing of the
project. And a definition, as a contract cites it, rests on definitions: a file of specs/ imports no proofs.
tests/headers.py looks at crates/; tests/headers.py --self-test shows that a false header and such an import are found."""
import pathlib
import re
import sys

ROOT = pathlib.Path(__file__).resolve().parent.parent / "crates"
CRATES = {path.name for path in ROOT.iterdir()}
NOT_MODULES = {"Rattle"}
OWN = re.compile(r"Rattle\.(\w+)\.(specs|proofs)\.")
# a crate in the genitive, and the modules behind it up to the next word that is none
OF_CRATE = re.compile(r"\b([a-z_]+)'s? ((?:[A-Z]\w*(?:, and |, | and )?)+)")


def header(text, mark):
    """The comment that a text opens with, as one line."""
    lines = []
    for line in text.split("\n"):
        if not line.startswith(mark):
            break
        lines.append(line[len(mark):].strip())
    return " ".join(lines)


def of_project(path):
    """Whether a path leads to one of the project's crates and, if so, to which of its parts; std's are the toolchain's."""
    found = OWN.match(path)
    return found.group(2) if found and found.group(1) in CRATES else None


def faults(text, mark):
    """What is false in the header of a text."""
    told = header(text, mark)
    if not told:
        return ["no comment opens it"]
    imports = re.findall(r"^use ([^\s{]+)", text, re.M)
    modules = {part for path in imports for part in path.split(".")}
    found = []
    if re.search(r"(Rests on|Assumes) nothing\.", told) and any(map(of_project, imports)):
        found.append("it imports something of the project")
    for rests in re.findall(r"Rests on ([^.]*)\.", told):
        for name in re.findall(r"\b[A-Z]\w+", rests):
            if name not in modules | NOT_MODULES:
                found.append(f"it does not import {name}")
    for crate, names in OF_CRATE.findall(told):
        for name in re.findall(r"[A-Z]\w*", names):
            if crate in CRATES and not any(re.match(rf"Rattle\.{crate}\..*\b{name}\b", path) for path in imports):
                found.append(f"it does not import {name} from {crate}")
    return found


def proofs_in(text):
    """The proofs that a text imports."""
    return [f"it imports proofs: {path}" for path in re.findall(r"^use ([^\s{]+)", text, re.M)
            if of_project(path) == "proofs"]


def self_test():
    assert not faults("-- A law. Rests on Key.\nuse Rattle.keys.specs.Key.{valid_key}\n", "--")
    assert faults("-- A law. Rests on Block.\nuse Rattle.keys.specs.Key.{valid_key}\n", "--")
    assert faults("-- A law. Rests on nothing.\nuse Rattle.keys.specs.Key.{valid_key}\n", "--")
    assert not faults("-- A law. Rests on nothing.\nuse Rattle.std.specs.Prelude.{ℕ}\n", "--")
    assert not faults("-- A law. Assumes nothing.\nuse Rattle.std.proofs.Common.{rules}\n", "--")
    assert faults("-- A law. Assumes nothing.\nuse Rattle.laws.proofs.First.{first_zero}\n", "--")
    assert faults("use Rattle.std.specs.Prelude.{ℕ}\n", "--") and faults("mod block_end;\n", "//")
    of_laws = "use Rattle.laws.proofs.First.{first_zero}\nuse Rattle.laws.proofs.Records.{paired}\n"
    assert not faults("-- A law. Rests on laws' First and Records.\n" + of_laws, "--")
    assert faults("-- A law. Rests on definitions' First.\n" + of_laws, "--")
    assert faults("-- A law. Rests on laws' First and on\n-- definitions' Records.\n" + of_laws, "--")
    assert faults("-- A law. Rests on laws' First,\n-- Buffer and Records.\n" + of_laws, "--")
    assert not faults("-- The map's Map A. Rests on laws' First.\n" + of_laws, "--")
    assert proofs_in(of_laws) and proofs_in("use Rattle.laws.proofs.First.{first_zero}\n")
    assert proofs_in("-- A word.\nuse Rattle.edit_log.proofs.Parts as parts\n")
    assert not proofs_in("use Rattle.std.proofs.lemmas.List.Edits.{sets}\n")
    assert not proofs_in("use Rattle.keys.specs.Key.{valid_key}\nuse Rattle.keys.specs.Key.{root_key}\n")
    print("a false header is found, and proofs behind a definition")


def main():
    number = wrong = 0
    for pattern, mark in (("*/specs/**/*.antt", "--"), ("*/proofs/**/*.antt", "--"), ("*/src/**/*.rt", "//")):
        for path in sorted(ROOT.glob(pattern)):
            if path.name == "Lib.antt":
                continue
            number += 1
            text = path.read_text()
            for fault in faults(text, mark) + (proofs_in(text) if "specs" in pattern else []):
                wrong += 1
                print(f"{path.relative_to(ROOT)}: {fault}")
    print(f"{number} files, {wrong} false headers")
    return 1 if wrong or number < 500 else 0


if __name__ == "__main__":
    sys.exit(self_test() if "--self-test" in sys.argv else main())
