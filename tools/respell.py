#!/usr/bin/env python3
"""Brings this repository's own names in .antt and .rt files to the spelling of today's Rattle, once, after port.py.

usage: tools/respell.py      at the top of the repository: rewrites files in place and prints the names that it leaves

A definition, a field, a constructor, a lemma: words in snake case, validKey -> valid_key. In a lemma's name a dash
stays where it joins a definition's name to what is said of it, validKey-lt -> valid_key-lt, and is an underscore
elsewhere, five-pos -> five_pos. Types and modules keep their names, and so do functions of src/, names that std has
too, and goals in a function's own folder of proofs/. Each crate's root file gets the line #![tactic(auto)]. A name that
would fall together with another one of a file keeps its old spelling, and is printed.
"""

import collections
import os
import re
import sys

TOKEN = re.compile(r"[^\s(){}.;,@\"«»\[\]\\`]+")
NAME = r"[^\s(){}.;,@\"«»\[\]\\`]+"
SIGNATURE = re.compile(r"^(\s*)(?:(?:abbrev|unfoldable)\s+)?(?:pub\s+)?(%s)\s+:(?:\s|$)" % NAME)
KIND = re.compile(r"^\s*(?:abbrev\s+)?(?:pub\s+)?(data|record|ruleset|module)\s+(%s)" % NAME)
IMPORT = re.compile(r"^\s*(?:pub )?(?:ghost )?use ([\w.+-]+)\.\{([^}]*)\}")
PATHS = re.compile(r"^\s*(?:pub )?(?:ghost )?use [\w.+-]+")


# Lemmas and variables that port.py left with the spelling that a definition gets here.
OTHERS = {
    "back_at": "back_at_parent",
    "before_last": "before_last_entry",
    "digit_at": "digit_at_block",
    "front_at": "front_at_parent",
    "holds_test": "holds_test_of",
    "in_window": "window_has",
    "last_entry": "last_entry_there",
    "one_from": "one_from_leaf",
    "same_bytes": "same_bytes_of",
}
# A field of a struct has this name too, and stands only behind a dot or in a record.
TOGETHER = {"inForce"}


def files(root):
    for folder, folders, names in os.walk(os.path.join(root, "crates")):
        folders[:] = sorted(f for f in folders if f != "out")
        for name in sorted(names):
            if name.endswith((".antt", ".rt")):
                yield os.path.join(folder, name)


def of_a_function(path):
    return os.path.basename(path) == "Proof.antt"


def read(path):
    with open(path, encoding="utf-8", newline="") as it:
        return it.read()


def snake(word):
    word = re.sub(r"^getD(?![a-z])", "get_or", word)
    return re.sub(r"(?<=[a-z0-9])([A-Z])", lambda m: "_" + m[1].lower(), word)


def others(text):
    return re.sub(r"(?<![\w.'-])(%s)(?![\w'-]|\.\S)" % "|".join(OTHERS), lambda m: OTHERS[m[1]], text)


def gathered(texts, root):
    """Names that are declared, by where; and names that come from elsewhere."""
    lemmas, specs, labels, goals, foreign = set(), set(), set(), set(), set()
    crates = set(os.listdir(os.path.join(root, "crates")))
    for path, text in texts.items():
        for m in re.finditer(r"\btie\.(%s)" % NAME, text):
            goals.add(m[1])
        inside = None
        for line in text.split("\n"):
            m = IMPORT.match(line)
            if m:
                head = m[1].split(".")
                if not (head[0] == "Rattle" and len(head) > 1 and head[1] in crates):
                    for it in m[2].split(","):
                        foreign.add(it.split(" as ")[0].strip())
                continue
            if not path.endswith(".antt"):
                continue
            m = KIND.match(line)
            if m:
                inside = m[1] if m[1] in ("data", "record") and line.rstrip().endswith("where") else None
                continue
            if line and not line[0].isspace():
                inside = None
            m = SIGNATURE.match(line)
            if not m or not re.match(r"[a-z]", m[2]):
                continue
            if inside and m[1]:
                labels.add(m[2])
            elif of_a_function(path):
                if re.search(r": tie\.", line) or m[2].endswith("-spec"):
                    goals.add(m[2])
                else:
                    lemmas.add(m[2])
            elif "/specs/" in path:
                specs.add(m[2])
            else:
                lemmas.add(m[2])
    return lemmas, specs, labels, goals, foreign


def spelled(name, known, plain):
    parts = name.split("-")
    out = snake(parts[0])
    for before, part in zip(parts, parts[1:]):
        joins = not plain and (before in known or part in known)
        out += ("-" if joins else "_") + snake(part)
    return out


def table(texts, root):
    lemmas, specs, labels, goals, foreign = gathered(texts, root)
    compound = {it for it in specs if re.search(r"[a-z][A-Z]|_", it)}
    compound |= {"length", "take", "drop", "append", "set", "replicate", "get_or", "getD", "cond", "map"}
    names = {}
    # A variable, and what a file calls an import, has such a name too.
    every = {m[0] for text in texts.values() for m in TOKEN.finditer(text)}
    local = {it for it in every if re.match(r"[a-z][a-z0-9]*[A-Z][\w'-]*$", it)}
    for it in lemmas | specs | labels | local:
        if it in foreign or it in goals or re.match(r"(invariant|decreases)-", it):
            continue
        to = spelled(it, compound, it in labels or it in specs)
        if to != it:
            names[it] = to
    return names


def tokens(text, path):
    """The places of names: not in the strings of code."""
    if path.endswith(".rt"):
        quoted = [m.span() for m in re.finditer(r'b?"(?:\\.|[^"\\])*"', text)]
    else:
        quoted = []
    for m in TOKEN.finditer(text):
        if not any(a <= m.start() < b for a, b in quoted):
            yield m


def taken(text, path):
    """The names that stand alone, as a file spells them: not parts of paths, and of code what a clause can see."""
    if path.endswith(".rt"):
        typed = re.findall(r"(?<![\w.])(?:mut )?([a-z_]\w*)\s*:(?!:)", text)
        return set(typed) | set(re.findall(r"\blet (?:mut )?(\w+)", text))
    out = set()
    for line in text.split("\n"):
        line = re.sub(r"(^|\s)--(\s.*)?$", "", line)
        head = PATHS.match(line)
        rest = line[head.end() :] if head else line
        out |= {m[0] for m in TOKEN.finditer(rest) if not rest[: m.start()].endswith(".")}
    return out


def without_clashes(names, texts):
    """Takes out what would fall together with another name of a file: a definition goes before a dashed lemma."""
    left = set()
    seen = {path: (taken(text, path), {m[0] for m in tokens(text, path)}) for path, text in texts.items()}
    while True:
        bad = set()
        for path, (alone, every) in seen.items():
            new = collections.defaultdict(set)
            for it in alone | (every & names.keys()):
                new[names.get(it, it)].add(it)
            for together in new.values():
                if len(together) > 1:
                    turning = {it for it in together if it in names} - TOGETHER
                    dashed = {it for it in turning if "-" in it}
                    bad |= dashed or turning
        if not bad:
            return names, left
        for it in bad:
            del names[it]
        left |= bad


def turned(text, path, names):
    out, at = [], 0
    for m in tokens(text, path):
        if m[0] in names:
            out += [text[at : m.start()], names[m[0]]]
            at = m.end()
    return "".join(out) + text[at:]


def ask_for_tactics(root):
    """Each crate's root file gets the line by which the check tries its tactics."""
    for folder, _, names in os.walk(os.path.join(root, "crates")):
        for name in names:
            path = os.path.join(folder, name)
            is_root = os.path.basename(folder) == "src" and name in ("lib.rt", "main.rt")
            if is_root and "#![tactic(auto)]" not in read(path):
                lines = read(path).split("\n")
                at = next(i for i, line in enumerate(lines) if not line.startswith("//"))
                with open(path, "w", encoding="utf-8", newline="") as it:
                    it.write("\n".join(lines[:at] + ["#![tactic(auto)]\n"] + lines[at:]))


def main():
    root = os.getcwd()
    before = {path: read(path) for path in files(root)}
    texts = {path: others(text) if path.endswith(".antt") else text for path, text in before.items()}
    names, left = without_clashes(table(texts, root), texts)
    for path, text in texts.items():
        new = turned(text, path, names)
        if new != before[path]:
            with open(path, "w", encoding="utf-8", newline="") as it:
                it.write(new)
    ask_for_tactics(root)
    print(f"{len(names)} names respelled; {len(left)} left, for they would fall together: {', '.join(sorted(left))}")


if __name__ == "__main__":
    sys.exit(main())
