#!/usr/bin/env python3
"""Holds docs/PROMISES.md against the must-fail edits and the calls of include/prowcurl.h.

  tests/promises.py               every call has one row, and every row's call is one of the header's; every edit is
                                  named, and every edit that is named there or in docs/DEMANDS.md is there; an edit that
                                  a row names changes what that row is about; and an edit can be applied: a comment says
                                  what is wrong, each text that it replaces stands once in a file of src/ or specs/, and
                                  each is one line, since rt passes over what follows
  tests/promises.py --self-test   breaks each of these in many ways, one at a time; each must be found

What a row is about: the functions that it names in its first two columns, or for a call of C the exported function,
with all that they call; and the definitions that their contracts cite or the row names, with all that those rest on. An
edit of code changes a function, and that must be one of these functions; outside of functions it changes all of its
file. An edit of a definition changes a file of specs/, which must be one that these definitions rest on, or itself rest
on one of them, as the specs of a history do. Both are read off the text: calls by name and module, definitions by the
imports of files. So an edit of what two calls share may stand at either; one that only the other call reaches may not.
Edits that are named beside the tables are only held to be there.
"""
import pathlib
import re
import sys
from collections import namedtuple
from functools import lru_cache

from boundary import HEADER, read_header

ROOT = pathlib.Path(__file__).resolve().parent.parent
CRATES = ROOT / "crates"
NAME = re.compile(r"(?<![\w`/])[a-z0-9]+(?:_[a-z0-9]+)+(?![\w/(])")
IMPORT = re.compile(r"use Rattle\.(\w+)\.specs\.([\w.]+)\.\{([^}]*)\}")

# a function: its crate, file, impl type or "", name; where its text stands in the file; its contract and its body
Function = namedtuple("Function", "crate file type name start end contract body")


def functions_of(path):
    text = path.read_text()
    crate, kind = path.relative_to(CRATES).parts[0], ""
    for found in re.finditer(r'^(?:impl(?:<[^>]*>)? (?:[^{]* for )?(\w+)|( *)(?:pub )?(?:extern "C" )?fn (\w+))', text,
                             flags=re.M):
        if found.group(1):
            kind = found.group(1)
            continue
        indent = found.group(2)
        body = re.compile(rf"^{indent}\{{$|\)(?: -> [^{{]+)? \{{$|;$", re.M).search(text, found.end())
        if body.group(0) == ";":  # a trait's, whose impls have the bodies
            continue
        end = re.compile(rf"^{indent}\}}$", re.M).search(text, body.end()).end()
        yield Function(crate, path, kind if indent else "", found.group(3), found.start(), end,
                       text[found.start():body.start()], text[body.start():end])


@lru_cache(maxsize=None)
def code():
    """All functions, and of each file what its `use` lines call by a shorter name."""
    functions, short = [], {}
    for path in sorted(CRATES.glob("*/src/**/*.rt")):
        functions += functions_of(path)
        short[path] = {}
        for full, other in names_used(path.read_text()):
            short[path][other or full.split("::")[-1]] = full.split("::")
    return functions, short


def names_used(text):
    """What the `use` lines of code bring in: each path, and the other name that it is given, if any."""
    for path, several in re.findall(r"^use ([\w:]+)(?:\{([^}]*)\}|(?: as \w+)?);", text, flags=re.M):
        for item in several.split(",") if several else []:
            full, _, other = item.strip().partition(" as ")
            if full:
                yield path + full, other
    yield from re.findall(r"^use ([\w:]+)(?: as (\w+))?;", text, flags=re.M)


def called(function, words):
    """The functions that a path of words can mean in the text of a function."""
    functions, short = code()
    words = short[function.file].get(words[0], words[:1]) + words[1:]
    crate = words[0] if words[0] in crates() else function.crate  # else a module or a type of its own crate
    place = words[-2] if len(words) > 1 else None
    for other in functions:
        if other.name != words[-1]:
            continue
        if place is None:
            if other.file == function.file and not other.type:
                yield other
        elif place in (other.type, other.file.stem) or (place == other.crate and is_at_the_root(other)):
            if crate == other.crate:
                yield other
        elif other.type and is_a_type_parameter(place, function):  # any impl may be meant
            yield other


@lru_cache(maxsize=None)
def is_at_the_root(function):
    """The crate has the function under its own name."""
    root = CRATES / function.crate / "src/lib.rt"
    return function.file.stem in ("lib", "main") or f"pub use {function.file.stem}::{function.name};" in root.read_text()


def is_a_type_parameter(name, function):
    """The function's head declares the name. None declares u32: what converts between numbers means no impl of ours."""
    head = function.contract.split("(")[0]
    return re.search(rf"[<,]\s*{name}\b", head) is not None


@lru_cache(maxsize=None)
def crates():
    return {path.name for path in CRATES.iterdir()}


@lru_cache(maxsize=None)
def calls_of(function):
    functions, found = code()[0], set()
    for path in re.findall(r"(?<![\w.])((?:\w+::)*\w+)\(", re.sub(r"::<[^>]*>", "", function.body)):
        found.update(called(function, path.split("::")))
    for method in re.findall(r"\.(\w+)\(", function.body):
        found.update(other for other in functions if other.type and other.name == method)
    if ".into()" in function.body:  # the conversion into what is answered, or what that is made of
        words = set(re.findall(r"\w+", function.contract + function.body))
        found.update(other for other in functions if other.name == "from" and other.type in words | {"u64"})
    return found


def all_from(start, following):
    """The start and all that it leads to."""
    reached, left = set(start), list(start)
    while left:
        more = following(left.pop()) - reached
        reached |= more
        left += more
    return reached


def specs_file(crate, module):
    return CRATES / crate / "specs" / (module.replace(".", "/") + ".antt")


def imported(path):
    """The files of specs/ that a file imports, with the names that it takes from each."""
    for crate, module, names in IMPORT.findall(path.read_text()):
        if specs_file(crate, module).exists():
            yield specs_file(crate, module), re.findall(r"[^\s,]+", names.replace(" as ", " "))


@lru_cache(maxsize=None)
def rests_on(path):
    return frozenset(file for file, names in imported(path))


def cited(function):
    """The files that define what a contract cites."""
    words = set(re.findall(r"[^\s(){},.]+", function.contract))
    return {file for file, names in imported(function.file) if words & set(names)}


@lru_cache(maxsize=None)
def defined_in():
    """The file of specs/ for each public name that is defined in one."""
    found = {}
    for path in CRATES.glob("*/specs/**/*.antt"):
        for line in path.read_text().split("\n"):
            name = re.match(r" *(?:(?:abbrev|unfoldable) pub|pub record|pub data) ([^\s{(]+)", line)
            if name:
                found[name.group(1)] = path
    return found


# a row of a table: its line, the calls of C, the functions that it is about, what else stands in backticks, its edits
Row = namedtuple("Row", "line calls functions names edits")


def rows_of(text):
    for number, line in enumerate(text.split("\n"), 1):
        cells = [cell.strip() for cell in line.strip("|").split(" | ")]
        if not line.startswith("| `") or len(cells) < 3:
            continue
        quoted = re.findall(r"`([^`]+)`", " ".join(cells[:2]))
        calls = [name for name in quoted if name.startswith("hlq_")]
        about = {function for name in (calls or quoted) for function in meant(name)}
        yield Row(number, calls, frozenset(about), tuple(re.findall(r"`([^`]+)`", line)), bare_names(line))


@lru_cache(maxsize=None)
def meant(name):
    """The functions that a row means by a name: a call of C, or the last words of a path."""
    *path, last = name.split("::")
    return [function for function in code()[0] if function.name == last
            and (set(path) <= {function.crate, function.file.stem, function.type} if path else
                 function.crate == "prowcurl")]


def bare_names(text):
    """Names of edits: words with an underscore that are no code."""
    return NAME.findall(re.sub(r"`[^`]*`", " ", text))


@lru_cache(maxsize=None)
def reach(functions, names):
    """What a row is about: functions, files that its definitions rest on, and files that define its calls."""
    reached = all_from(functions, calls_of)
    own = {file for function in functions for file in cited(function)}
    own |= {defined_in()[name] for name in names if name in defined_in()}
    return reached, all_from(own, rests_on), own


# an edit: the file that it changes, the text that it replaces first, and what is wrong with it or ""
Edit = namedtuple("Edit", "file old fault")


def read_edit(text, crate):
    """The edit that a text says, of a crate's folder."""
    lines = text.split("\n")
    if not re.match(r"# \S", lines[0]):
        return Edit(None, "", "no comment says what is wrong")
    file = text = first = old = None
    for line in lines[1:]:
        kind, _, rest = line.partition(": ")
        if kind == "file":
            file = crate / rest
            if rest.split("/")[0] not in ("src", "specs") or not file.exists():
                return Edit(None, "", f"{rest} is no file of src or specs")
            text = file.read_text()
        elif kind == "old":
            old = rest
            first = first or old
            if text.count(old) != 1:
                return Edit(file, first, f"the text stands {text.count(old)} times in {file.name}: {old}")
        elif line.startswith("new:"):
            text = text.replace(old, rest)
        elif line and not line.startswith("#"):
            return Edit(file, first or "", f"rt would pass over the line: {line}")
    if not first:
        return Edit(file, "", "it replaces nothing")
    return Edit(file, first, "")


@lru_cache(maxsize=None)
def changed(file, old):
    """The functions that an edit of code changes."""
    place = file.read_text().index(old)
    of_file = [function for function in code()[0] if function.file == file]
    return [function for function in of_file if function.start <= place < function.end] or of_file


@lru_cache(maxsize=None)
def led_to(file):
    return all_from({file}, rests_on)


def touches(edit, row):
    """The edit changes what the row is about."""
    functions, files, own = reach(row.functions, row.names)
    if "specs" in edit.file.relative_to(CRATES).parts:
        return edit.file in files or bool(led_to(edit.file) & own)
    return any(function in functions for function in changed(edit.file, edit.old))


def faults(text, demanded, declared, edits):
    """What is false in a text of promises, for the edits that demands name, the calls of C and the edits by name."""
    rows = list(rows_of(text))
    in_rows = [call for row in rows for call in row.calls]
    yield from (f"{call} has {in_rows.count(call)} rows" for call in declared if in_rows.count(call) != 1)
    yield from (f"line {row.line}: {call} is no call" for row in rows for call in row.calls if call not in declared)
    named = set(bare_names(text))
    yield from (f"{name}: there is no such edit" for name in sorted(named | set(demanded)) if name not in edits)
    yield from (f"{name}: it is not named" for name in sorted(edits) if name not in named)
    yield from (f"{name}: {edit.fault}" for name, edit in sorted(edits.items()) if edit.fault)
    for row in rows:
        for name in row.edits:
            edit = edits.get(name)
            if edit and not edit.fault and not touches(edit, row):
                yield f"line {row.line}: {name} changes nothing that {', '.join(row.names[:2])} is about"


def everything():
    declared = list(read_header(HEADER.read_text()).calls)
    edits = {}
    for path in sorted(CRATES.glob("*/must-fail/*.edit")):
        edit = read_edit(path.read_text(), path.parent.parent)
        edits[path.stem] = edit._replace(fault="two edits have this name") if path.stem in edits else edit
    demanded = bare_names((ROOT / "docs/DEMANDS.md").read_text())
    return (ROOT / "docs/PROMISES.md").read_text(), demanded, declared, edits


def self_test():
    text, demanded, declared, edits = everything()
    if list(faults(text, demanded, declared, edits)):
        print("promises, edits and calls differ as they stand")
        return False
    changes = []
    for name, edit in edits.items():
        spared = {other: kept for other, kept in edits.items() if other != name}
        changes += [(f"{name} is gone", text, demanded, declared, spared),
                    (f"{name} is not named", re.sub(rf"\b{name}\b", "", text), demanded, declared, edits)]
    for call in declared:
        fewer = [other for other in declared if other != call]
        changes += [(f"{call} has no row", text.replace(f"`{call}`", "`another`"), demanded, declared, edits),
                    (f"{call} is gone", text, demanded, fewer, edits)]
    for name, call in (("in_force_left_inside_a_group", "hlq_take_back"),
                       ("taking_back_keeps_the_entry_in_force", "hlq_redo"),
                       ("full_before_there", "hlq_remove_waiver"), ("kinds_exchanged", "hlq_part"),
                       ("part_past_the_leaf", "hlq_standing"), ("report_fixed_reply", "hlq_exist"),
                       ("version_2_for_16_slots", "hlq_paint"), ("load_length_before_settings", "hlq_store"),
                       ("emptying_leaves_a_record", "hlq_paint"), ("first_rule_only", "hlq_batch"),
                       *(("kinds_exchanged", call) for call in (  # these convert numbers, and no standing
                           "hlq_build", "hlq_batch", "hlq_combine", "hlq_load", "hlq_load_log",
                           "hlq_write_bit_strings", "hlq_read_bit_strings"))):
        moved = re.sub(rf"\b{name}\b,? ?", "", text)
        row = next(line for line in moved.split("\n") if line.startswith("| ") and f"`{call}`" in line)
        changes.append((f"{name} stands at {call}", moved.replace(row, row + f" {name} |"), demanded, declared, edits))
    changes.append(("the demands name an edit that is gone", text, demanded + ["no_such_edit"], declared, edits))
    for bad in ("file: src/lib.rt\nold: if digit == 0 {\nnew: if digit == 1 {", "# nothing\nfile: src/lib.rt",
                "# often\nfile: src/lib.rt\nold: step\nnew: stop", "# never\nfile: src/lib.rt\nold: stop\nnew: step",
                "# two lines\nfile: src/lib.rt\nold: if digit == 0 {\n        return level;\nnew: if digit == 1 {",
                "# no file\nfile: src/none.rt\nold: a\nnew: b", "# a proof\nfile: proofs/Lib.antt\nold: a\nnew: b"):
        edit = read_edit(bad, CRATES / "keys")
        changes.append((f"an edit that says {bad!r}", text, demanded, declared, {**edits, "five_digits_valid": edit}))
    missed = [what for what, *changed in changes if not list(faults(*changed))]
    for what in missed:
        print(f"not found: {what}")
    print(f"{len(changes)} changes of promises, edits or calls alone, {len(changes) - len(missed)} found")
    return not missed


def main():
    text, demanded, declared, edits = everything()
    found = list(faults(text, demanded, declared, edits))
    for line in found:
        print(line)
    held = sum(len(row.edits) for row in rows_of(text))
    print(f"{len(declared)} calls and {len(edits)} must-fail edits in docs/PROMISES.md, {held} of them at a row")
    return not found and len(declared) > 30 and held > 100


if __name__ == "__main__":
    sys.exit(0 if (self_test() if "--self-test" in sys.argv else main()) else 1)
