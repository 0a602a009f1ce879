#!/usr/bin/env python3
"""Holds docs/SPECIFICATION.md against the definitions, the laws and include/prowcurl.h.

  tests/specification.py               every number stands once, in its section, and ascends there; every number that a
                                       sentence or a table refers to is there, and so is every decision; every
                                       definition and law that the page names is declared in the file that it
                                       names, definitions in specs/ and laws in proofs/; every call, struct and constant
                                       that it names is the header's, and every file that it names is there; the table
                                       of refusals is the header's enum; the table of calls has each call with its
                                       arguments, its result and its order of refusals, which is the definitions'; the
                                       tables of structs and constants have their fields and values; and the two files
                                       that stand there byte for byte, read by the page's own tables of offsets, are Map
                                       A's list and the log of its row A9; every number of the page that code, tests or
                                       documents cite is there; and code and tests cite no other specification
  tests/specification.py --tables      prints the rows of calls and structs as the header has them, to be pasted
  tests/specification.py --self-test   breaks each of these in many ways, one at a time; each must be found
"""
import re
import sys
from collections import namedtuple
from functools import lru_cache

from boundary import ROOT, compare, texts, written_below

PAGE = ROOT / "docs/SPECIFICATION.md"
DECISIONS = ROOT / "docs/DECISIONS.md"
CRATES = ROOT / "crates"
TOP = ("crates", "docs", "include", "tests")
# what may cite the page, and what must cite nothing but the page: neither the two documents that the project was given
# nor their parts
CITING = ("bench", "crates", "examples", "include", "tests", "tool", "tools")
WRITTEN = (".rt", ".antt", ".edit", ".c", ".h", ".py", ".sh", ".bash", ".1", ".map")
NUMBER = re.compile(r"\bS\d+(?:\.\d+)?\b")
# between two words there may be the end of a line of comment
GAP = r"(?:\s|--|//|[#*])+"
GIVEN = re.compile(rf"\b(?:documents?{GAP}0\d|(?:item|request)s?{GAP}\d|the documents?(?:'|{GAP}(?:say|has|have|ask)))",
                   re.I)
# `crate/File.name` or `crate/File.name, another`
CITED = re.compile(r"`([a-z_]+)/([\w/]+)\.([^`]+)`")
SENTENCE = re.compile(r"- \*\*S(\d+)\.(\d+)\*\* ")
BRACKETS = re.compile(r" \[((?:law )?`[^\]]*)\]$")
# Map A, by its rows
MAP_A = ["0011", "0012", "2200", "2200"]
SIGNED, SIZE, BYTE = "int32_t", "size_t", "uint8_t"

# how far apart records stand in a file: "11 + i * (4 + w)" or "23 + i * 8"
OFFSET = re.compile(r"(\d+)(?: \+ i \* (?:\((\d+) \+ w\)|(\d+)))?")

# header and definitions as boundary.py reads them; enum: the header's refusals as (number, name); constants: (name,
# value) of the header's; words: all calls, structs and constants of the header; decisions: their numbers
World = namedtuple("World", "header definitions enum constants words decisions")


@lru_cache(maxsize=None)
def declared_in(crate, part, module):
    """The names that a file declares, or None where there is no such file."""
    path = CRATES / crate / part / (module + ".antt")
    if not path.exists():
        return None
    text, word = path.read_text(), r"[^\s:(){}]+"
    names = re.findall(rf"^\s*(?:abbrev |unfoldable )?(?:pub )?({word})(?: \{{[^}}]*\}})? :(?= |$)", text, flags=re.M)
    return frozenset(names + re.findall(rf"^\s*(?:pub )?(?:data|record) ({word})", text, flags=re.M))


def misnamed(crate, part, module, names):
    there = declared_in(crate, part, module)
    if there is None:
        return [f"there is no crates/{crate}/{part}/{module}.antt"]
    unknown = [name for name in names.split(", ") if name not in there]
    return [f"crates/{crate}/{part}/{module}.antt declares no {name}" for name in unknown]


@lru_cache(maxsize=None)
def shape(line):
    """Of a line: the section that it opens, the number of its sentence, and the numbers that it refers to."""
    heading, sentence = re.match(r"## S(\d+) ", line), SENTENCE.match(line)
    return (int(heading.group(1)) if heading else None, tuple(map(int, sentence.groups())) if sentence else None,
            NUMBER.findall(line))


def number_faults(lines):
    section, last, seen = None, 0, set()
    for number, line in enumerate(lines, 1):
        heading, sentence, _ = shape(line)
        if heading:
            if section is not None and heading != section + 1:
                yield f"line {number}: section S{heading} follows S{section}"
            section, last = heading, 0
            seen.add(f"S{section}")
        elif sentence:
            if sentence[0] != section or sentence[1] <= last:
                yield f"line {number}: S{sentence[0]}.{sentence[1]} stands in S{section} after {last}"
            last = sentence[1]
            seen.add(f"S{sentence[0]}.{last}")
        elif line.startswith("- "):
            yield f"line {number}: a sentence without a number"
    for number, line in enumerate(lines, 1):
        for said in shape(line)[2]:
            if said not in seen:
                yield f"line {number}: there is no {said}"


def citation_faults(line):
    end = BRACKETS.search(line)
    if SENTENCE.match(line) and "[" in re.sub(r"`[^`]*`|\w+\[", "", line) and not end:
        yield "what stands in brackets cannot be read"
    said, _, shown = (end.group(1) if end else "").partition("law ")
    for part, text in (("specs", said), ("proofs", shown)):
        for item in re.findall(r"`[^`]*`|[^`]+", text):
            found = CITED.fullmatch(item)
            if found:
                yield from misnamed(found.group(1), part, *found.groups()[1:])
            elif item.strip() not in ("", ","):
                yield f"{item} names no definition or law"
    for item in re.findall(r"`[^`]*`", line[:end.start()] if end else line):
        found = CITED.fullmatch(item)
        if found and found.group(1) in TOP:
            yield from [] if (ROOT / item.strip("`")).exists() else [f"there is no {item}"]
        elif found:
            crate, module, names = found.groups()
            part = "proofs" if declared_in(crate, "specs", module) is None else "specs"
            yield from misnamed(crate, part, module, names)


@lru_cache(maxsize=None)
def line_faults(line, words, decisions):
    found = list(citation_faults(line))
    found += [f"{word} is not in the header" for word in re.findall(r"`((?:hlq|HLQ)_\w+)`", line) if word not in words]
    for said in re.findall(r"\([Dd]ecisions? (\d+)(?: and (\d+))?\)", line):
        found += [f"there is no decision {one}" for one in said if one and one not in decisions]
    return found


def cells(line):
    return [cell.strip().strip("`") for cell in line.strip().strip("|").split("|")]


def table_after(lines, title):
    """The rows of the table whose first line has this title in its first column."""
    for place, line in enumerate(lines):
        if line.startswith(f"| {title} |"):
            rows = []
            for row in lines[place + 2:]:
                if not row.startswith("|"):
                    break
                rows.append(cells(row))
            yield rows


def argument(kind, name):
    """A parameter of C as the page writes it; a length goes with its slice."""
    if kind.endswith("*"):
        plain = kind.replace("const ", "").rstrip(" *")
        what = "bytes " if plain == BYTE else "" if plain == "uint32_t" else plain + " "
        return ("" if kind.startswith("const") else "out ") + what + name + "[]"
    return {SIGNED: "signed ", SIZE: "size "}.get(kind, "") + name


def arguments(parameters):
    slices = {name + "_len" for kind, name in parameters if kind.endswith("*")}
    return ", ".join(argument(kind, name) for kind, name in parameters if name not in slices) or "none"


def table_file(call):
    """The file of Calls/ with a call's order of refusals, as boundary.py finds it: C's build is the survey there."""
    words = call.removesuffix("_clipped").split("_")[1:]
    name = "".join(word.capitalize() for word in words)
    return "Survey" if name == "Build" else name


def call_row(call, world):
    result, parameters = world.header.calls[call]
    order = world.definitions.refusals.get(call, [])
    return [call, arguments(parameters), result, ", ".join(map(str, order)) or "none"]


def struct_row(name, world):
    return [name, ", ".join(field for _, field in world.header.structs[name])]


def table_faults(lines, world):
    one = lambda title: (list(table_after(lines, title)) + [[]])[0]
    said = [(int(number), name) for number, name, _ in one("number")]
    if said != world.enum:
        yield "the table of refusals is not the header's enum: " + str(sorted(set(said) ^ set(world.enum)) or said)
    calls = one("call")
    if [row[0] for row in calls] != list(world.header.calls):
        yield "the table of calls has not each call of the header once, in its order"
    for row in calls:
        if row[0] in world.header.calls and row[:4] != call_row(row[0], world):
            yield f"{row[0]}: the page says {row[1:4]}, header and definitions {call_row(row[0], world)[1:]}"
        wanted = f"definitions/Calls/{table_file(row[0])}." if row[3] != "none" else ""
        if not row[4].startswith(wanted):
            yield f"{row[0]}: its order of refusals does not stand in {row[4]}"
    structs = one("struct")
    if structs != [struct_row(name, world) for name in world.header.structs]:
        yield "the table of structs is not the header's"
    constants = one("constant")
    if [row[0] for row in constants] != [name for name, _ in world.constants]:
        yield "the table of constants has not those of the header, in its order"
    yield from (f"{name} is {value}" for row, (name, value) in zip(constants, world.constants)
                if value.isdigit() and row[1] != value)


def list_of(rows, key, step):
    """The list of a square of text, by a scan: a block's key and bits, and its quadrants' where it has two features."""
    features = {int(sign) for row in rows for sign in row}
    records = [(key, sum(2 ** feature for feature in features))]
    half = len(rows) // 2
    if len(features) > 1:
        for digit, (top, left) in enumerate(((0, 0), (0, half), (half, 0), (half, half)), 1):
            quadrant = [row[left:left + half] for row in rows[top:top + half]]
            records += list_of(quadrant, key + digit * step, step // 5)
    return records


def read_by_table(rows, data, width):
    """What bytes say by a table of offsets: the numbers of the head in order, and the records as often as they fit."""
    number = lambda offset, count: int.from_bytes(data[offset:offset + count], "big")
    head, fields = [], []
    for offset, size, _ in rows:
        found, size = OFFSET.fullmatch(offset), width if size == "w" else int(size)
        if not found:
            return None
        first, beside, apart = found.groups()
        if beside or apart:
            fields.append((int(first), int(beside) + width if beside else int(apart), size))
        else:
            head.append(number(int(first), size))
    last = lambda i: max(first + i * apart + size for first, apart, size in fields)
    records = []
    while last(len(records)) <= len(data):
        records.append(tuple(number(first + len(records) * apart, size) for first, apart, size in fields))
    return head, records, last(len(records) - 1) == len(data)


def file_faults(lines):
    blocks = re.findall(r"```\n(.*?)```", "\n".join(lines), flags=re.S)
    offsets = list(table_after(lines, "offset"))
    if len(blocks) != 3 or len(offsets) != 2:
        yield "the page has not two tables of offsets, two files and one listing"
        return
    records = list_of(MAP_A, 0, 5)
    read = read_by_table(offsets[0], bytes.fromhex(blocks[0]), 2)
    if read != ([0x484C51, 1, 2, 3, len(records)], records, True):
        yield f"the file that the page shows is not Map A's: {read}"
    painted = 2 * 5 + 4
    read = read_by_table(offsets[1], bytes.fromhex(blocks[1]), 4)
    if read != ([0x484C47, 1, 2, 3, 3, 3], [(painted, 4), (painted, 1), (painted, 1)], True):
        yield f"the log's file that the page shows is not that of A9: {read}"
    digits = lambda key: f"{key // 5}{key % 5}"
    slots = lambda bits: "".join(str(bits >> slot & 1) for slot in range(3))
    listing = [f"2 3 {len(records)}"] + [f"{digits(key)} {slots(bits)}" for key, bits in records]
    if blocks[2].splitlines() != listing:
        yield "the listing that the page shows is not Map A's"


def numbers_of(lines):
    shapes = [shape(line) for line in lines]
    sentences = {f"S{said[0]}.{said[1]}" for _, said, _ in shapes if said}
    return sentences | {f"S{heading}" for heading, _, _ in shapes if heading}


def citing_faults(name, text, numbers):
    """What is wrong in how a file beside the page cites it; a document may name what the project was given."""
    yield from (f"{name}: there is no {said}" for said in sorted(set(NUMBER.findall(text)) - numbers))
    if not name.endswith(".md"):
        yield from (f"{name}: {said.group(0)!r} is no number of docs/SPECIFICATION.md" for said in GIVEN.finditer(text))


def sources():
    """The text of every file of code, proofs and tests by its name: what people write, and no data of tests."""
    found = {}
    for path in sorted(path for top in CITING for path in written_below(ROOT / top) if path.is_file()):
        if path.suffix in WRITTEN or not path.suffix and path.read_bytes().startswith(b"#!"):
            found[str(path.relative_to(ROOT))] = path.read_text()
    return found


def citing_files():
    """The text of every file that may cite the page, by its name, without this one, which shows what is wrong."""
    pages = {str(path.relative_to(ROOT)): path.read_text() for path in [*ROOT.glob("*.md"), *ROOT.glob("docs/*.md")]}
    left_out = (str(PAGE.relative_to(ROOT)), "tests/specification.py")
    return {name: text for name, text in {**sources(), **pages}.items() if name not in left_out}


def faults(lines, world):
    for number, line in enumerate(lines, 1):
        yield from (f"line {number}: {why}" for why in line_faults(line, world.words, world.decisions))
    yield from number_faults(lines)
    yield from table_faults(lines, world)
    yield from file_faults(lines)


def everything():
    header, definitions, _ = compare(texts())
    text = texts()["header"]
    enum = re.search(r"typedef enum \{(.*?)\} hlq_refusal;", text, flags=re.S).group(1)
    named = [(int(number), name) for name, number in re.findall(r"\b(HLQ_\w+) = (\d+)", enum)]
    decisions = frozenset(re.findall(r"^- \*\*(\d+)\. ", DECISIONS.read_text(), flags=re.M))
    words = frozenset([*header.calls, *header.structs, *re.findall(r"\bHLQ_\w+", text)])
    constants = re.findall(r"^#define (HLQ_\w+)(?:\([^)]*\))? (\S+)", text, flags=re.M)
    return PAGE.read_text().splitlines(), World(header, definitions, named, constants, words, decisions)


def changed_pages(lines):
    """The page with one thing wrong, and what that is."""
    put = lambda place, *new: lines[:place] + list(new) + lines[place + 1:]
    files = set()
    for place, line in enumerate(lines):
        if SENTENCE.match(line):
            yield f"{line[:14]} stands twice", put(place, line, line)
            yield f"{line[:14]} has another section", put(place, line.replace("**S", "**S9", 1))
            yield f"{line[:14]} has no number", put(place, re.sub(r"\*\*S[\d.]+\*\* ", "", line))
        for found in CITED.finditer(line):
            said = found.group(0)
            yield f"{said} is not there", put(place, line.replace(said, said[:-1] + "x`"))
            if found.groups()[:2] not in files:
                yield f"{said} has no file", put(place, line.replace(said, said.replace("/", "/x", 1), 1))
            files.add(found.groups()[:2])
        for word in re.findall(r"`(hlq_\w+|HLQ_\w+)`", line):
            yield f"{word} is not there", put(place, line.replace(f"`{word}`", f"`{word}_x`"))
        yield from ((f"{line[:30]}, {what}", put(place, *new)) for what, *new in changed_rows(line))
    whole = "\n".join(lines)
    for old, new in (("(S4.11)", "(S4.99)"), ("(Decision 31)", "(Decision 999)"), ("## S9 ", "## S90 "),
                     ("20 011\n", "20 010\n"), ("[law `", "[law "), ("1, 4, 18, 5, 8, 7", "1, 4, 18, 5, 7, 8"),
                     ("`definitions/Calls/Redo.redo` |", "`definitions/Calls/Paint.paint` |")):
        yield f"{new} for {old}", whole.replace(old, new, 1).splitlines()


def changed_rows(line):
    """A row of a table, or a row of bytes, gone or with one thing changed."""
    if re.match(r"\| (`hlq_\w+`|`HLQ_\w+`|\d[\d +*i(w)]*) \|", line):
        yield ("gone",)
        row = cells(line)
        for column in range(min(len(row), 4)):
            # in words: the third column of refusals, offsets and constants, and formulas
            words = column == 2 or column == 1 and not row[1].isdigit()
            if row[0].startswith("hlq_") or not (words and (row[0].startswith("HLQ_") or column == 2)):
                other = "99" if row[column].isdigit() else row[column] + "9"
                yield f"column {column}", line.replace(row[column], other, 1)
    if re.fullmatch(r"[0-9A-F]{2}(  ?[0-9A-F]{2})+", line):
        for found in re.finditer(r"[0-9A-F]{2}", line):
            other = f"{(int(found.group(0), 16) + 1) % 256:02X}"
            yield f"the byte at {found.start()}", line[:found.start()] + other + line[found.end():]


def changed_citations(files):
    """A file that cites the page, with one citation false."""
    for name, text in files.items():
        said = NUMBER.search(text)
        if said:
            for other in ("S99", "S1.99", "S4.0"):
                yield f"{name} cites {other}", name, text[:said.start()] + other + text[said.end():]
    code = min(name for name in files if name.endswith(".antt"))
    for other in ("document 01", "Documents 01 and 02", "document\n-- 02", "(item 7)", "items 7", "request 6",
                  "Request 14", "the documents' order", "the document says", "the documents have it"):
        yield f"{code} cites {other!r}", code, files[code] + f"\n-- {other}"


def changed_worlds(world):
    for place, (name, value) in enumerate(world.constants):
        if value.isdigit():
            constants = world.constants[:place] + [(name, value + "0")] + world.constants[place + 1:]
            yield f"another {name} in the header", world._replace(constants=constants)
    for place, (number, name) in enumerate(world.enum):
        enum = world.enum[:place] + [(number, name + "X")] + world.enum[place + 1:]
        yield f"the header calls {name} otherwise", world._replace(enum=enum)
    for call, order in world.definitions.refusals.items():
        refusals = {**world.definitions.refusals, call: order[1:] + order[:1]}
        other = world.definitions._replace(refusals=refusals)
        yield f"another order at {call}", world._replace(definitions=other)
    for name, fields in world.header.structs.items():
        other = world.header._replace(structs={**world.header.structs, name: fields[1:]})
        yield f"{name} has a field less", world._replace(header=other)
    for call, (result, parameters) in world.header.calls.items():
        more = (result, parameters + [("uint32_t", "more")])
        other = world.header._replace(calls={**world.header.calls, call: more})
        yield f"{call} takes more", world._replace(header=other)


def self_test():
    lines, world = everything()
    if list(faults(lines, world)):
        print("the page differs as it stands")
        return False
    changes = [(what, page, world) for what, page in changed_pages(lines)]
    changes += [(what, lines, other) for what, other in changed_worlds(world)]
    missed = [what for what, page, other in changes if next(faults(page, other), None) is None]
    numbers, cited = numbers_of(lines), list(changed_citations(citing_files()))
    missed += [what for what, name, text in cited if next(citing_faults(name, text, numbers), None) is None]
    for what in missed:
        print(f"not found: {what}")
    number = len(changes) + len(cited)
    print(f"{number} changes of the page, the header, the definitions or a citation, {number - len(missed)} found")
    return len(changes) > 500 and len(cited) > 400 and not missed


def print_tables():
    _, world = everything()
    rows = [call_row(call, world) for call in world.header.calls]
    for row in rows + [struct_row(name, world) for name in world.header.structs]:
        print("| `" + row[0] + "` | " + " | ".join(row[1:]) + " |")
    return True


def main():
    lines, world = everything()
    numbers, files = numbers_of(lines), citing_files()
    found = list(faults(lines, world))
    found += [fault for name, text in files.items() for fault in citing_faults(name, text, numbers)]
    for line in found:
        print(line)
    citing = sum(NUMBER.search(text) is not None for text in files.values())
    sentences = sum(shape(line)[1] is not None for line in lines)
    plain = sum(shape(line)[1] is not None and not BRACKETS.search(line) for line in lines)
    names = sum(len(names.split(", ")) for line in lines for _, _, names in CITED.findall(line))
    print(f"{sentences} sentences of docs/SPECIFICATION.md, {plain} without a definition or law, {names} names, "
          f"{len(world.header.calls)} calls, {len(world.enum)} refusals, two files as bytes; {citing} files cite it")
    return not found and sentences > 300 and plain < 20 and citing > 100


if __name__ == "__main__":
    todo = self_test if "--self-test" in sys.argv else print_tables if "--tables" in sys.argv else main
    sys.exit(0 if todo() else 1)
