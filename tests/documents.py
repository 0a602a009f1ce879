#!/usr/bin/env python3
"""Holds what the documents name against what is there.

  tests/documents.py               README.md, CONTRIBUTING.md, CHANGELOG.md and docs/*.md: every file that they name is
                                   there; every command that they name is one of make's targets, of rt's commands, of
                                   the tool's or a script; every law, definition, function, call and constant that
                                   stands in code words is declared; every decision that a document, the code or a test
                                   cites is in docs/DECISIONS.md, once, and that page tells the next number; the floors
                                   of docs/ARCHITECTURE.md have each crate of crates.txt once, above all that it uses or
                                   to the right of it; CHANGELOG.md has each interface up to the header's, and
                                   docs/LANDINGS.md each request; and the README names every page and stays under 120
                                   lines
  tests/documents.py --self-test   breaks each of these in many ways, one at a time; each must be found

Code words are what stands between back quotes. A name with a capital behind a path, as in `read/proofs/RoundTrip`, is a
file of definitions or proofs. What the specification's brackets name is held by tests/specification.py, and edits that
stand in docs/PROMISES.md and docs/DEMANDS.md without back quotes by tests/promises.py.
"""
import re
import subprocess
import sys
from collections import namedtuple
from functools import lru_cache

from boundary import ROOT, written_below
from specification import declared_in, misnamed, sources

# files that a command makes or a reader has, and words that are no laws, though they look like one
MADE = re.compile(r"(target|lines|night|rattle|out)/|(target|/usr/local|own\.c)$|.*\b(NAME|FILE|OUT|FUNCTION)\b"
                  r"|own\.png$|\.\w+$")
PLAIN = {"kit-id", "night-line", "trusted_schema", "port.py"}
# these tell of names that are gone
FORMER = ("CHANGELOG.md", "docs/LANDINGS.md")
# and these of files that are gone too
PORT = ("docs/PORT.md", "docs/DESIGN-PASS.md")
PATH = re.compile(r"[\w./\-]+")
DECISION = re.compile(r"[Dd]ecisions? (\d+(?:(?:, | and )\d+)*)")

# what documents and crates say, which the self-test changes: pages and cites are texts by name, crates (crate, uses)
World = namedtuple("World", "pages cites crates")
# what is there: paths, and the ends of paths; the names that crates/ declares; of each function the crates, files and
# types that it stands in; the words of the headers, and the interface's number; the commands of make, rt and the tool;
# the words of all C code, and the crates' names
There = namedtuple("There", "paths names functions header interface commands words")


def fenced(text):
    """The lines of a page that are code: in a fence, or indented behind an empty line."""
    code, inside, before = [], False, ""
    for line in text.split("\n"):
        if line.startswith("```"):
            inside = not inside
        elif inside or line.startswith("    ") and (not before or before.startswith("    ")):
            code.append(line.strip())
        before = line
    return code


@lru_cache(maxsize=None)
def words_of(text):
    """What stands between back quotes, outside of fences, each once."""
    plain = re.sub(r"^```.*?^```$", "", text, flags=re.M | re.S)
    return sorted(set(re.findall(r"`([^`\n]+)`", plain)))


def is_there(path):
    """Whether a path, or a file by the end of its path, is there."""
    path = path.rstrip("/")
    return path in there().paths or path + ".antt" in there().paths


def path_fault(word):
    first = word.split(" ")[0]
    looks = "/" in first or re.search(r"\.(md|py|c|h|rt|antt|sh|txt|map|edit|png|bash|in)$", first)
    if not looks or not PATH.fullmatch(first) or MADE.match(first) or first in PLAIN or is_there(first):
        return None
    cited = re.fullmatch(r"([a-z_]+)/([\w/]+)\.(.+)", word)
    if cited:
        crate, module, names = cited.groups()
        both = [misnamed(crate, part, module, names) for part in ("specs", "proofs")]
        return None if [] in both else f"`{word}` names nothing that is there"
    return f"there is no {first}"


def command_fault(line):
    found = re.match(r"(make|rt|prowcurl) ([a-z][a-z\-]*)(?: |$)", line)
    if found and found.group(2) not in there().commands[found.group(1)]:
        return f"{found.group(1)} has no {found.group(2)}"
    script = re.match(r"((?:tests|tools|examples)/\S+)", line)
    if script and not is_there(script.group(1)):
        return f"there is no {script.group(1)}"
    return None


def name_fault(word):
    word = re.sub(r"\(.*\)$", "", word)
    if re.fullmatch(r"(hlq|HLQ)_\w+", word):
        return None if word in there().header or word.endswith("_") else f"{word} is not in the headers"
    if re.fullmatch(r"[a-z]\w*([_\-][\w']+)+", word):
        known = word in there().names or word in there().functions or word in there().words or word in PLAIN
        return None if known else f"no law, definition or function is called {word}"
    if re.fullmatch(r"[a-z]+[A-Z][a-zA-Z]*", word):
        return None if word in there().names else f"no definition is called {word}"
    if re.fullmatch(r"\w+(::\w+)+", word):
        *place, last = word.split("::")
        found = there().functions.get(last, set()) & {place[0], place[-1]}
        return None if found or is_there(f"crates/{place[0]}/src/{last}.rt") else f"there is no {word}"
    return None


@lru_cache(maxsize=None)
def word_faults(word, former):
    found = [path_fault(word), command_fault(word), None if former else name_fault(word)]
    return [fault for fault in found if fault]


def decisions_of(text):
    return [number for said in DECISION.findall(text) for number in re.findall(r"\d+", said)]


def decision_faults(world):
    given = re.findall(r"^- \*\*(\d+)\. ", world.pages["docs/DECISIONS.md"], flags=re.M)
    yield from (f"decision {number} is given twice" for number in sorted(set(given)) if given.count(number) > 1)
    if f"takes number {max(map(int, given)) + 1} " not in world.pages["docs/DECISIONS.md"]:
        yield f"docs/DECISIONS.md: the next number is {max(map(int, given)) + 1}"
    for name, text in {**world.cites, **world.pages}.items():
        yield from (f"{name}: there is no decision {number}" for number in decisions_of(text) if number not in given)


def floor_faults(world):
    floors = re.findall(r"^\| (\d) \| [^|]+ \| ((?:`\w+` ?)+) \|$", world.pages["docs/ARCHITECTURE.md"], flags=re.M)
    numbers = [int(number) for number, _ in floors]
    if numbers != sorted(numbers, reverse=True) or len(numbers) < 6:
        yield f"docs/ARCHITECTURE.md: the floors are {numbers}"
    placed = [(int(number), at, crate) for number, row in floors for at, crate in enumerate(re.findall(r"\w+", row))]
    if sorted(crate for _, _, crate in placed) != sorted(crate for crate, _ in world.crates):
        strange = {crate for _, _, crate in placed} ^ {crate for crate, _ in world.crates}
        yield f"docs/ARCHITECTURE.md: the floors have not each crate once: {sorted(strange) or 'one stands twice'}"
    place = {crate: (number, at) for number, at, crate in placed}
    for crate, uses in world.crates:
        for other in uses:
            if crate in place and other in place and place[other] > place[crate]:
                yield f"docs/ARCHITECTURE.md: {crate} uses {other}, which stands above it or to its right"


def count_faults(world):
    told = [int(number) for number in re.findall(r"^## Interface (\d+)\b", world.pages["CHANGELOG.md"], flags=re.M)]
    if told != list(range(there().interface, 0, -1)):
        yield f"CHANGELOG.md has the interfaces {told}, the header's is {there().interface}"
    landed = set(map(int, re.findall(r"^## .*\bRequest (\d+)\b", world.pages["docs/LANDINGS.md"], flags=re.M)))
    yield from (f"docs/LANDINGS.md has no request {number}" for number in sorted(set(range(1, 15)) - landed))
    readme = words_of(world.pages["README.md"])
    yield from (f"README.md does not name {name}" for name in world.pages if name not in (*readme, "README.md"))
    if world.pages["README.md"].count("\n") >= 120:
        yield "README.md has 120 lines or more"


@lru_cache(maxsize=None)
def page_faults(name, text):
    words = [] if name in PORT else words_of(text)
    found = [fault for word in words for fault in word_faults(word, name in FORMER)]
    found += [command_fault(line) for line in fenced(text)]
    return [f"{name}: {fault}" for fault in found if fault]


def faults(world):
    for name, text in world.pages.items():
        yield from page_faults(name, text)
    yield from decision_faults(world)
    yield from floor_faults(world)
    yield from count_faults(world)


def declared():
    """The names that crates/ declares, and of each function the crates, files and types that it stands in."""
    names, functions = set(), {}
    for path in written_below(ROOT / "crates"):
        if path.suffix not in (".antt", ".rt"):
            continue
        crate, part, *module = path.relative_to(ROOT / "crates").with_suffix("").parts
        if path.suffix == ".antt":
            names.update(declared_in(crate, part, "/".join(module)))
        else:
            text = path.read_text()
            places = {crate, path.stem, *re.findall(r"^impl (\w+)", text, re.M)}
            for name in re.findall(r"\b(?:fn|const|struct|enum) (\w+)", text):
                functions.setdefault(name, set()).update(places)
    return names, functions


@lru_cache(maxsize=None)
def there():
    parts = [path.relative_to(ROOT).parts for path in written_below(ROOT)]
    paths = {"/".join(part[first:]) for part in parts for first in range(len(part))}
    header = "".join(path.read_text() for path in (ROOT / "include").glob("*.h"))
    interface = int(re.search(r"#define HLQ_INTERFACE (\d+)", header).group(1))
    said = subprocess.run(["rt", "help"], stdout=subprocess.PIPE, stderr=subprocess.STDOUT, text=True).stdout
    commands = {"make": re.findall(r"^([a-z\-]+):", (ROOT / "Makefile").read_text(), re.M),
                "rt": ["help"] + [one for words in re.findall(r"^(?:usage:)? +rt ([a-z|\-]+)", said, re.M)
                                  for one in words.split("|")],
                "prowcurl": ["help"] + re.findall(r'^    \{ "([a-z]+)",', (ROOT / "tool/main.c").read_text(), re.M)}
    tops = ("include", "tool", "tests", "bench")
    c_files = [path for top in tops for path in written_below(ROOT / top) if path.suffix in (".c", ".h")]
    c_code = "".join(path.read_text() for path in c_files)
    words = set(re.findall(r"\w+", c_code)) | {path.name for path in (ROOT / "crates").iterdir()}
    return There(paths, *declared(), set(re.findall(r"\w+", header)), interface, commands, words)


def everything():
    pages = {str(path.relative_to(ROOT)): path.read_text() for path in [*ROOT.glob("*.md"), *ROOT.glob("docs/*.md")]}
    shown = ("tests/documents.py", "tests/specification.py")  # their self-tests cite decisions that are not there
    cites = {name: text for name, text in sources().items() if name not in shown and DECISION.search(text)}
    # a line is "NAME: .." or "NAME staticlib: .."
    lines = [line.split("#")[0].split(":") for line in (ROOT / "crates.txt").read_text().split("\n")]
    crates = [(line[0].split()[0], tuple(line[1].split())) for line in lines if len(line) > 1]
    return World(pages, cites, crates)


def changed_pages(name, text):
    """A page with one thing wrong, and what that is."""
    for word in [] if name in PORT else words_of(text):
        if word_faults(word + "x", name in FORMER) and f"`{word}`" in text:
            yield f"{word} is another", text.replace(f"`{word}`", f"`{word}x`")
    for line in sorted(set(fenced(text))):
        found = re.match(r"(make|rt|prowcurl) ([a-z]+)\b", line)
        if found:
            yield line[:30], text.replace(line, line.replace(found.group(2), "another", 1))
    yield "a decision that is not there", text + "\nSee decision 999."


def changed_worlds(world):
    for name, text in world.pages.items():
        for what, new in changed_pages(name, text):
            yield f"{name}: {what}", world._replace(pages={**world.pages, name: new})
    text = world.pages["docs/DECISIONS.md"]
    cited = decisions_of("".join(page for name, page in world.pages.items() if name != "docs/DECISIONS.md"))
    for number in sorted(set(cited)):
        gone = re.sub(rf"^- \*\*{number}\. .*$", "", text, flags=re.M)
        yield f"decision {number} is gone", world._replace(pages={**world.pages, "docs/DECISIONS.md": gone})
    yield "a decision twice", world._replace(pages={**world.pages, "docs/DECISIONS.md": text + "\n- **24. No list.**"})
    for name, old, new in (("README.md", "\n", "\n\n\n"), ("CHANGELOG.md", "## Interface 9 ", "## Interface 99 "),
                           ("CHANGELOG.md", "## Interface 1 ", "## Old "), ("docs/LANDINGS.md", "Request ", "More "),
                           ("docs/DECISIONS.md", "takes number 1", "takes number 9")):
        changed = {**world.pages, name: world.pages[name].replace(old, new)}
        yield f"{name}: {old!r} is {new!r}", world._replace(pages=changed)
    yield "a page that the README does not name", world._replace(pages={**world.pages, "docs/NEW.md": ""})
    yield "code that cites decision 999", world._replace(cites={"crates/x.rt": "// by decision 999"})
    for place, (crate, uses) in enumerate(world.crates):
        yield f"{crate} is gone", world._replace(crates=world.crates[:place] + world.crates[place + 1:])
        for other in uses[:1]:
            turned = [(one, used + (crate,)) if one == other else (one, used) for one, used in world.crates]
            if turned != world.crates:
                yield f"{other} uses {crate}", world._replace(crates=turned)


def self_test():
    world = everything()
    if list(faults(world)):
        print("the documents differ as they stand")
        return False
    changes = list(changed_worlds(world))
    missed = [what for what, other in changes if next(faults(other), None) is None]
    for what in missed:
        print(f"not found: {what}")
    print(f"{len(changes)} changes of a document or a crate alone, {len(changes) - len(missed)} found")
    return len(changes) > 800 and not missed


def main():
    world = everything()
    found = list(faults(world))
    for line in found:
        print(line)
    words = sum(len(words_of(text)) for text in world.pages.values())
    lines = sum(text.count("\n") for text in world.pages.values())
    print(f"{len(world.pages)} documents, {lines} lines, {words} code words; the floors of {len(world.crates)} crates")
    return not found and words > 1000


if __name__ == "__main__":
    sys.exit(0 if (self_test if "--self-test" in sys.argv else main)() else 1)
