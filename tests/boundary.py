#!/usr/bin/env python3
"""Holds include/prowcurl.h against what it declares, and include/prowcurl_sheet.h against it, so that none can change
alone.

  tests/boundary.py               the header against the sources: every call with its result and its parameters (names,
                                  types, order), every struct with its fields, the limits of m, s and the table of
                                  waivers, the group's mark, the interface's number, the refusals' numbers by name, and
                                  their order at each call, which is the table in
                                  crates/definitions/specs/Calls. And prowcurl_sheet.h against the header: a call on a
                                  sheet for every call that takes a list, a log or a table, which hands on the right slices in
                                  the right order, has the arguments in the same order, and whose refusal is looked at
  tests/boundary.py --archive A   the header against the archive: it defines the declared calls and no other hlq_ name,
                                  wants the symbols that the header names, and has no data that two calls could share
  tests/boundary.py --shared S    the header against the shared library: it exports the declared calls alone
  tests/boundary.py --self-test   makes every small change of one side alone: a name, a type, an order, an item more or
                                  less, in every call, struct, limit and table, in every call on a sheet; each must be found

A slice of Rattle is a pointer and a length in C: x: &[u32] is const uint32_t *x, size_t x_len.
"""
import os
import re
import subprocess
import sys
from collections import namedtuple
from functools import lru_cache
from pathlib import Path

ROOT = Path(__file__).resolve().parent.parent
HEADER = ROOT / "include" / "prowcurl.h"
SHEET = ROOT / "include" / "prowcurl_sheet.h"
NUMBERS = {"u8": "uint8_t", "u16": "uint16_t", "u32": "uint32_t", "u64": "uint64_t", "usize": "size_t",
           "i8": "int8_t", "i16": "int16_t", "i32": "int32_t", "i64": "int64_t"}
# A limit of the header: the crate that has it, and its constant there.
LIMITS = {"HLQ_DEEPEST_M": ("keys", "DEEPEST_LEVEL"), "HLQ_MOST_SLOTS": ("keys", "SLOT_LIMIT"),
          "HLQ_GROUP_MARK": ("edit_log", "MARK"), "HLQ_TABLE_PLACES": ("offices", "PLACES"),
          "HLQ_OFFICE_ROWS": ("offices", "LIMIT")}
# What the archive promises to give as its interface, in the contract of the crate prowcurl.
INTERFACE = r"fn hlq_interface\(\) -> u32\s+ensures \{ result ≡ (\d+) \}"
# A struct whose layout is C's.
LAID_OUT = r"#\[repr\(C\)\]\s*(?:#\[derive\([\w, ]*\)\]\s*)?pub struct (\w+) \{(.*?)\}"

# calls: name to (result, [(type, name)]); structs: name to [(type, field)]; limits: name to number;
# numbers: refusal to its number; refusals: call to its refusal numbers in order
Side = namedtuple("Side", "calls structs limits numbers refusals")


# Folders that a command makes beside what people write: rt's, make's, Python's and git's.
MADE = {"out", "target", "__pycache__", ".git"}


class Unreadable(Exception):
    pass


def written_below(folder):
    """Every file and folder below a folder, in order, without those that a command makes."""
    for path in sorted(folder.iterdir()):
        if path.name in MADE:
            continue
        yield path
        if path.is_dir():
            yield from written_below(path)


def read_header(text):
    numbers, refusals = numbers_of_header(text), refusals_of_header(text)
    limits = {name: int(value) for name, value in re.findall(r"#define (\w+) (\d+)\b", text)
              if name in LIMITS or name == "HLQ_INTERFACE"}
    text = re.sub(r"/\*.*?\*/", " ", text, flags=re.S)
    text = re.sub(r"^\s*#.*$", "", text, flags=re.M)
    text = re.sub(r'extern "C" \{', "", text)
    text = re.sub(r"static inline [^{]*\{.*?^\}", "", text, flags=re.S | re.M)
    text = re.sub(r"\b(typedef )?enum \{.*?\}( \w+)?;", "", text, flags=re.S)
    structs = {}
    for body, name in re.findall(r"typedef struct \{(.*?)\} (\w+);", text, flags=re.S):
        fields = []
        for line in body.split(";"):
            if line.strip():
                kind, names = line.split(None, 1)
                fields += [(kind, field.strip()) for field in names.split(",")]
        structs[name] = fields
    text = re.sub(r"typedef struct \{.*?\} \w+;", "", text, flags=re.S)
    calls = {}
    for declaration in text.replace("}", "").split(";"):
        if not declaration.strip():
            continue
        found = re.fullmatch(r"\s*(\w+) (\w+)\((.*)\)\s*", declaration, flags=re.S)
        if not found:
            raise Unreadable("the header has a declaration that cannot be read: " + " ".join(declaration.split()))
        result, name, parameters = found.groups()
        parameters = [] if parameters.strip() == "void" else parameters.split(",")
        calls[name] = (result, [read_parameter(parameter) for parameter in parameters])
    return Side(calls, structs, limits, numbers, refusals)


def read_parameter(text):
    found = re.fullmatch(r"\s*((?:const )?\w+ \*|\w+ )(\w+)\s*", " ".join(text.split()))
    if not found:
        raise Unreadable("the header has a parameter that cannot be read: " + text)
    return found.group(1).strip(), found.group(2)


# The refusals of the header's enum, each with its number; 0 is none.
def numbers_of_header(text):
    told = re.search(r"typedef enum \{([^}]*)\} hlq_refusal;", text)
    numbers = {name: int(value) for name, value in re.findall(r"\bHLQ_(\w+) = (\d+)", told.group(1) if told else "")}
    return {name: number for name, number in numbers.items() if number}


# The names after "Refusals:" in the comment above each call, as numbers.
def refusals_of_header(text):
    numbers = {"HLQ_" + name: number for name, number in numbers_of_header(text).items()}
    refusals = {}
    for comment, name in re.findall(r"/\*((?:(?!\*/).)*)\*/\s*\w+ (hlq_\w+)\(", text, flags=re.S):
        if "Refusals:" not in comment:
            continue
        said = re.sub(r"\n \*", " ", comment.split("Refusals:")[1])
        said = re.split(r"in\s+this\s+order", said)[0]
        try:
            refusals[name] = [numbers[word] for word in re.findall(r"HLQ_\w+", said)]
        except KeyError as unknown:
            raise Unreadable(f"{name}: the header names a refusal that it does not define: {unknown}")
    return refusals


# The sources: of the crate prowcurl its exported functions, of the crate definitions its structs, its refusals and its
# tables of them, and of the crates that LIMITS names their limits.
def read_sources(t):
    prowcurl, definitions, tables = t["prowcurl"], t["definitions"], t["tables"]
    structs, calls = {}, {}
    for name, body in re.findall(LAID_OUT, without_comments(definitions), flags=re.S):
        structs[c_name(name)] = [read_field(name, field) for field in body.split(",") if field.strip()]
    exported = re.findall(r'pub extern "C" fn (\w+)\((.*?)\)(?: -> (\w+))?\s', without_comments(prowcurl), flags=re.S)
    for name, parameters, result in exported:
        taken = []
        for parameter in filter(None, (p.strip() for p in parameters.split(","))):
            label, kind = parameter.split(": ")
            taken += c_parameters(label, kind)
        calls[name] = (c_type(result) if result else "void", taken)
    reached = {kind.replace("const ", "").rstrip(" *") for result, taken in calls.values()
               for kind in [result] + [kind for kind, _ in taken]}
    structs = {name: fields for name, fields in structs.items() if name in reached}
    limits = {name: number_of(constant, t[crate]) for name, (crate, constant) in LIMITS.items()}
    promised = re.search(INTERFACE, prowcurl)
    if not promised:
        raise Unreadable("the crate prowcurl promises no number of the interface")
    limits["HLQ_INTERFACE"] = int(promised.group(1))
    refusals = {}
    for name in calls:
        # a clipped call has the table of the strict one
        words = name.removesuffix("_clipped").split("_")[1:]
        rows = rows_of("".join(word.capitalize() for word in words), tables)
        if rows:
            refusals[name] = rows
    # the enum's variants are in camel case, the header's names in capitals
    told = re.findall(TOLD, definitions)
    numbers = {re.sub(r"(?<=[a-z])(?=[A-Z])", "_", name).upper(): int(value) for name, value in told}
    return Side(calls, structs, limits, numbers, refusals)


TOLD = r"Refusal::(\w+)(?:\(_\))? => (\d+),"  # a refusal's number, as the conversion for C tells it


def number_of(constant, text):
    found = re.findall(rf"pub const {constant}: \w+ = (\d+);", text)
    if len(found) != 1:
        raise Unreadable(f"the constant {constant} stands {len(found)} times")
    return int(found[0])


# The numbers of a call's table in order. The four edits share a frame, Edit.antt: its rows stand around an edit's own,
# which it names by FRAMED.
FRAME, FRAMED = "Calls.Edit.{", "(e.rows ++ "


def rows_of(name, tables):
    told = lambda text: [int(number) for number in re.findall(r"\bgives (\d+)", re.sub(r"--.*", "", text))]
    own = told(tables.get(name, ""))
    if FRAME not in tables.get(name, ""):
        return own
    before, _, after = re.sub(r"--.*", "", tables["Edit"]).partition(FRAMED)
    return told(before) + own + told(after)


def read_field(struct, text):
    found = re.fullmatch(r"\s*pub (\w+): (\w+)\s*", text)
    if not found or found.group(2) not in NUMBERS:
        raise Unreadable(f"struct {struct} has a field that is no number: {text.strip()}")
    return NUMBERS[found.group(2)], found.group(1)


def without_comments(text):
    return re.sub(r"//.*", "", text)


def c_name(name):
    return "hlq" + re.sub(r"([A-Z])", lambda capital: "_" + capital.group(1).lower(), name)


def c_type(kind):
    return NUMBERS.get(kind) or c_name(kind)


def c_parameters(label, kind):
    found = re.fullmatch(r"&(mut )?\[(\w+)\]", kind)
    if not found:
        return [(c_type(kind), label)]
    const = "" if found.group(1) else "const "
    return [(const + c_type(found.group(2)) + " *", label), ("size_t", label + "_len")]


def differences(header, sources):
    found = []
    for what, said, done in (("call", header.calls, sources.calls), ("struct", header.structs, sources.structs)):
        found += [f"{what} {name}: in the header alone" for name in said if name not in done]
        found += [f"{what} {name}: in the sources alone" for name in done if name not in said]
        found += [f"{what} {name}:\n  header  {said[name]}\n  sources {done[name]}"
                  for name in said if name in done and said[name] != done[name]]
    found += [f"limit {name}: header {header.limits.get(name)}, sources {sources.limits[name]}"
              for name in sources.limits if header.limits.get(name) != sources.limits[name]]
    found += [f"refusal {name}: header {header.numbers.get(name)}, sources {sources.numbers.get(name)}"
              for name in sorted(set(header.numbers) | set(sources.numbers))
              if header.numbers.get(name) != sources.numbers.get(name)]
    found += [f"refusals of {name}: header {header.refusals.get(name)}, definitions {rows}"
              for name, rows in sources.refusals.items() if header.refusals.get(name) != rows]
    return found


# prowcurl_sheet.h. Which argument stands for which parameter of the raw call: by default the one of its name, or a
# field of that name; these are the others. A trailing underscore is of names that the header keeps to itself.
STANDS_FOR = {
    "keys_len": {"room", "hlq_room_"}, "bits_len": {"room", "hlq_room_"}, "summary_len": {"hlq_summary_places_"},
    "log_keys_len": {"log_room"}, "log_values_len": {"log_room"},
    "offices_len": {"places"}, "ids_len": {"places"}, "waived_len": {"places"},
    "leaf_keys_len": {"leaves", "leaves_len"}, "leaf_features_len": {"leaves", "leaves_len"},
    "refusals_len": {"questions_len"}, "values_len": {"questions_len"},
    "found_ids_len": {"found_len"}, "found_keys_len": {"found_len"},
}
# Where a parameter of a call on a sheet belongs among those of the raw call, if not by its name.
BELONGS = {"sheet": "", "first": "", "second": "m2", "third": "keys3", "window": "row", "table": "offices",
           "leaves_len": "leaf_features_len", "found_len": "found_keys_len"}
OWNERS = {"1": "first", "2": "second", "3": "third"}


def sheet_differences(header, text):
    found = []
    text = re.sub(r"/\*.*?\*/", " ", text, flags=re.S).replace("\\\n", " ")
    macros = {name: ([word.strip() for word in taken.split(",")], body.strip())
              for name, taken, body in re.findall(r"#define (HLQ_\w+_)\(([^)]*)\)(.*)", text)}
    functions = {name: (before, taken, body) for before, name, taken, body in
                 re.findall(r"^(\w[\w ]*) (hlq_\w+)\((.*?)\) \{(.*?)(?:^\}| \}$)", text, flags=re.S | re.M)}
    for name, (before, _, _) in functions.items():
        if before != "HLQ_LOOK hlq_refusal" and "hlq_refusal" in before and not name.endswith("_"):
            found.append(f"{name}: nobody warns where its refusal is not looked at")
    for name, (result, parameters) in header.calls.items():
        names = [parameter for _, parameter in parameters]
        if not {"keys", "keys1", "offices", "log_keys"} & set(names) and name != "hlq_empty":
            continue
        layered = name.replace("hlq_", "hlq_sheet_", 1)
        if layered not in functions:
            found.append(f"{layered}: not in prowcurl_sheet.h")
            continue
        _, taken, body = functions[layered]
        found += [f"{layered}: {why}" for why in misplaced(names, header.structs.get(result, []), taken)]
        calls = [body[place.end():] for place in re.finditer(rf"\b{name}\(", body)]
        if len(calls) != 1:
            found.append(f"{layered}: calls {name} {len(calls)} times")
            continue
        handed = split_arguments(expanded(up_to_its_end(calls[0]), macros))
        found += [f"{layered}: {why}" for why in mishanded(names, handed)]
    return found


# The text up to the parenthesis that closes what was opened before it.
def up_to_its_end(text):
    depth = 1
    for place, sign in enumerate(text):
        depth += {"(": 1, ")": -1}.get(sign, 0)
        if depth == 0:
            return text[:place]
    raise Unreadable("prowcurl_sheet.h has a call without its end")


def split_arguments(text):
    items, depth = [""], 0
    for sign in text:
        depth += {"(": 1, ")": -1}.get(sign, 0)
        if sign == "," and depth == 0:
            items.append("")
        else:
            items[-1] += sign
    return [" ".join(item.split()) for item in items if item.strip()]


def expanded(text, macros):
    found = re.search(r"\b(HLQ_\w+_)\(", text)
    if not found or found.group(1) not in macros:
        return text
    inner = up_to_its_end(text[found.end():])
    words, body = macros[found.group(1)]
    for word, given in zip(words, split_arguments(inner)):
        body = re.sub(rf"\b{word}\b(?!_)", lambda _: given, body)
    return expanded(text[:found.start()] + body + text[found.end() + len(inner) + 1:], macros)


# What is handed on is what the raw call's parameter means.
def mishanded(names, handed):
    if len(handed) != len(names):
        return [f"hands on {len(handed)} arguments for {len(names)} parameters: {', '.join(handed)}"]
    wrong = []
    for name, given in zip(names, handed):
        plain = re.sub(r"\d(?=$|_len$)", "", name)
        number = re.search(r"\d(?=$|_len$)", name)
        words = re.findall(r"\w+", given)
        word = words[0] if re.match(r"\w+\(", given) else words[-1]
        if word not in STANDS_FOR.get(plain, {plain}):
            wrong.append(f"hands on {given} for {name}")
        elif number and len(words) > 1 and OWNERS[number.group(0)] not in words:
            wrong.append(f"hands on {given} for {name}, which is the {OWNERS[number.group(0)]} list's")
    return wrong


# The parameters of a call on a sheet come in the raw call's order, and its results after them in theirs.
def misplaced(names, fields, taken):
    order = [""] + [name for name in names if name not in ("keys", "bits")]
    order += [field for _, field in fields] + ["stands"]
    places = []
    for parameter in split_arguments(taken):
        word = re.findall(r"\w+", parameter)[-1]
        word = word if word in order else BELONGS.get(word, word)
        if word not in order:
            return [f"takes {word}, which the raw call neither takes nor gives"]
        places.append(order.index(word))
    return [] if places == sorted(set(places)) else ["takes its arguments in another order than the raw call"]


def joined(folder):
    return "\n".join(path.read_text() for path in sorted(folder.rglob("*.rt")))


@lru_cache(maxsize=None)
def texts():
    crates = ROOT / "crates"
    # C's build is the survey of the definitions: a list with its summary. Their build, the list alone, is no call of C's.
    tables = {"Build" if path.stem == "Survey" else path.stem: path.read_text()
              for path in sorted((crates / "definitions/specs/Calls").glob("*.antt")) if path.stem != "Build"}
    return {"header": HEADER.read_text(), "sheet": SHEET.read_text(), "prowcurl": joined(crates / "prowcurl/src"),
            "definitions": joined(crates / "definitions/src"), "tables": tables,
            **{crate: joined(crates / crate / "src") for crate, _ in LIMITS.values()}}


def compare(t):
    header = read_header(t["header"])
    sources = read_sources(t)
    return header, sources, differences(header, sources)


def check_sources():
    header, sources, found = compare(texts())
    found += sheet_differences(header, texts()["sheet"])
    if not header.calls or not header.structs or not sources.refusals:
        found.append("no calls, no structs or no tables of refusals were found at all")
    for line in found:
        print(line)
    unlike = sorted(set(sources.calls) - set(sources.refusals))
    print(f"{len(header.calls)} calls and {len(header.structs)} structs of the header against the sources, the calls "
          f"on a sheet against the header, and the "
          f"order of refusals at {len(sources.refusals)} calls (no table: {', '.join(unlike)})")
    return not found


def tool(name, *arguments):
    done = subprocess.run([os.environ.get("BINUTILS", "") + name, *arguments], capture_output=True, text=True)
    if done.returncode != 0:
        raise Unreadable(done.stderr.strip())
    return done.stdout


def check_archive(archive):
    found = []
    declared = set(read_header(HEADER.read_text()).calls)
    defined = {line.split()[-1] for line in tool("nm", "--defined-only", "--extern-only", archive).splitlines()
               if len(line.split()) == 3}
    wanted = {line.split()[-1] for line in tool("nm", "--undefined-only", archive).splitlines() if " U " in line}
    exported = {name for name in defined if name.startswith("hlq_")}
    found += [f"{name}: declared, and not in the archive" for name in sorted(declared - exported)]
    found += [f"{name}: in the archive, and not declared" for name in sorted(exported - declared)]
    said = re.search(r"the archive wants (\w+(?: and \w+)*), and nothing else", HEADER.read_text())
    if not said or wanted - defined != set(said.group(1).split(" and ")):
        found.append(f"the archive wants {sorted(wanted - defined)}, and the header says another thing")
    for line in tool("size", archive).splitlines()[1:]:
        data, bss = line.split()[1:3]
        if (data, bss) != ("0", "0"):
            found.append(f"the archive has data of its own: {line.strip()}")
    for line in found:
        print(line)
    print(f"{len(exported)} calls in the archive; it wants {', '.join(sorted(wanted - defined))}")
    return not found


def check_shared(library):
    declared = set(read_header(HEADER.read_text()).calls)
    exported = {line.split()[-1] for line in tool("nm", "--dynamic", "--defined-only", library).splitlines()}
    for name in sorted(declared ^ exported):
        print(f"{name}: " + ("declared, and not exported" if name in declared else "exported, and not declared"))
    print(f"{len(exported)} names exported by the shared library")
    return declared == exported


# The self-test: every small change of one side that can be made by rule, one at a time.
def self_test():
    header, _, found = compare(texts())
    if found or sheet_differences(header, texts()["sheet"]):
        print("headers and sources differ as they stand")
        return False
    made, missed = 0, []
    for where, text in changes(texts()):
        made += 1
        try:
            found = sheet_differences(header, text) if where == "sheet" else compare({**texts(), where: text})[2]
        except Unreadable as why:
            found = [why]
        if not found:
            missed.append(f"a change of the {where} that is not found: {first_difference(texts()[where], text)}")
    for line in missed:
        print(line)
    print(f"{made} changes of one header alone or of the sources alone, {made - len(missed)} found")
    return made > 0 and not missed


def changes(t):
    number = r"(u?int\d+_t|size_t|hlq_\w+)"
    for found in re.finditer(r"^(\w+) (hlq_\w+)\(([^;]*)\);", t["header"], flags=re.M):
        result, name, parameters = found.groups()
        replace = lambda by: t["header"][:found.start()] + by + t["header"][found.end():]
        yield "header", replace("")
        yield "header", replace(f"int16_t {name}({parameters});")
        yield "header", replace(f"{result} {name}_renamed({parameters});")
        items = [] if parameters == "void" else [" ".join(item.split()) for item in parameters.split(",")]
        for changed in changed_lists(items, "uint32_t more", [
                lambda item: item + "_renamed",
                lambda item: re.sub(number, "int16_t", item, count=1),
                lambda item: item.replace("const ", ""),
                lambda item: "const " + item if "*" in item and "const " not in item else item]):
            yield "header", replace(f"{result} {name}({', '.join(changed) or 'void'});")
    for found in re.finditer(r"typedef struct \{\s(.*?)\s\} (\w+);", t["header"], flags=re.S):
        replace = lambda by: t["header"][:found.start()] + by + t["header"][found.end():]
        yield "header", replace("")
        items = [f"{kind} {field}" for kind, field in read_header(found.group(0)).structs[found.group(2)]]
        for changed in changed_lists(items, "uint64_t more", [
                lambda item: item + "_renamed", lambda item: re.sub(number, "int16_t", item, count=1)]):
            yield "header", replace(f"typedef struct {{ {'; '.join(changed)}; }} {found.group(2)};")
    for name in [*LIMITS, "HLQ_INTERFACE"]:
        yield "header", re.sub(rf"(#define {name} \d+)", r"\g<1>0", t["header"])
    for found in re.finditer(r"Refusals: (HLQ_[^.]*)in\s+(?:\* )?this", t["header"]):
        for changed in changed_lists(re.findall(r"HLQ_\w+", found.group(1)), "HLQ_LOG", []):
            said = ", ".join(changed) + ", "
            yield "header", t["header"][:found.start(1)] + said + t["header"][found.end(1):]
    for refusal in read_header(t["header"]).numbers:
        yield "header", re.sub(rf"\bHLQ_{refusal} = \d+", f"HLQ_{refusal} = 99", t["header"])
        yield "header", re.sub(rf"\bHLQ_{refusal} = ", f"HLQ_{refusal}_RENAMED = ", t["header"])

    yield "prowcurl", re.sub(INTERFACE, lambda found: found.group(0).replace("≡ ", "≡ 9"), t["prowcurl"])
    yield from changed_sheets(t["sheet"])

    rattle = r"\b[ui](8|16|32|64|size)\b|\[[A-Z]\w+\]"
    for found in re.finditer(r'pub extern "C" fn (\w+)\((.*?)\) -> (\w+)', t["prowcurl"], flags=re.S):
        name, parameters, result = found.groups()
        replace = lambda by: t["prowcurl"][:found.start()] + by + t["prowcurl"][found.end():]
        yield "prowcurl", replace(f"pub fn {name}({parameters}) -> {result}")
        yield "prowcurl", replace(f'pub extern "C" fn {name}_renamed({parameters}) -> {result}')
        yield "prowcurl", replace(f'pub extern "C" fn {name}({parameters}) -> i16')
        items = [item.strip() for item in parameters.split(",") if item.strip()]
        for changed in changed_lists(items, "more: u32", [
                lambda item: item.replace(":", "_renamed:"),
                lambda item: re.sub(rattle, lambda kind: "[i16]" if "[" in kind.group(0) else "i16", item),
                lambda item: item.replace("&mut ", "&") if "&mut " in item else item.replace("&", "&mut ")]):
            yield "prowcurl", replace(f'pub extern "C" fn {name}({", ".join(changed)}) -> {result}')
    reached = read_header(t["header"]).structs
    for found in re.finditer(LAID_OUT, t["definitions"], flags=re.S):
        if c_name(found.group(1)) not in reached:
            continue
        replace = lambda by: t["definitions"][:found.start()] + by + t["definitions"][found.end():]
        yield "definitions", replace(found.group(0).replace("#[repr(C)]", ""))
        items = [item.strip() for item in found.group(2).split(",") if item.strip()]
        for changed in changed_lists(items, "pub more: u64", [
                lambda item: item.replace(":", "_renamed:"), lambda item: re.sub(rattle, "i16", item)]):
            yield "definitions", replace(f"#[repr(C)]\npub struct {found.group(1)} {{ {', '.join(changed)} }}")
    for crate, constant in LIMITS.values():
        yield crate, re.sub(rf"(pub const {constant}: \w+ = \d+)", r"\g<1>0", t[crate])
    for found in re.finditer(TOLD, t["definitions"]):
        name, value = found.groups()
        for by in ("", f"Refusal::{name} => 99,", f"Refusal::{name}Renamed => {value},"):
            yield "definitions", t["definitions"][:found.start()] + by + t["definitions"][found.end():]
    for name, table in t["tables"].items():
        for row in re.finditer(r"gives (\d+)", table):
            yield "tables", {**t["tables"], name: table[:row.start()] + "gives 99" + table[row.end():]}
        if FRAME in table: # an edit that leaves the frame
            yield "tables", {**t["tables"], name: table.replace(FRAME, "Calls.Other.{")}
    frame = t["tables"]["Edit"] # an edit's own rows at the end of the table, and at its front
    yield "tables", {**t["tables"], "Edit": frame.replace(FRAMED, "(")}
    yield "tables", {**t["tables"], "Edit": FRAMED + frame}


# The calls on a sheet: one taken away or renamed, its warning, its parameters, what it hands on, and the macros of it.
def changed_sheets(text):
    for found in re.finditer(r"^(HLQ_LOOK hlq_refusal|static inline void) (hlq_sheet_\w+)\((.*?)\) \{.*?^\}", text,
                             flags=re.S | re.M):
        before, name, taken = found.groups()
        raw = name.replace("hlq_sheet_", "hlq_", 1)
        call = re.search(rf"\b{raw}\(", found.group(0))
        if not call:
            continue # what lays out memory
        replace = lambda by: ("sheet", text[:found.start()] + by + text[found.end():])
        yield replace("")
        yield replace(found.group(0).replace(name, name + "_renamed", 1))
        yield replace(found.group(0).replace(raw + "(", raw + "_renamed("))
        if before.startswith("HLQ_LOOK"):
            yield replace(found.group(0).replace("HLQ_LOOK", "static inline", 1))
        items = split_arguments(taken)
        for changed in changed_lists(items, "uint32_t more", []):
            if len(changed) >= len(items): # what is no longer taken the compiler misses
                yield replace(found.group(0).replace(taken, ", ".join(changed), 1))
        inner = up_to_its_end(found.group(0)[call.end():])
        hands_on = lambda by: found.group(0)[:call.end()] + by + found.group(0)[call.end() + len(inner):]
        for changed in changed_lists(split_arguments(inner), "more", [
                lambda item: item if item.endswith(")") else item + "_renamed"]):
            yield replace(hands_on(", ".join(changed)))
    for found in re.finditer(r"#define (HLQ_\w+_)\(([^)]*)\)((?:.*\\\n)*.*)", text):
        name, taken, body = found.groups()
        for changed in changed_lists(split_arguments(body.replace("\\\n", " ")), "more", []):
            yield "sheet", text[:found.start()] + f"#define {name}({taken}) {', '.join(changed)}" + text[found.end():]


# Each item left out, changed in each way, or exchanged with the next, and one item more.
def changed_lists(items, more, ways):
    yield items + [more]
    for i, item in enumerate(items):
        yield items[:i] + items[i + 1:]
        for way in ways:
            if way(item) != item:
                yield items[:i] + [way(item)] + items[i + 1:]
        if i + 1 < len(items) and items[i + 1] != item:
            yield items[:i] + [items[i + 1], item] + items[i + 2:]


def first_difference(old, new):
    lines = lambda text: (text if isinstance(text, str) else "\n".join(text.values())).splitlines()
    return next((f"'{b.strip()}' for '{a.strip()}'" for a, b in zip(lines(old), lines(new)) if a != b), "at the end")


def main(arguments):
    if arguments == []:
        return check_sources()
    if arguments == ["--self-test"]:
        return self_test()
    if len(arguments) == 2 and arguments[0] == "--archive":
        return check_archive(arguments[1])
    if len(arguments) == 2 and arguments[0] == "--shared":
        return check_shared(arguments[1])
    print(__doc__)
    return False


if __name__ == "__main__":
    try:
        good = main(sys.argv[1:])
    except Unreadable as why:
        print(why)
        good = False
    sys.exit(0 if good else 1)
