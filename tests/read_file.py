#!/usr/bin/env python3
"""Reads files of lists and of logs by docs/FILE-FORMATS.md alone, and holds that page against what it describes.

  tests/read_file.py               the four files below are read. They are written by hand, from the vectors in
                                   crates/definitions/proofs: Map A's list (keys_a and bits_a of Vectors.antt), a list of
                                   version 2 (file_bytes of ClassVectors.antt), the log after A9 and the same paint as a
                                   group (file_a and group_file of LogFileVectors.antt). The page shows the same bytes,
                                   and the tables and columns of a line are those that tool/line_tables.c makes
  tests/read_file.py --self-test   files that are damaged in one place, and pages with another byte or column, are found
"""
import pathlib
import re
import sqlite3
import sys

ROOT = pathlib.Path(__file__).resolve().parent.parent
PAGE = ROOT / "docs/FILE-FORMATS.md"
TABLES = ROOT / "tool/line_tables.c"

FILES = {
    "list-1": "484C510001020300000009" "000000000007" "000000050001" "0000000A0006" "0000000B0002" "0000000C0002"
              "0000000D0002" "0000000E0004" "0000000F0004" "000000140001",
    "list-2": "484C510002012000000005" "0000000080000001" "0000000100000001" "0000000280000000" "0000000380000000"
              "0000000400000001",
    "log-entry": "484C4700010203" "0000000000000003" "0000000000000003" "0000000E00000004" "0000000E00000001"
                 "0000000E00000001",
    "log-group": "484C4700010203" "0000000000000005" "0000000000000005" "0000000E00000004" "0000000E00000001"
                 "0000000E00000001" "0000000000000001" "00000000000000FF",
}

# Map A as the README shows it: place, digits of the key, slots
MAP_A = [("00", "111"), ("10", "100"), ("20", "011"), ("21", "010"), ("22", "010"), ("23", "010"), ("24", "001"),
         ("30", "001"), ("40", "100")]
RASTER_A = [[0, 0, 1, 1], [0, 0, 1, 2], [2, 2, 0, 0], [2, 2, 0, 0]]


class Refused(Exception):
    """The number with which the library refuses the file."""


def refuse_if(wrong, number):
    if wrong:
        raise Refused(number)


def number(data, place, width):
    return int.from_bytes(data[place:place + width], "big")


def records_from(data, place, count, width):
    """So many records: a key in 4 bytes, and a value in so many."""
    places = (place + i * (4 + width) for i in range(count))
    return [(number(data, at, 4), number(data, at + 4, width)) for at in places]


def digits_of(m, key):
    return [key // 5 ** (m - 1 - i) % 5 for i in range(m)]


def square_of(m, key):
    """First row, first column and side of a block; refused with 8 where the key is not valid."""
    digits = digits_of(m, key)
    level = digits.index(0) if 0 in digits else m
    refuse_if(key >= 5 ** m or any(digits[level:]), 8)
    row = column = 0
    for i, digit in enumerate(digits[:level]):
        side = 2 ** (m - 1 - i)
        row += side * (digit in (3, 4))
        column += side * (digit in (2, 4))
    return row, column, 2 ** (m - level)


def list_of(m, raster, key=0):
    """The records of the block with this key: what a list is."""
    row, column, side = square_of(m, key)
    bits = 0
    for line in raster[row:row + side]:
        for feature in line[column:column + side]:
            bits |= 1 << feature
    records = [(key, bits)]
    if bits & (bits - 1):
        for digit in (1, 2, 3, 4):
            records += list_of(m, raster, key + digit * side_keys(side))
    return records


def side_keys(side):
    """By how much the keys of a block's quadrants differ: 5 to the quadrants' height."""
    return 5 ** (side.bit_length() - 2)


def raster_of(m, records):
    """The leaves, each filled into its square; None where no leaf is."""
    raster = [[None] * 2 ** m for _ in range(2 ** m)]
    for key, bits in records:
        if bits and not bits & (bits - 1):
            row, column, side = square_of(m, key)
            for line in raster[row:row + side]:
                line[column:column + side] = [bits.bit_length() - 1] * side
    return raster


def read_list(data):
    """m, s and the records of a list's file."""
    refuse_if(len(data) < 11, 15)
    refuse_if(data[:3] != b"HLQ", 16)
    version, m, s, n = number(data, 3, 2), data[5], data[6], number(data, 7, 4)
    refuse_if(version not in (1, 2) or version == 2 and s <= 16, 17)
    refuse_if(m > 10 or not 1 <= s <= 32 or version == 1 and s > 16, 1)
    width = 2 if version == 1 else 4
    refuse_if(len(data) != 11 + (4 + width) * n, 15)
    records = records_from(data, 11, n, width)
    refuse_if(not is_list(m, s, records), 4)
    return m, s, records


def is_list(m, s, records):
    try:
        raster = raster_of(m, records)
    except Refused:
        return False
    pixels = [feature for line in raster for feature in line]
    return None not in pixels and max(pixels) < s and records == list_of(m, raster)


def entry_before(m, s, records, end):
    """The entry that ends at a place: where it begins, its block, its content and its feature."""
    refuse_if(end < 2, 5)
    (key, count), (again, feature) = records[end - 2:end]
    begin = end - 2 - count
    refuse_if(key != again or feature >= s or begin < 0, 5)
    content = records[begin:end - 2]
    try:
        row, column, side = square_of(m, key)
        raster = raster_of(m, content)
    except Refused:
        raise Refused(5) from None
    inside = [line[column:column + side] for line in raster[row:row + side]]
    pixels = [feature for line in inside for feature in line]
    refuse_if(None in pixels or max(pixels) >= s or content != list_of(m, raster, key), 5)
    return begin, (key, content, feature)


def read_log(data):
    """m, s, the number in force, and the steps: where each ends and its entries, the first step first."""
    refuse_if(len(data) < 23, 15)
    refuse_if(data[:3] != b"HLG", 16)
    version, m, s = number(data, 3, 2), data[5], data[6]
    used, in_force = number(data, 7, 8), number(data, 15, 8)
    refuse_if(version != 1, 17)
    refuse_if(m > 10 or not 1 <= s <= 32, 1)
    refuse_if(len(data) != 23 + 8 * used, 15)
    records, steps, end = records_from(data, 23, used, 4), [], used
    while end > 0:
        closes_at, entries, count = end, [], 1
        if records[end - 1] == (0, 255):
            refuse_if(end < 2 or records[end - 2][0] != 0 or records[end - 2][1] == 0, 5)
            count, end = records[end - 2][1], end - 2
        while len(entries) < count:
            end, entry = entry_before(m, s, records, end)
            entries.insert(0, entry)
        steps.insert(0, (closes_at, entries))
    refuse_if(in_force not in [0] + [closes_at for closes_at, _ in steps], 5)
    return m, s, in_force, steps


def shown(page):
    """The files that the page shows, by their names."""
    return {name: re.sub(r"\s", "", text) for name, text in re.findall(r"^```hex (\S+)\n(.*?)^```", page, re.M | re.S)}


def told(page):
    """The tables of a line by the page, each with its columns."""
    rows = page.partition("| table | columns |\n|---|---|\n")[2].split("\n\n")[0].split("\n")
    cells = [re.findall(r"`(\w+)`", row) for row in rows]
    return {names[0]: names[1:] for names in cells}


def made(source):
    """The tables that the tool makes, each with its columns; GeoPackage's own left out."""
    database = sqlite3.connect(":memory:")
    for script in re.findall(r"static const char \w+\[\] =\n(.*?\");\n", source, re.S):
        database.executescript("".join(re.findall(r'"((?:[^"\\]|\\.)*)"', script)).replace('\\"', '"'))
    names = [row[0] for row in database.execute("SELECT name FROM sqlite_master WHERE type = 'table'")]
    own = [name for name in names if not name.startswith(("gpkg_", "sqlite_"))]
    return {name: [row[1] for row in database.execute(f"PRAGMA table_info({name})")] for name in own}


def faults(page, source):
    yield from (f"{name}: the page shows other bytes" for name in FILES if shown(page).get(name) != FILES[name])
    columns = made(source)
    yield from (f"{name}: other columns than {columns.get(name)}" for name in sorted({*told(page), *columns})
                if told(page).get(name) != columns.get(name))


def refusal(read, data):
    try:
        read(data)
    except Refused as refused:
        return refused.args[0]
    return 0


def files_read():
    file = {name: bytes.fromhex(text) for name, text in FILES.items()}
    m, s, records = read_list(file["list-1"])
    by_digits = [("".join(map(str, digits_of(m, key))), "".join(str(bits >> f & 1) for f in range(s)))
                 for key, bits in records]
    assert (m, s, len(file["list-1"])) == (2, 3, 65) and by_digits == MAP_A
    assert raster_of(m, records) == RASTER_A
    m, s, records = read_list(file["list-2"])
    assert (m, s, len(file["list-2"])) == (1, 32, 51) and raster_of(m, records) == [[0, 31], [31, 0]]
    entry = (14, [(14, 4)], 1)  # block 24 had feature 2 and was painted with 1
    assert read_log(file["log-entry"]) == (2, 3, 3, [(3, [entry])]) and len(file["log-entry"]) == 47
    assert read_log(file["log-group"]) == (2, 3, 5, [(5, [entry])]) and len(file["log-group"]) == 63
    return file


def self_test():
    """Each damage by file, place and byte, with the number of its refusal."""
    file = files_read()
    damages = [("list-1", 2, 0x52, 16), ("list-1", 4, 2, 17), ("list-1", 4, 3, 17), ("list-1", 5, 11, 1),
               ("list-1", 6, 17, 1), ("list-1", 6, 0, 1), ("list-1", 10, 8, 15), ("list-1", 16, 3, 4),
               ("list-1", 20, 7, 4), ("list-1", 6, 2, 4), ("list-1", 64, 0, 4), ("list-2", 6, 16, 17),
               ("list-2", 4, 1, 1), ("list-2", 6, 31, 4), ("log-entry", 2, 0x51, 16), ("log-entry", 4, 2, 17),
               ("log-entry", 6, 0, 1), ("log-entry", 14, 2, 15), ("log-entry", 22, 1, 5), ("log-entry", 22, 4, 5),
               ("log-entry", 46, 3, 5), ("log-entry", 38, 2, 5), ("log-entry", 26, 15, 5), ("log-group", 54, 0, 5),
               ("log-group", 54, 2, 5), ("log-group", 22, 3, 5), ("log-group", 62, 254, 5)]
    missed = [f"{name}: byte {place} as {byte}" for name, place, byte, refused in damages
              if refusal(read_log if name.startswith("log") else read_list,
                         file[name][:place] + bytes([byte]) + file[name][place + 1:]) != refused]
    missed += [f"{name}: cut short" for name, data in file.items()
               for read in [read_log if name.startswith("log") else read_list]
               if refusal(read, data[:-1]) != 15 or refusal(read, data[:10]) != 15 or refusal(read, data + b"\0") != 15]
    page, source = PAGE.read_text(), TABLES.read_text()
    changes = [("00 00 00 14  00 01", "00 00 00 14  00 02"), ("```hex log-group", "```hex log"),
               ("`digest` |", "`digests` |"), ("| `steps` | `id`", "| `step` | `id`"), ("`west`, `north`", "`north`")]
    missed += [f"the page with {new} for {old}" for old, new in changes
               if not list(faults(page.replace(old, new, 1), source))]
    for what in missed:
        print(f"not found: {what}")
    print(f"{len(damages) + 3 * len(file) + len(changes)} damages of files and of the page, {len(missed)} not found")
    return not missed


def main():
    files_read()
    found = list(faults(PAGE.read_text(), TABLES.read_text()))
    for fault in found:
        print(f"docs/FILE-FORMATS.md: {fault}")
    print(f"{len(FILES)} files and {len(told(PAGE.read_text()))} tables are as docs/FILE-FORMATS.md tells them")
    return not found


if __name__ == "__main__":
    sys.exit(0 if (self_test() if "--self-test" in sys.argv else main()) else 1)
