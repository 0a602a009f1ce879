#!/usr/bin/env python3
"""Every command on good files, compared with what a scan of the survey's pixels says: good.py PROGRAM.."""
import csv
import io
import os
import random
import sqlite3
import struct
import subprocess
import sys

from support import (CLASSES, Tool, grid, must, patches, pgm, pixels_of, plain_pgm, seen_in, square_of, work_folder)

CLASS_FILE = ('class,name,colour\r\n0,field,#dfe8c8\r\n1,"ballast, old",#bdb5a8\r\n2,track,\r\n'
              '3,"a ""drain""",#6fa8dc\r\n4,scrub,#4f8a3c\r\n')
SIDE, ROWS, COLUMNS = 16, 50, 37  # four sheets down and three across, none of the last ones full
GROUND = patches(ROWS, COLUMNS, 3)
WEST, SOUTH, CELL = 500000, 5600000, 0.5
NORTH = SOUTH + ROWS * CELL


def pixels(tool, line, *more):
    return pixels_of(tool("export", line, "pgm", "-", *more, text=False))


def with_gdal(tool, rows, name, *more):
    """A GeoTIFF of these rows, by GDAL alone."""
    tool.write("for-gdal.asc", grid(rows, WEST, SOUTH, CELL, "NODATA_value -9999\n"))
    subprocess.run(["gdal_translate", "-q", "-a_srs", "EPSG:25832", *more, "for-gdal.asc", "./" + name],
                   cwd=tool.folder, check=True)
    return name


def test_surveys(tool):
    """The same ground in every form, of every shape."""
    tool.write("classes.csv", CLASS_FILE)
    for rows, columns, side in ((1, 1, 16), (1, 37, 16), (50, 3, 16), (16, 16, 16), (17, 33, 16), (50, 37, 1024)):
        ground = patches(rows, columns, rows)
        tool("init", "s.gpkg", "--classes", "classes.csv", "--side", side)
        tool.write("s.pgm", pgm(ground))
        made = tool.json("add", "s.gpkg", "s.pgm")
        sheets = -(-rows // side) * -(-columns // side)
        must((made["rows"], made["columns"], made["sheets"]) == (rows, columns, sheets), "add's answer")
        must(pixels(tool, "s.gpkg") == ground, f"{rows} by {columns}: other pixels come out")
        for form, content in (("plain", plain_pgm(ground)), ("grid", grid(ground, 0, 0)),
                              ("crlf", grid(ground, after=".0").replace("\n", "\r\n"))):
            tool.write("other", content)
            tool("add", "s.gpkg", "other", "--as", form)
            must(pixels(tool, "s.gpkg") == ground, f"{rows} by {columns} as {form}: other pixels come out")
        tool("check", "s.gpkg")
        os.remove(tool.path("s.gpkg"))


def test_coordinates(tool):
    """The line of the other tests, from a GeoTIFF; and again from a grid, from standard input and with greys."""
    tool("init", "a.gpkg", "--classes", "classes.csv", "--side", SIDE)
    must(tool.json("info", "a.gpkg")["surveys"] == [], "no survey yet")
    with_gdal(tool, GROUND, "-a.tif", "-ot", "Int16")
    tool("add", "a.gpkg", "-a.tif", "--as", "spring", "--taken", "2026-05-31")
    info = tool.json("info", "a.gpkg")
    must([info[name] for name in ("rows", "columns", "side", "sheets", "slots", "cell", "west", "north", "undo")] ==
         [ROWS, COLUMNS, SIDE, 12, CLASSES, CELL, WEST, NORTH, 0], f"info: {info}")
    must(info["surveys"] == [{"name": "spring", "taken": "2026-05-31"}] and "25832" in info["system"], "info: surveys")
    must(pixels(tool, "a.gpkg") == GROUND, "the GeoTIFF's pixels")
    other = patches(ROWS, COLUMNS, 8)
    tool("add", "a.gpkg", "-", "--as", "autumn", stdin=grid(other, WEST, SOUTH, CELL).encode())
    tool("init", "p.gpkg")
    tool.write("p.asc", grid(other, WEST, SOUTH, CELL))
    subprocess.run("gdalsrsinfo -o wkt1 EPSG:25832 >p.prj", shell=True, cwd=tool.folder, check=True)
    tool("add", "p.gpkg", "p.asc")
    must("25832" in tool.json("info", "p.gpkg")["system"], "the coordinate system beside a grid")
    must(pixels(tool, "a.gpkg") == other and pixels(tool, "a.gpkg", "--survey", "spring") == GROUND, "two surveys")
    tool("export", "a.gpkg", "grid", "out.asc")
    head = dict(line.split() for line in tool.read("out.asc").decode().splitlines()[:5])
    must((float(head["xllcorner"]), float(head["yllcorner"]), float(head["cellsize"])) == (WEST, SOUTH, CELL), "grid")
    tool("export", "a.gpkg", "tif", "out.tif")
    subprocess.run("gdal_translate -q -of AAIGrid out.tif again.asc".split(), cwd=tool.folder, check=True)
    told = subprocess.run(["gdalinfo", "out.tif"], cwd=tool.folder, capture_output=True, check=True).stdout.decode()
    must("25832" in told and f"Origin = ({WEST}.0" in told, "the GeoTIFF's place")
    tool("add", "a.gpkg", "again.asc", "--as", "again")
    must(pixels(tool, "a.gpkg") == other, "there and back by GDAL")
    tool.write("greys.csv", "grey,class,name\n0,0,none\n127 126,1,some\n255,2,all\n")
    tool("init", "g.gpkg", "--classes", "greys.csv")
    tool.write("grey.pgm", pgm([[0, 127], [126, 255]]))
    tool("add", "g.gpkg", "grey.pgm", "--cell", "0.25")
    must(pixels(tool, "g.gpkg") == [[0, 1], [1, 2]] and tool.json("info", "g.gpkg")["cell"] == 0.25, "greys")
    tool("init", "n.gpkg")
    tool.write("holes", grid([[1, 0], [0, 1]], more="NODATA_value 0\n"))
    tool("add", "n.gpkg", "holes", "--nodata", 3)
    must(pixels(tool, "n.gpkg") == [[1, 3], [3, 1]], "no data has no class")


def windows(numbers, count):
    """Windows within, over every edge, and over all."""
    yield from ((0, 0, ROWS, COLUMNS), (-4, -1, 6, 3), (40, 30, 4294967295, 4294967295), (ROWS - 1, COLUMNS - 1, 1, 1))
    for _ in range(count):
        yield (numbers.randrange(-9, ROWS), numbers.randrange(-9, COLUMNS), numbers.randrange(10, 40),
               numbers.randrange(10, 30))


def box_of(top, left, height, width):
    """A box that has just the centres of these pixels."""
    return (WEST + left * CELL + 0.1, NORTH - (top + height) * CELL + 0.1, WEST + (left + width) * CELL - 0.1,
            NORTH - top * CELL - 0.1)


def test_select(tool, window, f, count):
    found = tool.json("select", "a.gpkg", *window, f, "--survey", "spring")
    must(found["blocks"] == len(found["found"]), "select's number")
    pixels_found = set()
    for entry in found["found"]:
        i, j = map(int, entry["sheet"].split("."))
        row, column, side = square_of(entry["key"], SIDE)
        must((entry["row"], entry["column"], entry["side"]) == (row + i * SIDE, column + j * SIDE, side), "its square")
        square = {(entry["row"] + r, entry["column"] + c) for r in range(side) for c in range(side)}
        must(not square & pixels_found, "two blocks overlap")
        must(all(r < ROWS and c < COLUMNS and GROUND[r][c] == f for r, c in square), "a block of another class")
        pixels_found |= square
    must(len(pixels_found) == count, f"select {window} {f}")


def test_windows(tool):
    numbers = random.Random(5)
    for window in windows(numbers, 8):
        seen = seen_in(GROUND, *window)
        report = tool.json("report", "a.gpkg", *window, "--survey", "spring")["classes"]
        must([entry["class"] for entry in report] == sorted(set(seen)), f"report {window}")
        rows = list(csv.DictReader(io.StringIO(tool("areas", "a.gpkg", *window, "--survey", "spring", "--csv"))))
        must([int(row["pixels"]) for row in rows[:-1]] == [seen.count(f) for f in range(CLASSES)], f"areas {window}")
        must(float(rows[-1]["square_metres"]) == CELL * CELL * len(seen), f"metres {window}")
        f = numbers.randrange(CLASSES)
        must(tool.json("exist", "a.gpkg", *window, f, "--survey", "spring")["exists"] == (f in seen), f"exist {window}")
        test_select(tool, window, f, seen.count(f))
        inside = min(window[:2]) >= 0 and window[0] + window[2] <= ROWS and window[1] + window[3] <= COLUMNS
        tool("report", "a.gpkg", *window, "--strict", status=0 if inside else 6)
        boxed = tool.json("areas", "a.gpkg", "--survey", "spring", "--box", *box_of(*window))
        must([entry["pixels"] for entry in boxed["areas"]] == [seen.count(f) for f in range(CLASSES)], f"box {window}")
        must(boxed["total_pixels"] == len(seen), "the total")
    for row, column in ((0, 0), (15, 16), (ROWS - 1, COLUMNS - 1)):
        at = tool.json("at", "a.gpkg", row, column, "--survey", "spring")
        must(at["class"] == GROUND[row][column], "at: the class")
        must(at["row"] <= row < at["row"] + at["side"] and at["column"] <= column < at["column"] + at["side"], "at")
        same = tool.json("at", "a.gpkg", "--survey", "spring", "--xy", at["x"], at["y"])
        must(same == at and at["block"] == f"{at['sheet']}:{at['key']}", "at: by coordinates")
    must(tool.json("exist", "a.gpkg", 0, 0, 16, 16, "field")["exists"] in (True, False), "a class by name")


def test_batch(tool):
    numbers = random.Random(6)
    lines = ["class,ask,row,column,height,width"]
    for window in list(windows(numbers, 12)) + [(ROWS, 0, 2, 2), (-3, 0, 3, 9), (0, 0, 0, 4)]:
        lines += [f"{f},exist,{','.join(map(str, window))}" for f in (0, 4, 9)]
        lines.append(f",report,{','.join(map(str, window))}")
    tool.write("questions.csv", "\r\n".join(lines))
    answers = tool.json("batch", "a.gpkg", "questions.csv", "--survey", "spring")["answers"]
    must(len(answers) == len(lines) - 1, "as many answers as questions")
    for line, answer in zip(lines[1:], answers):
        f, ask, *window = line.split(",")
        seen = seen_in(GROUND, *map(int, window))
        refusal = 6 if not seen else 7 if f == "9" else 0
        must(answer["refusal"] == refusal and bool(answer["words"]) == bool(refusal), f"{line}: the refusal")
        if not refusal and ask == "report":
            must(answer["classes"] == sorted(set(seen)), f"{line}: the classes")
        elif not refusal:
            must(answer["exists"] == (int(f) in seen), f"{line}: whether it exists")
    tool.write("none.csv", "ask,row,column,height,width,class\n")
    must(tool.json("batch", "a.gpkg", "none.csv")["answers"] == [], "no questions")


def painted(ground, window, f):
    top, left, height, width = window
    return [[f if top <= r < top + height and left <= c < left + width else value for c, value in enumerate(row)]
            for r, row in enumerate(ground)]


def test_edits(tool):
    """A random run of edits beside a scan that keeps every state."""
    numbers = random.Random(11)
    states, done = [pixels(tool, "a.gpkg")], 0  # all states up to the last that can be redone, and where we stand
    tool("undo", "a.gpkg", status=11)
    tool("redo", "a.gpkg", status=20)
    for turn in range(24):
        kind = numbers.random()
        if kind < 0.3:
            answer = tool("undo", "a.gpkg", "--json", status=0 if done else 11)
            done -= done > 0
        elif kind < 0.5:
            answer = tool("redo", "a.gpkg", "--json", status=0 if done + 1 < len(states) else 20)
            done += done + 1 < len(states)
        elif kind < 0.65:
            at = tool.json("at", "a.gpkg", numbers.randrange(ROWS), numbers.randrange(COLUMNS))
            window = (at["row"], at["column"], at["side"], at["side"])
            answer = tool("paint", "a.gpkg", at["block"], turn % CLASSES, "--by", "crew 4", "--json")
            states, done = states[: done + 1] + [painted(states[done], window, turn % CLASSES)], done + 1
        else:
            window = next(w for w in iter(lambda: list(windows(numbers, 1))[-1], None) if seen_in(GROUND, *w))
            words = ("--box", *box_of(*window)) if turn % 2 else window
            answer = tool("paint", "a.gpkg", *words, turn % CLASSES, "--json")
            states, done = states[: done + 1] + [painted(states[done], window, turn % CLASSES)], done + 1
        must(pixels(tool, "a.gpkg") == states[done], f"turn {turn}: other pixels")
        if answer:
            must(f'"undo": {done},' in answer and f'"redo": {len(states) - 1 - done}}}' in answer, f"counts: {answer}")
    steps = tool.json("steps", "a.gpkg")
    must((steps["undo"], steps["redo"]) == (done, len(states) - 1 - done), "steps: the counts")
    must([step["done"] for step in steps["steps"]] == [True] * steps["undo"] + [False] * steps["redo"], "steps: done")
    must(all(step["by"] and step["at"].endswith("Z") for step in steps["steps"]), "steps: who and when")
    tool("check", "a.gpkg")
    while done:
        tool("undo", "a.gpkg")
        done -= 1
    must(pixels(tool, "a.gpkg") == states[0] and pixels(tool, "a.gpkg", "--survey", "spring") == GROUND, "all back")
    must(tool.json("forget", "a.gpkg")["undo"] == 0, "forget")
    tool("redo", "a.gpkg", status=20)
    tool("check", "a.gpkg")


def test_tables(tool):
    """Rules, prices and waivers in and out, by office."""
    tool.write("prices.csv", '"class",price\n"ballast, old",2.5\n3,10\n')
    tool("set", "a.gpkg", "prices", "prices.csv")
    areas = tool.json("areas", "a.gpkg", "--survey", "spring")
    flat = sum(GROUND, [])
    must(abs(areas["total_price"] - CELL**2 * (2.5 * flat.count(1) + 10 * flat.count(3))) < 0.01, "the total price")
    must(areas["areas"][0]["price"] is None and areas["areas"][1]["name"] == "ballast, old", "names and prices")
    tool.write("rules.csv", "id,row,column,height,width,class,name\n7,0,0,50,37,4,\"no, \"\"scrub\"\"\nat all\"\n"
               "2,3,3,9,9,field,<b>é\n")
    tool("set", "a.gpkg", "rules", "rules.csv", "--office", 0)
    tool("set", "a.gpkg", "rules", "rules.csv", "--office", 1)
    got = list(csv.DictReader(io.StringIO(tool("get", "a.gpkg", "rules", "--office", 1))))
    must([row["id"] for row in got] == ["2", "7"] and got[1]["name"] == 'no, "scrub"\nat all', "rules")
    must(tool.json("get", "a.gpkg", "rules")["rules"][0]["name"] == "<b>é", "rules as JSON")
    tool.write("waivers.csv", "office,rule,sheet,key,note\n1,7,1.2,1000,\"he said, \"\"fine\"\"\"\n0,2,0.0,0,\n")
    tool("set", "a.gpkg", "waivers", "waivers.csv", "--by", "office")
    for table in ("classes", "rules", "prices", "waivers"):
        tool("get", "a.gpkg", table, "kept.csv")
        content = tool.read("kept.csv")
        tool("set", "a.gpkg", table, "kept.csv")
        tool("get", "a.gpkg", table, "kept.csv")
        must(tool.read("kept.csv") == content and len(content.splitlines()) > 2, f"{table} there and back")
    tool.write("more.csv", CLASS_FILE + "9,ice,\r\n")
    tool("set", "a.gpkg", "classes", "more.csv")
    must(tool.json("info", "a.gpkg")["slots"] == 10, "more classes, more slots")
    must(pixels(tool, "a.gpkg", "--survey", "spring") == GROUND, "more slots leave the pixels")
    tool("paint", "a.gpkg", 0, 0, 1, 1, "ice")
    tool("undo", "a.gpkg")
    tool("check", "a.gpkg")


def test_change(tool):
    other = pixels(tool, "a.gpkg", "--survey", "autumn")
    numbers = random.Random(2)
    table = {(old, new): numbers.randrange(CLASSES) for old in range(CLASSES) for new in range(CLASSES)}
    del table[0, 0]
    tool.write("table.csv", "old,new,class\n" + "".join(f"{a},{b},{c}\n" for (a, b), c in table.items()))
    tool("change", "a.gpkg", "spring", "autumn", "table.csv", status=65, says="the pair 0, 0 is missing")
    tool("change", "a.gpkg", "spring", "autumn", "table.csv", "--else", 2, "--as", "summer")
    wanted = [[table.get(pair, 2) for pair in zip(*rows)] for rows in zip(GROUND, other)]
    must(pixels(tool, "a.gpkg", "--survey", "summer") == wanted, "change")
    tool("check", "a.gpkg")


def test_sheets(tool):
    """A sheet as leaves, bit strings and the library's file."""
    written = tool("export", "a.gpkg", "leaves", "-", "--sheet", "1.2", "--survey", "spring")
    leaves = list(csv.DictReader(io.StringIO(written)))
    for leaf in leaves:
        row, column, side = square_of(leaf["key"], SIDE)
        seen = set(seen_in(GROUND, row + SIDE, column + 2 * SIDE, side, side))
        must(seen <= {int(leaf["class"])}, "a leaf of another class")
    must(sum(square_of(leaf["key"], SIDE)[2] ** 2 for leaf in leaves) == SIDE**2, "the leaves cover the sheet")
    tool("export", "a.gpkg", "bits", "bits", "--sheet", "0.0", "--class", 4, "--survey", "spring")
    must(os.path.getsize(tool.path("bits.nodes")) > 0 and os.path.getsize(tool.path("bits.leaves")) > 0, "bit strings")
    tool("export", "a.gpkg", "hlq", "sheet.hlq", "--sheet", "0.0", "--survey", "spring")
    must(tool.read("sheet.hlq")[:3] == b"HLQ", "the library's file")


def fnv(content):
    digest = 14695981039346656037
    for byte in content:
        digest = (digest ^ byte) * 1099511628211 % 2**64
    return digest


def test_old_map(tool):
    """A map of the first version with its log: what a sheet holds, written as that version wrote it."""
    tool("init", "o.gpkg", "--side", 16, "--slots", 5)
    ground = patches(16, 16, 4)
    tool("add", "o.gpkg", tool.write("o.pgm", pgm(ground)))
    tool("paint", "o.gpkg", 2, 3, 5, 7, 4)
    tool("paint", "o.gpkg", "1000", 2)
    tool("undo", "o.gpkg")
    tool("export", "o.gpkg", "hlq", "old.hlq")
    with sqlite3.connect(tool.path("o.gpkg")) as base:
        log = base.execute("SELECT log_keys, log_values, used, in_force FROM sheets").fetchone()
    keys, values, used, in_force = log
    map_bytes = tool.read("old.hlq")
    log = b"HLQLOG1\n" + struct.pack("<QQQQ", fnv(map_bytes), len(map_bytes), used, in_force)
    log += b"".join(keys[i : i + 4] + values[i : i + 4] for i in range(0, 4 * used, 4))
    tool.write("old.hlq.log", log + struct.pack("<Q", fnv(log)))
    tool("init", "n2.gpkg")
    tool("add", "n2.gpkg", "old.hlq", "--cell", "0.5")
    info = tool.json("info", "n2.gpkg")
    must([info[name] for name in ("rows", "side", "cell", "undo", "redo")] == [16, 16, 0.5, 1, 1], f"old map: {info}")
    must(pixels(tool, "n2.gpkg") == painted(ground, (2, 3, 5, 7), 4), "the old map's pixels")
    tool("undo", "n2.gpkg")
    must(pixels(tool, "n2.gpkg") == ground, "an old step taken back")
    tool("redo", "n2.gpkg")
    tool("redo", "n2.gpkg")
    must(pixels(tool, "n2.gpkg") == painted(painted(ground, (2, 3, 5, 7), 4), (0, 0, 8, 8), 2), "old steps redone")
    tool("check", "n2.gpkg")


def test_geopackage(tool):
    """Other programs read the file."""
    told = subprocess.run(["ogrinfo", "-so", "a.gpkg", "rules"], cwd=tool.folder, capture_output=True).stdout.decode()
    must("Feature Count: 4" in told and "height" in told, f"ogrinfo: {told}")
    with sqlite3.connect(tool.path("a.gpkg")) as base:
        must(base.execute("PRAGMA application_id").fetchone() == (0x47504B47,), "the mark of a GeoPackage")
        must(base.execute("PRAGMA user_version").fetchone() == (10300,), "its version")
        names = {row[0] for row in base.execute("SELECT table_name FROM gpkg_contents")}
        must(names >= {"ground", "windows", "findings", "classes", "rules", "waivers"}, "its layers")
        must(base.execute("PRAGMA journal_mode").fetchone() == ("delete",), "its journal")


def main():
    with work_folder() as folder:
        tool = Tool(sys.argv[1:], folder)
        tool.env["TMPDIR"] = tool.path("temporary")
        os.mkdir(tool.env["TMPDIR"])
        for test in (test_surveys, test_coordinates, test_windows, test_batch, test_edits, test_tables, test_change,
                     test_sheets, test_old_map, test_geopackage):
            test(tool)
        must(not [name for name in os.listdir(folder) if name.endswith((".new", "-journal"))], "something is left")
        must(os.listdir(tool.env["TMPDIR"]) == [], "something is left in the temporary folder")
        print(f"good files: {tool.runs} runs as expected")
        must(tool.runs > 150, "hardly anything was run")


if __name__ == "__main__":
    main()
