#!/usr/bin/env python3
"""Findings, patches and waivers, compared with a scan: patches are filled pixel by pixel, hidden is what the waivers'
squares cover; layers and GeoJSON are read by GDAL's programs: findings.py PROGRAM.."""
import csv
import io
import json
import os
import random
import subprocess
import sys

from support import CLASSES, Tool, fail, grid, must, patches, pgm, square_of, work_folder

SIDE, ROWS, COLUMNS = 16, 50, 61
WEST, SOUTH, CELL = 500000, 5600000, 0.5
NORTH = SOUTH + ROWS * CELL
NAMES = ["field", "ballast", "track", "drain", "scrub"]
PRICE = {4: 1.85, 3: 4.2}
RULES = [(0, 10, 0, 0, ROWS, COLUMNS, 4, "no scrub anywhere"), (0, 20, 5, 7, 30, 40, 3, 'a "drain"; 20 > 10'),
         (0, 30, 16, 16, 16, 16, 4, ""), (0, 4294967295, 49, 60, 1, 1, 0, "the last pixel"),
         (1, 10, 3, 3, 44, 55, 2, "<script>alert(1)</script>"), (1, 15, 0, 0, 1, 1, 1, "the first pixel")]


def ragged(seed, rows=ROWS, columns=COLUMNS):
    """Ground with corners that touch, holes, and patches over many sheets."""
    numbers = random.Random(seed)
    ground = patches(rows, columns, seed)
    for _ in range(rows * columns // 4):
        ground[numbers.randrange(rows)][numbers.randrange(columns)] = numbers.choice((2, 3, 4, 4))
    return ground


def rules_csv(rules):
    out = io.StringIO()
    writer = csv.writer(out)
    writer.writerow("office id row column height width class name".split())
    writer.writerows(rules)
    return out.getvalue()


def make_line(tool, name, ground, rules=RULES):
    classes = "".join(f"{i},{name},{PRICE.get(i, '')}\n" for i, name in enumerate(NAMES))
    tool.write("classes.csv", "class,name,price\n" + classes)
    tool.write("rules.csv", rules_csv(rules))
    tool.write("ground.asc", grid(ground, WEST, SOUTH, CELL))
    tool.write("ground.prj", "")
    subprocess.run("gdal_translate -q -a_srs EPSG:25832 -ot Byte ground.asc ground.tif".split(), cwd=tool.folder,
                   check=True)
    tool("init", name, "--classes", "classes.csv", "--side", SIDE)
    tool("add", name, "ground.tif", "--as", "spring", "--taken", "2026-05-31")
    tool("set", name, "rules", "rules.csv")


def fill(cells):
    """Sets of pixels that hang together side by side."""
    left, groups = set(cells), []
    while left:
        group, front = set(), [min(left)]
        left.discard(front[0])
        while front:
            row, column = front.pop()
            group.add((row, column))
            for near in ((row - 1, column), (row + 1, column), (row, column - 1), (row, column + 1)):
                if near in left:
                    left.discard(near)
                    front.append(near)
        groups.append(group)
    return groups


def block_pixels(block):
    return {(block["row"] + r, block["column"] + c) for r in range(block["side"]) for c in range(block["side"])}


def square_pixels(sheet, key):
    i, j = map(int, sheet.split("."))
    row, column, side = square_of(key, SIDE)
    return {(i * SIDE + row + r, j * SIDE + column + c) for r in range(side) for c in range(side)}


def waived_pixels(tool, line, office):
    """Of each rule, from the table that get writes."""
    found = {}
    for row in csv.DictReader(io.StringIO(tool("get", line, "waivers", "--office", office))):
        found.setdefault(int(row["rule"]), set()).update(square_pixels(row["sheet"], row["key"]))
    return found


def check_patch(told, group, rule, state, blocks):
    rows, columns = [r for r, _ in group], [c for _, c in group]
    first = min(group)
    wanted = {"rule": rule[1], "class": NAMES[rule[6]], "state": state, "row": first[0], "column": first[1],
              "pixels": len(group), "square_metres": len(group) * CELL * CELL,
              "blocks": sum(1 for b in blocks if block_pixels(b) <= group), "top": min(rows), "left": min(columns),
              "bottom": max(rows) + 1, "right": max(columns) + 1, "west": WEST + min(columns) * CELL,
              "south": NORTH - (max(rows) + 1) * CELL, "east": WEST + (max(columns) + 1) * CELL,
              "north": NORTH - min(rows) * CELL}
    must(told == wanted, f"a patch is told as {told}, not {wanted}")


def check_line(tool, line, ground, office=0, rules=RULES):
    """The whole answer against the scan; gives it."""
    rules = [r for r in rules if r[0] == office]
    told = tool.json("findings", line, "--office", office, "--blocks", "--all")
    waived = waived_pixels(tool, line, office)
    wanted, live_pixels, hidden_pixels, price = [], 0, 0, 0
    for number, rule in enumerate(rules):
        _, id, top, left, height, width, what, name = rule
        blocks = [b for b in told["findings"] if b["rule"] == id]
        cells = {(r, c) for r in range(top, top + height) for c in range(left, left + width) if ground[r][c] == what}
        must(cells == set().union(*map(block_pixels, blocks)) and len(cells) == sum(b["side"] ** 2 for b in blocks),
             f"rule {id}: its blocks are not its pixels")
        for b in blocks:
            must(square_pixels(b["sheet"], b["key"]) == block_pixels(b) and b["class"] == NAMES[what], "its place")
            must((b["state"] == "hidden") == (block_pixels(b) <= waived.get(id, set())), f"the state of {b}")
        states = {}
        for state in ("live", "hidden"):
            of_state = [b for b in blocks if b["state"] == state]
            states[state] = fill(set().union(*map(block_pixels, of_state)))
            wanted += [(number, min(group), group, rule, state, of_state) for group in states[state]]
        counts = {state: (sum(b["state"] == state for b in blocks), sum(map(len, states[state]))) for state in states}
        live_pixels, hidden_pixels = live_pixels + counts["live"][1], hidden_pixels + counts["hidden"][1]
        total = {"rule": id, "name": name, "class": NAMES[what], "live_patches": len(states["live"]),
                 "live_blocks": counts["live"][0], "live_pixels": counts["live"][1],
                 "live_square_metres": counts["live"][1] * CELL * CELL, "hidden_blocks": counts["hidden"][0],
                 "hidden_pixels": counts["hidden"][1], "price": PRICE.get(what), "total": None}
        if what in PRICE:
            total["total"] = counts["live"][1] * CELL * CELL * PRICE[what]
            price += total["total"]
        got = dict(told["rules"][number])
        must(abs((got.pop("total") or 0) - (total.pop("total") or 0)) < 1e-6 and got == total, f"{got}, not {total}")
    wanted.sort(key=lambda w: w[:2])
    must(len(told["patches"]) == len(wanted), "the number of patches")
    for patch, (_, _, group, rule, state, blocks) in zip(told["patches"], wanted):
        check_patch(patch, group, rule, state, blocks)
    must((told["office"], told["live_pixels"], told["hidden_pixels"]) == (office, live_pixels, hidden_pixels), "totals")
    must((told["live"], told["hidden"]) == tuple(sum(b["state"] == s for b in told["findings"])
                                                 for s in ("live", "hidden")), "blocks")
    must(abs(told["total_price"] - price) < 1e-6, "the price of the line")
    live = tool.json("findings", line, "--office", office)
    must("findings" not in live and live["patches"] ==
         [p for p in told["patches"] if p["state"] == "live"], "live alone")
    return told


def test_patches(tool):
    for seed in range(3):
        ground = ragged(seed)
        line = f"p{seed}.gpkg"
        make_line(tool, line, ground)
        for office in (0, 1):
            check_line(tool, line, ground, office)
    rows = list(csv.DictReader(io.StringIO(tool("findings", line, "--csv"))))
    told = tool.json("findings", line)
    must([int(r["pixels"]) for r in rows] == [p["pixels"] for p in told["patches"]], "patches as CSV")
    rows = list(csv.DictReader(io.StringIO(tool("findings", line, "--csv", "--blocks"))))
    must(len(rows) == told["live"], "blocks as CSV")
    must("square metres" in tool("findings", line), "for people")
    return line, ground


def test_at(tool, line):
    """The patches at a pixel are those that have it."""
    told = {office: tool.json("findings", line, "--office", office, "--all", "--blocks") for office in (0, 1)}
    numbers = random.Random(6)
    for _ in range(6):
        row, column = numbers.randrange(ROWS), numbers.randrange(COLUMNS)
        wanted = []
        for office, answer in told.items():
            for rule in answer["rules"]:
                blocks = [b for b in answer["findings"] if b["rule"] == rule["rule"]]
                if not any((row, column) in block_pixels(b) for b in blocks):
                    continue
                group = next(g for g in fill(set().union(*map(block_pixels, blocks))) if (row, column) in g)
                wanted.append((office, rule["rule"], *min(group), len(group)))
        at = tool.json("at", line, row, column)["patches"]
        must([(p["office"], p["rule"], p["row"], p["column"], p["pixels"]) for p in at] == wanted, f"at {row} {column}")


def test_exit(tool, line):
    for more, status in (((), 0), (("--exit-live",), 32)):
        done = subprocess.run(tool.program + ["findings", line, *more], cwd=tool.folder, env=tool.env,
                              capture_output=True)
        must(done.returncode == status and not done.stderr, f"findings {more}: status {done.returncode}")
    tool.write("none.csv", rules_csv([]))
    tool("init", "none.gpkg", "--side", SIDE)
    tool("findings", "none.gpkg", status=64, says="no survey")
    tool.write("small.pgm", pgm([[0] * 5] * 4))
    tool("add", "none.gpkg", "small.pgm")
    tool("findings", "none.gpkg", "--exit-live")  # no rule finds nothing


def test_edge(tool):
    """A rule that was good, and the survey after it is smaller."""
    tool("init", "e.gpkg", "--side", SIDE)
    tool.write("r.csv", rules_csv([(0, 7, 0, 0, 5, 5, 1, "over the edge")]))
    tool("set", "e.gpkg", "rules", "r.csv")
    tool("add", "e.gpkg", "small.pgm")
    tool("findings", "e.gpkg", status=13, says="rule 7: its window reaches over the survey's southern edge")
    tool("publish", "e.gpkg", status=13, says="rule 7")


def test_waivers(tool, line, ground):
    told = check_line(tool, line, ground)
    tool("waive", line, 10, "0.0:1111", status=64, says="--office")
    tool("waive", line, 10, "--office", 0, status=64, says="one of BLOCK")
    tool("waive", line, 10, "0.0:1111", "--patch", 1, 1, "--office", 0, status=64, says="one of BLOCK")
    tool("waive", line, 99, "0.0:1111", "--office", 0, status=14, says="no rule 99")
    tool("waive", line, 20, "--patch", 0, 0, "--office", 0, status=64, says="finds nothing at row 0, column 0")
    tool("waive", line, 20, "--patch", 0, 999, "--office", 0, status=6)
    tool("waive", line, 20, 45, 0, 4, 4, "--office", 0, status=64, says="finds nothing in this window")
    largest = sorted(told["patches"], key=lambda p: p["blocks"] * (p["rule"] == 10))
    patch, other = largest[-1], [p for p in told["patches"] if p["rule"] == 20][0]
    must(patch["blocks"] > 3, "the ground has no patch of many blocks")
    for p in (patch, other):
        done = tool.json("waive", line, p["rule"], "--patch", p["row"], p["column"], "--office", 0,
                         "--note", 'agreed, "May"', "--by", "anna")
        must(done["added"] == p["blocks"], f"waive --patch: {done}")
        now = check_line(tool, line, ground)
        must({**p, "state": "hidden"} in now["patches"], "the patch is hidden, whole")
    must(done["rows"] == patch["blocks"] + other["blocks"], "rows of the office")
    must(tool.json("waive", line, patch["rule"], "--patch", patch["row"], patch["column"], "--office", 0)["added"] == 0,
         "a patch twice")
    rows = list(csv.DictReader(io.StringIO(tool("get", line, "waivers"))))
    must({(r["note"], r["by"]) for r in rows} == {('agreed, "May"', "anna")}, "note and who")
    one = rows[0]
    name = f"{one['sheet']}:{one['key']}"
    tool("waive", line, one["rule"], name, "--office", 0, status=22)
    must(tool.json("unwaive", line, one["rule"], name, "--office", 0)["removed"] == 1, "a block less")
    tool("unwaive", line, one["rule"], name, "--office", 0, status=22)
    check_line(tool, line, ground)
    done = tool.json("unwaive", line, other["rule"], "--patch", other["row"], other["column"], "--office", 0)
    must(done["removed"] == other["blocks"] - (one["rule"] == str(other["rule"])), "unwaive --patch")
    tool("unwaive", line, other["rule"], "--patch", other["row"], other["column"], "--office", 0, status=22)
    tool("unwaive", line, 10, 0, 0, ROWS, COLUMNS, "--office", 0)
    tool("unwaive", line, 10, 0, 0, ROWS, COLUMNS, "--office", 0, status=22, says="no waiver lies in it")
    must(check_line(tool, line, ground)["patches"] == told["patches"], "all waivers taken back")
    # a window: what lies in it is hidden, what it cuts is not
    done = tool.json("waive", line, 10, 8, 9, 20, 21, "--office", 0)
    now = check_line(tool, line, ground)
    inside = [b for b in now["findings"] if b["rule"] == 10 and b["row"] >= 8 and b["row"] + b["side"] <= 28
              and b["column"] >= 9 and b["column"] + b["side"] <= 30]
    must(inside and all(b["state"] == "hidden" for b in inside) and
         now["hidden"] == len(inside) <= done["added"], "waive a window")
    box = (WEST + 9 * CELL, NORTH - 28 * CELL, WEST + 30 * CELL, NORTH - 8 * CELL)
    tool("unwaive", line, 10, "--box", *box, "--office", 0)
    must(check_line(tool, line, ground)["patches"] == told["patches"], "a window taken back")
    # a whole block, whatever lies in it; an office of its own
    tool("waive", line, 10, "0.0:0", "--office", 0)
    tool("waive", line, 10, "1.1:@0", "--office", 1)
    check_line(tool, line, ground)
    check_line(tool, line, ground, 1)
    tool("waive", line, 10, "9.0:0", "--office", 0, status=64, says="there is no sheet 9.0")


def test_many(tool):
    """More rows than an office has on a sheet: 257 points, none beside another."""
    side = 64
    ground = [[1 if r % 2 == 0 and c % 2 == 0 else 0 for c in range(70)] for r in range(side)]
    tool.write("many.pgm", pgm(ground))
    tool("init", "many.gpkg", "--side", side)
    tool("add", "many.gpkg", "many.pgm")
    tool.write("r.csv", rules_csv([(0, 1, 0, 0, side, 70, 1, "")]))
    tool("set", "many.gpkg", "rules", "r.csv")
    must(tool.json("waive", "many.gpkg", 1, 0, 0, 16, 64, "--office", 0)["added"] == 256, "256 rows")
    before = tool("get", "many.gpkg", "waivers")
    tool("waive", "many.gpkg", 1, 0, 0, 18, 70, "--office", 0, status=12,
         says="sheet 0.0 needs 288 rows of office 0, which has 256 there and may have 256; nothing was added")
    must(tool("get", "many.gpkg", "waivers") == before, "nothing was added")
    must(tool.json("waive", "many.gpkg", 1, 0, 64, 64, 6, "--office", 0)["added"] == 96, "another sheet has room")
    told = tool.json("findings", "many.gpkg")
    must((told["hidden"], told["live"]) == (352, 32 * 35 - 352), "what is hidden")


def ogr(tool, *words):
    return subprocess.run(list(words), cwd=tool.folder, check=True, capture_output=True).stdout.decode()


def areas_by_gdal(tool, file, layer):
    """The patches as GDAL reads them, with its own areas, its own check of their shapes and its boxes."""
    sql = (f"SELECT rule, class, state, pixels, square_metres, ST_Area(geom) AS area, ST_IsValid(geom) AS valid,"
           f" ST_MinX(geom) AS west, ST_MaxY(geom) AS north FROM {layer} WHERE office = 0 ORDER BY rule, state")
    text = ogr(tool, "ogr2ogr", "-q", "-f", "CSV", "/vsistdout/", file, "-dialect", "SQLITE", "-sql",
               sql if file.endswith("gpkg") else sql.replace("(geom)", "(geometry)"))
    return list(csv.DictReader(io.StringIO(text)))


def same_patches(rows, told):
    must(all(row["valid"] == "1" and float(row["area"]) == float(row["square_metres"]) for row in rows),
         "GDAL has other areas, or shapes that are none")
    names = ("rule", "class", "state", "pixels", "square_metres", "west", "north")
    ours = sorted(tuple(p[name] for name in names) for p in told)
    theirs = sorted((int(r["rule"]), r["class"], r["state"], int(r["pixels"]), float(r["area"]), float(r["west"]),
                     float(r["north"])) for r in rows)
    must(ours == theirs, "GDAL has other patches")


def test_layers(tool, line):
    told = tool.json("findings", line, "--all", "--save", "--geojson", "all.json")["patches"]
    must({p["state"] for p in told} == {"live", "hidden"}, "live and hidden ones")
    same_patches(areas_by_gdal(tool, line, "findings"), told)
    same_patches(areas_by_gdal(tool, "all.json", "findings"), told)
    tool("findings", line, "--geojson", "live.json")
    same_patches(areas_by_gdal(tool, "live.json", "findings"), [p for p in told if p["state"] == "live"])
    must("25832" in ogr(tool, "ogrinfo", "-so", "live.json", "findings"), "GeoJSON's coordinate system")
    document = json.loads(tool.read("live.json"))
    must(document["crs"]["properties"]["name"] == "urn:ogc:def:crs:EPSG::25832", "its name")
    tool("findings", line, "--geojson", line, status=73, says="is an input of this command")
    tool("findings", line, "--geojson", "rules.csv", status=73, says="is not GeoJSON")
    made = tool.json("publish", line)
    must((made["ground"], made["windows"]) == (16, len(RULES)), f"publish: {made}")
    other = tool.json("findings", line, "--office", 1, "--all")["patches"]
    must(made["findings"] == len(told) + len(other), "the patches of both offices")
    same_patches(areas_by_gdal(tool, line, "findings"), told)
    layers = ogr(tool, "ogrinfo", "-so", "-al", line)
    for words in ("Layer name: windows", "Layer name: findings", "Layer name: rules", "Geometry: Multi Polygon",
                  "25832"):
        must(words in layers, f"ogrinfo does not say {words}")
    must("<script>" in ogr(tool, "ogrinfo", "-al", line, "windows"), "a rule's name as it is")
    ground = json.loads(ogr(tool, "gdalinfo", "-json", line))
    must(ground["geoTransform"][0] == WEST and ground["geoTransform"][3] == NORTH and ground["geoTransform"][1] == CELL,
         f"gdalinfo: {ground['geoTransform']}")
    must(ground["size"] == [COLUMNS, ROWS], f"the size of the ground: {ground['size']}")
    tool("check", line)


def test_ground(tool, line, ground):
    """The tiles' colours are the classes'."""
    ogr(tool, "gdal_translate", "-q", "-of", "PNM", "-b", "1", "-b", "2", "-b", "3", line, "g.ppm")
    head, data = tool.read("g.ppm").split(b"255\n", 1)
    seen = {}
    for row in range(ROWS):
        for column in range(COLUMNS):
            colour = data[3 * (row * COLUMNS + column) :][:3]
            must(seen.setdefault(ground[row][column], colour) == colour, "a class has two colours")
    must(len(set(seen.values())) == len(seen) == CLASSES, "classes share a colour")


def main():
    with work_folder() as folder:
        tool = Tool(sys.argv[1:], folder)
        line, ground = test_patches(tool)
        test_at(tool, line)
        test_exit(tool, line)
        test_edge(tool)
        test_waivers(tool, line, ground)
        test_many(tool)
        test_layers(tool, line)
        test_ground(tool, line, ground)
        print(f"findings, patches, waivers, layers: {tool.runs} runs as a scan and GDAL have it")


if __name__ == "__main__":
    main()
