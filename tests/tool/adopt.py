#!/usr/bin/env python3
"""Waivers by place become waivers by block: the story of examples/story.c on files, and places at random against lists
that are built here: adopt.py PROGRAM.."""
import os
import random
import re
import sys

from findings import rules_csv
from support import Tool, must, patches, pgm, square_of, work_folder

ROOT = os.path.abspath(os.path.join(os.path.dirname(__file__), "..", ".."))
STORY = [[0, 0, 1, 1], [0, 0, 1, 2], [2, 2, 0, 0], [2, 2, 2, 0]]


def records(ground, key="", row=0, column=0, side=None):
    """The list of a square raster as the library has it: a record a node, the parent before its quarters, by key."""
    side = side or len(ground)
    digits = len(ground).bit_length() - 1
    seen = {ground[r][c] for r in range(row, row + side) for c in range(column, column + side)}
    found = [(key.ljust(digits, "0"), row, column, side, seen)]
    if len(seen) > 1:
        half = side // 2
        for digit, (down, across) in enumerate(((0, 0), (0, half), (half, 0), (half, half)), 1):
            found += records(ground, key + str(digit), row + down, column + across, half)
    return found


def findings(tool, line):
    told = tool.json("findings", line, "--all", "--blocks")
    return [b["key"] for b in told["findings"] if b["state"] == "live"], told["hidden"]


def test_story(tool):
    """What the example says of its map, a line says of its file."""
    with open(os.path.join(ROOT, "examples", "story.expected")) as file:
        told = [(live.split(), int(hidden)) for live, hidden in re.findall(r"live: ?(.*); hidden: (\d+)", file.read())]
    tool("init", "story.gpkg", "--side", 4, "--slots", 3)
    tool("add", "story.gpkg", tool.write("story.pgm", pgm(STORY)), "--as", "that day")
    tool.write("rules.csv", rules_csv([(0, 7, 0, 0, 4, 4, 2, "no scrub anywhere")]))
    tool("set", "story.gpkg", "rules", "rules.csv")
    tool("export", "story.gpkg", "hlq", "old.hlq", "--sheet", "0.0")
    tool.write("places.csv", "office,rule,place,note\n0,7,7,agreed\n")
    tool("paint", "story.gpkg", "24", 1)  # five records become one
    done = tool.json("adopt", "story.gpkg", "old.hlq", "places.csv")
    must((done["read"], done["added"], done["slid"]) == (1, 1, 1), f"adopt: {done}")
    row = done["places"][0]
    must((row["key"], row["row"], row["column"], row["side"], row["class"]) == ("30", 2, 0, 2, "class 2"), "given for")
    must((row["today_key"], row["slid"]) == ("43", True), "what stands there today")
    must(findings(tool, "story.gpkg") == told[1], "cleared")
    tool("undo", "story.gpkg")
    must(findings(tool, "story.gpkg") == told[0], "taken back")
    again = tool.json("adopt", "story.gpkg", "old.hlq", "places.csv")
    must((again["added"], again["slid"]) == (0, 0), "a second time, on the list of that day")
    tool("unwaive", "story.gpkg", 7, "30", "--office", 0)
    for quarter in ("21", "22", "23", "24"):
        tool("waive", "story.gpkg", 7, quarter, "--office", 0)
    must(findings(tool, "story.gpkg") == told[3], "four siblings")
    for quarter in ("21", "22", "23"):
        tool("paint", "story.gpkg", quarter, 2)
    must(findings(tool, "story.gpkg") == told[4], "scrub fills the gap")


def test_random(tool):
    """212 places of a map of 32 by 32, on a line of sheets of 16; the ground has changed since."""
    numbers = random.Random(4)
    side = 32
    old = patches(side, side, 21)
    for _ in range(150):
        old[numbers.randrange(side)][numbers.randrange(side)] = 4
    tool("init", "whole.gpkg", "--side", side, "--slots", 5)
    tool("add", "whole.gpkg", tool.write("old.pgm", pgm(old)))
    tool("export", "whole.gpkg", "hlq", "old.hlq", "--sheet", "0.0")
    new = [list(row) + [0] * 9 for row in old] + [[0] * 41 for _ in range(5)]
    for _ in range(3):
        new[numbers.randrange(20, side)][numbers.randrange(side)] = 3
    then, now = records(old), records([row[:side] for row in new[:side]])
    places = sorted(numbers.sample(range(len(then)), 212))
    tool.write("places.csv", "place,rule,office\n" + "".join(f"{p},9,{p % 2}\n" for p in places))
    tool("init", "line.gpkg", "--side", 16, "--slots", 5)
    tool("add", "line.gpkg", tool.write("new.pgm", pgm(new)))
    tool("adopt", "line.gpkg", "old.hlq", "places.csv", status=14, says="office 0 has no rule 9")
    tool.write("rules.csv", rules_csv([(office, 9, 0, 0, 37, 41, 4, "") for office in (0, 1)]))
    tool("set", "line.gpkg", "rules", "rules.csv")
    done = tool.json("adopt", "line.gpkg", "old.hlq", "places.csv")
    slid = [p for p in places if p >= len(now) or now[p][0] != then[p][0]]
    must(0 < len(slid) < 212 and done["slid"] == len(slid), f"slid: {done['slid']}, not {len(slid)}")
    for p, row in zip(places, done["places"]):
        must((row["key"], row["row"], row["column"], row["side"]) == then[p][:4], f"place {p} of that day: {row}")
        if p < len(now):
            must((row["today_key"], row["today_row"], row["today_column"], row["today_side"]) == now[p][:4],
                 f"place {p} of today: {row}")
        else:
            must(row["today_key"] is None, "no such place today")
        must(row["slid"] == (p in slid), f"place {p}")
    wanted = {(p % 2, r, c) for p in places for r in range(then[p][1], then[p][1] + then[p][3])
              for c in range(then[p][2], then[p][2] + then[p][3])}
    got, rows = set(), 0
    for line in tool("get", "line.gpkg", "waivers").splitlines()[1:]:
        office, _, sheet, key = line.split(",")[:4]
        i, j = map(int, sheet.split("."))
        row, column, size = square_of(key, 16)
        got |= {(int(office), i * 16 + row + r, j * 16 + column + c) for r in range(size) for c in range(size)}
        rows += 1
    must(got == wanted and rows == done["added"], "the waivers' pixels are those of the places")
    tool.write("bad.csv", f"office,rule,place\n0,9,{len(then)}\n")
    tool("adopt", "line.gpkg", "old.hlq", "bad.csv", status=65, says=f"bad.csv, line 2: place {len(then)}")
    tool.write("bad.csv", "office,rule,place\n2,9,0\n")
    tool("adopt", "line.gpkg", "old.hlq", "bad.csv", status=21)
    tool("adopt", "line.gpkg", "bad.csv", "bad.csv", status=16)
    return len(slid)


def main():
    with work_folder() as folder:
        tool = Tool(sys.argv[1:], folder)
        test_story(tool)
        slid = test_random(tool)
        print(f"adopt: the story on files, and 212 places of which {slid} had slid: as expected")


if __name__ == "__main__":
    main()
