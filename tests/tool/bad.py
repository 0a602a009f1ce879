#!/usr/bin/env python3
"""Every command on bad files and bad command lines: bad.py PROGRAM.. Each case names the status and a word of the
message that it must give; that nothing worse happens is for the sanitizers to see."""
import os
import random
import shutil
import sqlite3
import subprocess
import sys

from support import Tool, grid, must, patches, pgm, work_folder

USAGE, DATA, NO_INPUT, MISSING, CANNOT_CREATE, IO = 64, 65, 66, 69, 73, 74
GRID = "ncols 2\nnrows 2\nxllcorner 0\nyllcorner 0\ncellsize 1\nNODATA_value -9999\n"
ROWS, COLUMNS, SIDE = 11, 7, 4
GROUND = patches(ROWS, COLUMNS, 5)

SURVEYS = [  # content, words of the message
    (b"", "is empty"),
    (b"P", "prowcurl: "),
    (b"P5", "prowcurl: "),
    (b"P9\n2 2\n255\n0000", "prowcurl: "),
    (b"P6\n2 2\n255\n" + bytes(12), "prowcurl: "),
    (b"P4\n8 8\n" + bytes(8), "P5 or P2"),
    (b"P1\n2 2\n0 1 1 0\n", "P5 or P2"),
    (b"P5\n2 2\n65535\n" + bytes(8), "not an 8-bit PGM"),
    (b"P5\n2 2\n0\n" + bytes(4), "prowcurl: "),
    (b"P5\nx 2\n255\n" + bytes(4), "prowcurl: "),
    (b"P5\n-2 -2\n255\n" + bytes(4), "prowcurl: "),
    (b"P5\n0 2\n255\n", "prowcurl: "),
    (b"P5\n1048577 1\n255\n" + bytes(1048577), "a survey has up to 1048576 of each"),
    (b"P5\n99999999999999999999 99999999999999999999\n255\n", "prowcurl: "),
    (b"P5\n4 4\n255\n" + bytes(9), "row 2, column 1: the file ends here"),
    (b"P5\n4 4\n255\n" + bytes(17), "more follows the last pixel"),
    (b"P5\n2 2\n255\n\0\1\x28\0", "row 1, column 0: 40 is no class: they go from 0 to 31"),
    (b"P5\n2 2\n7\n\0\1\0\x08", "row 1, column 1: grey 8 is above the file's maxval 7"),
    (b"P2\n2 2\n255\n0 1 2", "row 1, column 1: "),
    (b"P2\n2 2\n255\n0 1 x 2\n", "row 1, column 0: "),
    (b"P2\n2 2\n255\n0 300 1 2\n", "row 0, column 1: "),
    (b"P2\n2 2\n255\n0 1 2 3 4\n", "more follows the last pixel"),
    (GRID + "0 1\n2", "row 1, column 1: the file ends here"),
    (GRID + "0 1\n2 3 4", "more follows the last cell"),
    (GRID + "0 1\n-9999 -9999", "2 cells without data, the first at row 1, column 0; --nodata CLASS"),
    (GRID + "0 1\n1.5 1", "row 1, column 0: 1.5 is no class"),
    (GRID + "0 -1\n1 1", "row 0, column 1: -1 is no class"),
    (GRID + "0 x\n1 1", "row 0, column 1: 'x' is not a number"),
    (GRID + "0 1e300\n1 1", "row 0, column 1: 1e300 is no class"),
    (GRID + "0 nan\n1 1", "row 0, column 1: 'nan' is not a number"),
    (GRID + "0 99999999999999999999\n1 1", "row 0, column 1: "),
    (GRID + "0 1\n1 " + "1" * 500, "row 1, column 1: "),
    (GRID.replace("cellsize 1", "dx 1\ndy 2") + "0 1 1 1", "the cells are not square"),
    (GRID.replace("cellsize 1", "cellsize -1") + "0 1 1 1", "cellsize is -1"),
    ("ncols 2\n0 1\n1 1\n", "begins with ncols and nrows"),
    ("ncols 2\nnrows\n", "'nrows' has no number"),
    ("ncols 2.5\nnrows 2\n", "ncols is 2.5"),
    ("ncols 0\nnrows 2\n", "has no pixel"),
    ("ncols 1e30\nnrows 1e30\n0", "ncols is 1e"),
    ("ncols 2\nnrows 1048577\n0", "up to 1048576"),
    ("ncols 2\nnrows 2\ncolour 4\n0", "no word of an ESRI"),
    (b"ncols 2\nnrows 2\n0 \0 1 1", "zero byte"),
    (b"XX", "gdalinfo fails"),
    (b"II*\0 and no more", "gdalinfo fails"),
]


def test_surveys(tool):
    before = tool.read("a.gpkg")
    tool("init", "bad.gpkg", "--side", 64)
    for content, says in SURVEYS:
        tool.write("bad", content)
        tool("add", "bad.gpkg", "bad", status=DATA, says=says)
    must(tool.json("info", "bad.gpkg")["surveys"] == [], "a bad survey comes in")
    tool("add", "bad.gpkg", "nothing", status=NO_INPUT)
    tool("add", "bad.gpkg", ".", status=NO_INPUT)
    tool("add", "bad.gpkg", "-", status=DATA, stdin=b"II*\0", says="neither a PGM nor an ESRI")
    tool.write("holes", GRID + "0 1\n2 -9999")
    tool("add", "bad.gpkg", "holes", "--nodata", "scrub", status=USAGE, says="neither a number nor the name of a class")
    tool("add", "bad.gpkg", "holes", "--nodata", 77, status=7)
    for day in ("31.5.2026", "2026-13-01", "2026-01-32", "", "2026-1-1", "x"):
        tool("add", "bad.gpkg", "holes", "--taken", day, status=USAGE, says="--taken")
    tool.write("other.pgm", pgm(patches(ROWS, COLUMNS + 1, 1)))
    tool("add", "a.gpkg", "other.pgm", status=DATA, says="but the line has")
    tool.write("other.asc", grid(GROUND, 1, 0))
    tool("add", "a.gpkg", "other.asc", status=DATA, says="its north-west corner is")
    tool.write("other.asc", grid(GROUND, 0, 0, 2))
    tool("add", "a.gpkg", "other.asc", status=DATA, says="cells of 2, but the line's have 1")
    tool("add", "a.gpkg", "a.pgm", status=USAGE, says="has a survey 'a'; --as NAME")
    tool("add", "a.gpkg", "a.pgm", "--as", "", status=USAGE, says="--as")
    tool("add", "a.gpkg", "a.pgm", "--as", "b", "--cell", 0, status=USAGE, says="--cell")
    must(tool.read("a.gpkg") == before, "a refused survey changes the line")
    tool("add", "bad.gpkg", tool.write("wide.pgm", pgm([[0] * 1048576])))  # the widest there is
    must(tool.json("areas", "bad.gpkg", 0, 1048575, 9, 9)["total_pixels"] == 1, "the widest survey")


def translated(tool, name, *words):
    subprocess.run(["gdal_translate", "-q", *words, "g.asc", name], cwd=tool.folder, check=True,
                   stderr=subprocess.DEVNULL)


def test_gdal(tool):
    """What GDAL reads and we do not take; GDAL missing and failing."""
    tool.write("g.asc", GRID + "0 1\n2 -9999")
    tool("init", "g.gpkg")
    for name, words, says in (
            ("two.tif", ["-b", "1", "-b", "1"], "has 2 bands"),
            ("turned.vrt", ["-of", "VRT"], "is turned"),
            ("flat.tif", ["-a_ullr", "0", "2", "4", "0"], "not square"),
            ("none.tif", ["-ot", "Int16"], "1 cells without data, the first at row 1, column 1"),
            ("half.tif", ["-ot", "Float32", "-scale", "0", "2", "0", "1"], "0.5 is no class"),
            ("big.tif", ["-ot", "Int32", "-scale", "0", "1", "0", "70000"], "70000 is no class"),
            ("south.tif", ["-a_ullr", "0", "0", "2", "2"], "not north up")):
        translated(tool, name, *words)
        if name == "turned.vrt":
            head, _, rest = tool.read(name).decode().partition("<GeoTransform>")
            numbers, _, rest = rest.partition("</GeoTransform>")
            must(numbers.count(",") == 5, "a VRT's place")
            tool.write(name, f"{head}<GeoTransform>0.0, 1.0, 0.5, 2.0, 0.5, -1.0</GeoTransform>{rest}")
        tool("add", "g.gpkg", name, status=DATA, says=says)
    translated(tool, "byte.tif", "-ot", "Byte", "-a_nodata", "none", "-co", "NBITS=4")
    tool("add", "g.gpkg", "byte.tif")
    empty = os.path.join(tool.folder, "empty")
    os.mkdir(empty)
    old = tool.env["PATH"]
    tool.env["PATH"] = empty
    tool("add", "g.gpkg", "none.tif", status=MISSING, says="Debian's package gdal-bin")
    tool("export", "g.gpkg", "tif", "out.tif", status=MISSING, says="gdal-bin")
    tool.write("empty/gdalinfo", "#!/bin/sh\necho 'no luck today' >&2\nexit 3\n")
    os.chmod(os.path.join(empty, "gdalinfo"), 0o755)
    tool("add", "g.gpkg", "none.tif", status=DATA, says="no luck today")
    tool.write("empty/gdalinfo", "#!/bin/sh\necho 'no json'\n")
    tool("add", "g.gpkg", "none.tif", status=DATA, says="no JSON")
    tool.env["PATH"] = old
    must(not [name for name in os.listdir(tool.folder) if name.endswith(".new")], "an output that failed is left")


READS = ["info L", "check L", "at L 0 0", "report L 0 0 1 1", "areas L", "select L 0 0 9 9 1", "steps L",
         "export L pgm out.pgm", "get L rules", "batch L questions.csv"]
WRITES = ["paint L 0 0 1 1 1", "undo L", "redo L", "forget L", "set L rules rules.csv --office 0", "add L a.pgm --as n",
          "change L a a table.csv --else 0 --as n2"]


def test_no_lines(tool):
    """Files that are no line, or one that cannot be read or written."""
    tool.write("questions.csv", "ask,row,column,height,width,class\nexist,0,0,4,4,1\n")
    tool.write("rules.csv", "id,row,column,height,width,class\n1,0,0,4,4,1\n")
    tool.write("table.csv", "old,new,class\n1,1,0\n")
    for name in ("other.db", "newer.gpkg", "rowless.gpkg", "odd.gpkg"):
        if name == "other.db":
            base = sqlite3.connect(tool.path(name))
            base.execute("CREATE TABLE t (x)")
        else:
            shutil.copy(tool.path("a.gpkg"), tool.path(name))
            base = sqlite3.connect(tool.path(name))
            base.execute({"newer.gpkg": "UPDATE prowcurl SET format = 2", "rowless.gpkg": "DELETE FROM prowcurl",
                          "odd.gpkg": "UPDATE prowcurl SET m = 77"}[name])
        base.commit()
        base.close()
    tool.write("text.gpkg", "no database at all, but long enough to look at" * 30)
    tool.write("empty.gpkg", "")
    tool.write("cut.gpkg", tool.read("a.gpkg")[:5000])
    for name, says in (("text.gpkg", "no database"), ("other.db", "not a line"), ("newer.gpkg", "a line of format 2"),
                       ("rowless.gpkg", "no row"), ("odd.gpkg", "no line has"), ("empty.gpkg", "not a line"),
                       ("cut.gpkg", "prowcurl: ")):
        before = tool.read(name)
        for command in READS + WRITES:
            tool(*command.replace("L", name).split(), status=DATA, says=says)
        must(tool.read(name) == before, f"{name} was changed")
    for command in READS + WRITES:
        tool(*command.replace("L", "nothing.gpkg").split(), status=NO_INPUT, says="'prowcurl init' makes a line")
        any_end(tool, command.replace("L", ".").split())
    tool("init", "a.gpkg", status=CANNOT_CREATE, says="is there")
    tool("init", "no/folder.gpkg", status=CANNOT_CREATE)


def sheets_changed(tool, sql, *values):
    shutil.copy(tool.path("a.gpkg"), tool.path("spoilt.gpkg"))
    base = sqlite3.connect(tool.path("spoilt.gpkg"))
    base.execute(sql, values)
    base.commit()
    base.close()


def test_sheets(tool):
    """A sheet's bytes changed, cut, or exchanged with another's: each byte of a small one."""
    tool("paint", "a.gpkg", 0, 0, 3, 3, 2)
    base = sqlite3.connect(tool.path("a.gpkg"))
    where = "WHERE survey = 1 AND sheet_row = 0 AND sheet_column = 0"
    row = base.execute(f"SELECT list, log_keys, log_values, used, in_force FROM sheets {where}").fetchone()
    base.close()
    changed = 0
    for column, content in zip(("list", "log_keys", "log_values"), row):
        for place in range(len(content)):
            spoilt = bytes(content[:place]) + bytes([content[place] ^ 1 << place % 8]) + bytes(content[place + 1 :])
            sheets_changed(tool, f"UPDATE sheets SET {column} = ? {where}", spoilt)
            tool("areas", "spoilt.gpkg", status=DATA, says="sheet 0.0: these are not the bytes that were written")
            changed += 1
        sheets_changed(tool, f"UPDATE sheets SET {column} = ? {where}", content[:-1])
        tool("report", "spoilt.gpkg", 0, 0, 1, 1, status=DATA, says="digest")
    for column in ("used", "in_force"):
        sheets_changed(tool, f"UPDATE sheets SET {column} = {column} - 1 {where}")
        tool("undo", "spoilt.gpkg", status=DATA, says="digest")
    both = "(SELECT {0} FROM sheets WHERE sheet_row = 1 AND sheet_column = 0)"
    names = ("list", "log_keys", "log_values", "used", "in_force", "digest")
    sheets_changed(tool, "UPDATE sheets SET " + ", ".join(f"{n} = {both.format(n)}" for n in names) + " " + where)
    tool("check", "spoilt.gpkg", status=DATA, says="sheet 0.0")
    sheets_changed(tool, f"DELETE FROM sheets {where}")
    tool("areas", "spoilt.gpkg", status=DATA, says="sheet 0.0: is missing")
    sheets_changed(tool, "DELETE FROM steps")
    tool("check", "spoilt.gpkg", status=DATA)
    sheets_changed(tool, "INSERT INTO waivers (office, rule, sheet_row, sheet_column, key) VALUES (0, 9, 0, 0, 0)")
    tool("check", "spoilt.gpkg", status=DATA, says="table waivers")
    return changed


def any_end(tool, words):
    """Whatever the status is, it is one of ours."""
    done = subprocess.run(tool.program + [str(word) for word in words], cwd=tool.folder, env=tool.env,
                          capture_output=True)
    tool.runs += 1
    must(0 <= done.returncode <= 75 and b"Sanitizer" not in done.stderr and b"runtime error" not in done.stderr,
         f"{words}: {done.returncode}, {done.stderr}")
    must(done.returncode == 0 or done.stderr.startswith(b"prowcurl: "), f"{words}: not in words")
    return done


def test_anything(tool):
    """A line with some of its bytes changed: the pixels are those that were put in, or the tool says that they are not;
    and surveys with anything in them."""
    numbers = random.Random(1)
    good, wanted = tool.read("a.gpkg"), tool("export", "a.gpkg", "pgm", "-", text=False)
    for _ in range(80):
        spoilt = bytearray(good)
        for _ in range(numbers.randrange(1, 4)):
            at = numbers.randrange(len(spoilt) if numbers.random() < 0.6 else 4096)
            spoilt[at] ^= 1 << numbers.randrange(8)
        tool.write("any.gpkg", bytes(spoilt))
        done = any_end(tool, ["export", "any.gpkg", "pgm", "-"])
        must(done.returncode or done.stdout == wanted, "a changed byte gives other pixels")
        any_end(tool, numbers.choice(READS + WRITES).replace("L", "any.gpkg").split())
    rows = patches(8, 8, 5)
    for content in (pgm(rows), grid(rows).encode()):
        for _ in range(15):
            spoilt = bytearray(content)
            for _ in range(numbers.randrange(1, 4)):
                at = numbers.randrange(min(len(spoilt), 80))
                spoilt[at : at + numbers.randrange(2)] = numbers.choice(
                    [b"", bytes([numbers.randrange(256)]), b"9999999999", spoilt[at : at + 9]])
            tool.write("any", bytes(spoilt))
            any_end(tool, ["add", "g.gpkg", "any", "--as", "any"])


TABLES = {  # a command line with FILE in it, and good content
    "rules": ("set a.gpkg rules FILE --office 1", "id,row,column,height,width,class\n1,0,0,4,4,1\n2,0,0,4,4,2\n"),
    "waivers": ("set a.gpkg waivers FILE", "office,rule,sheet,key\n0,1,0.1,12\n"),
    "classes": ("set a.gpkg classes FILE", "class,name\n0,field\n1,scrub\n"),
    "prices": ("set a.gpkg prices FILE", "class,price\n0,1.5\n1,2\n"),
    "questions": ("batch a.gpkg FILE", "ask,row,column,height,width,class\nexist,0,0,4,4,1\n"),
}


def test_tables(tool):
    tool("set", "a.gpkg", "rules", "rules.csv", "--office", 0)
    for name, (command, good) in TABLES.items():
        words = command.replace("FILE", "file.csv").split()
        head, *rows = good.splitlines()

        def bad(content, says, status=DATA):
            tool.write("file.csv", content)
            before = tool.read("a.gpkg")
            tool(*words, status=status, says=says)
            must(tool.read("a.gpkg") == before, f"{name}: a refused file changes the line")

        for content in (good.replace("\n", "\r\n"), good.replace("\n", "\r"), "\ufeff" + good, good.rstrip("\n"),
                        "\n\n" + good.replace("\n", "\n\n"), head.upper() + "\n" + "\n".join(rows),
                        "\n".join(",".join(f'"{field}"' for field in line.split(",")) for line in [head] + rows),
                        "\n".join(f"more,{line},x" for line in [head] + rows)):
            tool.write("file.csv", content)
            tool(*words)
        bad("", "is empty")
        bad("\n\r\n", "is empty")
        bad(good + "\0", "zero byte")
        bad(good.replace(",", ";"), "semicolons")
        bad(good + '"', "a quote is not closed")
        bad(good + '"x"y,', "closing quote")
        bad(good + "1,2,3,4,5,6,7,8,9", f"line {2 + len(rows)}: 9 fields, but the first line names")
        for column in head.split(","):
            if column not in ("office", "sheet"):
                bad(good.replace(column, "other", 1), f"no column '{column}'")
        for at, column in enumerate(head.split(",")):
            for field in ("x", "-1x", "1 2", "\x01"):
                fields = rows[0].split(",")
                fields[at] = field
                if column != "name":
                    bad("\n".join([head, ",".join(fields)]), "line 2")


def test_words_in_tables(tool):
    """What a table may not hold, with its line; and names with anything in them."""
    def bad(table, content, status, says, *more):
        before = tool.read("a.gpkg")
        tool("set", "a.gpkg", table, tool.write("t.csv", content), *more, status=status, says=says)
        must(tool.read("a.gpkg") == before, "a refused table changes the line")

    rules, waivers = "id,row,column,height,width,class\n", "office,rule,sheet,key\n"
    bad("rules", rules + "1,0,0,4,4,1\n", USAGE, "--office 0 or --office 1 is missing")
    bad("rules", rules + "1,0,0,4,4,1\n1,0,0,4,4,2\n", 13, "t.csv, line 3: rule 1 of office 0 stands twice", "--office",
        0)
    bad("rules", rules + "1,0,0,4,4,1\n2,9,0,3,4,2\n", 13,
        "line 3, rule 2: its window reaches over the survey's southern", "--office", 0)
    bad("rules", rules + "2,0,5,3,4,2\n", 13, "eastern edge", "--office", 0)
    bad("rules", rules + "2,0,0,0,4,2\n", 13, "no pixel", "--office", 0)
    bad("rules", rules + "2,0,0,1,4,31\n", 13, "no such class", "--office", 0)
    bad("rules", rules + "2,0,0,1,4,1\n", 21, "--office", "--office", 2)
    tool("set", "a.gpkg", "rules", "rules.csv", "--office", 0)
    bad("waivers", waivers + "0,1,0.0,11\n0,7,0.0,11\n", 14, "line 3: office 0 has no rule 7")
    bad("waivers", waivers + "0,1,0.0,11\n0,1,0.0,11\n", 22, "line 3")
    bad("waivers", waivers + "2,1,0.0,11\n", 21, "line 2")
    bad("waivers", waivers + "0,1,0.0,01\n", 8, "line 2")
    bad("waivers", waivers + "0,1,9.0,11\n", DATA, "there is no sheet 9.0")
    bad("waivers", "rule,key\n1,11\n", USAGE, "--office")
    bad("waivers", "office,rule,key\n0,1,11\n", DATA, "is not a block, like 0.1:KEY")
    tool.write("t.csv", waivers + "0,1,0.0,11\n")
    tool("set", "a.gpkg", "waivers", "t.csv")
    bad("rules", rules + "2,0,0,1,4,1\n", DATA, "no rule 1, for which office 0 has 1 waivers", "--office", 0)
    bad("classes", "class,name\n0,a\n0,b\n", DATA, "line 3: class 0 stands twice")
    bad("classes", "class,name\n0,a\n1,a\n", DATA, "line 3: the name 'a' stands on line 2 already")
    bad("classes", "class,name\n0,\n", DATA, "has no name")
    bad("classes", "class,name\n", DATA, "names no class")
    bad("classes", "class,name\n32,a\n", DATA, "line 2")
    bad("classes", "class,name,colour\n0,a,red\n", DATA, "#c0ffee")
    bad("classes", "class,name,grey\n0,a,0\n1,b,0\n", DATA, "line 3: grey 0 is class 0 already")
    bad("classes", "class,name,grey\n0,a,256\n", DATA, "0 to 255")
    bad("prices", "class,price\n0,1\n0,1\n", DATA, "stands twice")
    names = ['<script>alert("x")</script>', "zwei\nZeilen", "é 雪 \U0001f332", "it's; DROP TABLE rules", "a,b", " x "]
    quoted = ['"' + name.replace('"', '""') + '"' for name in names]
    tool.write("t.csv", "class,name\n" + "".join(f"{i},{name}\n" for i, name in enumerate(quoted)))
    tool("set", "a.gpkg", "classes", "t.csv")
    got = {row["class"]: row["name"] for row in tool.json("get", "a.gpkg", "classes")["classes"]}
    must([got[i] for i in range(6)] == names, f"names come back as {got}")
    tool("exist", "a.gpkg", 0, 0, 9, 9, names[2])


def test_windows(tool):
    for command, more in (("report", ()), ("exist", (1,)), ("select", (1,)), ("areas", ()), ("paint", (1,))):
        for window in ((ROWS, 0, 1, 1), (0, 0, 0, 1), (0, 0, 1, 0), (-1, 0, 1, 1), (2147483648, 0, 1, 1),
                       (-9223372036854775808, 0, 1, 1), (0, 4294967296, 1, 1)):
            tool(command, "a.gpkg", *window, *more, status=6, says="refused, 6: not a window of the raster")
        for window in (("x", 0, 1, 1), (0, "", 1, 1), (0, 0, -1, 1), (0, 0, 4294967296, 1), (0, 0, 1, "1.5"),
                       (99999999999999999999, 0, 1, 1), ("+1", 0, 1, 1), (" 1", 0, 1, 1)):
            tool(command, "a.gpkg", *window, *more, status=USAGE, says=" is not a whole number ")
        tool(command, "a.gpkg", "--box", 100, 0, 101, 1, *more, status=6, says="--box")
        tool(command, "a.gpkg", "--box", 5, 0, 1, 1, *more, status=USAGE, says="WEST lies past EAST")
        tool(command, "a.gpkg", "--box", 0, 0, "x", 1, *more, status=USAGE, says="EAST")
        if more:
            tool(command, "a.gpkg", 0, 0, 1, 1, 31, status=7)
            tool(command, "a.gpkg", 0, 0, 1, 1, "no such", status=USAGE, says="neither a number nor the name")
    tool("at", "a.gpkg", ROWS, 0, status=6)
    tool("at", "a.gpkg", -1, 0, status=6)
    tool("at", "a.gpkg", "--xy", -1, 0, status=6)
    tool("at", "a.gpkg", 1, status=USAGE)
    for block in ("11", "0.0", "0.0:", "0.0:111", "9.9:11", "x.y:11", "0.0:x"):
        tool("paint", "a.gpkg", block, 1, status=USAGE, says="BLOCK")
    tool("paint", "a.gpkg", "0.0:01", 1, status=8)
    tool("paint", "a.gpkg", "2.1:44", 1, status=6)  # past the survey's edge


def test_outputs(tool):
    """An output never replaces an input, or a thing of another kind."""
    kept = {name: tool.read(name) for name in ("a.gpkg", "rules.csv", "a.pgm")}
    tool("export", "a.gpkg", "pgm", "a.gpkg", status=CANNOT_CREATE, says="an input of this command")
    tool("export", "a.gpkg", "pgm", "a.gpkg", "--force", status=CANNOT_CREATE, says="an input of this command")
    os.symlink("a.gpkg", tool.path("link.pgm"))
    tool("export", "a.gpkg", "pgm", "link.pgm", status=CANNOT_CREATE, says="an input of this command")
    for form in ("pgm", "grid", "tif"):
        tool("export", "a.gpkg", form, "rules.csv", status=CANNOT_CREATE, says="--force")
    tool("export", "a.gpkg", "hlq", "rules.csv", "--sheet", "0.0", status=CANNOT_CREATE, says="--force")
    tool("get", "a.gpkg", "rules", "a.pgm", status=CANNOT_CREATE, says="--force")
    tool("export", "a.gpkg", "pgm", ".", status=CANNOT_CREATE, says="no regular file")
    tool("export", "a.gpkg", "pgm", "no/out.pgm", status=CANNOT_CREATE)
    tool("export", "a.gpkg", "pgm", "/dev/full", status=CANNOT_CREATE)
    must(kept == {name: tool.read(name) for name in kept}, "a refused output changes something")
    os.symlink("target.pgm", tool.path("there.pgm"))
    tool.write("target.pgm", "")
    tool("export", "a.gpkg", "pgm", "there.pgm")
    must(os.path.islink(tool.path("there.pgm")) and tool.read("target.pgm")[:2] == b"P5", "a link stays one")
    tool.write("other.txt", "text")
    tool("export", "a.gpkg", "pgm", "other.txt", "--force")
    must(tool.read("other.txt")[:2] == b"P5", "--force replaces")
    tool("export", "a.gpkg", "bits", "b", "--sheet", "0.0", status=23, says="--class")
    tool("export", "a.gpkg", "leaves", "-", status=USAGE, says="--sheet I.J is missing")
    tool("export", "a.gpkg", "pgm", "x.pgm", "--sheet", "0.0", status=USAGE, says="--sheet")
    with open("/dev/full", "wb") as full:
        done = subprocess.run(tool.program + ["areas", "a.gpkg"], cwd=tool.folder, env=tool.env, stdout=full,
                              stderr=subprocess.PIPE)
        must(done.returncode == IO and done.stderr.startswith(b"prowcurl: "), f"a full standard output: {done}")


def test_read_only(tool):
    """A line, or its folder, that may not be written."""
    if os.getuid() == 0:
        extra = {"user": 60001, "group": 60001, "extra_groups": []}
        os.chmod(tool.folder, 0o755)
    else:
        extra = {}
    os.chmod(tool.path("a.gpkg"), 0o444)
    for command in WRITES[:3]:
        done = subprocess.run(tool.program + command.replace("L", "a.gpkg").split(), cwd=tool.folder, env=tool.env,
                              capture_output=True, **extra)
        must(done.returncode == CANNOT_CREATE and done.stderr.startswith(b"prowcurl: "), f"read-only: {done}")
    done = subprocess.run(tool.program + ["areas", "a.gpkg"], cwd=tool.folder, env=tool.env, capture_output=True,
                          **extra)
    must(done.returncode == 0, f"a read-only line is not read: {done}")
    os.chmod(tool.path("a.gpkg"), 0o666)
    if extra:  # the folder is root's: there is no place for a journal
        done = subprocess.run(tool.program + ["paint", "a.gpkg", "0", "0", "1", "1", "1"], cwd=tool.folder,
                              env=tool.env, capture_output=True, **extra)
        must(done.returncode in (66, 73) and done.stderr.startswith(b"prowcurl: "), f"a read-only folder: {done}")


def test_command_lines(tool):
    tool("nothing", status=USAGE, says="there is no command 'nothing'")
    tool("info", status=USAGE, says="1 word too few")
    tool("info", "a.gpkg", "b", status=USAGE, says="1 word too many")
    tool("info", "a.gpkg", "--office", "1", status=USAGE, says="has no option --office")
    tool("info", "a.gpkg", "--nothing", status=USAGE, says="there is no option --nothing")
    tool("info", "a.gpkg", "--json", "--csv", status=USAGE, says="exclude each other")
    tool("info", "a.gpkg", "--json=1", status=USAGE, says="takes no value")
    tool("info", "a.gpkg", "--survey", status=USAGE, says="wants a value")
    tool("info", "a.gpkg", "--survey", "a", "--survey", "a", status=USAGE, says="stands twice")
    tool("areas", "a.gpkg", "--survey", "nothing", status=USAGE, says="has no survey 'nothing'")
    tool("areas", "a.gpkg", "--box", "1", "2", "3", status=USAGE, says="WEST SOUTH EAST NORTH")
    tool("set", "a.gpkg", "colours", "rules.csv", status=USAGE, says="none of classes, rules, prices and waivers")
    tool("export", "a.gpkg", "jpg", "x", status=USAGE, says="none of pgm")
    for wait in ("-1", "x", "inf"):
        tool("undo", "a.gpkg", "--wait", wait, status=USAGE, says="--wait")
    for side in ("0", "3", "2048", "x", ""):
        tool("init", "x.gpkg", "--side", side, status=USAGE, says="--side")
    for slots in ("0", "33", "x", "", "-1"):
        tool("init", "x.gpkg", "--slots", slots, status=USAGE, says="--slots")
    tool("init", "x.gpkg", "--slots", 2, "--filler", 2, status=USAGE, says="--filler")
    tool("init", "x.gpkg")
    tool("areas", "x.gpkg", status=USAGE, says="has no survey yet")
    tool("undo", "x.gpkg", status=USAGE, says="has no survey yet")


def main():
    with work_folder() as folder:
        tool = Tool(sys.argv[1:], folder)
        tool("init", "a.gpkg", "--side", SIDE, "--slots", 5)
        tool("add", "a.gpkg", tool.write("a.pgm", pgm(GROUND)))
        test_surveys(tool)
        test_gdal(tool)
        test_no_lines(tool)
        changed = test_sheets(tool)
        for test in (test_anything, test_tables, test_words_in_tables, test_windows, test_outputs, test_command_lines,
                     test_read_only):
            test(tool)
        print(f"bad files and command lines: {tool.runs} runs, each ended as it should; {changed} bytes of a sheet "
              "changed")
        must(tool.runs > 400, "hardly anything was run")


if __name__ == "__main__":
    main()
