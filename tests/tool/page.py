#!/usr/bin/env python3
"""The page in a real browser, headless: it loads without a message, a click selects, filters leave the right rows,
names are text, and printing gives all patches. The picture is looked at point by point: page.py PROGRAM.."""
import json
import os
import re
import subprocess
import sys

from findings import RULES, make_line, ragged, rules_csv
from support import Tool, fail, must, pgm, work_folder

ROOT = os.path.abspath(os.path.join(os.path.dirname(__file__), "..", ".."))
LINE = os.path.join(ROOT, "examples", "line")

# What a reader does, as a script at the end of a copy of the page; it leaves what it saw in the document.
READER = """
<script>
(function () {
  var seen = {}, rows = function () {
    return Array.from(document.querySelectorAll('#patches tbody tr')).filter(function (r) { return !r.hidden; });
  };
  var told = function () { return rows().map(function (r) {
    return [r.dataset.patch, r.dataset.rule, r.dataset.class, r.dataset.state, Number(r.cells[4].textContent)];
  }); };
  seen.all = told();
  var second = rows()[1], shape = document.querySelector('path[data-patch="' + second.dataset.patch + '"]');
  second.click();
  seen.row_selects = [second.classList.contains('picked'), shape.classList.contains('picked'),
                      document.querySelectorAll('path.picked').length];
  var other = document.querySelector('path[data-patch="' + rows()[0].dataset.patch + '"]');
  other.dispatchEvent(new MouseEvent('click', { bubbles: true }));
  seen.picture_selects = [rows()[0].classList.contains('picked'), second.classList.contains('picked'),
                          other.classList.contains('picked'), shape.classList.contains('picked')];
  other.dispatchEvent(new MouseEvent('click', { bubbles: true }));
  seen.again = document.querySelectorAll('.picked').length;
  seen.filtered = {};
  document.querySelectorAll('.filters select').forEach(function (f) {
    Array.from(f.options).slice(1).forEach(function (o) {
      f.value = o.value;
      f.dispatchEvent(new Event('change'));
      seen.filtered[f.name + '=' + o.value] = told();
      seen.filtered_shapes = document.querySelectorAll('path.patch:not(.off)').length;
      seen.filtered_rows = rows().length;
    });
    f.value = '';
  });
  document.getElementById('everything').click();
  seen.restored = rows().length;
  var head = document.querySelectorAll('#patches th')[4];
  head.querySelector('button').click();
  seen.up = told().map(function (r) { return r[4]; });
  head.querySelector('button').click();
  seen.down = told().map(function (r) { return r[4]; });
  seen.rules = Array.from(document.querySelectorAll('#rules td.name')).map(function (c) { return c.textContent; });
  seen.title = document.title;
  seen.heading = document.querySelector('h1').textContent;
  seen.notes = Array.from(document.querySelectorAll('#waivers td.name')).map(function (c) { return c.textContent; });
  seen.steps = Array.from(document.querySelectorAll('#steps tbody tr')).map(function (r) { return r.textContent; });
  seen.scripts = document.scripts.length;
  seen.pictures = Array.from(document.querySelectorAll('svg image')).length;
  seen.elsewhere = Array.from(document.querySelectorAll('[src], link')).length;
  seen.overflow = document.documentElement.scrollWidth > window.innerWidth;
  var out = document.createElement('pre');
  out.id = 'seen';
  out.textContent = JSON.stringify(seen);
  document.body.appendChild(out);
}());
</script>
"""


def browser(tool, *words):
    """Runs it; gives what it printed, and fails where the page wrote to the console."""
    done = subprocess.run(["chromium", "--headless", "--no-sandbox", "--disable-gpu", "--enable-logging=stderr",
                           f"--user-data-dir={tool.path('profile')}", *words], cwd=tool.folder, capture_output=True,
                          timeout=120)
    said = [line for line in done.stderr.decode(errors="replace").splitlines() if "CONSOLE" in line]
    must(done.returncode == 0 and not said, f"the browser: {done.returncode}, {said}")
    return done.stdout.decode()


def read_page(tool, page, size="1400,1000"):
    """What the reader sees."""
    content = tool.read(page).decode()
    must(content.lower().startswith("<!doctype html") and "http" not in content.replace("http-equiv", ""),
         "the page names something elsewhere")
    tool.write("read.html", content.replace("</body>", READER + "</body>"))
    dom = browser(tool, f"--window-size={size}", "--virtual-time-budget=3000", "--dump-dom",
                  f"file://{tool.path('read.html')}")
    found = re.search(r'<pre id="seen">(.*?)</pre>', dom, re.S)
    must(found, "the page's script did not end")
    text = found.group(1)
    for entity, letter in (("&lt;", "<"), ("&gt;", ">"), ("&amp;", "&")):
        text = text.replace(entity, letter)
    return json.loads(text)


def check_reader(seen, told):
    patches = [[str(i + 1), str(p["rule"]), p["class"], p["state"], round(p["square_metres"], 2)]
               for i, p in enumerate(told["patches"])]
    must(seen["all"] == patches, "the table has other patches")
    must(seen["row_selects"] == [True, True, 1], f"a click on a row: {seen['row_selects']}")
    must(seen["picture_selects"] == [True, False, True, False], f"a click on the picture: {seen['picture_selects']}")
    must(seen["again"] == 0, "a second click takes the choice back")
    for choice, rows in seen["filtered"].items():
        name, value = choice.split("=", 1)
        column = {"rule": 1, "class": 2, "state": 3}[name]
        must(rows == [p for p in patches if p[column] == value], f"filter {choice}")
    must({c.split("=")[0] for c in seen["filtered"]} == {"rule", "class", "state"}, "three filters")
    must(seen["filtered_shapes"] == seen["filtered_rows"] and seen["restored"] == len(patches),
         "shapes follow the filter")
    must(seen["up"] == sorted(seen["up"]) and seen["down"] == sorted(seen["up"], reverse=True), "sorting")
    must(seen["elsewhere"] == 0 and not seen["overflow"], "something from elsewhere, or wider than the window")


def test_reader(tool):
    name = 'a <b>&"line".gpkg'
    make_line(tool, "line.gpkg", ragged(1))
    os.rename(tool.path("line.gpkg"), tool.path(name))
    told = tool.json("findings", name, "--office", 1)
    patch = max(told["patches"], key=lambda p: p["pixels"])
    tool("waive", name, patch["rule"], "--patch", patch["row"], patch["column"], "--office", 1, "--note",
         "<img src=x onerror=alert(2)> & 'more'", "--by", "<i>anna</i>")
    tool("paint", name, 0, 0, 3, 3, "ballast", "--by", "crew <4>")
    tool("page", name, "page.html", "--office", 1)
    told = tool.json("findings", name, "--office", 1, "--all")
    browser(tool, "--dump-dom", f"file://{tool.path('page.html')}")
    seen = read_page(tool, "page.html")
    check_reader(seen, told)
    check_reader(read_page(tool, "page.html", "390,844"), told)
    must(seen["rules"] == [r[7] for r in RULES if r[0] == 1] and "<script>" in seen["rules"][0],
         "a rule's name is text")
    must(seen["title"] == seen["heading"] == name[:-5], "the line's name is text")
    must(set(seen["notes"]) == {"<img src=x onerror=alert(2)> & 'more'"}, f"notes: {seen['notes']}")
    must(seen["scripts"] == 2 and seen["pictures"] == 1, "one script and the reader's, one picture")
    must(len(seen["steps"]) == 1 and "crew <4>" in seen["steps"][0] and "paint 0 0 3 3 ballast" in seen["steps"][0],
         "steps")
    tool("page", name, "page.html")  # its own kind is replaced
    tool("page", name, "classes.csv", status=73, says="is not a page")
    tool("page", name, name, status=73)
    return name


def test_print(tool, name):
    tool("page", name, "print.html")
    patches = tool.json("findings", name, "--all")["patches"]
    browser(tool, "--no-pdf-header-footer", f"--print-to-pdf={tool.path('page.pdf')}",
            f"file://{tool.path('print.html')}")
    text = subprocess.run(["pdftotext", "-layout", "page.pdf", "-"], cwd=tool.folder, check=True,
                          capture_output=True).stdout.decode()
    rows = re.findall(r"^[ \f]*(\d+) +(\d+) +(\w+) +(live|hidden) +([\d.]+) ", text, re.M)
    must([(int(n), int(rule), c, s, float(m)) for n, rule, c, s, m in rows] ==
         [(i + 1, p["rule"], p["class"], p["state"], p["square_metres"]) for i, p in enumerate(patches)],
         f"the PDF has {len(rows)} patches of {len(patches)}")
    for words in ("Waivers", "Areas of the whole survey", "Edited since the survey"):
        must(words in text, f"the PDF has no {words}")


def test_sheets(tool):
    """A line that is not small: a picture a sheet with findings, and a patch over two of them."""
    rows = [[0] * 2100 for _ in range(20)]
    for row in rows[3:6]:
        row[1000:1040] = [1] * 40
    tool.write("long.pgm", pgm(rows))
    tool("init", "long.gpkg")
    tool("add", "long.gpkg", "long.pgm")
    tool.write("r.csv", rules_csv([(0, 1, 0, 0, 20, 2100, 1, "")]))
    tool("set", "long.gpkg", "rules", "r.csv")
    tool("page", "long.gpkg", "long.html")
    page = tool.read("long.html").decode()
    must(page.count("<image ") == 2 and page.count('<path class="patch') == 2, "two sheets with findings")
    must("Sheet 0.0: rows 0 to 19, columns 0 to 1023" in page and page.count('<tr data-patch="1"') == 1,
         "their captions")


def points_of(tool, name):
    """A PNG's points, by netpbm's program: rows of red, green, blue."""
    out = subprocess.run(["pngtopnm", name], cwd=tool.folder, check=True, capture_output=True).stdout
    mark, size, _, data = out.split(b"\n", 3)
    width, height = map(int, size.split())
    must(mark == b"P6" and len(data) == 3 * width * height, "the picture")
    return width, height, data


def test_picture(tool):
    """Two patches, one waived, at ten points a pixel: the live one is not hatched, the hidden one is, and its ground
    has at least as many colours as classes."""
    rows = [[0] * 60 for _ in range(40)]
    for row in rows[5:15]:
        row[5:15], row[25:35] = [1] * 10, [1] * 10
    tool.write("two.pgm", pgm(rows))
    tool("init", "two.gpkg", "--side", 64)
    tool("add", "two.gpkg", "two.pgm", "--cell", 0.5)
    tool.write("r.csv", rules_csv([(0, 1, 0, 0, 40, 60, 1, "")]))
    tool("set", "two.gpkg", "rules", "r.csv")
    tool("waive", "two.gpkg", 1, "--patch", 7, 27, "--office", 0)
    tool("findings", "two.gpkg", "--picture", "two.png", "--scale", 10)
    width, height, data = points_of(tool, "two.png")
    must(width == 60 * 10 + 24 and height > 40 * 10 + 60, f"{width} by {height} points")

    def colours(row, column, side):
        return {data[3 * ((12 + row * 10 + y) * width + 12 + column * 10 + x) :][:3]
                for y in range(side * 10) for x in range(side * 10)}

    live, hidden, field = colours(7, 7, 6), colours(7, 27, 6), colours(30, 30, 5)
    must(len(live) == 1 and len(field) == 1 and live != field, "the ground's colours")
    must(len(hidden) == 2 and not hidden & live, "a hidden patch is hatched")
    must(len(colours(4, 4, 12)) >= 4, "a live patch has an outline")
    below = {data[3 * (y * width + x) :][:3] for y in range(40 * 10 + 30, height) for x in range(width)}
    must(live <= below and field <= below and hidden <= below, "the legend shows what occurs")
    tool("findings", "two.gpkg", "--picture", "two.png", "--scale", 0, status=64)
    tool("findings", "two.gpkg", "--picture", "two.png", "--scale", 9999, status=64, says="points a side")
    tool("findings", "two.gpkg", "--picture", "r.csv", status=73, says="is not a PNG")


def test_walk(tool):
    """The five commands of the README, as they stand there, on a GeoTIFF; and its picture is the sample line's."""
    with open(os.path.join(ROOT, "README.md")) as file:
        text = file.read().split("## From a GeoTIFF to a page", 1)[1]
    commands = re.search(r"\n\n((?:    .*\n)+)", text).group(1)
    must(len(commands.splitlines()) == 5, "five commands")
    folder = tool.path("walk")
    os.mkdir(folder)
    tool.write("walk/prowcurl", "#!/bin/sh\nexec " + " ".join(tool.program) + ' "$@"\n')
    os.chmod(tool.path("walk/prowcurl"), 0o755)
    subprocess.run([os.path.join(LINE, "make-survey"), "own.asc", "5"], cwd=folder, check=True)
    subprocess.run("gdal_translate -q -a_srs EPSG:25832 -ot Byte own.asc own.tif".split(), cwd=folder, check=True)
    env = dict(tool.env, PATH=folder + ":" + os.environ["PATH"])
    done = subprocess.run(["bash", "-eu", "-c", commands], cwd=folder, env=env, capture_output=True)
    must(done.returncode == 0 and not done.stderr, f"the five commands: {done}")
    seen = read_page(tool, "walk/own.html")
    check_reader(seen, tool.json("findings", "walk/own.gpkg", "--all"))
    must(seen["rules"] == ["no scrub here"] and len(seen["all"]) > 3, "the walk finds something")


def test_sample(tool):
    """The picture in docs/ is what the tool draws of the sample line."""
    subprocess.run([os.path.join(LINE, "make-survey"), tool.path("survey.asc")], check=True)
    tool("init", "sample.gpkg", "--classes", os.path.join(LINE, "classes.csv"), "--side", 256)
    tool("add", "sample.gpkg", "survey.asc")
    for office in (0, 1):
        tool("set", "sample.gpkg", "rules", os.path.join(LINE, "rules.csv"), "--office", office)
    tool("set", "sample.gpkg", "waivers", os.path.join(LINE, "waivers.csv"))
    tool("findings", "sample.gpkg", "--picture", "sample.png")
    tool.write("docs.png", open(os.path.join(ROOT, "docs", "line.png"), "rb").read())
    must(points_of(tool, "docs.png") == points_of(tool, "sample.png"), "docs/line.png is not what the tool draws")


def main():
    for program, package in (("chromium", "chromium"), ("pdftotext", "poppler-utils"), ("pngtopnm", "netpbm")):
        subprocess.run([os.path.join(ROOT, "tools", "need"), program, package], check=True)
    subprocess.run([os.path.join(ROOT, "tools", "choose-colours"), "--check"], check=True)
    with work_folder() as folder:
        tool = Tool(sys.argv[1:], folder)
        name = test_reader(tool)
        test_print(tool, name)
        test_sheets(tool)
        test_picture(tool)
        test_walk(tool)
        test_sample(tool)
        print("the page in a browser, on paper and on a phone; the picture: as expected")


if __name__ == "__main__":
    main()
