"""What the tests of the tool share: runs of it that are checked, and small surveys."""
import json
import os
import random
import subprocess
import sys
import tempfile

CLASSES = 5


class Tool:
    """A built prowcurl; `folder` is where it runs."""

    def __init__(self, program, folder):
        self.program = [os.path.abspath(part) if os.path.exists(part) else part for part in program]
        self.folder = folder
        self.runs = 0
        # A status that is no refusal's, so that a sanitizer's report is never taken for one. The search for leaks takes
        # seconds a run on some machines, so it is asked for: PROWCURL_LEAKS=1.
        leaks = f"detect_leaks={os.environ.get('PROWCURL_LEAKS', '0')}"
        self.env = dict(os.environ, ASAN_OPTIONS=f"exitcode=99:{leaks}", UBSAN_OPTIONS="exitcode=99")

    def __call__(self, *words, status=0, says="", stdin=None, text=True):
        """Runs it, and fails where status or message is another; gives what it wrote."""
        words = [str(word) for word in words]
        done = subprocess.run(self.program + words, cwd=self.folder, env=self.env, input=stdin, capture_output=True)
        self.runs += 1
        message = done.stderr.decode(errors="replace")
        told = f"prowcurl {' '.join(words)}: status {done.returncode}, said {message!r}"
        if done.returncode != status:
            fail(f"{told}; {status} was wanted")
        if says not in message:
            fail(f"{told}; {says!r} was wanted")
        if status and not message.startswith("prowcurl: "):
            fail(f"{told}: not in words")
        if status and status < 64 and f"refused, {status}: " not in message:
            fail(f"{told}: the refusal is not said")
        if not status and message:
            fail(told)
        return done.stdout.decode() if text else done.stdout

    def json(self, *words, **more):
        return json.loads(self(*words, "--json", **more))

    def path(self, name):
        return os.path.join(self.folder, name)

    def write(self, name, content):
        with open(self.path(name), "wb") as out:
            out.write(content if isinstance(content, bytes) else content.encode())
        return name

    def read(self, name):
        with open(self.path(name), "rb") as file:
            return file.read()


def fail(words):
    sys.exit(f"FAILED: {words}")


def must(truth, words):
    if not truth:
        fail(words)


def patches(rows, columns, seed, classes=CLASSES):
    """Rows of classes: rectangles over each other."""
    numbers = random.Random(seed)
    ground = [[0] * columns for _ in range(rows)]
    for _ in range(12):
        top, left, what = numbers.randrange(rows), numbers.randrange(columns), numbers.randrange(classes)
        height, width = numbers.randrange(1, rows // 2 + 2), numbers.randrange(1, columns // 2 + 2)
        for row in ground[top : top + height]:
            row[left : left + width] = [what] * len(row[left : left + width])
    return ground


def pgm(rows, maxval=255):
    return b"P5\n%d %d\n%d\n" % (len(rows[0]), len(rows), maxval) + b"".join(bytes(row) for row in rows)


def plain_pgm(rows):
    lines = "\n".join(" ".join(map(str, row)) for row in rows)
    return f"P2 # a comment\n{len(rows[0])} {len(rows)}\n31\n{lines}\n"


def grid(rows, west=0, south=0, cell=1, more="", after=""):
    """An ESRI ASCII grid."""
    lines = "\n".join(" ".join(f"{value}{after}" for value in row) for row in rows)
    return (f"ncols {len(rows[0])}\nNROWS {len(rows)}\nxllcorner {west}\nyllcorner {south}\ncellsize {cell}\n{more}"
            f"{lines}\n")


def pixels_of(content):
    """The rows of a P5 that the tool wrote."""
    mark, size, _, data = content.split(b"\n", 3)
    must(mark == b"P5", "not a P5")
    width, height = map(int, size.split())
    must(len(data) == width * height, "a P5 of another length")
    return [list(data[i : i + width]) for i in range(0, width * height, width)]


def seen_in(rows, top, left, height, width):
    """The pixels of a window that may reach over the edge: the scan that every answer is held against."""
    left, right = max(left, 0), max(left + width, 0)
    return [value for row in rows[max(top, 0) : max(top + height, 0)] for value in row[left:right]]


def square_of(key, side):
    """Row, column and side of a key's digits on a sheet of this side."""
    row, column = 0, 0
    for digit in key.rstrip("0"):
        side //= 2
        row += side * (int(digit) > 2)
        column += side * (int(digit) % 2 == 0)
    return row, column, side


def work_folder():
    return tempfile.TemporaryDirectory(prefix="prowcurl-")
