#!/usr/bin/env python3
"""Edits that are killed, that find the disk full, and that meet each other: crash.py PROGRAM FAULTS.so. Whatever
happens, a line is in the state before the edit or after it, whole."""
import os
import random
import resource
import shutil
import signal
import sqlite3
import subprocess
import sys
import time

from support import Tool, fail, must, patches, pgm, work_folder

SIDE, ROWS, COLUMNS = 32, 90, 40  # three sheets down, two across
EDITS = 150
FAULTS = ""


def state_of(tool, line="a.gpkg"):
    """All that can be asked: every survey's pixels, the steps, the tables. The line must be sound."""
    tool("check", line)
    surveys = [survey["name"] for survey in tool.json("info", line)["surveys"]]
    pixels = [tool("export", line, "pgm", "-", "--survey", name, text=False) for name in surveys]
    steps = [tool("steps", line, "--csv", "--survey", name) for name in surveys]
    return tuple(pixels + steps + [tool("get", line, table) for table in ("classes", "rules", "waivers")])


def copied(tool, folder):
    shutil.rmtree(folder, ignore_errors=True)
    shutil.copytree(tool.folder, folder)
    other = Tool(tool.program, folder)
    other.env = tool.env
    return other


def with_fault(tool, fault, words):
    """Runs the command with a fault; gives its status and what it said."""
    env = dict(tool.env, LD_PRELOAD=FAULTS, PROWCURL_FAULT=fault)
    done = subprocess.run(tool.program + [str(word) for word in words], cwd=tool.folder, env=env, capture_output=True)
    tool.runs += 1
    return done.returncode, done.stderr.decode()


def without_words(state):
    """Steps say when: two runs of one edit differ there alone."""
    return tuple(part if isinstance(part, bytes) else "".join(
        ",".join(field for field in line.split(",") if not field.endswith("Z")) for line in part.splitlines())
        for part in state)


def at_every_call(tool, folder, words):
    """The command killed at each call that changes a file, and with no room from each write on."""
    old = without_words(state_of(tool))
    done = copied(tool, folder + "/done")
    must(with_fault(done, f"count:{folder}/calls", words)[0] == 0, f"{words} does not go")
    new = without_words(state_of(done))
    with open(folder + "/calls") as file:
        calls = int(file.read())
    must(calls > 5, f"{words}: the faults are not at work")
    seen = set()
    for call in range(1, calls + 1):
        other = copied(tool, folder + "/other")
        status, _ = with_fault(other, f"kill:{call}", words)
        must(status == -9, f"{words}: call {call} of {calls} was not killed")
        now = without_words(state_of(other))
        must(now in (old, new), f"{words} killed at call {call}: neither the old nor the new state")
        seen.add(now == new)
        other("paint", "a.gpkg", 0, 0, 2, 2, 3)  # and the next one goes
    must(old == new or seen >= {False}, f"{words}: no call before the edit counts")
    for write in range(1, calls + 1):
        other = copied(tool, folder + "/other")
        status, said = with_fault(other, f"full:{write}", words)
        now = without_words(state_of(other))
        if status == 0:  # so many writes it has not
            must(now == new, f"{words}: full disk at write {write} was not told")
            continue
        must(status in (73, 74) and said.startswith("prowcurl: "), f"{words}, full at write {write}: {status} {said}")
        must(now == old, f"{words}: a full disk at write {write} changed something")
        no_litter(other)
    return calls


def test_calls(tool, folder):
    calls = 0
    tool.write("r.csv", "id,row,column,height,width,class\n1,0,0,9,9,1\n")
    for words in (["paint", "a.gpkg", 10, 5, 75, 20, 2], ["undo", "a.gpkg"], ["redo", "a.gpkg"],
                  ["set", "a.gpkg", "rules", "r.csv", "--office", 0], ["add", "a.gpkg", "b.pgm"]):
        calls += at_every_call(tool, folder, words)
        tool(*words)
    return calls


def test_outputs(tool, folder):
    """An output that is killed or finds no room leaves what was there."""
    tool("export", "a.gpkg", "pgm", "out.pgm", "--survey", "b")
    old = tool.read("out.pgm")
    os.chmod(tool.path("out.pgm"), 0o640)
    words = ["export", "a.gpkg", "pgm", "out.pgm", "--survey", "a"]
    done = copied(tool, folder + "/done")
    with_fault(done, f"count:{folder}/calls", words)
    new = done.read("out.pgm")
    must(new != old and os.stat(done.path("out.pgm")).st_mode & 0o777 == 0o640, "the mode is kept")
    with open(folder + "/calls") as file:
        calls = int(file.read())
    for call in range(1, calls + 1):
        for fault in ("kill", "full"):
            other = copied(tool, folder + "/other")
            status, said = with_fault(other, f"{fault}:{call}", words)
            must(other.read("out.pgm") in (old, new), f"an output with {fault}:{call} is neither old nor new")
            must(fault == "kill" or status == 0 or (status == 74 and said.startswith("prowcurl: ")), f"{status} {said}")
            must(status != 74 or other.read("out.pgm") == old, "a failed output replaces")


def limited(tool, most, words):
    """Runs the command where no file may grow beyond so many bytes: what stdio writes is cut there, and then fails."""
    def limit():
        signal.signal(signal.SIGXFSZ, signal.SIG_IGN)
        resource.setrlimit(resource.RLIMIT_FSIZE, (most, most))

    done = subprocess.run(tool.program + words, cwd=tool.folder, env=tool.env, capture_output=True, preexec_fn=limit)
    return done.returncode, done.stderr.decode()


def test_limits(tool):
    """An output that may not be as long as it is leaves what was there; whole, where it may."""
    for words, name in ((["export", "a.gpkg", "pgm", "long.pgm", "--survey"], "long.pgm"),
                        (["page", "a.gpkg", "long.html", "--survey"], "long.html")):
        tool(*words, "a")
        whole = len(tool.read(name))
        tool(*words, "b")
        old = tool.read(name)
        for most in (0, 1, 511, whole // 2, whole - 1):
            status, said = limited(tool, most, words + ["a"])
            must(status == 74 and said.startswith("prowcurl: "), f"{words}, {most} bytes: {status} {said}")
            must(tool.read(name) == old, f"{words}: an output cut at {most} bytes replaces")
        must(limited(tool, whole, words + ["a"])[0] == 0, f"{words}: just long enough")
        must(len(tool.read(name)) == whole, f"{words}: whole")
    no_litter(tool)


def random_edit(numbers):
    kind = numbers.random()
    if kind < 0.25:
        return ["undo", "a.gpkg"]
    if kind < 0.4:
        return ["redo", "a.gpkg"]
    row, column = numbers.randrange(ROWS), numbers.randrange(COLUMNS)
    return ["paint", "a.gpkg", *map(str, (row, column, numbers.randrange(1, ROWS), numbers.randrange(1, 30),
                                          numbers.randrange(5)))]


def test_random_kills(tool, folder):
    numbers = random.Random(28)
    original, killed, went_through, lasts = state_of(tool)[0], 0, 0, 0.01
    old = without_words(state_of(tool))
    for _ in range(EDITS):
        words = random_edit(numbers)
        done = copied(tool, folder + "/done")
        before = time.monotonic()
        refusal = subprocess.run(done.program + words, cwd=done.folder, env=done.env, capture_output=True).returncode
        lasts = 0.8 * lasts + 0.2 * (time.monotonic() - before)
        must(refusal in (0, 11, 20), f"{words}: {refusal}")
        new = without_words(state_of(done))
        running = subprocess.Popen(tool.program + words, cwd=tool.folder, env=tool.env, stdout=subprocess.DEVNULL,
                                   stderr=subprocess.DEVNULL)
        time.sleep(numbers.uniform(0, 1.3 * lasts))
        running.kill()
        status, now = running.wait(), without_words(state_of(tool))
        must(status in (-9, refusal), f"{words}: status {status}")
        must(now == new if status == refusal else now in (old, new), f"{words} killed: a state that is neither")
        killed += status == -9
        went_through += status == -9 and now == new != old
        old = now
    undone = 0
    while tool.json("info", "a.gpkg")["undo"]:
        tool("undo", "a.gpkg")
        undone += 1
    must(state_of(tool)[0] == original, "all edits taken back do not give the survey as it was")
    return f"{EDITS} edits, {killed} of them killed, {went_through} of these after they counted; {undone} taken back"


def at_once(tool, count, script):
    return [subprocess.Popen(["bash", "-c", script, str(n)] + tool.program, cwd=tool.folder, env=tool.env,
                             stdout=subprocess.DEVNULL) for n in range(count)]


def test_writers(tool):
    """Writers at the same time wait for each other, and readers see a whole state; nothing is lost."""
    tool("forget", "a.gpkg")
    original, reads = state_of(tool)[0], 0
    for count in (2, 5):
        before = tool.json("info", "a.gpkg")["undo"]
        script = 'for i in 1 2 3 4 5; do "$@" paint a.gpkg $((i * 9 + $0)) $0 50 9 $((i % 5)) --wait 60 || exit; done'
        writers = at_once(tool, count, script)
        while any(writer.poll() is None for writer in writers):
            tool("areas", "a.gpkg", "--wait", 60)
            reads += 1
        must(all(writer.returncode == 0 for writer in writers), f"{count} writers: one failed")
        must(tool.json("info", "a.gpkg")["undo"] == before + 5 * count, f"{count} writers: an edit is lost")
    tool("check", "a.gpkg")
    for _ in range(35):
        tool("undo", "a.gpkg")
    must(state_of(tool)[0] == original, "an edit of several writers is lost")
    adders = at_once(tool, 3, '"$@" add a.gpkg b.pgm --as s$0 --wait 60')
    must(all(adder.wait() == 0 for adder in adders), "surveys added at once")
    makers = at_once(tool, 4, '"$@" init f.gpkg --side 32 2>/dev/null')
    must(sorted(maker.wait() for maker in makers) == [0, 73, 73, 73], "a line that four make at once")
    tool("check", "f.gpkg")
    return reads


def test_locks(tool):
    """Another program holds the line."""
    base = sqlite3.connect(tool.path("a.gpkg"), isolation_level=None)
    base.execute("BEGIN IMMEDIATE")
    tool("paint", "a.gpkg", 0, 0, 1, 1, 1, "--wait", 0, status=75, says="another program is writing it")
    tool("undo", "a.gpkg", "--wait", "0.05", status=75)
    tool("report", "a.gpkg", 0, 0, 4, 4, "--wait", 0)  # a question waits for nobody who has not yet written
    base.execute("ROLLBACK")
    base.execute("BEGIN EXCLUSIVE")
    tool("report", "a.gpkg", 0, 0, 4, 4, "--wait", 0, status=75)
    base.execute("ROLLBACK")
    base.close()
    tool("paint", "a.gpkg", 0, 0, 1, 1, 1, "--wait", 0)


def test_two_users(tool):
    """Two users of one group: a writer of the one is killed, and the other goes on; the group stays."""
    if os.getuid() != 0:
        return "not as root: two users were not tried"
    folder = tool.folder
    os.chmod(os.path.dirname(folder), 0o755)
    os.chown(folder, 60001, 60100)
    os.chmod(folder, 0o2775)
    for name in os.listdir(folder):
        os.chown(os.path.join(folder, name), 60001, 60100)
        os.chmod(os.path.join(folder, name), 0o664)

    def run(user, words, fault=None):
        env = dict(tool.env, **({"LD_PRELOAD": FAULTS, "PROWCURL_FAULT": fault} if fault else {}))
        return subprocess.run(tool.program + words, cwd=folder, env=env, capture_output=True, user=user, group=60100,
                              extra_groups=[60100], umask=0o002).returncode

    for call in (3, 6, 9, 12):
        must(run(60001, ["paint", "a.gpkg", "0", "0", "80", "30", str(call % 5)], f"kill:{call}") == -9, "not killed")
        must(run(60002, ["paint", "a.gpkg", "0", "0", "9", "9", "1"]) == 0, f"the other user, after a kill at {call}")
    tool("export", "a.gpkg", "pgm", "theirs.pgm", "--survey", "b")
    os.chown(tool.path("theirs.pgm"), 60001, 60100)
    os.chmod(tool.path("theirs.pgm"), 0o664)
    must(run(60002, ["export", "a.gpkg", "pgm", "theirs.pgm"]) == 0, "the other user's output")
    must(os.stat(tool.path("theirs.pgm")).st_gid == 60100, "the group of an output is kept")
    must(os.stat(tool.path("a.gpkg")).st_gid == 60100, "the group of the line is kept")
    tool("check", "a.gpkg")
    return "two users of one group: one killed four times, the other went on"


def stopped(tool, folder, words, sign, whole_group):
    """The command is stopped while a program of GDAL's is at work; gives that program's number. It is one that says its
    number and sleeps."""
    told = folder + "/number"
    if os.path.exists(told):
        os.unlink(told)
    env = dict(tool.env, TMPDIR=folder + "/temporary", PATH=f"{folder}/programs:{os.environ['PATH']}")
    # a gate that runs in the background ignores Ctrl-C, and its children would too
    running = subprocess.Popen(tool.program + words, cwd=tool.folder, env=env, stdout=subprocess.DEVNULL,
                               start_new_session=True, preexec_fn=lambda: signal.signal(sign, signal.SIG_DFL))
    until = time.monotonic() + 60
    while not os.path.exists(told) or os.path.getsize(told) == 0:
        must(running.poll() is None and time.monotonic() < until, f"{words}: no program of GDAL's was started")
        time.sleep(0.01)
    (os.killpg if whole_group else os.kill)(running.pid, sign)
    must(running.wait() == -sign, f"{words}: ended with {running.returncode}, not by signal {sign}")
    with open(told) as file:
        return int(file.read())


def test_stopped(tool, folder):
    """Ctrl-C, or an end from elsewhere, while GDAL is at work: no folder, no output and no program is left."""
    os.mkdir(folder + "/programs")
    os.mkdir(folder + "/temporary")
    for name in ("gdalinfo", "gdal_translate"):
        program = f"{folder}/programs/{name}"
        with open(program, "w") as file:
            file.write(f"#!/bin/sh\necho half >{folder}/temporary/*/half\necho $$ >{folder}/number\nexec sleep 60\n")
        os.chmod(program, 0o755)
    tool.write("c.tif", b"II*\0")
    before, old = sorted(os.listdir(tool.folder)), state_of(tool)
    for words in (["add", "a.gpkg", "c.tif"], ["export", "a.gpkg", "tif", "out.tif"]):
        for sign, whole_group in ((signal.SIGINT, True), (signal.SIGTERM, False), (signal.SIGHUP, False)):
            program = stopped(tool, folder, words, sign, whole_group)
            must(not os.listdir(folder + "/temporary"), f"{words}, signal {sign}: a temporary folder is left")
            must(sorted(os.listdir(tool.folder)) == before, f"{words}, signal {sign}: a file is left")
            must(not os.path.exists(f"/proc/{program}"), f"{words}, signal {sign}: GDAL's program goes on")
    must(state_of(tool) == old, "a stopped command changed something")


def no_litter(tool):
    left = [name for name in os.listdir(tool.folder) if name.endswith((".new", "-journal"))]
    must(not left, f"left behind: {left}")


def main():
    global FAULTS
    FAULTS = os.path.abspath(sys.argv[-1])
    with work_folder() as folder:
        os.mkdir(folder + "/work")
        tool = Tool(sys.argv[1:-1], folder + "/work")
        tool.env["TMPDIR"] = tool.env["SQLITE_TMPDIR"] = "/tmp"
        tool("init", "a.gpkg", "--side", SIDE, "--slots", 5)
        tool("add", "a.gpkg", tool.write("a.pgm", pgm(patches(ROWS, COLUMNS, 1))))
        tool.write("b.pgm", pgm(patches(ROWS, COLUMNS, 4)))
        calls = test_calls(tool, folder)
        test_outputs(tool, folder)
        test_limits(tool)
        print(f"killed at each of {calls} calls, and with a full disk: the old or the new state, whole")
        print(f"kills at random: {test_random_kills(tool, folder)}")
        test_stopped(tool, folder)
        print("stopped by three signals while GDAL was at work: nothing is left")
        reads = test_writers(tool)
        test_locks(tool)
        no_litter(tool)
        print(f"two and five writers at once: nothing lost, {reads} answers meanwhile")
        print(test_two_users(tool))
        if tool.runs < 100:
            fail("hardly anything was run")


if __name__ == "__main__":
    main()
