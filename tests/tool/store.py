#!/usr/bin/env python3
"""A file system that fails under every command that writes a line: store.py PROGRAM FAULTS.so [SECONDS [SEED]].

Each command is run with each of its calls that change a file failing, alone and with all later ones, with each write
cut short, and with a full disk from each write on; and its calls are recorded, and the line is put together as a crash
after each of them may leave it: of what was not yet written through to the disk any part is there, names and halves of
a write included. Then the line opens with the state before the command or after it; after the command's answer only
with that. Without SECONDS all of it is tried that is few enough, and samples of the rest; with SECONDS more samples,
until they are over."""
import copy
import hashlib
import os
import random
import shutil
import sqlite3
import subprocess
import sys
import tempfile

from findings import rules_csv
from support import Tool, fail, must, patches, pgm

SIDE, ROWS, COLUMNS = 16, 40, 30  # three sheets down, two across
SECTOR = 512
SUBSETS = 24  # as many states after a crash at one call are tried in the gate's run


def read_record(path, folder):
    """The calls of a recording, in order: (what, inode, place, bytes or name)."""
    with open(path, "rb") as file:
        data = file.read()
    at, calls = 0, []
    while at < len(data):
        end = data.index(b"\n", at)
        what, inode, place, length, name = data[at:end].decode().split(" ", 4)
        at = end + 1
        payload = data[at : at + int(length)]
        at += int(length)
        if name:
            where = os.path.dirname(name)
            payload = os.path.basename(name) if where in ("", folder) else None
        if what == "to":
            calls[-1] = calls[-1][:3] + ((calls[-1][3], payload),)
        else:
            calls.append((what, int(inode), int(place), payload))
    return [call for call in calls if call[3] is not None]


class Disk:
    """What is on the disk for sure, and the calls since that may have reached it or not."""

    def __init__(self, folder):
        self.folder = os.stat(folder).st_ino
        self.names, self.files, self.loose = {}, {}, []
        for name in os.listdir(folder):
            inode = os.stat(os.path.join(folder, name)).st_ino
            self.names[name] = inode
            with open(os.path.join(folder, name), "rb") as file:
                self.files[inode] = file.read()

    def take(self, call):
        """A call; one that writes a file or the folder's names through to the disk settles what is loose of it."""
        what, inode = call[0], call[1]
        if what != "sync":
            self.loose.append(call)
            return
        of_names = inode == self.folder
        settled = [c for c in self.loose if (c[1] == inode and c[0] in ("write", "truncate")) or
                   (of_names and c[0] not in ("write", "truncate"))]
        self.names, self.files = self.after(settled)
        self.loose = [c for c in self.loose if c not in settled]

    def after(self, calls):
        """Names and files where these of the loose calls have reached the disk."""
        names, files, changed = dict(self.names), dict(self.files), {}
        for what, inode, place, payload in calls:
            if what in ("write", "truncate"):
                content = changed.setdefault(inode, bytearray(files.get(inode, b"")))
                if what == "truncate":
                    del content[place:]
                    content.extend(bytes(place - len(content)))
                else:
                    content.extend(bytes(max(0, place + len(payload) - len(content))))
                    content[place : place + len(payload)] = payload
            elif what == "create":
                names[payload] = inode
            elif what == "unlink":
                names.pop(payload, None)
            elif what in ("rename", "link") and payload[0] in names:
                names[payload[1]] = names[payload[0]]
                if what == "rename":
                    del names[payload[0]]
        files.update((inode, bytes(content)) for inode, content in changed.items())
        return names, files

    def content(self, calls):
        names, files = self.after(calls)
        return {name: files.get(inode, b"") for name, inode in names.items()}


def torn(call, numbers):
    """Parts of a write: any of the sectors that it covers."""
    what, inode, place, payload = call
    if what != "write":
        return [call]
    cuts = [0, *range(SECTOR - place % SECTOR, len(payload), SECTOR), len(payload)]
    return [(what, inode, place + a, payload[a:b]) for a, b in zip(cuts, cuts[1:]) if numbers.random() < 0.5]


def subsets(loose, most, numbers):
    """All subsets of the calls where these are few, else none, all, all but one, one alone, and others at random; and
    some in which writes are torn."""
    count = len(loose)
    if 2 ** count <= most:
        chosen = [[c for i, c in enumerate(loose) if bits >> i & 1] for bits in range(2 ** count)]
    else:
        chosen = [[], loose]
        for _ in range(most - 2):
            kind, one = numbers.randrange(4), numbers.randrange(count)
            chosen.append(loose[:one] + loose[one + 1 :] if kind == 0 else [loose[one]] if kind == 1 else
                          loose[:one] if kind == 2 else [c for c in loose if numbers.random() < 0.5])
    for _ in range(most // 4 if loose else 0):
        chosen.append([part for c in loose if numbers.random() < 0.8 for part in torn(c, numbers)])
    return chosen


def put(folder, content):
    shutil.rmtree(folder, ignore_errors=True)
    os.mkdir(folder)
    for name, data in content.items():
        with open(os.path.join(folder, name), "wb") as file:
            file.write(data)


def content_of(folder):
    content = {}
    for name in os.listdir(folder):
        with open(os.path.join(folder, name), "rb") as file:
            content[name] = file.read()
    return content


def dump(path, times):
    """All rows of all tables, or None where there is no line. Without the times of steps, waivers and layers, where two
    runs of one command are compared."""
    if not os.path.exists(path):
        return None
    base = sqlite3.connect(path)
    tables = [name for (name,) in base.execute("SELECT name FROM sqlite_schema WHERE type = 'table' ORDER BY name")]
    rows = []
    for table in tables:
        columns = [row[1] for row in base.execute(f"PRAGMA table_info({table})")]
        wanted = [f'"{c}"' for c in columns if times or c not in ("at", "last_change")]
        rows.append((table, sorted(map(repr, base.execute(f"SELECT {', '.join(wanted)} FROM {table}")))))
    base.close()
    return rows


class Store:
    """Tries each command on a copy of the line, `share` of the faults, and so many states after a crash at a call."""

    def __init__(self, program, faults, folder, subsets, share, seed):
        self.faults, self.folder, self.subsets, self.share = faults, folder, subsets, share
        self.numbers = random.Random(seed)
        os.mkdir(folder + "/work")
        self.tool, self.other = Tool([program], folder + "/work"), Tool([program], folder + "/other")
        self.tool.env.update(TMPDIR=folder, SQLITE_TMPDIR=folder, LOGNAME="tester")
        self.other.env = self.tool.env
        self.told = {}
        self.crashes = self.journals = self.second = self.faulty = 0

    def run(self, tool, words, fault):
        env = dict(tool.env, LD_PRELOAD=self.faults, PROWCURL_FAULT=fault)
        done = subprocess.run(tool.program + [str(word) for word in words], cwd=tool.folder, env=env,
                              capture_output=True)
        return done.returncode, done.stderr.decode()

    def record(self, tool, words):
        """Runs the command; gives the disk before it and its calls."""
        disk, record = Disk(tool.folder), self.folder + "/record"
        status, said = self.run(tool, words, f"record:{record}")
        must(status == 0, f"{words}: {status} {said}")
        calls = read_record(record, tool.folder)
        os.unlink(record)
        return disk, calls

    def state(self, line, times=True):
        """The state of the line in the other folder, as the tool opens it: what is not committed is rolled back, and
        the whole is sound. The same bytes without a journal are judged once."""
        path = self.other.path(line)
        if not os.path.exists(path):
            return None
        if os.path.exists(path + "-journal"):
            self.other("info", line)
        digest = hashlib.sha256(self.other.read(line)).digest()
        if (digest, times) not in self.told:
            self.other("check", line)
            self.told[digest, times] = hashlib.sha256(repr(dump(path, times)).encode()).digest()
        return self.told[digest, times]

    def at_crashes(self, words, line, disk, calls, old, new, again=True):
        """The line after a crash at each call, with what may have reached the disk; where a journal is left, some of
        them with a second crash, while it is rolled back."""
        seen = set()
        for number in range(len(calls) + 1):
            if number:
                disk.take(calls[number - 1])
            for kept in subsets(disk.loose, self.subsets, self.numbers):
                content = {n: c for n, c in disk.content(kept).items() if n.startswith(line)}
                key = number == len(calls), tuple(sorted(content.items()))
                if key in seen:
                    continue
                seen.add(key)
                put(self.other.folder, content)
                what = f"{words}: a crash after call {number} of {len(calls)}"
                now = self.state(line)
                must(now in (old, new), f"{what}: neither state")
                must(number < len(calls) or now == new, f"{what}, when it was answered, takes the edit back")
                self.crashes += 1
                if line + "-journal" not in content:
                    continue
                self.journals += 1
                if again and self.numbers.random() < self.share / 16:
                    put(self.other.folder, content)
                    then, rollback = self.record(self.other, ["info", line])
                    self.second += 1
                    self.at_crashes(words + ["and then info"], line, then, rollback, old, now, False)

    def with_faults(self, words, line, content, calls, old, new):
        """The command with a fault at each of its calls; and in a folder that cannot be written through to the disk,
        where it goes all the same."""
        put(self.other.folder, content)
        must(self.run(self.other, words, "folder:") == (0, ""), f"{words} in a folder that knows no fsync")
        must(self.state(line, False) == new, f"{words} in a folder that knows no fsync: not the new state")
        for fault in ("fails", "gone", "short", "full", "stop"):
            for call in range(1, calls + 1):
                if self.numbers.random() >= self.share:
                    continue
                put(self.other.folder, content)
                status, said = self.run(self.other, words, f"{fault}:{call}")
                now = self.state(line, False)
                self.faulty += 1
                what = f"{words}, {fault}:{call} of {calls}: status {status}, {said!r}"
                if fault == "stop":
                    left = [name for name in os.listdir(self.other.folder) if ".new" in name]
                    must(status == -15 and now in (old, new) and not left, f"{what}: {left}")
                    continue
                if status == 0:
                    must(now == new and not said, f"{what}: it is not told that nothing was changed")
                    continue
                must(fault != "short" and 64 <= status <= 75 and said.startswith("prowcurl: "), what)
                must(now in (old, new) if fault != "full" else now == old, f"{what}: another state")

    def must_notice(self, words, line, disk, calls, old, new):
        """A tool that writes nothing through to the disk would be found out."""
        hasty = [call for call in calls if call[0] != "sync"]
        counts = self.crashes, self.journals
        try:
            self.at_crashes(words, line, disk, hasty, old, new, False)
        except SystemExit:
            self.crashes, self.journals = counts
            return
        fail(f"{words}: a crash does no harm where nothing was written through to the disk")

    def attempt(self, words, line):
        """Gives how many calls the command has that a fault can meet."""
        content = content_of(self.tool.folder)
        put(self.other.folder, content)
        old, old_bare = self.state(line), self.state(line, False)
        disk, calls = self.record(self.tool, words)
        put(self.other.folder, content_of(self.tool.folder))
        new, new_bare = self.state(line), self.state(line, False)
        must(old != new, f"{words} changes nothing")
        if words[0] == "paint":
            self.must_notice(words, line, copy.deepcopy(disk), calls, old, new)
        self.at_crashes(words, line, disk, calls, old, new)
        faults = sum(call[0] != "create" for call in calls)
        self.with_faults(words, line, content, faults, old_bare, new_bare)
        return faults


def edits(tool):
    """Every command that writes a line, with its files."""
    tool.write("a.pgm", pgm(patches(ROWS, COLUMNS, 1)))
    tool.write("b.pgm", pgm(patches(ROWS, COLUMNS, 4)))
    tool.write("classes.csv", "class,name\n" + "".join(f"{i},class {i}\n" for i in range(5)))
    tool.write("prices.csv", "class,price\n1,2.5\n2,7\n")
    tool.write("rules.csv", rules_csv([(0, 1, 0, 0, 30, 30, 2, "one"), (1, 2, 5, 0, 30, 20, 2, "two")]))
    tool.write("waivers.csv", "office,rule,sheet_row,sheet_column,key,note\n")
    tool.write("places.csv", "office,rule,place\n0,1,0\n1,2,2\n")
    tool.write("table.csv", "old,new,class\n" + "".join(f"{i},{j},{(i + j) % 5}\n" for i in range(7) for j in range(7)))
    line = "a.gpkg"
    yield ["init", line, "--side", SIDE, "--classes", "classes.csv"]
    yield ["add", line, "a.pgm"]
    yield ["add", line, "b.pgm"]
    tool("export", line, "hlq", "old.hlq", "--sheet", "0.0")
    tool.write("classes.csv", "class,name\n" + "".join(f"{i},ground {i}\n" for i in range(7)))
    yield ["set", line, "classes", "classes.csv"]
    yield ["set", line, "prices", "prices.csv"]
    yield ["set", line, "rules", "rules.csv"]
    yield ["paint", line, 3, 5, 35, 20, 2]
    yield ["paint", line, "0.0:1000", 3]
    yield ["undo", line]
    yield ["redo", line]
    yield ["waive", line, 1, 0, 0, 20, 20, "--office", 0]
    yield ["adopt", line, "old.hlq", "places.csv"]
    yield ["unwaive", line, 1, 0, 0, 9, 9, "--office", 0]
    yield ["findings", line, "--office", 1, "--save"]
    yield ["publish", line]
    yield ["change", line, "a", "b", "table.csv", "--as", "c"]
    yield ["forget", line, "--survey", "b"]
    yield ["set", line, "waivers", "waivers.csv"]
    tool("init", "old.gpkg", "--side", SIDE, "--slots", 5)
    yield ["add", "old.gpkg", "old.hlq"]


def main():
    program, faults = sys.argv[1], os.path.abspath(sys.argv[2])
    subsets, share = (int(sys.argv[3]), 1) if len(sys.argv) > 3 else (4, 0.2)
    seed = int(sys.argv[4]) if len(sys.argv) > 4 else 42
    where = "/dev/shm" if os.access("/dev/shm", os.W_OK) else None  # nothing here waits for a disk
    with tempfile.TemporaryDirectory(prefix="prowcurl-", dir=where) as folder:
        store = Store(program, faults, folder, subsets, share, seed)
        calls = count = 0
        for words in edits(store.tool):
            calls += store.attempt(words, words[1])
            count += 1
        print(f"store, seed {seed}: {count} commands of {calls} calls; {store.crashes} states after a crash, "
              f"{store.journals} with a journal, {store.second} with a second crash; {store.faulty} runs with faults")


if __name__ == "__main__":
    main()
