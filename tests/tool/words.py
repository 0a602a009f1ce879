#!/usr/bin/env python3
"""What the tool says beside its answers: help, manual page and completion name the same commands and options, and what
takes long tells on a terminal how far it is: words.py PROGRAM.."""
import os
import pty
import re
import subprocess
import sys

from support import Tool, must, patches, pgm, work_folder

HERE = os.path.dirname(os.path.abspath(__file__))
TOOL = os.path.join(HERE, "..", "..", "tool")


def test_manual(tool):
    with open(os.path.join(TOOL, "prowcurl.1")) as file:
        page = file.read().replace("\\-", "-")
    names = re.findall(r"^  ([a-z-]+) ", tool("help"), re.M)
    must(len(names) >= 19, "the commands of the overview")
    for name in names:
        must(re.search(rf"^\.B {name} ", page, re.M), f"the manual page has no command {name}")
        for option in re.findall(r"^  (--[a-z-]+)", tool("help", name), re.M):
            must(option in page, f"the manual page has no option {option}")
    for status in (64, 65, 66, 69, 71, 73, 74, 75):
        must(f".B {status}\n" in page, f"the manual page has no status {status}")
    return names


def completed(tool, *words):
    """What bash offers for the last word."""
    script = """
        source "$0"
        COMP_WORDS=("$@")
        COMP_CWORD=$(($# - 1))
        _prowcurl
        printf '%s\\n' "${COMPREPLY[@]}"
    """
    done = subprocess.run(["bash", "-c", script, os.path.join(TOOL, "prowcurl.bash"), *words], cwd=tool.folder,
                          env=tool.env, capture_output=True)
    must(done.returncode == 0 and not done.stderr, f"completion of {words}: {done.stderr}")
    return done.stdout.decode().split()


def test_completion(tool, names):
    program = tool.path("prowcurl")
    tool.write("prowcurl", "#!/bin/sh\nexec " + " ".join(tool.program) + ' "$@"\n')
    os.chmod(program, 0o755)
    tool("init", "a.gpkg")
    tool("add", "a.gpkg", tool.write("a.pgm", pgm(patches(9, 9, 2))), "--as", "spring")
    must(sorted(completed(tool, program, "")) == sorted(names), "all commands are offered")
    must(completed(tool, program, "ch") == ["check", "change"], "a command by its beginning")
    must("undo" in completed(tool, program, "help", "un"), "a command after help")
    must("--box" in completed(tool, program, "areas", "a.gpkg", "--"), "options of a command")
    must("--box" not in completed(tool, program, "info", "a.gpkg", "--"), "options of another command")
    must(completed(tool, program, "set", "a.gpkg", "rules", "r.csv", "--office", "") == ["0", "1"], "offices")
    must(completed(tool, program, "set", "a.gpkg", "r") == ["rules"], "tables")
    must(completed(tool, program, "areas", "a.gpkg", "--survey", "") == ["spring"], "surveys")
    must(completed(tool, program, "info", "a.g") == ["a.gpkg"], "files")


def on_a_terminal(tool, words):
    """Standard error as a terminal shows it; standard output goes to nowhere."""
    ours, theirs = pty.openpty()
    running = subprocess.Popen(tool.program + words, cwd=tool.folder, env=tool.env, stdout=subprocess.DEVNULL,
                               stderr=theirs)
    os.close(theirs)
    shown = b""
    while True:
        try:
            part = os.read(ours, 4096)
        except OSError:  # the other side is closed
            break
        if not part:
            break
        shown += part
    os.close(ours)
    must(running.wait() == 0, f"{words} on a terminal")
    return shown.decode()


def test_progress(tool):
    tool("init", "p.gpkg", "--side", 128)
    tool.write("p.pgm", pgm(patches(300, 300, 2)))
    shown = on_a_terminal(tool, ["add", "p.gpkg", "p.pgm"])
    must(re.search(r"\r128 of 300 rows, 42 %", shown) and shown.endswith("\r\x1b[K"), f"add on a terminal: {shown!r}")
    question = "exist,0,0,290,290,31\nreport,1,1,250,250,\n"
    tool.write("few.csv", "ask,row,column,height,width,class\n" + question)
    must(on_a_terminal(tool, ["batch", "p.gpkg", "few.csv"]) == "", "a short batch tells nothing")
    count = 8000
    while count < 10_000_000:  # until it takes more than a second on this machine
        tool.write("many.csv", "ask,row,column,height,width,class\n" + question * count)
        shown = on_a_terminal(tool, ["batch", "p.gpkg", "many.csv", "--csv"])
        if shown:
            break
        count *= 4
    must(re.search(r"\r\d+ of 9 sheets, \d+ %", shown), f"a long batch on a terminal: {shown!r}")
    must(shown.endswith("\r\x1b[K"), "the line is wiped at the end")
    tool("batch", "p.gpkg", "few.csv", "--csv")  # not a terminal: nothing may be said


def main():
    with work_folder() as folder:
        tool = Tool(sys.argv[1:], folder)
        names = test_manual(tool)
        test_completion(tool, names)
        test_progress(tool)
        print("help, manual page, completion and the line of what takes long: as expected")


if __name__ == "__main__":
    main()
