#!/usr/bin/env python3
"""Inputs for the fuzzer of lines that leave nothing to chance: every column of a line gets every value that is worth
trying, and every command runs on it. sweep.py OUT [COUNT] writes them into the folder OUT, or COUNT of them, by chance
which; `target/fuzz/sanitized/line OUT/*` runs them."""
import os
import random
import re
import struct
import sys

HERE = os.path.dirname(os.path.abspath(__file__))
NUMBERS = [0, 1, -1, 2, 3, 7, 31, 32, 255, 1024, 2**20, 2**20 + 1, 2**31 - 1, -(2**31), 2**32 - 1, 2**32, 2**63 - 1,
           -(2**63), 2**62, 2**61]
DECIMALS = [0.5, 1e-9, 1e154, 5e-324, -1e300, 562000.5, float("inf")]
TEXTS = [b"", b"0", b"x", b"1 2 3", b"#ffffff", b"2026", b"\xff\xc3\x28\x80"]
RIGHT_DIGEST = bytes([7, 0, 0, 0])
GROUPS = 14  # an input has up to four commands, so the commands are dealt to so many


def rows_of(source, name):
    """The rows of a table of strings in the fuzzer's source."""
    table = source.split(f"*const {name}[]", 1)[1].split("\n};", 1)[0]
    return [re.findall(r'"([^"]*)"', row) for row in re.findall(r'\{ (".*?") \}', table, re.S)]


def values():
    """As bind_value of target_line.c takes them."""
    yield b"\0"
    for number in NUMBERS:
        yield b"\4\xff" + struct.pack("<q", number)
    for number in DECIMALS:
        yield b"\1\xff" + struct.pack("<d", number)
    for text in TEXTS:
        yield bytes([3, len(text)]) + text
        yield bytes([2, len(text)]) + text


def command(place, words, chance):
    """A command with small numbers for its words."""
    taken = bytes([place])
    for word in words:
        if word in ("#", "~"):
            taken += bytes([chance.choice([0, 1, 2, 3, 5, 7, 11])])
        elif word == "@":
            taken += bytes([chance.randrange(3), chance.randrange(2), chance.choice([0, 1, 5, 6, 10, 24])])
    return taken


def inputs(tables, commands, chance):
    for table, (name, *columns) in enumerate(tables):
        for column, column_name in enumerate(columns):
            changes = 2 if name == "surveys" or (name == "sheets" and column_name != "digest") else 1
            for number, value in enumerate(values()):
                for group in range(GROUPS):
                    places = range(group, len(commands), GROUPS)
                    row, line = chance.randrange(2), chance.randrange(2)
                    change = bytes([0, table, row, column]) + value + RIGHT_DIGEST * (changes - 1)
                    yield f"{name}_{column_name}_{number}_{group}", (
                        bytes([line | (len(places) - 1) << 4, changes]) + change +
                        b"".join(command(place, commands[place], chance) for place in places))


def main():
    with open(os.path.join(HERE, "target_line.c"), encoding="utf-8") as file:
        source = file.read()
    chance = random.Random(1)
    made = list(inputs(rows_of(source, "tables"), rows_of(source, "commands"), chance))
    if len(sys.argv) > 2:
        made = chance.sample(made, int(sys.argv[2]))
    os.makedirs(sys.argv[1], exist_ok=True)
    for name, content in made:
        with open(os.path.join(sys.argv[1], name), "wb") as file:
            file.write(content)
    print(f"{len(made)} inputs in {sys.argv[1]}")


main()
