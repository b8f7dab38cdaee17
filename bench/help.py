#!/usr/bin/env python3
"""The list of commands that `./ct help` tells, beside the table of commands of ct_words.

    bench/help.py

Reads crates/ct_words/src/table.rt and the limits in crates/ct_vectors/src/limits.rt, and compares each command with the kinds
of its words, its options, and the least and the greatest number of each; and its line with that of docs/FORMATS.md. Where the
program is built, what it writes to no command is compared with what `./ct help` writes. Ends with 1 where they differ.
"""
import os
import re
import subprocess
import sys

TOP = os.path.join(os.path.dirname(os.path.abspath(__file__)), "..")
NUMBERS = {"u64::MAX": 2**64 - 1}


def text(name):
    with open(f"{TOP}/{name}", encoding="utf-8") as it:
        return it.read()


def number(said):
    """The value of a bound or of a limit: a product of numbers and of limits above it."""
    value = 1
    for word in re.sub(r" as \w+", "", said).split("*"):
        word = word.strip()
        value *= NUMBERS[word] if word in NUMBERS else int(word.replace("_", ""))
    return value


def table():
    """Of each command the bounds of its words, None for a file, and of its options, None for a flag and "file" for a file."""
    for name, value in re.findall(r"pub const (\w+): \w+ = ([^;+-]+);", text("crates/ct_vectors/src/limits.rt")):
        NUMBERS[name] = number(value)
    source = text("crates/ct_words/src/table.rt")
    pair = r"Bounds \{\s*low: ([^,]+),\s*high: ([^,}]+?),?\s*\}"
    bounds = {name: (number(low), number(high)) for name, low, high in re.findall(rf"const (\w+): Bounds = {pair};", source)}
    options = {}
    for const, name, given in re.findall(r'const (\w+): OptionRow = OptionRow \{\s*name: "([\w-]+)",\s*takes: (.*?),\s*\};', source, re.S):
        found = re.search(pair, given)
        options[const] = (name, tuple(map(number, found.groups())) if found else "file" if "Name" in given else None)
    commands = {}
    for name, places, listed in re.findall(r'CommandRow \{\s*command: [\w:]+,\s*name: "([\w-]+)",\s*places: &\[(.*?)\],\s*options: &\[(.*?)\],\s*\}', source, re.S):
        words = [it.strip() for it in places.split(",") if it.strip()]
        kinds = [None if it == "None" else bounds[re.sub(r"Some\((\w+)\)", r"\1", it)] for it in words]
        commands[name] = (kinds, dict(options[it.strip()] for it in listed.split(",") if it.strip()))
    return commands


def told(said):
    """The same, as the list tells it."""
    spans = {name: (int(low), int(high)) for name, low, high in re.findall(r"\b([A-Z]+) (?:is )?(\d+) to (\d+)", said)}
    values = {name: (int(low), int(high)) for name, low, high in re.findall(r"(?m)^--([\w-]+) [A-Z]+ .*?(\d+) to (\d+)", said)}
    commands = {}
    for name, rest in re.findall(r"(?m)^  ct (\w+)(.*)$", said):
        flags = re.findall(r"\[--([\w-]+)( [A-Z]+)?\]", rest)
        words = re.sub(r"\[.*?\]", "", rest).split()
        commands[name] = ([spans.get(it) for it in words], {it: values.get(it, "file") if value else None for it, value in flags})
    return commands


def main():
    ran = subprocess.run([f"{TOP}/ct", "help"], capture_output=True, text=True, check=False)
    in_table, in_list = table(), told(ran.stderr)
    for name in sorted({*in_table, *in_list}):
        if in_table.get(name) != in_list.get(name):
            print(f"{name}: the table has {in_table.get(name)}, the list {in_list.get(name)}")
            return 1
    lines = [it.strip() for it in ran.stderr.split("\n") if it.startswith("  ct ")]
    if "\n".join(["```", *lines, "```"]) not in text("docs/FORMATS.md"):
        print("docs/FORMATS.md has other lines")
        return 1
    program = f"{TOP}/crates/ct_cli/out/ct_cli"
    if os.path.exists(program):
        for words in ([], ["help"], ["--help"], ["-h"]):
            own = subprocess.run([program, *words], capture_output=True, text=True, check=False)
            if (own.returncode, own.stdout) != (ran.returncode, ran.stdout):
                print(f"the program writes {own.stdout!r} to {words}, ct help {ran.stdout!r}")
                return 1
    print(f"the list has the {len(in_table)} commands of the table, with their words and options")
    return int(not in_table)


if __name__ == "__main__":
    sys.exit(main())
