#!/usr/bin/env python3
"""`best` beside one `answer` of the same request.

    bench/best.py PATH_TO_CT [NAME ...]

For each set of bench/gen.py (make0, transp55, cut5x20 and wide, if no NAME is given) one request is answered, and its 1, 10 and 100
least solutions are told, in turn, five times; the best processor time of each counts, in milliseconds. The request is the
one with the greatest sum of the set's first 100, so that the test set is large. A last row has coins of 1, 2, 5 and more with a
right-hand side of more than 10^10 solutions.
"""
import os
import subprocess
import sys
import tempfile

sys.dont_write_bytecode = True
import gen

ROUNDS = 5
COUNTS = (1, 10, 100)
NAMES = ("make0", "transp55", "cut5x20", "wide")
COINS = ([[1, 2, 5, 10, 20, 50, 100, 200]], [1] * 8, [[10000]])


def milliseconds(words):
    """The text, and the processor time."""
    with tempfile.TemporaryFile() as out:
        child = subprocess.Popen(words, stdout=out, stdin=subprocess.DEVNULL)
        _, status, used = os.wait4(child.pid, 0)
        child.returncode = os.waitstatus_to_exitcode(status)
        out.seek(0)
        text = out.read().decode()
    if child.returncode != 0:
        sys.exit(f"{' '.join(words)} ended with {child.returncode}: {text[:200]}")
    return text, 1000 * (used.ru_utime + used.ru_stime)


def row(program, folder, name, instance):
    matrix, cost, rights = instance
    files = os.path.join(folder, name + ".inst"), os.path.join(folder, name + ".ses")
    for file, text in zip(files, (gen.inst_text(matrix, cost), gen.ses_text([max(rights[:100], key=sum)]))):
        with open(file, "w") as out:
            out.write(text)
    commands = {"answer": [program, "answer", *files], **{count: [program, "best", *files, str(count)] for count in COUNTS}}
    times, texts = {}, {}
    for _ in range(ROUNDS):
        for key, words in commands.items():
            texts[key], time = milliseconds(words)
            times[key] = min(times.get(key, time), time)
    lists = [texts[count].split("\n")[2:-2] for count in COUNTS]
    if any(longer[:len(shorter)] != shorter for shorter, longer in zip(lists, lists[1:])):
        sys.exit(f"{name}: the lists differ")
    shown = " | ".join(f"{times[count] - times['answer']:.1f}" for count in COUNTS)
    print(f"| {name} | {times['answer']:.1f} | {shown} | {len(lists[-1])} |", flush=True)


def main(argv):
    if not argv:
        print(__doc__)
        return 2
    print("| set | `answer`, ms | `best` 1 above it | 10 | 100 | found of 100 |\n|---|---|---|---|---|---|")
    with tempfile.TemporaryDirectory() as folder:
        for name in argv[1:] or NAMES:
            row(argv[0], folder, name, (gen.SETS | gen.MORE)[name]())
        if len(argv) == 1:
            row(argv[0], folder, "coins", COINS)
    return 0


if __name__ == "__main__":
    sys.exit(main(sys.argv[1:]))
