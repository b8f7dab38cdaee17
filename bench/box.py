#!/usr/bin/env python3
"""`box` beside `answer` on the same right-hand sides, in one run.

    bench/box.py PATH_TO_CT [NAME ...]

For each set of bench/gen.py its first right-hand side is answered, and its first fifty; the reports must be the same
bytes. Each runs three times in turn, and the best processor time counts. Printed is a row of a table: the time of `answer`, that
of `box` as a part of it, and how many moves each needs, which is the least limit on them with which no request is told `full`.
"""
import os
import sys
import tempfile

sys.dont_write_bytecode = True
import gen
from ledgers import ROUNDS, run

SETS = ["transp55", "cut5x20", "plan3x8", "plan4x14"]
MOST = 4096


def told(words, out):
    status, seconds, _ = run(words, out)
    if status != 0:
        sys.exit(f"{' '.join(words)} ended with {status}")
    with open(out) as file:
        return file.read(), seconds


def moves_needed(words, out):
    """The least limit on moves with which no request is full, or None."""
    low, high = 1, MOST + 1
    while low < high:
        limit = (low + high) // 2
        if limit > MOST or "full" not in told([*words, "--moves", str(limit)], out)[0]:
            high = limit
        else:
            low = limit + 1
    return low if low <= MOST else None


def measure(program, folder, name, count):
    instance, sessions, out = (os.path.join(folder, it) for it in ("instance", "sessions", "out"))
    matrix, costs, rights = gen.SETS[name]()
    for path, text in ((instance, gen.inst_text(matrix, costs)), (sessions, gen.ses_text(rights[:count]))):
        with open(path, "w") as file:
            file.write(text)
    best, texts, needed = {}, set(), {}
    commands = {command: [program, command, instance, sessions] for command in ("answer", "box")}
    for _ in range(ROUNDS):
        for command, words in commands.items():
            text, seconds = told(words, out)
            best[command] = min(best.get(command, seconds), seconds)
            texts.add(text)
    if len(texts) > 1 and not any("full" in text for text in texts):
        sys.exit(f"{name}: the reports differ")
    for command, words in commands.items():
        needed[command] = moves_needed(words, out) or f"above {MOST:,}"
    print(
        f"| {name}, {count} | {best['answer'] * 1000:.1f} | {best['box'] / best['answer']:.2f} | {needed['answer']}, {needed['box']} |",
        flush=True,
    )


def main():
    if len(sys.argv) < 2:
        sys.exit("usage: bench/box.py PATH_TO_CT [NAME ...]")
    print("| set, right-hand sides | `answer`, ms | `box`, of that | moves of `answer`, of `box` |\n|---|---|---|---|")
    with tempfile.TemporaryDirectory() as folder:
        for name in sys.argv[2:] or SETS:
            for count in (1, 50):
                measure(sys.argv[1], folder, name, count)


if __name__ == "__main__":
    main()
