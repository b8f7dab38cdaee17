#!/usr/bin/env python3
"""`serve --resume` beside what completes the same test set anew.

    bench/resume.py PATH_TO_CT [NAME ...]

For each set of bench/gen.py `ct` certifies the greatest sum of its right-hand sides, and one right-hand side of that sum is asked
for with the ledger. Beside that the same request is a solve of `serve`, without a ledger, and of `answer`. All run in turn, three
times, each in one thread, and the best processor time of each counts. Printed is a row of a table: moves, entries and megabytes
of the ledger; the time with the ledger, and its parts: reading, which a ledger takes too whose last line is cut off, checking,
which is what `check` takes beyond that, and the rest, which is the test of reduced moves, opening the book and the answer; and
the whole as a part of the two times without a ledger. Last is the peak of memory.
"""
import os
import sys
import tempfile

sys.dont_write_bytecode = True
import gen
from ledgers import ROUNDS, run

SETS = ["make0", "transp55", "cut5x20", "part8x40", "cut5x30"]


def write(path, text):
    with open(path, "w") as file:
        file.write(text)


def measure(program, folder, name):
    instance, ledger, cut, ask, solve, out = (os.path.join(folder, it) for it in ("instance", "ledger", "cut", "ask", "solve", "out"))
    matrix, costs, rights = gen.SETS[name]()
    b = max(rights, key=sum)
    write(instance, gen.inst_text(matrix, costs))
    for path, word in ((ask, "ask"), (solve, "solve")):
        write(path, f"sessions 1 phase 0 session {word} {' '.join(map(str, b))} end\n")
    if run([program, "certify", instance, str(sum(b))], ledger)[0] != 0:
        print(f"{name}: no ledger up to {sum(b)}")
        return
    with open(ledger) as file:
        text = file.read()
    write(cut, text.removesuffix("end\n"))
    one = [program, "serve", instance]
    runs = {
        "read": ([program, "check", instance, cut], 8),
        "check": ([program, "check", instance, ledger], 0),
        "resume": ([*one, ask, "--workers", "0", "--resume", ledger], 0),
        "serve": ([*one, solve, "--workers", "0"], 0),
        "answer": ([program, "answer", instance, solve], 0),
    }
    best, peak, told = {}, 0, {}
    for _ in range(ROUNDS):
        for what, (words, status) in runs.items():
            ended, seconds, kilobytes = run(words, out)
            if ended != status:
                sys.exit(f"{' '.join(words)} ended with {ended}")
            best[what] = min(best.get(what, seconds), seconds)
            with open(out) as file:
                told[what] = file.read()
            peak = max(peak, kilobytes) if what == "resume" else peak
    if len({told[what] for what in ("resume", "serve", "answer")}) > 1:
        sys.exit(f"{name}: the reports differ")
    lines = text.splitlines()
    moves = sum(line.startswith("move") for line in lines)
    entries = sum(line.startswith(("generator", "pair")) for line in lines)
    parts = best["read"], best["check"] - best["read"], best["resume"] - best["check"]
    print(
        f"| {name} ({moves:,}) | {entries:,}, {len(text) / 1e6:.1f} MB | {best['resume'] * 1000:.1f} | "
        f"{', '.join(f'{part * 1000:.1f}' for part in parts)} | "
        f"{best['resume'] / best['serve']:.2f}, {best['resume'] / best['answer']:.2f} | {peak / 1024:.0f} |",
        flush=True,
    )


def main():
    if len(sys.argv) < 2:
        sys.exit("usage: bench/resume.py PATH_TO_CT [NAME ...]")
    print("| set (moves) | entries, ledger | ms | reading, checking, the rest | of serve, of answer | peak, MB |\n|---|---|---|---|---|---|")
    with tempfile.TemporaryDirectory() as folder:
        for name in sys.argv[2:] or SETS:
            measure(sys.argv[1], folder, name)


if __name__ == "__main__":
    main()
