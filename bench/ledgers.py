#!/usr/bin/env python3
"""`certify` beside `check` on long ledgers: processor time an entry, peak memory, and how both grow.

    bench/ledgers.py PATH_TO_CT [NAME GRADE ...]

The program is the one that `./ct` leaves in crates/ct_cli/out/ct_cli. Each line gives a set of bench/gen.py and a grade, the
moves, entries and bytes of its ledger, and for making and checking it the time an entry and the peak memory; then the time
of a check as a multiple of that of making. Both run in turn, three times; the best of each counts. With no set named it
takes grades of part8x40, cut5x20 and cut5x30 that give from some sixty thousand to some million entries.
"""
import os
import subprocess
import sys
import tempfile

sys.dont_write_bytecode = True
import gen

ROUNDS = 3
SETS = [("part8x40", 12), ("part8x40", 40), ("cut5x20", 20), ("cut5x20", 1000), ("cut5x30", 25)]


def run(words, path):
    """Exit status, processor seconds and peak kilobytes of one run, which writes to the file."""
    with open(path, "wb") as file:
        child = subprocess.Popen(words, stdout=file)
        _, status, usage = os.wait4(child.pid, 0)
    return os.waitstatus_to_exitcode(status), usage.ru_utime + usage.ru_stime, usage.ru_maxrss


def measure(program, folder, name, grade):
    instance, ledger, verdict = (os.path.join(folder, part) for part in ("instance", "ledger", "verdict"))
    matrix, costs, _ = gen.SETS[name]()
    with open(instance, "w") as file:
        file.write(gen.inst_text(matrix, costs))
    made, checked = [], []
    for _ in range(ROUNDS):
        for runs, words, path in (
            (made, [program, "certify", instance, str(grade)], ledger),
            (checked, [program, "check", instance, ledger], verdict),
        ):
            status, seconds, kilobytes = run(words, path)
            if status != 0:
                with open(path) as file:
                    print(f"{name} {grade}: {words[1]} ended with {status}, {file.readline().strip()}")
                return
            runs.append((seconds, kilobytes))
    moves = entries = 0
    # line by line: a run's peak is at least what this process holds when it starts it
    with open(ledger) as file:
        for line in file:
            moves += line.startswith("move")
            entries += line.startswith(("generator", "pair"))
    (making, make_peak), (checking, check_peak) = min(made), min(checked)
    print(
        f"{name} up to {grade}: {moves} moves, {entries} entries, {os.path.getsize(ledger)} bytes; "
        f"certify {making / entries * 1e9:.0f} ns an entry and {make_peak / 1024:.0f} MB, "
        f"check {checking / entries * 1e9:.0f} ns and {check_peak / 1024:.0f} MB; "
        f"a check takes {checking / making:.2f} of the time of making"
    )


def main():
    if len(sys.argv) < 2 or len(sys.argv) % 2 != 0:
        sys.exit("usage: bench/ledgers.py PATH_TO_CT [NAME GRADE ...]")
    named = sys.argv[2:]
    sets = list(zip(named[::2], map(int, named[1::2]))) or SETS
    with tempfile.TemporaryDirectory() as folder:
        for name, grade in sets:
            measure(sys.argv[1], folder, name, grade)


if __name__ == "__main__":
    main()
