#!/usr/bin/env python3
"""`answer` and `check` with `--batch` beside the same without: wall and processor time, on all processors and on one.

    bench/batch.py PATH_TO_CT

Reports with walks: 100,000 right-hand sides of make0, and 20,000 of a knapsack of six columns whose walks are long. Checks:
the longest ledgers of bench/ledgers.py. Each line gives a work and how many processors it may use, and without and with
`--batch` the least wall and processor time of three runs in turn, then the ratios. What both write is compared in each round.
"""
import os
import subprocess
import sys
import tempfile
import time

sys.dont_write_bytecode = True
import gen

ROUNDS = 3
LEDGERS = [("part8x40", 40), ("cut5x20", 1000)]


def run(words, processors):
    """What one run writes, its wall and its processor time in seconds."""
    began = time.monotonic()
    child = subprocess.Popen(words, stdout=subprocess.PIPE, preexec_fn=lambda: os.sched_setaffinity(0, processors))
    text = child.stdout.read()
    _, status, usage = os.wait4(child.pid, 0)
    if os.waitstatus_to_exitcode(status) != 0:
        sys.exit(f"{words} ended with {os.waitstatus_to_exitcode(status)}")
    return text, time.monotonic() - began, usage.ru_utime + usage.ru_stime


def measure(name, words):
    every = os.sched_getaffinity(0)
    for processors in (every, set(sorted(every)[:1])):
        walls, works = {}, {}
        for _ in range(ROUNDS):
            texts = set()
            for way, more in (("one", []), ("batch", ["--batch"])):
                text, wall, work = run(words + more, processors)
                texts.add(text)
                walls[way] = min(walls.get(way, wall), wall)
                works[way] = min(works.get(way, work), work)
            if len(texts) != 1:
                sys.exit(f"{name}: the two ways write different texts")
        print(
            f"{name}, {len(processors)} processors: one thread {walls['one']:.3f} s, several {walls['batch']:.3f} s, "
            f"ratio {walls['batch'] / walls['one']:.2f}; processor time {works['one']:.3f} s and {works['batch']:.3f} s, "
            f"ratio {works['batch'] / works['one']:.2f}"
        )


def sessions(rights):
    lines = ["sessions 1", "phase 0", "session"]
    lines += ["solve " + " ".join(map(str, b)) for b in rights]
    return "\n".join(lines + ["end"]) + "\n"


def main():
    if len(sys.argv) != 2:
        sys.exit("usage: bench/batch.py PATH_TO_CT")
    ct = os.path.abspath(sys.argv[1])
    with tempfile.TemporaryDirectory() as folder:
        instance, script, ledger = (os.path.join(folder, part) for part in ("instance", "sessions", "ledger"))

        def write(path, text):
            with open(path, "w") as file:
                file.write(text)

        matrix, costs, _ = gen.SETS["make0"]()
        draw = gen.Lcg(7)
        write(instance, gen.inst_text(matrix, costs))
        write(script, sessions([[draw.draw() % 100000] for _ in range(100000)]))
        measure("100,000 requests of make0", [ct, "answer", "--walks", instance, script])
        write(instance, gen.inst_text([[3, 5, 7, 11, 13, 17]], [3, 4, 6, 9, 10, 12]))
        write(script, sessions([[10**9 + draw.draw() % 10**9] for _ in range(20000)]))
        measure("20,000 requests of a knapsack", [ct, "answer", "--walks", instance, script])
        for name, grade in LEDGERS:
            matrix, costs, _ = gen.SETS[name]()
            write(instance, gen.inst_text(matrix, costs))
            with open(ledger, "w") as file:
                subprocess.run([ct, "certify", instance, str(grade)], stdout=file, check=True)
            measure(f"ledger of {name} up to {grade}", [ct, "check", instance, ledger])


if __name__ == "__main__":
    main()
