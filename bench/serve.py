#!/usr/bin/env python3
"""`serve` with 0, 1, 2 and 4 workers beside `answer`, on the same input in one run.

    bench/serve.py PATH_TO_CT [NAME ...]

For each set of bench/gen.py and of bench/answer.py (all but cut5x30 if no NAME is given) three scripts, in turn, three times;
the best time of each counts, on the wall and of the processors:

- its right-hand sides as solves: `serve` beside `answer`, whose bytes must be the same;
- every second of them as an ask: `serve` beside `answer`, which takes an ask as a solve; each line of `serve` that isn't
  `notyet` must be that of `answer`. Printed is how many asks were answered at once, the least and the most of the three runs;
- no session at all: what the workers alone take to complete the test set, and how many times faster they are than one.

The target of the one phase is the greatest sum of a right-hand side, so that the workers have the whole test set to complete.
"""
import os
import subprocess
import sys
import tempfile
import time

sys.dont_write_bytecode = True
import gen
from answer import COINS

ROUNDS = 3
WORKERS = (0, 1, 2, 4)


def run(words):
    """The output's lines, the seconds on the wall, and those of the processors."""
    with tempfile.TemporaryFile() as out:
        begun = time.monotonic()
        child = subprocess.Popen(words, stdout=out, stderr=subprocess.DEVNULL, stdin=subprocess.DEVNULL)
        _, status, used = os.wait4(child.pid, 0)
        wall = time.monotonic() - begun
        child.returncode = os.waitstatus_to_exitcode(status)
        out.seek(0)
        text = out.read().decode()
    if child.returncode != 0:
        sys.exit(f"{' '.join(words)} ended with {child.returncode}: {text[:200]}")
    return text.splitlines(), wall, used.ru_utime + used.ru_stime


def script(rights, word_of, per=250):
    """One phase up to the greatest sum, with sessions of at most 250 requests, whose words are told by their places."""
    lines = ["sessions 1", f"phase {max(map(sum, rights))}"]
    for place, b in enumerate(rights):
        word = word_of(place)
        if word is None:
            continue
        if place % per == 0:
            lines.append("session")
        lines.append(" ".join([word, *map(str, b)]))
    return "\n".join(lines + ["end"]) + "\n"


SCRIPTS = {
    "solves": lambda place: "solve",
    "half asks": lambda place: "ask" if place % 2 else "solve",
    "no session": lambda place: None,
}


class Best:
    """The least time on the wall and of the processors, and how many asks were answered at once."""

    def __init__(self):
        self.wall = self.used = float("inf")
        self.at_once = []

    def take(self, lines, wall, used, asks):
        self.wall, self.used = min(self.wall, wall), min(self.used, used)
        self.at_once.append(asks - sum(line.startswith("notyet ") for line in lines))


def compare(name, lines, told):
    """Each line is the one told by `answer`, or `notyet`."""
    if len(lines) != len(told) or any(line != other and not line.startswith("notyet ") for line, other in zip(lines, told)):
        sys.exit(f"{name}: the reports differ")


def measure(program, files, name, asks):
    """By the number of workers, and by None for `answer`, the best of the rounds, in turn."""
    best = {workers: Best() for workers in (None, *WORKERS)}
    for _ in range(ROUNDS):
        told, wall, used = run([program, "answer", *files])
        best[None].take(told, wall, used, asks)
        for workers in WORKERS:
            lines, wall, used = run([program, "serve", *files, "--workers", str(workers)])
            compare(name, lines, told)
            if asks == 0 and lines != told:
                sys.exit(f"{name}: the bytes differ")
            best[workers].take(lines, wall, used, asks)
    return best


def beside(best, asks):
    """The times of each number of workers as parts of those of `answer`."""
    base = best[None]
    parts = [f"answer {base.wall:.3f} s, {base.used:.3f} s of processors"]
    for workers in WORKERS:
        one = best[workers]
        part = f"{workers}: {one.wall / base.wall:.2f} and {one.used / base.used:.2f} of it"
        if asks:
            part += f", {min(one.at_once)} to {max(one.at_once)} of {asks} asks at once"
        parts.append(part)
    return "; ".join(parts)


def alone(best):
    """The times of the workers alone, and how many times faster they are than one worker."""
    return "; ".join(
        f"{workers}: {best[workers].wall:.3f} s, {best[workers].used:.3f} s of processors, {best[1].wall / best[workers].wall:.2f} times as fast as 1"
        for workers in WORKERS
    )


def main():
    if len(sys.argv) < 2:
        sys.exit(__doc__)
    program = sys.argv[1]
    with tempfile.TemporaryDirectory() as folder:
        for name in sys.argv[2:] or [name for name in gen.SETS if name != "cut5x30"] + ["coins"]:
            matrix, cost, rights = COINS if name == "coins" else gen.SETS[name]()
            instance, sessions = (os.path.join(folder, name + end) for end in (".inst", ".ses"))
            with open(instance, "w") as out:
                out.write(gen.inst_text(matrix, cost))
            for kind, word_of in SCRIPTS.items():
                with open(sessions, "w") as out:
                    out.write(script(rights, word_of))
                asks = sum(word_of(place) == "ask" for place in range(len(rights)))
                best = measure(program, (instance, sessions), f"{name}, {kind}", asks)
                print(f"{name}, {kind}: {alone(best) if kind == 'no session' else beside(best, asks)}", flush=True)


if __name__ == "__main__":
    main()
