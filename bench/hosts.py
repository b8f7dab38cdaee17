#!/usr/bin/env python3
"""Whole completions by the workers of a host, beside one thread that completes the same set with no lock.

    bench/hosts.py PATH_TO_CT_HOST_BENCH [NAME ...]

The program is the one that `rt run` leaves in the out/ of its crate. Each set of bench/gen.py (all but cut5x30 if no NAME is
given) is completed up to the greatest sum of a right-hand side: by one thread, and by 1, 2 and 4 workers of a host, in turn,
eight times, each in a process of its own; the fastest run of each counts. They must all come to the same moves and entries.

The first table has the times on the clock, as ratios, and the processor time of a job. The second has the calls of the book as
one thread makes them, each timed: `next`, `commit` and `publish` are what is done under a host's lock, and `reduce` is done
without it. The first line says how long it takes to read the clock, which each of these times has once in it.
"""
import os
import subprocess
import sys
import tempfile

sys.dont_write_bytecode = True
import gen

ROUNDS = 8
WAYS = ("one", "1", "2", "4")
LOCKED = ("next", "commit", "publish")


def target(name):
    """The greatest sum of a right-hand side."""
    return max(sum(b) for b in gen.SETS[name]()[2])


def run(words):
    """The moves and entries, the fastest times, and of each call how often, how long in all, and the longest."""
    done = subprocess.run(words, capture_output=True, text=True)
    if done.returncode != 0:
        sys.exit(f"{' '.join(words)} ended with {done.returncode}: {done.stdout}{done.stderr}")
    counts, times, calls = "", {}, {}
    for line in done.stdout.splitlines():
        first, *rest = line.split()
        if first == "moves":
            counts = line
            continue
        values = {key: float(value) for key, value in zip(rest[::2], rest[1::2])}
        if first == "times":
            times = values
        else:
            calls[first] = values
    return counts, times, calls


def measure(program, file, name):
    best, said = {}, set()
    for _ in range(ROUNDS):
        for way in WAYS:
            counts, times, _ = run([program, file, str(target(name)), way, "1"])
            said.add(counts)
            if way not in best or times["wall_ns"] < best[way]["wall_ns"]:
                best[way] = times
    counts, times, calls = run([program, file, str(target(name)), "calls", str(ROUNDS)])
    said.add(counts)
    if len(said) != 1:
        sys.exit(f"{name}: the ways differ: {said}")
    return said.pop().split(), best, times["clock_ns"], calls


def workers_row(name, counts, best, calls):
    wall = {way: best[way]["wall_ns"] for way in WAYS}
    jobs = calls["reduce"]["calls"]
    used = ", ".join(f"{best[way]['used_ns'] / jobs:.0f}" for way in WAYS)
    return (
        f"| {name} ({int(counts[1]):,}, {jobs:,.0f}) | {wall['one'] / 1e6:.1f} | {wall['1'] / wall['one']:.2f} "
        f"| {wall['1'] / wall['2']:.2f} | {wall['1'] / wall['4']:.2f} | {used} |"
    )


def calls_row(name, calls):
    each = []
    for call in ("next", "commit", "reduce"):
        of = calls[call]
        each.append(f"{of['total_ns'] / max(of['calls'], 1):.0f}, {of['most_ns']:.0f}")
    publish = calls["publish"]
    each.append(f"{publish['calls']:.0f}: {publish['total_ns'] / max(publish['calls'], 1) / 1e6:.2f}, {publish['most_ns'] / 1e6:.2f}")
    whole = sum(of["total_ns"] for of in calls.values())
    parts = ", ".join(f"{calls[call]['total_ns'] / whole:.2f}" for call in LOCKED)
    return f"| {name} | {' | '.join(each)} | {parts} |"


def main():
    if len(sys.argv) < 2:
        sys.exit(__doc__)
    names = sys.argv[2:] or [name for name in gen.SETS if name != "cut5x30"]
    rows, clock = [], 0.0
    with tempfile.TemporaryDirectory() as folder:
        gen.main([folder] + names)
        for name in names:
            counts, best, clock, calls = measure(sys.argv[1], os.path.join(folder, name + ".inst"), name)
            rows.append((workers_row(name, counts, best, calls), calls_row(name, calls)))
    print(f"reading the clock: {clock:.0f} ns; the load: {os.getloadavg()[0]:.1f}\n")
    print("| set (moves, jobs) | one thread, ms | 1 worker by one thread | as fast with 2 as with 1 | with 4 | processor time a job, ns: one thread, 1, 2, 4 workers |")
    print("|---|---|---|---|---|---|")
    print("\n".join(row for row, _ in rows) + "\n")
    print("| set | `next`, ns: mean, longest | `commit` | `reduce` | `publish`: calls, mean, longest, ms | part of the time in `next`, `commit`, `publish` |")
    print("|---|---|---|---|---|---|")
    print("\n".join(row for _, row in rows))


if __name__ == "__main__":
    main()
