#!/usr/bin/env python3
"""Look-ups, walks and whole completions beside the yardstick, on the same points in one run; and a list that is extended by one
move beside one that is made anew.

    bench/walks.py PATH_TO_CT_WALK_BENCH PATH_TO_CT_COMPLETION_BENCH [NAME ...]

The yardstick, bench/yard.cpp, is the same algorithm in plain C++. It completes each set and writes the moves, the points of
walks of pairs' ends and the starts of these walks to a file, which both look up and walk. The programs are those that
`rt run` leaves in the out/ of their crates. Both run in turn, three times; the best of each counts.
"""
import os
import subprocess
import sys
import tempfile

sys.dont_write_bytecode = True
import gen

ROUNDS = 3


def output(words):
    done = subprocess.run(words, capture_output=True, text=True)
    if done.returncode != 0:
        sys.exit(f"{words[0]} ended with {done.returncode}: {done.stderr}")
    return done.stdout + done.stderr


def value(text, key):
    words = text.split()
    return float(words[words.index(key) + 1])


def target(name):
    """The greatest sum of a right-hand side: the grade up to which the yardstick completes."""
    return max(sum(b) for b in gen.SETS[name]()[2])


def measure(folder, yard, points, completion, name):
    inst, ses, file = (os.path.join(folder, name + end) for end in (".inst", ".ses", ".points"))
    grade = str(target(name))
    ours, theirs = {}, {}
    for _ in range(ROUNDS):
        for best, text in (
            (theirs, output([yard, inst, ses, "--points", file])),
            (ours, output([points, inst, file, "7"])),
        ):
            best["counts"] = text.split("\nlookup_ns")[0]
            for key in ("lookup_ns", "walk_ns", "extend_ns", "anew_ns"):
                if key in text.split():
                    best[key] = min(best.get(key, float("inf")), value(text, key))
        completed = value(output([yard, inst, ses, "--quiet"]), "complete_s") * 1e9
        theirs["complete_ns"] = min(theirs.get("complete_ns", float("inf")), completed)
        completed = value(output([completion, inst, grade, "1"]), "complete_ns")
        ours["complete_ns"] = min(ours.get("complete_ns", float("inf")), completed)
    if ours["counts"] != theirs["counts"]:
        sys.exit(f"{name}: the answers differ:\n{ours['counts']}\n{theirs['counts']}")
    count = value(ours["counts"], "points")
    steps = value(ours["counts"], "steps")
    print(
        f"{name} ({value(ours['counts'], 'moves'):.0f} moves): a look-up {ours['lookup_ns'] / count:.0f} ns, "
        f"{ours['lookup_ns'] / theirs['lookup_ns']:.2f} of the yardstick's; a walk step {ours['walk_ns'] / steps:.0f} ns, "
        f"{ours['walk_ns'] / theirs['walk_ns']:.2f}; a completion {ours['complete_ns'] / 1e6:.1f} ms, "
        f"{ours['complete_ns'] / theirs['complete_ns']:.2f}; the list with one move more {ours['extend_ns'] / 1e3:.1f} us, "
        f"{ours['extend_ns'] / ours['anew_ns']:.3f} of the list made anew",
        flush=True,
    )


def main():
    if len(sys.argv) < 3:
        sys.exit(__doc__)
    names = sys.argv[3:] or list(gen.SETS)
    with tempfile.TemporaryDirectory() as folder:
        gen.main([folder] + names)
        yard = os.path.join(folder, "yard")
        source = os.path.join(os.path.dirname(os.path.abspath(__file__)), "yard.cpp")
        subprocess.run(["g++", "-O2", "-std=c++17", "-o", yard, source], check=True)
        for name in names:
            measure(folder, yard, sys.argv[1], sys.argv[2], name)


if __name__ == "__main__":
    main()
