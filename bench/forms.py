#!/usr/bin/env python3
"""A dozen small forms with the answers of a listing, as trials; and what a bound costs.

    bench/forms.py trials               writes crates/ct_examples/data/trials/listed_forms.json anew
    bench/forms.py cost PATH_TO_CT      a knapsack of ten columns with 0, 5 and 6 bounds, as rows of a table

The listing goes through all lists of numbers that stay within the right-hand side and the bounds, and knows of no slack
column. The knapsack is completed up to its greatest sum and answers 1,000 requests with walks; the best of three times counts.
"""
import itertools
import json
import os
import subprocess
import sys
import tempfile

sys.dont_write_bytecode = True
import gen

FORMS, REQUESTS, COUNT, ROUNDS = 12, 6, 3, 3


def text_of(form):
    matrix, relations, bounds, costs = form
    words = ["instance 2 rows", len(matrix), "columns", len(bounds), "matrix", *itertools.chain(*matrix)]
    words += ["relations", *relations, "bounds", *("-" if u is None else u for u in bounds)]
    for row in costs:
        words += ["cost", *row]
    return " ".join(map(str, words + ["end"]))


def within(form, right):
    """Each x that is within the bounds and by which no row is above its right-hand side, with what each row has left."""
    matrix, _, bounds, _ = form
    most = []
    for j, bound in enumerate(bounds):
        limits = [b // row[j] for row, b in zip(matrix, right) if row[j]]
        most.append(min(limits + ([] if bound is None else [bound])))
    for x in itertools.product(*(range(u + 1) for u in most)):
        left = [b - sum(a * t for a, t in zip(row, x)) for row, b in zip(matrix, right)]
        if min(left) >= 0:
            yield x, left


def solutions(form, right):
    """All solutions, least first, each as its costs and its numbers; and how far the nearest x falls short."""
    _, relations, _, costs = form
    found, short = [], None
    for x, left in within(form, right):
        rest = sum(t for t, relation in zip(left, relations) if relation == "eq")
        short = rest if short is None else min(short, rest)
        if rest == 0:
            found.append(([sum(c * t for c, t in zip(row, x)) for row in costs], x))
    return sorted(found), short


def line(costs, x):
    return " ".join(map(str, [*costs, "at", *x]))


def form_of(draw):
    while True:
        rows, columns = 1 + draw(3), 2 + draw(3)
        matrix = [[draw(5) for _ in range(columns)] for _ in range(rows)]
        relations = [("eq", "le")[draw(2)] for _ in range(rows)]
        bounds = [(None, draw(4))[draw(2)] for _ in range(columns)]
        costs = [[draw(9) - 4 for _ in range(columns)] for _ in range(1 + draw(2))]
        if all(bounds[j] is not None or any(row[j] for row in matrix) for j in range(columns)):
            return matrix, relations, bounds, costs


def right_of(draw, form, k):
    """What some small x makes, or numbers that nothing needs to make."""
    matrix, _, bounds, _ = form
    x = [draw(4) if u is None else draw(u + 1) for u in bounds]
    return [draw(13) if k % 3 == 2 else sum(a * t for a, t in zip(row, x)) for row in matrix]


def trials():
    stream = gen.Lcg(28)
    draw = lambda below: stream.draw() % below
    made = []
    for number in range(FORMS):
        form = form_of(draw)
        rights = [right_of(draw, form, k) for k in range(REQUESTS)]
        told, best = ["report 1", "phase 1", "session 1"], ["best 1"]
        for k, right in enumerate(rights):
            found, short = solutions(form, right)
            told.append("optimum " + line(*found[0]) if found else f"infeasible short {short}")
            best.append(f"request {k + 1} found {min(COUNT, len(found))}")
            best += [line(*one) for one in found[:COUNT]]
        script = " ".join(["sessions 1 phase 0 session", *("solve " + " ".join(map(str, b)) for b in rights), "end"])
        files = {"K": text_of(form), "S": script}
        for words, lines in (("answer K S", told), (f"best K S {COUNT}", best)):
            made.append({"name": f"form {number + 1}, {words.split()[0]}", "words": words, "files": files, "writes": [*lines, "end"]})
    at = os.path.join(os.path.dirname(__file__), "..", "crates", "ct_examples", "data", "trials", "listed_forms.json")
    with open(at, "w") as out:
        out.write('{\n  "trials": [\n    ')
        out.write(",\n    ".join(json.dumps(trial) for trial in made))
        out.write("\n  ]\n}\n")
    return 0


def cost(program):
    stream = gen.Lcg(10)
    entries = [10 + stream.draw() % 40 for _ in range(10)]
    costs = [-(1 + stream.draw() % 60) for _ in range(10)]
    rights = [[stream.draw() % 300] for _ in range(1000)]
    for count in (0, 5, 6):
        bounds = [3 if j < count else None for j in range(10)]
        with tempfile.TemporaryDirectory() as folder:
            files = [os.path.join(folder, name) for name in ("instance", "sessions")]
            for file, text in zip(files, (text_of(([entries], ["le"], bounds, [costs])), gen.ses_text(rights))):
                with open(file, "w") as out:
                    out.write(text)
            times = {}
            for _ in range(ROUNDS):
                for option in ([], ["--walks"]):
                    with open(os.path.join(folder, "report"), "w") as out:
                        child = subprocess.Popen([program, "answer", *files, *option], stdout=out)
                        _, status, used = os.wait4(child.pid, 0)
                        child.returncode = os.waitstatus_to_exitcode(status)
                    if child.returncode != 0:
                        sys.exit(f"answer ended with {child.returncode}")
                    spent = 1000 * (used.ru_utime + used.ru_stime)
                    times[len(option)] = min(times.get(len(option), spent), spent)
            print(f"| {count} | {times[0]:.0f} | {times[1]:.0f} |", flush=True)
    return 0


def main(argv):
    if argv == ["trials"]:
        return trials()
    if len(argv) == 2 and argv[0] == "cost":
        return cost(argv[1])
    print(__doc__)
    return 2


if __name__ == "__main__":
    sys.exit(main(sys.argv[1:]))
