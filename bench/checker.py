#!/usr/bin/env python3
"""Checks answers of `ct` by a ledger, and the ledger itself. It was written from docs/EVIDENCE.md and docs/FORMATS.md alone.

    bench/checker.py INSTANCE LEDGER [SESSIONS REPORT]

INSTANCE and SESSIONS are texts or JSON, LEDGER is what `ct certify` writes, and REPORT what `ct answer --walks` or
`ct serve --walks` writes. Prints whether the ledger is accepted, and for each request whether the ledger shows its answer.
Ends with 0 where all is accepted and shown, and else with 1.
"""
import json
import re
import sys


def need(holds, why):
    if not holds:
        raise ValueError(why)


def words_of(text):
    return re.sub("#[^\n]*", " ", text).split()


def read_instance(text):
    """The columns of the matrix, and the rows of costs."""
    if text.lstrip().startswith("{"):
        told = json.loads(text)
        return [list(it) for it in zip(*told["matrix"])], told["cost"] if isinstance(told["cost"][0], list) else [told["cost"]]
    words = words_of(text)
    m, n = int(words[3]), int(words[5])
    rest = 7 + m * n
    numbers = list(map(int, words[7:rest]))
    columns = [numbers[j::n] for j in range(n)]
    relations, bounds = (words[rest + 1 : rest + 1 + m], words[rest + 2 + m : rest + 2 + m + n]) if words[1] == "2" else ([], [])
    rest += m + n + 2 if words[1] == "2" else 0
    costs = [list(map(int, words[at + 1 : at + 1 + n])) for at in range(rest, len(words) - 1, n + 1)]
    return equal(columns, costs, relations, bounds)


def equal(columns, costs, relations, bounds):
    """The columns and costs of the equality form: those of the form, a slack for each `le`, and a row and a slack for each bound."""
    m, given = len(columns[0]), [j for j, it in enumerate(bounds) if it != "-"]
    rows = m + len(given)
    unit = lambda at: [int(it == at) for it in range(rows)]
    wide = [column + [int(it == j) for it in given] for j, column in enumerate(columns)]
    slacks = [unit(i) for i, it in enumerate(relations) if it == "le"] + [unit(m + k) for k in range(len(given))]
    return wide + slacks, [row + [0] * len(slacks) for row in costs]


def shape(text):
    """How many rows and columns the instance text itself has, and its bounds."""
    words = words_of(text)
    if text.lstrip().startswith("{") or words[1] != "2":
        columns, _ = read_instance(text)
        return len(columns[0]), len(columns), []
    m, n = int(words[3]), int(words[5])
    at = 9 + m * n + m
    return m, n, [int(it) for it in words[at : at + n] if it != "-"]


def read_sessions(text, rows):
    """For each phase and session the right-hand sides in order."""
    if text.lstrip().startswith("{"):
        return [[[it.get("solve", it.get("ask")) for it in session] for session in phase["sessions"]] for phase in json.loads(text)["phases"]]
    words, phases = words_of(text), []
    for at, word in enumerate(words):
        if word == "phase":
            phases.append([])
        elif word == "session":
            phases[-1].append([])
        elif word in ("solve", "ask"):
            phases[-1][-1].append(list(map(int, words[at + 1 : at + 1 + rows])))
    return phases


class Ledger:
    """The moves up to a grade, with the walks that bring the two ends of each job together."""

    def __init__(self, text, columns, costs):
        self.columns, self.costs, self.moves = columns, costs, []
        lines, width = [it.split() for it in text.split("\n")], len(columns) + len(columns[0])
        need(lines[0] == ["ledger", "1"] and lines[-2:] == [["end"], []], "it isn't the text of a ledger")
        need(lines[1] == ["size", str(len(columns[0])), str(len(columns))], "its size isn't that of the instance")
        self.grade = int(lines[2][1])
        for at, line in enumerate(lines[3:], 4):
            if line[0] != "move":
                break
            need(len(line) == 2 * width + 2 and line[width + 1] == "to", f"line {at} is no move")
            self.moves.append((list(map(int, line[1 : width + 1])), list(map(int, line[width + 2 :]))))
            need(min(map(min, self.moves[-1])) >= 0, f"line {at} has a number below 0")
        self.entries = lines[3 + len(self.moves) : -2]

    def degree(self, point):
        """What a point (x, y) adds up to in each row: A x + y."""
        n = len(self.columns)
        return [sum(column[row] * v for column, v in zip(self.columns, point)) + point[n + row] for row in range(len(self.columns[0]))]

    def key(self, point):
        """Of two points of one degree the lower one has the lower key."""
        x, y = point[: len(self.columns)], point[len(self.columns) :]
        return [sum(y), *[sum(c * v for c, v in zip(row, x)) for row in self.costs], *x]

    def walk(self, point, steps):
        """Where the steps lead from a point; each must apply."""
        for step in [] if steps == ["-"] else steps:
            number, times = map(int, step.split("*"))
            need(1 <= number <= len(self.moves) and times >= 1, f"there is no step {step}")
            head, tail = self.moves[number - 1]
            need(all(times * h <= p for h, p in zip(head, point)), f"the step {step} doesn't apply")
            point = [p + times * (t - h) for p, h, t in zip(point, head, tail)]
        return point

    def jobs(self):
        """Each job up to the grade, in order: its grade, 0 or 1 for a pair, its numbers, and its two ends."""
        n, found = len(self.columns), []
        for j, column in enumerate(self.columns):
            found.append((sum(column), 0, (j + 1,), [int(it == j) for it in range(n + len(column))], [0] * n + column))
        for k, (second, to) in enumerate(self.moves):
            for i, (first, into) in enumerate(self.moves[:k]):
                most = list(map(max, first, second))
                ends = [[m - h + t for m, h, t in zip(most, *move)] for move in ((first, into), (second, to))]
                found.append((sum(self.degree(most)), 1, (i + 1, k + 1), *ends))
        return sorted(it for it in found if it[0] <= self.grade)

    def check(self):
        """Ends well where the ledger is accepted."""
        for number, (head, tail) in enumerate(self.moves, 1):
            need(sum(self.degree(head)) <= self.grade, f"move {number} is above the grade")
            need(self.degree(head) == self.degree(tail), f"move {number} changes the degree")
            need(self.key(tail) < self.key(head), f"move {number} doesn't go down")
        jobs = self.jobs()
        need(len(jobs) == len(self.entries), "it hasn't an entry for each job")
        for (_, is_pair, numbers, *ends), entry in zip(jobs, self.entries):
            name = ["pair" if is_pair else "generator", *map(str, numbers)]
            need(entry[: len(name)] == name, f"where {' '.join(name)} should stand is another entry")
            heads = [self.moves[it - 1][0] for it in numbers] if is_pair else []
            apart = bool(heads) and not any(h and g for h, g in zip(*heads))
            need((entry[len(name) :] == ["coprime"]) == apart, f"{' '.join(name)} has walks, or shares a variable")
            if not apart:
                first, second = (self.walk(end, it.split()) for end, it in zip(ends, " ".join(entry[len(name) :]).split("|")))
                need(first == second, f"the ends of {' '.join(name)} aren't led to one point")

    def shows(self, right, line, steps, told_columns):
        """Ends well where the ledger and these steps show this answer to a right-hand side, of which so many numbers are told."""
        need(sum(right) <= self.grade, "the sum is above the ledger's grade")
        end = self.walk([0] * len(self.columns) + right, steps)
        need(not any(all(h <= p for h, p in zip(head, end)) for head, _ in self.moves), "a move applies where the walk ends")
        short, *numbers = self.key(end)
        costs, x = (" ".join(map(str, it)) for it in (numbers[: len(self.costs)], numbers[len(self.costs) :][:told_columns]))
        told = f"infeasible short {short}" if short else f"optimum {costs} at {x}"
        need(line == told, f"the walk shows {told}")


def check_report(ledger, phases, text, told_columns, bounds):
    """Yields for each request where it stands and why its answer isn't shown, or None where it is."""
    lines = text.split("\n")
    need(lines[-2:] == ["end", ""], "it isn't the text of a report")
    left = iter(it for it in lines if not it.startswith("level "))
    need(next(left) == "report 1", "it isn't the text of a report")
    for at, phase in enumerate(phases, 1):
        need(next(left) == f"phase {at}", f"phase {at} is missing")
        for number, session in enumerate(phase, 1):
            need(next(left) == f"session {number}", f"session {number} of phase {at} is missing")
            for request, right in enumerate(session, 1):
                line, why = next(left), None
                try:
                    need(not line.startswith(("full ", "notyet ")), "it is no answer")
                    word, *steps = next(left).split()
                    need(word == "walk" and steps, "there is no walk")
                    ledger.shows(right + bounds, line, steps, told_columns)
                except ValueError as it:
                    why = str(it)
                yield f"phase {at} session {number} request {request}: {line}", why
    need(list(left) == ["end", ""], "it doesn't end where its requests do")


def main(instance, ledger, sessions=None, report=None):
    read = lambda name: open(name, encoding="utf-8").read()
    shown = True
    try:
        columns, costs = read_instance(read(instance))
        of = Ledger(read(ledger), columns, costs)
        of.check()
        print(f"the ledger is accepted, up to grade {of.grade} with {len(of.moves)} moves")
        rows, told_columns, bounds = shape(read(instance))
        for where, why in check_report(of, read_sessions(read(sessions), rows), read(report), told_columns, bounds) if report else ():
            print(f"{where}: {'not shown, ' + why if why else 'shown'}")
            shown = shown and not why
    except (ValueError, IndexError, StopIteration, RuntimeError) as why:
        print(f"refused: {why or 'a text breaks off'}")
        return 1
    return int(not shown)


if __name__ == "__main__":
    if len(sys.argv) not in (3, 5):
        sys.exit(__doc__)
    sys.exit(main(*sys.argv[1:]))
