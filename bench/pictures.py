#!/usr/bin/env python3
"""The pictures of the documents, from what `ct` writes.

    bench/pictures.py PATH_TO_CT [FOLDER]

Writes fiber.svg, the choices that pay at most 15 in examples/change with the walk of 15, and completion.svg, the moves and the
jobs of examples/packing by grade, up to 24, into docs/pictures or FOLDER. It reads reports and ledgers with bench/checker.py.
"""
import collections
import os
import subprocess
import sys

sys.path.insert(0, os.path.dirname(os.path.abspath(__file__)))
import checker

TOP = os.path.join(os.path.dirname(os.path.abspath(__file__)), "..")
INK, PALE, STRONG, SOFT = "#222222", "#c9ced6", "#b3261e", "#3f6ea8"


def said(*words):
    return subprocess.run(words, capture_output=True, text=True, check=True).stdout


def read(name):
    with open(f"{TOP}/{name}", encoding="utf-8") as it:
        return it.read()


def text(x, y, what, size=13, anchor="middle", color=INK, weight="normal"):
    return f'<text x="{x:g}" y="{y:g}" font-size="{size}" text-anchor="{anchor}" fill="{color}" font-weight="{weight}">{what}</text>'


def line(x1, y1, x2, y2, color=INK, width=1, more=""):
    return f'<line x1="{x1:g}" y1="{y1:g}" x2="{x2:g}" y2="{y2:g}" stroke="{color}" stroke-width="{width}"{more}/>'


def picture(width, height, title, parts):
    head = f'<svg xmlns="http://www.w3.org/2000/svg" width="{width}" height="{height}" viewBox="0 0 {width} {height}" font-family="DejaVu Sans, Arial, sans-serif" role="img" aria-label="{title}">'
    arrow = f'<defs><marker id="arrow" viewBox="0 0 10 10" refX="9" refY="5" markerWidth="7" markerHeight="7" orient="auto"><path d="M0 0L10 5L0 10z" fill="{STRONG}"/></marker></defs>'
    return "\n".join([head, f"<title>{title}</title>", arrow, f'<rect width="{width}" height="{height}" fill="#ffffff"/>', *parts, "</svg>", ""])


def fiber(program, right=15):
    """Two columns: a dot for each x with A x at most the right-hand side, and the walk that the report tells."""
    instance, sessions = "examples/change/instance.txt", "examples/change/sessions.txt"
    columns, costs = checker.read_instance(read(instance))
    ledger = checker.Ledger(said(program, "certify", f"{TOP}/{instance}", str(right)), columns, costs)
    report = said(program, "answer", f"{TOP}/{instance}", f"{TOP}/{sessions}", "--walks").split("\n")
    requests = [b for phase in checker.read_sessions(read(sessions), 1) for session in phase for b in session]
    walk = [it for it in report if it.startswith("walk ")][requests.index([right])].split()[1:]
    (three,), (five,) = columns
    place = lambda x: (80 + 100 * x[0], 330 - 85 * x[1])
    parts = []
    for x in range(right // three + 1):
        parts.append(text(place((x, 0))[0], 368, x))
    for y in range(right // five + 1):
        parts.append(text(44, place((0, y))[1] + 5, y))
    parts += [text(330, 392, f"how many {three}s"), f'<text x="18" y="200" font-size="13" text-anchor="middle" fill="{INK}" transform="rotate(-90 18 200)">how many {five}s</text>']
    parts.append(line(*place((right / three, 0)), *place((0, right / five)), PALE, 2))
    parts.append(text(490, 292, f"on this line {right} is paid", 12, "end", "#777777"))
    points = [[0, 0]]
    for step in walk:
        points.append(ledger.walk([0, 0, right], walk[: walk.index(step) + 1])[:2])
    for at, (first, second) in enumerate(zip(points, points[1:])):
        (x1, y1), (x2, y2) = place(first), place(second)
        size = ((x2 - x1) ** 2 + (y2 - y1) ** 2) ** 0.5
        dx, dy = 12 * (x2 - x1) / size, 12 * (y2 - y1) / size
        # (the second step runs beside the line on which all is paid)
        aside = -9 if dy else 0
        parts.append(line(x1 + dx, y1 + dy + aside, x2 - dx, y2 - dy + aside, STRONG, 2.5, ' marker-end="url(#arrow)"'))
        number, times = walk[at].split("*")
        parts.append(text((x1 + x2) / 2 + (20 if dy else 0), (y1 + y2) / 2 - 20 if dy else y1 + 20, f"step {at + 1}: move {number}, {times} time{'s' * (times != '1')}", 13, "start" if dy else "middle", STRONG, "bold"))
    for y in range(right // five + 1):
        for x in range((right - five * y) // three + 1):
            px, py = place((x, y))
            rest = right - three * x - five * y
            cost = costs[0][0] * x + costs[0][1] * y
            best = [x, y] == points[-1]
            parts.append(f'<circle cx="{px:g}" cy="{py:g}" r="{8 if best else 6}" fill="{STRONG if best else SOFT if rest == 0 else "#ffffff"}" stroke="{INK}"/>')
            if rest:
                parts.append(text(px + 10, py - 10, f"{rest} left", 11, "start", "#666666"))
            else:
                parts.append(text(px + 12, py - 14, f"cost {cost}", 13, "start", INK, "bold" if best else "normal"))
    parts.append(text(330, 26, f"Ways to pay at most {right} by pieces of {three} and {five}, and the walk to the best", 15, weight="bold"))
    return picture(680, 405, f"Ways to pay at most {right}, and the walk to the best", parts)


def completion(program, grade=24):
    """For each grade the moves of the test set, above, and the jobs of the ledger, below."""
    columns, costs = checker.read_instance(read("examples/packing/instance.txt"))
    ledger = checker.Ledger(said(program, "certify", f"{TOP}/examples/packing/instance.txt", str(grade)), columns, costs)
    moves = collections.Counter(sum(ledger.degree(head)) for head, _ in ledger.moves)
    coprime, walked = collections.Counter(), collections.Counter()
    for (at, *_), entry in zip(ledger.jobs(), ledger.entries):
        (coprime if entry[-1] == "coprime" else walked)[at] += 1
    left, wide, middle, up, down = 60, 25, 170, 13, 2.1
    parts = [text(350, 26, f"The completion of examples/packing, up to grade {grade}", 15, weight="bold")]
    parts += [text(left - 12, 52, f"{len(ledger.moves)} moves", 13, "start", STRONG, "bold"), text(left - 12, 232, "jobs:", 13, "start", INK, "bold")]
    parts += [text(left + 34, 232, f"{sum(walked.values())} walked from both ends", 13, "start", SOFT, "bold"), text(left + 252, 232, f"{sum(coprime.values())} pairs that share no variable, with no walk", 13, "start", "#777777", "bold")]
    for at in range(1, grade + 1):
        x = left + wide * (at - 1)
        parts.append(text(x + 9, middle + 18, at, 11))
        if moves[at]:
            high = up * moves[at]
            parts += [f'<rect x="{x}" y="{middle - high:g}" width="18" height="{high:g}" fill="{STRONG}"/>', text(x + 9, middle - high - 4, moves[at], 11, color=STRONG)]
        y = 245
        for count, color in ((walked[at], SOFT), (coprime[at], PALE)):
            if count:
                parts.append(f'<rect x="{x}" y="{y:g}" width="18" height="{down * count:g}" fill="{color}"/>')
                y += down * count
        if walked[at] + coprime[at]:
            parts.append(text(x + 9, y + 13, walked[at] + coprime[at], 11, color="#555555"))
    parts += [line(left - 6, middle, left + wide * grade, middle), line(left - 6, 245, left + wide * grade, 245), text(left - 14, middle + 18, "grade", 11, "end")]
    return picture(690, 450, f"Moves and jobs by grade of examples/packing, up to {grade}", parts)


def main():
    program, folder = sys.argv[1], sys.argv[2] if len(sys.argv) > 2 else f"{TOP}/docs/pictures"
    os.makedirs(folder, exist_ok=True)
    for name, made in (("fiber", fiber(program)), ("completion", completion(program))):
        with open(f"{folder}/{name}.svg", "w", encoding="utf-8") as it:
            it.write(made)


if __name__ == "__main__":
    main()
