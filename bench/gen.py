#!/usr/bin/env python3
"""Instances to measure with, as texts of the program: an instance and a script of `solve` requests each.

    bench/gen.py FOLDER [NAME ...]     writes NAME.inst and NAME.ses, of all sets of SETS if no NAME is given

Each script has one phase with the target 0 and sessions of at most 250 requests, all from one fixed stream of numbers that
look random, so that every run measures the same input.
"""
import os
import sys

M64 = (1 << 64) - 1

class Lcg:
    def __init__(self, s): self.s = s & M64
    def draw(self):
        self.s = (self.s * 6364136223846793005 + 1442695040888963407) & M64
        return self.s >> 33

def make(number, bmod=100000):
    g = Lcg(number)
    a = [10 + g.draw() % 50 for _ in range(6)]
    c = [1 + g.draw() % 100 for _ in range(6)]
    return [a], c, [[g.draw() % bmod] for _ in range(1000)]

def from_points(A, xs):
    """right-hand sides A.x of the points x: certainly feasible"""
    return [[sum(r[j] * x[j] for j in range(len(x))) for r in A] for x in xs]

def mixed(A, seed, count, total, infeasible_every=4):
    """b = A.x for random x of that total; every fourth is disturbed by one unit, so
    infeasible ones occur"""
    g = Lcg(seed); n = len(A[0]); out = []
    for t in range(count):
        x = [0] * n
        for _ in range(1 + g.draw() % total): x[g.draw() % n] += 1
        b = from_points(A, [x])[0]
        if infeasible_every and t % infeasible_every == infeasible_every - 1:
            i = g.draw() % len(b); b[i] += 1
        out.append(b)
    return out

def transport(r, k):
    A = []
    for i in range(r): A.append([1 if j // k == i else 0 for j in range(r * k)])
    for i in range(k): A.append([1 if j % k == i else 0 for j in range(r * k)])
    return A

def cutting(widths, roll, n, seed):
    """n cutting patterns of a roll: column = how many pieces of each width"""
    g = Lcg(seed); cols = []
    while len(cols) < n:
        left = roll; col = [0] * len(widths)
        while True:
            fit = [i for i, w in enumerate(widths) if w <= left]
            if not fit or (any(col) and g.draw() % 5 == 0): break
            i = fit[g.draw() % len(fit)]; col[i] += 1; left -= widths[i]
        if col not in cols: cols.append(col)
    return [[c[i] for c in cols] for i in range(len(widths))]

def partition(m, n, seed):
    """0/1 columns (shifts, crews): the m single rows first, then random sets"""
    g = Lcg(seed); cols = [[int(i == j) for i in range(m)] for j in range(m)]
    while len(cols) < n:
        k = 2 + g.draw() % 3; col = [0] * m
        while sum(col) < k: col[g.draw() % m] = 1
        if col not in cols: cols.append(col)
    return [[c[i] for c in cols] for i in range(m)]

def planning(m, n, most, tenths, seed):
    """n products by what each takes of m resources, up to `most`; so many of ten entries are 0"""
    g = Lcg(seed)
    A = [[0 if tenths and g.draw() % 10 < tenths else 1 + g.draw() % most for _ in range(n)] for _ in range(m)]
    for j in range(n):
        if not any(row[j] for row in A): A[g.draw() % m][j] = 1
    return A

def multiknapsack(m, n, top, seed):
    """n items in m sacks, and a slack column for each row"""
    g = Lcg(seed)
    return [[1 + g.draw() % top for _ in range(n)] + [int(i == k) for k in range(m)] for i in range(m)]

def ways(r, s, t):
    """three-way transportation, sums over planes"""
    cells = [(i, j, k) for i in range(r) for j in range(s) for k in range(t)]
    planes = [(0, i) for i in range(r)] + [(1, j) for j in range(s)] + [(2, k) for k in range(t)]
    return [[int(cell[axis] == at) for cell in cells] for axis, at in planes]

def shifts(rows, n, seed):
    """n shifts over so many hours, each of some hours on end, some with a break in between, all different"""
    g = Lcg(seed); cols = []
    while len(cols) < n:
        k = 2 + g.draw() % 4; at = g.draw() % rows; col = [0] * rows
        for z in range(k): col[(at + z) % rows] = 1
        if k > 3 and g.draw() % 2: col[(at + 1 + g.draw() % (k - 2)) % rows] = 0
        if g.draw() % 5 == 0: col = [2 * x for x in col]
        if any(col) and col not in cols: cols.append(col)
    return [[c[i] for c in cols] for i in range(rows)]

def draws(seed, count, below):
    g = Lcg(seed); return [[g.draw() % below] for _ in range(count)]

def row(seed, n, low, span):
    g = Lcg(seed); return [[low + g.draw() % span for _ in range(n)]]

def costs(n, seed, lo=1, hi=100):
    g = Lcg(seed); return [lo + g.draw() % (hi - lo + 1) for _ in range(n)]

def gains(n, m, seed):
    """what each item of a knapsack is worth, as a cost below 0; slack is worth nothing"""
    return [-x for x in costs(n, seed, 10, 99)] + [0] * m


def cut5x20():
    widths, roll = [12, 19, 25, 34, 46], 100
    A = cutting(widths, roll, 20, 3)
    waste = [roll - sum(widths[i] * A[i][j] for i in range(5)) + 1 for j in range(20)]
    return A, waste, mixed(A, 4, 1000, 8)

def cut5x30():
    A = cutting([12, 19, 25, 34, 46], 120, 30, 5)
    return A, costs(30, 14), mixed(A, 4, 1000, 10)

# Knapsack equalities on which branch and bound is known to blow up: the numbers of the second are of the kind of Cornuejols,
# Urbaniak, Weismantel and Wolsey (1997), those of the first the same a hundred times smaller.
def hard5():
    a, b = [13429, 26850, 26855, 40280, 40281, 53711, 53714, 67141], 45094583
    return [a], costs(8, 8), [[b + d] for d in range(10)] + [[b // 7 + 1001 * d] for d in range(10)]

def wide():
    g = Lcg(4)
    return [[20 + g.draw() % 181 for _ in range(20)]], costs(20, 8), [[g.draw() % 100000] for _ in range(1000)]

def mid():
    g = Lcg(42)
    return [[1000 + g.draw() % 4001 for _ in range(8)]], costs(8, 9), [[g.draw() % 1000000] for _ in range(1000)]

# By name: six columns of a knapsack, a transportation problem, cutting patterns, set partition, and production plans.
SETS = {
    "make0": lambda: make(0),
    "transp55": lambda: (transport(5, 5), costs(25, 1), mixed(transport(5, 5), 2, 1000, 60)),
    "cut5x20": cut5x20,
    "part8x40": lambda: (partition(8, 40, 21), costs(40, 22), mixed(partition(8, 40, 21), 23, 1000, 6)),
    "cut5x30": cut5x30,
    "plan3x8": lambda: (planning(3, 8, 9, 0, 7), costs(8, 8), mixed(planning(3, 8, 9, 0, 7), 9, 1000, 20)),
    "plan4x14": lambda: (planning(4, 14, 6, 5, 11), costs(14, 14), mixed(planning(4, 14, 6, 5, 11), 15, 1000, 16)),
}

# More of them, which bench/answer.py runs where they are named: knapsacks with one row, with several and hard ones, three-way
# transportation, coins up to 10^9, shifts, and a larger set partition.
MORE = {
    "hardsmall": lambda: ([[121, 122, 365, 608, 851]], [3, 4, 11, 17, 26], draws(9, 1000, 100000)),
    "wide": wide,
    "mid": mid,
    "mkp3x10": lambda: (multiknapsack(3, 10, 30, 51), gains(10, 3, 52), mixed(multiknapsack(3, 10, 30, 51), 53, 1000, 12, 0)),
    "way333": lambda: (ways(3, 3, 3), costs(27, 54), mixed(ways(3, 3, 3), 55, 1000, 30)),
    "way334": lambda: (ways(3, 3, 4), costs(36, 54), mixed(ways(3, 3, 4), 55, 1000, 6)),
    "coins12": lambda: ([[1, 2, 5, 10, 20, 50, 100, 200, 500, 1000, 2000, 5000]], [1] * 12, draws(71, 1000, 1000000001)),
    "odd12": lambda: (row(72, 12, 7, 994), costs(12, 73), draws(74, 1000, 1000000001)),
    "sched64": lambda: (shifts(12, 64, 75), costs(64, 76), mixed(shifts(12, 64, 75), 77, 1000, 3)),
    "part16x40": lambda: (partition(16, 40, 58), costs(40, 59), mixed(partition(16, 40, 58), 60, 1000, 6)),
    "hard5": hard5,
}

def inst_text(A, c):
    return "instance 1\nrows %d\ncolumns %d\nmatrix\n%s\ncost %s\nend\n" % (len(A), len(A[0]), "\n".join(" ".join(map(str, r)) for r in A), " ".join(map(str, c)))

def ses_text(bs, per=250, word="solve"):
    out = ["sessions 1", "phase 0"]
    for i in range(0, len(bs), per):
        out.append("session")
        out += [word + " " + " ".join(map(str, b)) for b in bs[i:i + per]]
    return "\n".join(out + ["end"]) + "\n"

def main(argv):
    if not argv:
        print(__doc__)
        return 2
    os.makedirs(argv[0], exist_ok=True)
    for name in argv[1:] or SETS:
        A, c, bs = (SETS | MORE)[name]()
        open(os.path.join(argv[0], name + ".inst"), "w").write(inst_text(A, c))
        open(os.path.join(argv[0], name + ".ses"), "w").write(ses_text(bs))
    return 0

if __name__ == "__main__":
    sys.exit(main(sys.argv[1:]))
