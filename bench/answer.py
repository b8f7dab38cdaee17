#!/usr/bin/env python3
"""`answer` beside the yardsticks and, where they are installed, other programs, on the same input in one run.

    bench/answer.py PATH_TO_CT [NAME ...]

For each set of bench/gen.py (all of its SETS but cut5x30, and coins, if no NAME is given) the programs answer the same file with
walks and levels, in turn, three times; the best processor time of each counts, and the reports must be the same bytes. The
programs are yard.cpp; yard2.cpp, which does what `ct` does; and `yard2 --best`, which does what would come next. Printed is a
row of a table: the time, its ratios, the peaks of memory, and how the time grows from a tenth of the right-hand sides (with the
greatest sum, so that the test set is the same); a peak is never below that of this script. coins are of 3 and 5 with right-hand sides up to 10^12, where walks are three
steps long. glpsol answers some right-hand sides, a process each.
"""
import os
import shutil
import subprocess
import sys
import tempfile

sys.dont_write_bytecode = True
import gen

ROUNDS = 3
COINS = ([[3, 5]], [2, 3], [[gen.Lcg(7 * k + 1).draw() * 465 % 10**12] for k in range(1000)])


def run(words):
    """The output, what was said beside it, the processor time in seconds, and the peak of memory in megabytes."""
    with tempfile.TemporaryFile() as out, tempfile.TemporaryFile() as err:
        child = subprocess.Popen(words, stdout=out, stderr=err, stdin=subprocess.DEVNULL)
        _, status, used = os.wait4(child.pid, 0)
        child.returncode = os.waitstatus_to_exitcode(status)
        out.seek(0)
        err.seek(0)
        text, said = out.read().decode(), err.read().decode()
    if child.returncode != 0:
        sys.exit(f"{' '.join(words)} ended with {child.returncode}: {text[:200]}{said[:200]}")
    return text, said, used.ru_utime + used.ru_stime, used.ru_maxrss / 1024


def write(folder, name, instance):
    matrix, cost, rights = instance
    files = os.path.join(folder, name + ".inst"), os.path.join(folder, name + ".ses")
    for file, text in zip(files, (gen.inst_text(matrix, cost), gen.ses_text(rights))):
        with open(file, "w") as out:
            out.write(text)
    return files


def beside(programs, files, rounds):
    """All in turn: the best time and the greatest peak of each by its name, and what the last yardstick counted. A program is
    the words before the files and those after them."""
    times, peaks, counted, texts = {}, {}, {}, set()
    for _ in range(rounds):
        for name, (words, more) in programs.items():
            text, said, time, peak = run([*words, *files, "--walks", "--levels", *more])
            times[name], peaks[name] = min(times.get(name, time), time), max(peaks.get(name, peak), peak)
            counted = dict(line.split(None, 1) for line in said.splitlines() if len(line.split()) == 2) or counted
            texts.add(text)
    if len(texts) > 1:
        sys.exit(f"{files[0]}: the reports differ")
    return times, peaks, counted


def tenth(rights):
    """A tenth of the right-hand sides, the one of the greatest sum among them."""
    most = max(rights, key=sum)
    return [most] + [b for b in rights if b is not most][: len(rights) // 10 - 1]


def peer(folder, name, instance):
    """What glpsol takes for a right-hand side: the mean of ten."""
    matrix, cost, rights = instance
    total = 0.0
    for b in rights[:10]:
        rows = [" + ".join(f"{a} x{j}" for j, a in enumerate(row) if a) or "0 x0" for row in matrix]
        lines = ["minimize", "cost: " + " ".join(f"{c:+d} x{j}" for j, c in enumerate(cost)), "subject to"]
        lines += [f"r{i}: {row} = {v}" for i, (row, v) in enumerate(zip(rows, b))]
        lines += ["integer"] + [f"x{j}" for j in range(len(cost))] + ["end"]
        file = os.path.join(folder, name + ".lp")
        with open(file, "w") as out:
            out.write("\n".join(lines) + "\n")
        total += run(["glpsol", "--lp", file, "--tmlim", "10"])[2]
    return total / 10


def processor():
    with open("/proc/cpuinfo", encoding="utf-8") as it:
        return next((line.split(":")[1].strip() for line in it if line.startswith("model name")), "an unknown processor")


def built(folder):
    """The yardsticks, compiled into the folder."""
    here = os.path.dirname(os.path.abspath(__file__))
    for name, flags in (("yard", []), ("yard2", ["-march=native"])):
        subprocess.run(["g++", "-O2", *flags, "-std=c++17", "-o", f"{folder}/{name}", f"{here}/{name}.cpp"], check=True)
    return {"yard": ([f"{folder}/yard"], []), "yard2": ([f"{folder}/yard2"], []), "best": ([f"{folder}/yard2"], ["--best"])}


def main():
    if len(sys.argv) < 2:
        sys.exit(__doc__)
    names = sys.argv[2:] or [name for name in gen.SETS if name != "cut5x30"] + ["coins"]
    has_peer = shutil.which("glpsol")
    print(f"{processor()}; ms of processor time, the best of {ROUNDS}" + ("" if has_peer else "; glpsol isn't installed"))
    print("| set (moves) | ct | of yard's | of yard2's | of best's | MB, ct beside yard2 and best | from a tenth |" + (" glpsol |" if has_peer else ""))
    print("|---|---|---|---|---|---|---|" + ("---|" if has_peer else ""))
    with tempfile.TemporaryDirectory() as folder:
        programs = {"ct": ([sys.argv[1], "answer"], []), **built(folder)}
        for name in names:
            instance = COINS if name == "coins" else (gen.SETS | gen.MORE)[name]()
            matrix, cost, rights = instance
            times, peaks, counted = beside(programs, write(folder, name, instance), ROUNDS)
            ours = times["ct"]
            few, _, _ = beside({"ct": programs["ct"]}, write(folder, name + "-few", (matrix, cost, tenth(rights))), ROUNDS)
            ratios = " | ".join(f"{ours / times[other]:.2f}" for other in ("yard", "yard2", "best"))
            line = f"| {name} ({counted['moves']}) | {1000 * ours:.1f} | {ratios} | {peaks['ct']:.0f} beside {peaks['yard2']:.0f}, {peaks['best']:.0f} | {ours / few['ct']:.2f} |"
            if has_peer:
                line += f" {peer(folder, name, instance) / (ours / len(rights)):.1f} |"
            print(line, flush=True)


if __name__ == "__main__":
    main()
