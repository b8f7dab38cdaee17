#!/usr/bin/env python3
"""Time and peak memory of the critical pairs of long lists of moves.

Each line gives the number of columns and of moves, the number of pairs, the processor time beyond that of a list of one
move, both a pair, and the peak memory, which below some 15 MB is that of the process that starts the program. After the
lines of a width stands how they grow as the number of moves doubles to the limit. Run it with the program that `rt run`
leaves in crates/ct_jobs_bench/out; a second program, of another version, is run on the same input in turn with it, and
then each line ends with the time and the memory as a multiple of that version's:

    bench/pairs.py PATH_TO_CT_JOBS_BENCH [PATH_TO_ANOTHER]
"""
import os
import subprocess
import sys

COUNTS = [512, 1024, 2048, 4096]
WIDTHS = [1, 8, 24, 60]


def run(program, count, columns):
    """Processor seconds and peak kilobytes of one run."""
    child = subprocess.Popen([program, str(count), str(columns)], stdout=subprocess.DEVNULL)
    _, status, usage = os.wait4(child.pid, 0)
    if status != 0:
        sys.exit(f"{program} {count} {columns} ended with {status}")
    return usage.ru_utime + usage.ru_stime, usage.ru_maxrss


def best(programs, count, columns):
    """The best of five runs of each program, in turn."""
    runs = [[run(program, count, columns) for program in programs] for _ in range(5)]
    return [min(one) for one in zip(*runs)]


def main():
    programs = sys.argv[1:]
    if len(programs) not in (1, 2):
        sys.exit("usage: bench/pairs.py PATH_TO_CT_JOBS_BENCH [PATH_TO_ANOTHER]")
    for columns in WIDTHS:
        empty = best(programs, 1, columns)
        rows = []
        for count in COUNTS:
            pairs = count * (count - 1) // 2
            spent = best(programs, count, columns)
            seconds, kilobytes = spent[0][0] - empty[0][0], spent[0][1]
            rows.append((pairs, seconds, kilobytes))
            line = f"{columns} columns, {count} moves, {pairs} pairs: {seconds:.3f} s, {seconds / pairs * 1e9:.0f} ns a pair, {kilobytes / 1024:.0f} MB"
            if len(programs) == 2:
                other = spent[1][0] - empty[1][0]
                line += f"; {seconds / other:.2f} of the other's time, {kilobytes / spent[1][1]:.2f} of its memory"
            print(line)
        half, whole = rows[-2], rows[-1]
        print(
            f"{whole[0] / half[0]:.1f} times the pairs: {whole[1] / half[1]:.1f} times the time, "
            f"{whole[2] / half[2]:.1f} times the memory, {whole[2] * 1024 / whole[0]:.0f} bytes a pair at the peak"
        )


if __name__ == "__main__":
    main()
