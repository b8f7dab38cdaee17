#!/usr/bin/env python3
"""Times the reading of large texts: a whole file against a tenth of it.

Reading is one pass over the bytes, so the ratio of the times should be near 10 (less, since each run starts a process
and answers its requests). Run it with the program:

    bench/read.py PATH_TO_CT

It makes the files in a temporary folder and prints a line for each pair of files.
"""
import os
import resource
import subprocess
import sys
import tempfile

INSTANCE = "instance 1\nrows 1\ncolumns 2\nmatrix\n3 5\ncost 2 3\nend\n"
WHOLE = 100_000
LIMIT = 16_777_216


def padded(requests, limit):
    """So many requests `solve 0`, each with a comment, near the limit of bytes."""
    head, tail = "sessions 1\nphase 0\nsession\n", "end\n"
    room = (limit - len(head) - len(tail)) // requests
    line = "solve 0 #"
    line += "-" * (room - len(line) - 1) + "\n"
    return head + line * requests + tail


def long_numbers(numbers, digits):
    """Faulty: a right-hand side that is over its limit only by its many digits, as the last token."""
    head = "sessions 1\nphase 0\nsession\n"
    return head + "solve 1\n" * numbers + "solve " + "9" * digits + "\n"


def processor_time(program, instance, sessions):
    before = resource.getrusage(resource.RUSAGE_CHILDREN)
    done = subprocess.run([program, "answer", instance, sessions], stdout=subprocess.DEVNULL)
    after = resource.getrusage(resource.RUSAGE_CHILDREN)
    return done.returncode, after.ru_utime + after.ru_stime - before.ru_utime - before.ru_stime


def best(program, instance, sessions):
    return min(processor_time(program, instance, sessions) for _ in range(5))


def main():
    if len(sys.argv) != 2:
        sys.exit("usage: bench/read.py PATH_TO_CT")
    program = sys.argv[1]
    pairs = [
        ("comments", padded(WHOLE, LIMIT), padded(WHOLE // 10, LIMIT // 10)),
        ("one long number", long_numbers(1, LIMIT - 100), long_numbers(1, LIMIT // 10 - 100)),
        ("many numbers, then a fault", long_numbers(WHOLE - 1, 1_000_000), long_numbers(WHOLE // 10 - 1, 100_000)),
    ]
    with tempfile.TemporaryDirectory() as folder:
        instance = os.path.join(folder, "instance")
        with open(instance, "w") as file:
            file.write(INSTANCE)
        for name, whole, tenth in pairs:
            times = []
            for text in (whole, tenth):
                path = os.path.join(folder, "sessions")
                with open(path, "w") as file:
                    file.write(text)
                status, seconds = best(program, instance, path)
                times.append(seconds)
                print(f"{name}: {len(text)} bytes, status {status}, {seconds:.3f} s")
            print(f"{name}: ratio {times[0] / max(times[1], 1e-9):.1f}")


if __name__ == "__main__":
    main()
