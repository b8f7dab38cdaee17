#!/usr/bin/env python3
"""Runs where memory, a thread or the output is refused.

    bench/refuse.py PATH_TO_CT PATH_TO_CT_HOST_BENCH [WORKERS ...]

The second program is the one that `rt run` leaves in the out/ of its crate. Each allocation of a run is refused in turn, up to
a run in which none was, and then each thread. Printed is how many were refused, and how the runs ended.

A completion, of two sets of coins: by one thread, by the calls of a book, and by one, two and four workers of a host. A run
ends with the program's error, with nothing written, or writes what it writes when nothing is refused; where a thread is
refused, only the latter.

`serve`, beside 0, 1, 2 and 4 workers if none are given, of two inputs: eight sessions that each solve 94, 41, 7 and 0 in coins
of 1, 5, 10 and 25, and two phases of two sessions in coins of 3 and 5, with walks. A run ends with the report that `answer`
writes, or with status 7 and nothing written; where a thread is refused, with the report.

`answer` and `box` of the second input and `best` of a request, both also of a form with a slack and a bound, and `answer --batch` of 3,000
requests, and `serve` of two asks with a ledger, also of that form: a run ends with its text, or with status 7 and nothing written.

`answer` and `serve` with a full device and with a pipe that was closed before the first byte end with status 6 and by no
signal; with a pipe that is read one byte at a time they end with status 0, and all bytes came.

A run has a minute. It loads bench/refuse.c before the C library, and needs gcc.
"""
import collections
import fcntl
import os
import re
import subprocess
import sys
import tempfile

COINS = "instance 1 rows 1 columns 4 matrix 1 5 10 25 cost 1 1 1 1 end"
THREES = "instance 1 rows 1 columns 2 matrix 3 5 cost 2 3 end"
FORM = "instance 2 rows 1 columns 2 matrix 3 5 relations le bounds 2 - cost -2 -3 end"
EIGHT = "sessions 1 phase 0" + 8 * " session solve 94 solve 41 solve 7 solve 0" + " end"
PHASES = "sessions 1 phase 8" + 2 * " session solve 15 solve 8" + " phase 21" + 2 * " session solve 7 solve 30" + " end"
ASKS = "sessions 1 phase 0 session ask 11 ask 16 end"
BATCH = "sessions 1 phase 0 session" + "".join(f" solve {number}" for number in range(3000)) + " end"
LONG = "sessions 1 phase 0 session" + "".join(f" solve {number % 95}" for number in range(10000)) + " end"
INPUTS = (("coins of four kinds", COINS, EIGHT, []), ("coins of 3 and 5", THREES, PHASES, ["--walks"]))
COMPLETIONS = (("coins of four kinds", COINS, "94"), ("coins of 3 and 5", THREES, "20"))
WAYS = ("one", "calls", "1", "2", "4")
ERROR, NOT_WRITTEN, MEMORY = 1, 6, 7


def ended(words, **refused):
    """The status, the output without times, what was said on the standard error, and whether something was refused."""
    done = subprocess.run(words, capture_output=True, stdin=subprocess.DEVNULL, env={**os.environ, **refused}, timeout=60)
    said = done.stderr.replace(b"refused\n", b"")
    return done.returncode, re.sub(rb"_ns \d+", b"_ns", done.stdout), said, said != done.stderr


def each_refused(words, library, name, statuses, whole):
    """How the runs ended in which the first, the second and so on was refused, up to one in which nothing was."""
    ends, number = collections.Counter(), 0
    while True:
        number += 1
        status, text, said, refused = ended(words, LD_PRELOAD=library, **{name: str(number)})
        if status not in statuses or text != (whole if status == 0 else b""):
            sys.exit(f"{' '.join(words)} with {name}={number} ended with {status}: {text[:200]} {said[:200]}")
        if not refused:
            return ends
        ends[status, said.split(b"\n")[0].decode()] += 1


def refuse(said, words, library, fault, whole):
    """Each allocation and each thread refused."""
    memory = each_refused(words, library, "REFUSE_MEMORY", (0, fault), whole)
    threads = each_refused(words, library, "REFUSE_THREAD", (0,), whole)
    faults = {text: count for (status, text), count in memory.items() if status != 0}
    print(
        f"{said}: {sum(memory.values())} allocations refused, {sum(faults.values())} runs ended with status {fault} and the others with the whole output; "
        f"{sum(threads.values())} threads refused, all with the whole output",
        flush=True,
    )
    for text, count in sorted(faults.items()):
        if text:
            print(f"    {count} times: {text}", flush=True)


def whole_output(words):
    status, text, said, _ = ended(words)
    if status != 0 or not text:
        sys.exit(f"{' '.join(words)} ended with {status}: {said[:200]}")
    return text


def with_output(words, output):
    return subprocess.run(words, stdin=subprocess.DEVNULL, stdout=output, stderr=subprocess.PIPE, timeout=60).returncode


def slowly(words):
    """The status and the output where it is a pipe that has room for little, and is read one byte at a time."""
    out, into = os.pipe()
    fcntl.fcntl(into, fcntl.F_SETPIPE_SZ, 4096)
    with subprocess.Popen(words, stdin=subprocess.DEVNULL, stdout=into) as run:
        os.close(into)
        text = b"".join(iter(lambda: os.read(out, 1), b""))
    os.close(out)
    return run.returncode, text


def refuse_output(words):
    with open("/dev/full", "wb") as full:
        on_full = with_output(words, full)
    out, into = os.pipe()
    os.close(out)
    on_closed = with_output(words, into)
    os.close(into)
    on_slow = slowly(words)
    if (on_full, on_closed) != (NOT_WRITTEN, NOT_WRITTEN) or on_slow != (0, whole_output(words)):
        sys.exit(f"{' '.join(words)}: status {on_full} on a full device, {on_closed} on a closed pipe, {on_slow[0]} with {len(on_slow[1])} bytes on a slow one")
    print(f"{words[1]}: status {on_full} on a full device and on a closed pipe, and {len(on_slow[1])} bytes one by one", flush=True)


def main():
    if len(sys.argv) < 3:
        sys.exit(__doc__)
    ct, bench = sys.argv[1:3]
    with tempfile.TemporaryDirectory() as folder:

        def file(name, text):
            path = os.path.join(folder, name)
            with open(path, "w") as out:
                out.write(text)
            return path

        library = os.path.join(folder, "refuse.so")
        source = os.path.join(os.path.dirname(os.path.abspath(__file__)), "refuse.c")
        subprocess.run(["gcc", "-O2", "-shared", "-fPIC", "-o", library, source], check=True)
        for command in ("answer", "serve"):
            refuse_output([ct, command, file("coins", COINS), file("long", LONG)])
        for name, instance, grade in COMPLETIONS:
            for way in WAYS:
                words = [bench, file("instance", instance), grade, way, "1"]
                refuse(f"{name} up to {grade} by {way}", words, library, ERROR, whole_output(words))
        sets = [
            ["answer", THREES, PHASES, ["--walks"]],
            ["answer", FORM, PHASES, ["--walks"]],
            ["best", THREES, "sessions 1 phase 0 session solve 30 end", ["3"]],
            ["best", FORM, "sessions 1 phase 0 session solve 30 end", ["3"]],
            ["answer", THREES, BATCH, ["--walks", "--batch"]],
            ["box", THREES, PHASES, ["--walks"]],
            ["box", FORM, "sessions 1 phase 0 session solve 11 end", ["--walks"]],
        ]
        for command, instance, sessions, more in sets:
            words = [ct, command, file("instance", instance), file("sessions", sessions), *more]
            refuse(" ".join([command, *more]), words, library, MEMORY, whole_output(words))
        for instance, grade in ((THREES, "15"), (FORM, "13")):
            files = [file("instance", instance), file("sessions", ASKS)]
            ledger = file("ledger", whole_output([ct, "certify", files[0], grade]).decode())
            words = [ct, "serve", *files, "--workers", "0", "--levels", "--resume", ledger]
            refuse(f"serve with a ledger up to {grade}", words, library, MEMORY, whole_output(words))
        for name, instance, sessions, options in INPUTS:
            files = [file("instance", instance), file("sessions", sessions), *options]
            report = whole_output([ct, "answer", *files])
            for workers in sys.argv[3:] or ("0", "1", "2", "4"):
                words = [ct, "serve", *files, "--workers", workers]
                refuse(f"serve of {name} by {workers} workers", words, library, MEMORY, report)


if __name__ == "__main__":
    main()
