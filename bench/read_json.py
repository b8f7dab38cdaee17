#!/usr/bin/env python3
"""Times the reading of one script as text and as JSON, whole and a tenth of it.

Reading is linear in the file for both, so each ratio of a whole file to its tenth should be near 10 (less, since each
run starts a process). The last lines tell how many times longer the JSON takes. The script has a fault at its end, so
that nothing is answered. Run it with the program:

    bench/read_json.py PATH_TO_CT

It makes the files in a temporary folder and prints a line for each file.
"""
import json
import os
import resource
import subprocess
import sys
import tempfile

INSTANCE = "instance 1 rows 8 columns 1 matrix 1 1 1 1 1 1 1 1 cost 1 end\n"
RIGHT = [1_000_000_000_000 - i for i in range(8)]
WHOLE = 100_000


def as_text(requests):
    line = "solve " + " ".join(map(str, RIGHT)) + "\n"
    return "sessions 1\nphase 0\nsession\n" + line * requests + "solve -1\nend\n"


def as_json(requests):
    script = [{"solve": RIGHT}] * requests + [{"solve": [-1] * 8}]
    return json.dumps({"sessions": 1, "phases": [{"target": 0, "sessions": [script]}]}, separators=(",", ":"))


def processor_time(program, instance, sessions):
    before = resource.getrusage(resource.RUSAGE_CHILDREN)
    done = subprocess.run([program, "answer", instance, sessions], stdout=subprocess.DEVNULL)
    after = resource.getrusage(resource.RUSAGE_CHILDREN)
    return done.returncode, after.ru_utime + after.ru_stime - before.ru_utime - before.ru_stime


def best(program, instance, sessions):
    return min(processor_time(program, instance, sessions) for _ in range(5))


def main():
    if len(sys.argv) != 2:
        sys.exit("usage: bench/read_json.py PATH_TO_CT")
    program = sys.argv[1]
    times = {}
    with tempfile.TemporaryDirectory() as folder:
        instance = os.path.join(folder, "instance")
        with open(instance, "w") as file:
            file.write(INSTANCE)
        for requests in (WHOLE - 1, WHOLE // 10 - 1):
            for form, make in (("text", as_text), ("JSON", as_json)):
                text = make(requests)
                path = os.path.join(folder, "sessions")
                with open(path, "w") as file:
                    file.write(text)
                status, seconds = best(program, instance, path)
                times[form, requests] = seconds
                print(f"{form}: {requests + 1} requests, {len(text)} bytes, status {status}, {seconds:.3f} s")
    for form in ("text", "JSON"):
        print(f"{form}: ratio {times[form, WHOLE - 1] / max(times[form, WHOLE // 10 - 1], 1e-9):.1f}")
    print(f"JSON to text: {times['JSON', WHOLE - 1] / max(times['text', WHOLE - 1], 1e-9):.1f}")


if __name__ == "__main__":
    main()
