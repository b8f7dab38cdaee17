#!/usr/bin/env python3
"""What each step of the gate takes of the processors: a crate's proof, the proof of its tests, each edit, each build and run.

    bench/gate.py                 runs `rt ci --anew` at the top of this repository, and prints the table
    bench/gate.py --watch LOG     watches each `rt ci` that runs on this machine, until it is interrupted; a step that ends is a line of LOG
    bench/gate.py --table LOG     prints the table of a log

It reads /proc five times a second: a step is a process that `rt ci` starts, and its time that of the process and of all that it
started, in user and in system mode. What a step does after its last look is missed, a fifth of a second at most. Where a log has
several runs, the last one that did a step counts for it, so that a crate which was kept in a later run has the time of its proof.
"""
import collections
import json
import os
import re
import signal
import subprocess
import sys
import time

TICK = os.sysconf("SC_CLK_TCK")
PAUSE = 0.2
VERBS = {"ci"}
Process = collections.namedtuple("Process", "pid parent began ticks")


def text_of(path):
    try:
        with open(path, encoding="utf-8", errors="replace") as it:
            return it.read()
    except OSError:
        return ""


def words_of(pid):
    return text_of(f"/proc/{pid}/cmdline").split("\0")[:-1]


def folder_of(pid):
    try:
        return os.readlink(f"/proc/{pid}/cwd")
    except OSError:
        return ""


def processes():
    """Returns the processes of the machine by their numbers."""
    found = {}
    for name in os.listdir("/proc"):
        if name.isdigit():
            after = text_of(f"/proc/{name}/stat").rpartition(")")[2].split()
            if after:
                ticks = sum(int(it) for it in after[11:15])
                found[int(name)] = Process(int(name), int(after[1]), int(after[19]), ticks)
    return found


def is_gate(words):
    """Whether these are the words of `rt ci`, which Python runs."""
    at = next((at for at, it in enumerate(words) if os.path.basename(it) == "rt"), None)
    return at is not None and "python" in os.path.basename(words[0]) and bool(VERBS & {*words[at + 1 : at + 2]})


def edited(edit, folder):
    """Returns what an edit makes of the files of a crate, by their paths."""
    texts, path, old = {}, None, None
    for line in text_of(edit).splitlines():
        key, _, value = line.partition(": ")
        if key == "file":
            path = value
            texts.setdefault(path, text_of(f"{folder}/{path}"))
        elif key == "old":
            old = value
        elif key == "new" and path and old:
            texts[path] = texts[path].replace(old, value, 1)
    return texts


def edit_in(room, crate):
    """Returns the name of the edit of this crate that a copy of it has."""
    folder = f"{crate}/must-fail"
    for name in sorted(os.listdir(folder) if os.path.isdir(folder) else []):
        texts = edited(f"{folder}/{name}", crate)
        if texts and all(text_of(f"{room}/{path}") == text for path, text in texts.items()):
            return name.removesuffix(".edit")
    return None


def option(words, name):
    return words[words.index(name) + 1] if name in words[:-1] else ""


def step_by_rattle(words, folder, root):
    """Returns the crate and the name of a step that the prover or compiler does."""
    crate = option(words, "--crate-name")
    if words[1] == "fmt" or not crate:
        return os.path.basename(folder), "layout"
    if os.path.basename(folder).startswith("rt-edit-"):
        edit = edit_in(folder, f"{root}/crates/{crate}")
        return crate, f"edit {edit}" if edit else "what its edits begin with"
    if "--crate-checked" in words:
        return crate, f"build by {option(words, '--backend')}"
    return crate, "proof of its tests" if "--test" in words or option(words, "-o").endswith("_tests.o") else "proof"


def step_of(pid, root):
    """Returns the crate and the name of a step, None where it isn't one, or () where the process isn't yet what it becomes."""
    words = words_of(pid)
    if not words:
        return ()
    program = os.path.basename(words[0])
    if program == "sh" and "read _" in words:
        return None
    if program == "rattle" and len(words) > 1:
        return step_by_rattle(words, folder_of(pid), root)
    if "python" in program or program in ("sh", "setpriv"):
        return ()
    run = next((it for it in words if re.search(r"/rt-run-[^/]*/bin/", it)), None)
    if run:
        name = os.path.basename(run)
        return (name.removesuffix("_tests"), "run of its tests") if name.endswith("_tests") else (name, "run")
    return os.path.basename(folder_of(pid)), "link"


class Watch:
    """The steps of the runs that are seen, written to a log as each ends."""

    def __init__(self, log):
        self.log = log
        self.gates, self.looks, self.steps = set(), collections.Counter(), {}

    def is_gate(self, it):
        """Whether a process is `rt ci`; one that is young may still become it."""
        key = (it.pid, it.began)
        if key not in self.gates and self.looks[key] < 20:
            self.looks[key] += 1
            if is_gate(words_of(it.pid)):
                self.gates.add(key)
        return key in self.gates

    def look(self):
        found = processes()
        below = collections.defaultdict(list)
        for it in found.values():
            below[it.parent].append(it)
        for gate in filter(self.is_gate, found.values()):
            for step in below[gate.pid]:
                self.see(gate, step, below)
        seen = {(it.pid, it.began) for it in found.values()}
        self.gates &= seen
        for key in [*self.looks]:
            if key not in seen:
                del self.looks[key]
        for key in [*self.steps]:
            if key not in seen:
                self.end(key)

    def see(self, gate, step, below):
        key = (step.pid, step.began)
        kept = self.steps.setdefault(key, {"run": f"{gate.pid}-{gate.began}", "begin": time.time(), "seconds": 0.0})
        if "step" not in kept or kept["step"] == ():
            kept["step"] = step_of(step.pid, folder_of(gate.pid))
        ticks, left = 0, [step]
        while left:
            it = left.pop()
            ticks += it.ticks
            left += below[it.pid]
        kept["seconds"] = max(kept["seconds"], ticks / TICK)
        kept["end"] = time.time()

    def end(self, key):
        kept = self.steps.pop(key)
        if kept["step"]:
            crate, step = kept["step"]
            line = {**kept, "crate": crate, "step": step, "wall": round(kept["end"] - kept["begin"], 1)}
            print(json.dumps(line), file=self.log, flush=True)

    def close(self):
        for key in [*self.steps]:
            self.end(key)


def watch(log, is_over=lambda: False):
    with open(log, "a", encoding="utf-8") as file:
        seen = Watch(file)
        try:
            while not is_over():
                seen.look()
                time.sleep(PAUSE)
        except KeyboardInterrupt:
            pass
        seen.close()


def kind_of(step):
    if step.startswith(("edit", "what its edits")):
        return "edits"
    return "builds and runs" if step.startswith(("build", "run", "link")) else step


def table(log):
    """Prints the steps of a log, the dearest first, and their sums."""
    times, last = collections.defaultdict(float), {}
    for line in text_of(log).splitlines():
        it = json.loads(line)
        name = (it["crate"], it["step"])
        if last.get(name) != it["run"]:
            last[name], times[name] = it["run"], 0.0
        times[name] += it["seconds"]
    print(f"{'seconds':>9}  crate, step")
    for (crate, step), seconds in sorted(times.items(), key=lambda it: -it[1]):
        print(f"{seconds:9.1f}  {crate}, {step}")
    for what, of in (("crate", lambda name: name[0]), ("kind of step", lambda name: kind_of(name[1]))):
        sums = collections.Counter()
        for name, seconds in times.items():
            sums[of(name)] += seconds
        print(f"\n{'minutes':>9}  {what}")
        for name, seconds in sums.most_common():
            print(f"{seconds / 60:9.1f}  {name}")
    print(f"\n{sum(times.values()) / 60:9.1f}  processor minutes in all, {len(times)} steps")


def main(words):
    signal.signal(signal.SIGTERM, signal.default_int_handler)
    if words[:1] == ["--watch"] and len(words) == 2:
        return watch(words[1])
    if words[:1] == ["--table"] and len(words) == 2:
        return table(words[1])
    if words:
        sys.exit(__doc__)
    log = f"/tmp/ct-gate-{os.getpid()}.log"
    top = os.path.dirname(os.path.dirname(os.path.realpath(__file__)))
    gate = subprocess.Popen(["rt", "ci", "--anew"], cwd=top)
    watch(log, lambda: gate.poll() is not None)
    table(log)
    print(f"{log} has the steps one by one")
    sys.exit(gate.wait())


if __name__ == "__main__":
    main(sys.argv[1:])
