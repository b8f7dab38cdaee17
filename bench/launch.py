#!/usr/bin/env python3
"""The ways in which `./ct` starts, well and badly, in a small repository with a command `rt` that only seems to prove.

    bench/launch.py [PAIRS]

Looks at the exit status, at standard output and at what people are told, and that no old program runs; PAIRS, 20 if none is
given, are started two at once. Prints a line for each way, and ends with 1 where one isn't as it should be.
"""
import os
import shutil
import signal
import subprocess
import sys
import tempfile
import time

CT = os.path.join(os.path.dirname(os.path.abspath(__file__)), "..", "ct")
LIBRARIES = {"ct_low": "", "ct_text": "itoa", "ct_mid": "ct_low", "ct_side": "ct_text", "ct_run": "ct_mid ct_side ct_text"}
RT = r"""#!/bin/sh
# Stands for rt: a crate takes a moment, and stub/NAME.does is done in its place.
name=$(basename "$PWD")
echo "rt $* in $name" >>"$STUB/calls"
grep -o '^[a-z_]*' ../../crates.txt | while read -r each; do
    [ "$each" = ct_bench ] || [ -d "../$each/src" ] || { echo "$each has no folder"; exit 1; }
done || exit 1
[ ! -f "$STUB/$name.does" ] || . "$STUB/$name.does"
case $name in ct_cli) set -- ;; *) grep -h -o ' ct_[a-z]*' "$STUB/below/$name" | while read -r each; do
    [ -f "../$each/out/rlib/stamp" ] || { echo "$each is not built"; exit 1; }
done || exit 1 ;; esac
sleep 0.2
mkdir -p out/rlib && date >out/rlib/stamp
[ "$name" = ct_cli ] || exit 0
{ echo '#!/bin/sh'; echo "echo version $(cat src/main.rt): \"\$*\""; echo 'case $1 in ends) exit "$2" ;; waits) sleep 5 ;; kills) kill -9 $$ ;; esac; exit "${ENDS:-0}"'; } >out/ct_cli
chmod +x out/ct_cli
"""


class Place:
    """A repository with the launcher, and the command rt beside it."""

    def __init__(self):
        self.top = tempfile.mkdtemp()
        self.stub = f"{self.top}/stub"
        os.makedirs(f"{self.stub}/below")
        self.write("repo/crates.txt", "".join(f"{it}: {below}\n" for it, below in LIBRARIES.items()) + "ct_cli: ct_run\nct_bench: ct_low\n")
        for it, below in [*LIBRARIES.items(), ("ct_cli", "ct_run")]:
            self.write(f"repo/crates/{it}/src/{'main' if it == 'ct_cli' else 'lib'}.rt", "1")
            self.write(f"stub/below/{it}", f" {below}\n")
        self.write("bin/rt", RT)
        os.chmod(f"{self.top}/bin/rt", 0o755)
        shutil.copy(CT, f"{self.top}/repo/ct")

    def write(self, name, text):
        os.makedirs(os.path.dirname(f"{self.top}/{name}"), exist_ok=True)
        with open(f"{self.top}/{name}", "w", encoding="utf-8") as it:
            it.write(text)

    def environment(self, **more):
        return {**os.environ, "PATH": f"{self.top}/bin:{os.environ['PATH']}", "STUB": self.stub, "CT_AT_ONCE": "3", **more}

    def start(self, *words, redirect="", **more):
        line = f'exec "$0" "$@" {redirect}'
        return subprocess.Popen(["sh", "-c", line, f"{self.top}/repo/ct", *words], stdin=subprocess.DEVNULL, stdout=subprocess.PIPE, stderr=subprocess.PIPE, text=True, env=self.environment(**more), start_new_session=True)

    def run(self, *words, redirect="", **more):
        it = self.start(*words, redirect=redirect, **more)
        out, told = it.communicate(timeout=120)
        return it.returncode, out, told

    def calls(self):
        with open(f"{self.stub}/calls", encoding="utf-8") as it:
            return it.read()

    def leaves(self):
        return sorted(it for it in os.listdir(f"{self.top}/repo/crates/ct_cli/out") if it.startswith("build.") or it == "side")


def good(place):
    status, out, told = place.run("answer", "it", "all")
    yield "the first call answers", (status, out) == (0, "version 1: answer it all\n")
    yield "it tells how far it is", "0 of 6 crates proved, at work on ct_" in told and ", ct_" in told and "at work on the last, which is compiled too" in told
    yield "each crate is proved once", sorted(place.calls().split("\n")[:-1]) == sorted([f"rt {it}" for it in ("lib --jobs 1 in ct_low", "lib --jobs 1 in ct_text", "lib --jobs 1 in ct_mid", "lib --jobs 1 in ct_side", "lib in ct_run", "run -- make 0 in ct_cli")]) or place.calls()
    yield "nothing is left behind", place.leaves() == []
    yield "the second call only answers", place.run("answer") == (0, "version 1: answer\n", "")
    time.sleep(1.1)
    place.write("repo/crates/ct_cli/src/main.rt", "2")
    status, out, _ = place.run("answer")
    yield "a change is built", (status, out) == (0, "version 2: answer\n")
    place.write("away/stub", "")
    os.symlink(f"{place.top}/repo/ct", f"{place.top}/away/ct")
    done = subprocess.run([f"{place.top}/away/ct", "through", "link"], cwd="/", capture_output=True, text=True, env=place.environment(), check=False)
    yield "through a link", (done.returncode, done.stdout) == (0, "version 2: through link\n")


def statuses(place):
    place.run("answer")
    for words in ([], ["help"], ["--help"]):
        status, out, told = place.run(*words)
        yield f"ct {' '.join(words)}", (status, out) == (2, "usage: ct COMMAND ARGUMENTS\n") and "ct answer INSTANCE" in told
    status, out, told = place.run("ends", "2")
    yield "status 2 tells the commands", (status, out) == (2, "version 1: ends 2\n") and "ct answer INSTANCE" in told
    for status in (3, 4, 8, 9, 10):
        yield f"status {status} tells no more", place.run("ends", str(status)) == (status, f"version 1: ends {status}\n", "")
    for words, said in (
        (["answer", "--walks", "--moves", "7", f"{place.top}/nowhere", place.top], f"ct: there is no file {place.top}/nowhere\n"),
        (["answer", CT, "--moves=7", "--", place.top], f"ct: {place.top} is a folder, and no file\n"),
        (["certify", CT, "20"], "ct: a file couldn't be read\n"),
        (["check", "--", CT, "--moves"], "ct: there is no file --moves\n"),
    ):
        status, _, told = place.run(*words, ENDS="5")
        yield f"status 5: {said[4:-1]}", (status, told) == (5, said)
    yield "status 6 tells", "front" in place.run("ends", "6")[2]
    yield "status 7 tells", "memory" in place.run("ends", "7")[2]
    status, _, told = place.run("kills")
    yield "a killed program", status == 137 and "killed" in told
    it = place.start("waits")
    time.sleep(0.5)
    it.terminate()
    yield "a signal ends the program too", it.wait(timeout=3) == 143
    yield "closed standard output", place.run("help", redirect=">&-")[0] == 6


def refused(place):
    os.rename(f"{place.top}/bin/rt", f"{place.top}/bin/away")
    status, out, told = place.run("answer", PATH="/usr/bin:/bin")
    yield "no rt", (status, out) == (1, "") and "rt, the command of the Rattle kit, isn't there" in told
    os.rename(f"{place.top}/bin/away", f"{place.top}/bin/rt")
    place.write("repo/crates/ct_cli/out", "no folder")
    status, out, told = place.run("answer")
    yield "no rights", (status, out) == (1, "") and "can't be written to" in told
    os.remove(f"{place.top}/repo/crates/ct_cli/out")
    place.run("answer")
    time.sleep(1.1)
    place.write("repo/crates/ct_mid/src/lib.rt", "2")
    for does, says in (("echo one; echo two; exit 3", "ended with status 3"), ("echo two; kill -9 $$", "was killed, most likely for want of memory")):
        place.write("stub/ct_mid.does", does)
        status, out, told = place.run("answer")
        yield f"a crate that {says}", (status, out) == (1, "") and f"the build failed at ct_mid, which {says}" in told and "    two" in told
        yield "its log is kept, and nothing else", place.leaves() == ["build.log"]
    place.write("stub/ct_mid.does", "kill -9 $PPID; sleep 1")
    status, out, told = place.run("answer")
    yield "a step that was killed", (status, out) == (1, "") and "failed at ct_mid, which was killed" in told
    place.write("stub/ct_mid.does", "")
    place.write("stub/ct_cli.does", "echo no linker; exit 1")
    status, out, told = place.run("answer")
    yield "a program that isn't linked", (status, out) == (1, "") and "failed at ct_cli" in told and "no linker" in told
    os.remove(f"{place.stub}/ct_cli.does")
    yield "then it is built", place.run("answer")[:2] == (0, "version 1: answer\n")
    lines = open(f"{place.top}/repo/crates.txt", encoding="utf-8").read()
    place.write("repo/crates.txt", lines.replace("ct_cli", "ct_clu"))
    status, out, told = place.run("answer")
    yield "no line for the program", (status, out) == (1, "") and "no line for ct_cli" in told
    os.remove(f"{place.top}/repo/crates.txt")
    status, out, told = place.run("answer")
    yield "no crates.txt", (status, out) == (1, "") and "crates.txt can't be read" in told


def cut(place):
    place.write("stub/ct_mid.does", "mkdir -p out/incremental; echo half >>out/incremental/work; exec sleep 4")
    for sent, status in ((signal.SIGTERM, 143), (signal.SIGINT, 130), (signal.SIGHUP, 129)):
        it = place.start("answer")
        time.sleep(1.2)
        os.kill(it.pid, sent)
        out, told = it.communicate(timeout=3)
        yield f"cut off by {sent.name}", (it.returncode, out) == (status, "") and "cut off" in told and place.leaves() == []
    with open(f"{place.top}/repo/crates/ct_mid/out/incremental/work", encoding="utf-8") as it:
        yield "what was begun is kept, and gone on with", it.read() == 3 * "half\n"
    it = place.start("answer")
    time.sleep(1.2)
    it.kill()
    it.communicate(timeout=30)
    os.remove(f"{place.stub}/ct_mid.does")
    yield "after a call that was killed", place.run("answer")[:2] == (0, "version 1: answer\n") and place.leaves() == []
    place.write("repo/crates/ct_mid/src/more.rt", "")
    status, out, told = place.run("answer", redirect="2>&-")
    yield "standard error closed", (status, out, told) == (0, "version 1: answer\n", "")
    place.write("repo/crates/ct_mid/src/other.rt", "")
    yield "standard input closed", place.run("answer", redirect="<&-")[:2] == (0, "version 1: answer\n")
    place.write("repo/crates/ct_mid/src/another.rt", "")
    place.run("answer", redirect=">&-")
    yield "standard output closed", place.run("answer") == (0, "version 1: answer\n", "")


def held(place):
    other = subprocess.Popen(["flock", f"{place.top}/repo/crates/ct_mid", "sleep", "3"])
    time.sleep(0.3)
    status, out, told = place.run("answer")
    other.wait()
    yield "another rt in a crate's folder", (status, out) == (0, "version 1: answer\n") and "waiting for another build of ct_mid" in told


def two(place, pairs):
    bad, waited = 0, 0
    for _ in range(pairs):
        shutil.rmtree(f"{place.top}/repo/crates/ct_cli/out", ignore_errors=True)
        both = [place.start("answer") for _ in range(2)]
        ends = [(*it.communicate(timeout=60), it.returncode) for it in both]
        bad += sum((out, status) != ("version 1: answer\n", 0) for out, _, status in ends)
        waited += sum("waiting for another call" in told for _, told, _ in ends)
    yield f"two at once both answer, {pairs} pairs, of which {waited} waited and said so", bad == 0 and waited > 0


def alone(place):
    status, out, told = place.run("answer", CT_AT_ONCE="1")
    yield "one at a time", (status, out) == (0, "version 1: answer\n") and "5 of 6 crates proved" in told
    place.write("bin/flock", "#!/bin/sh\nexit 1\n")
    os.chmod(f"{place.top}/bin/flock", 0o755)
    place.write("repo/crates/ct_mid/src/more.rt", "")
    yield "where no file is locked", place.run("answer")[:2] == (0, "version 1: answer\n")


def main():
    pairs = int(sys.argv[1]) if len(sys.argv) > 1 else 20
    failed = 0
    for ways in (good, statuses, refused, cut, held, lambda it: two(it, pairs), alone):
        place = Place()
        try:
            for name, holds in ways(place):
                failed += holds is not True
                print(f"{'ok ' if holds is True else 'NOT'} {name}" + ("" if isinstance(holds, bool) else f": {holds}"), flush=True)
        finally:
            shutil.rmtree(place.top, ignore_errors=True)
    return int(failed > 0)


if __name__ == "__main__":
    sys.exit(main())
