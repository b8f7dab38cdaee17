#!/usr/bin/env python3
"""bench/checker.py on every example, and on what is left of its evidence after one number is changed.

    bench/evidence.py PATH_TO_CT [MOST]

For each folder of examples/ `ct certify` makes the ledger up to the greatest sum of a request, and `ct answer --walks` the
report. The checker has to accept both. Then each number of the ledger and of the report is made one greater, MOST of them in
turn, 400 if none is given: no changed report may be shown whole, and a changed ledger may be accepted only where `ct check`
accepts it too, as with a grade up to which there are no more jobs. Ends with 1 where one of these isn't so.
"""
import contextlib
import io
import os
import re
import subprocess
import sys
import tempfile

sys.path.insert(0, os.path.dirname(os.path.abspath(__file__)))
import checker

EXAMPLES = os.path.join(os.path.dirname(os.path.abspath(__file__)), "..", "examples")


def said(*words):
    """What a run writes to standard output; none may fail."""
    return subprocess.run(words, capture_output=True, text=True, check=True).stdout


def is_shown(*files):
    with contextlib.redirect_stdout(io.StringIO()):
        return checker.main(*files) == 0


def changed(text, most):
    """The text with one of its numbers made one greater, at most so many times."""
    places = list(re.finditer(r"\d+", text))
    for at in places[:: max(1, len(places) // most)][:most]:
        yield text[: at.start()] + str(int(at[0]) + 1) + text[at.end() :]


def main():
    program, most = sys.argv[1], int(sys.argv[2]) if len(sys.argv) > 2 else 400
    wrong = 0
    for name in sorted(it for it in os.listdir(EXAMPLES) if os.path.isdir(f"{EXAMPLES}/{it}")):
        form = "json" if os.path.exists(f"{EXAMPLES}/{name}/instance.json") else "txt"
        instance, sessions = (f"{EXAMPLES}/{name}/{it}.{form}" for it in ("instance", "sessions"))
        rows, _, bounds = checker.shape(open(instance, encoding="utf-8").read())
        phases = checker.read_sessions(open(sessions, encoding="utf-8").read(), rows)
        greatest = max(sum(right) for phase in phases for session in phase for right in session) + sum(bounds)
        texts = [said(program, "certify", instance, str(greatest)), said(program, "answer", instance, sessions, "--walks")]
        with tempfile.TemporaryDirectory() as folder:
            def files(ledger, report):
                for part, text in (("ledger", ledger), ("report", report)):
                    with open(f"{folder}/{part}", "w", encoding="utf-8") as it:
                        it.write(text)
                return instance, f"{folder}/ledger", sessions, f"{folder}/report"

            good = is_shown(*files(*texts))
            ledgers, same, reports = 0, 0, 0
            for text in changed(texts[0], most):
                ledgers += 1
                if is_shown(*files(text, texts[1])[:2]):
                    same += 1
                    good = good and subprocess.run([program, "check", instance, f"{folder}/ledger"], capture_output=True, check=False).returncode == 0
            for text in changed(texts[1], most):
                reports += 1
                good = good and not is_shown(*files(texts[0], text))
        print(f"{'ok ' if good else 'NOT'} {name}: grade {greatest}; {ledgers} changed ledgers, of which {same} are right and accepted by ct check too; {reports} changed reports", flush=True)
        wrong += not good
    return int(wrong > 0)


if __name__ == "__main__":
    sys.exit(main())
