#!/usr/bin/env python3
"""The time of a comparison by one row of costs against the version before rows, and by more rows against one.

It builds ct_order_bench twice, with the order as it is here and with that of the commit before costs had rows, and runs
both in turn on points that tie by everything, so that each comparison goes over all of them:

    bench/rows.py
"""
import os
import pathlib
import subprocess
import sys
import tempfile

COUNT = "5000000"
BEFORE = "4605749"
TOP = pathlib.Path(__file__).resolve().parent.parent
COSTS_BEFORE = """//! The costs that the points are compared by.
ghost use Rattle.std.specs.Prelude.{◌≡◌, length, IfOk};

use anyhow::Result;
use ct_order::Costs;
use std::alloc::Global;

/// The number of columns.
pub const COLUMNS: usize = 8;

/// One row in which each column costs 1.
pub fn costs_of_ones(alloc: Global, _rows: usize) -> Result<Costs>
    ensures { IfOk result (λ costs. length costs ≡ COLUMNS) }
{
    Ok(Costs::new(alloc, &[1i64; 8])?)
}
"""


def built(top):
    """The program of the crate in this checkout."""
    crate = top / "crates/ct_order_bench"
    subprocess.run(["rt", "run", "--", "3", "1"], cwd=crate, check=True, capture_output=True)
    return crate / "out/ct_order_bench"


def before(top):
    """The same program over the order of the commit before."""
    subprocess.run(["git", "-C", TOP, "worktree", "add", "-q", "--detach", top, BEFORE], check=True)
    subprocess.run(["cp", "-r", TOP / "crates/ct_order_bench", top / "crates"], check=True)
    crate = top / "crates/ct_order_bench"
    subprocess.run(["rm", "-rf", crate / "out", crate / "proofs/costs"], check=True)
    (crate / "src/costs.rt").write_text(COSTS_BEFORE)
    main = crate / "src/main.rt"
    main.write_text(main.read_text().replace("costs.now.columns", "length costs.now"))
    lines = (top / "crates.txt").read_text()
    (top / "crates.txt").write_text(lines + "ct_order_bench: ct_vectors ct_order anyhow\n")
    return built(top)


def seconds(program, rows):
    """Processor seconds of one run."""
    child = subprocess.Popen([program, COUNT, rows], stdout=subprocess.DEVNULL)
    _, status, usage = os.wait4(child.pid, 0)
    if status != 0:
        sys.exit(f"{program} ended with {status}")
    return usage.ru_utime + usage.ru_stime


def main():
    with tempfile.TemporaryDirectory() as folder:
        old = pathlib.Path(folder) / "before"
        try:
            runs = {"before rows": (before(old), "1")}
            here = built(TOP)
            runs.update({f"{rows} rows": (here, rows) for rows in "1248"})
            times = {name: min(seconds(*run) for _ in range(7)) for name, run in runs.items()}
        finally:
            subprocess.run(["git", "-C", TOP, "worktree", "remove", "--force", old], check=False)
    for name, time in times.items():
        print(f"{name}: {time / int(COUNT) * 1e9:.1f} ns a comparison, {time / times['before rows']:.2f} of before")


if __name__ == "__main__":
    main()
