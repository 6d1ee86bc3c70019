#!/usr/bin/env python3
"""Measures expressions at all rows of a batch beside the same loops over slices in plain Rust: `python3 bench/expressions/measure.py`.
It builds expressions.txt as bench/columns/measure.py does, and expressions.rs by rustc -O with the memchr that comes with rustc.
Each work's time is the processor time of a process that does it 21 times (201 times, if it is one of texts), less that of one that
does it once, by 20 (by 200), so that other work on the machine counts less; of each process the least of nine, both programs in
turn."""
import importlib.util
import os
import subprocess
import sys
import tempfile

HERE = os.path.dirname(os.path.abspath(__file__))
COLUMNS = os.path.join(os.path.dirname(HERE), "columns", "measure.py")
TIMES = 20
TIMES_OF_TEXTS = 200
RUNS = 9
WORKS = ("compare with a constant", "compare two columns", "`and` of two comparisons", "add, overflow a fault",
         "multiply by a constant", "filter half", "between two constants", "sum")
OF_TEXTS = ("contains", "contains, beside memchr's Finder", "substring of ASCII")


def spent(command, work, times):
    """The processor time of a process that does a work so many times, in microseconds."""
    process = subprocess.Popen(command + [str(work), str(times)], stdout=subprocess.DEVNULL)
    _, status, used = os.wait4(process.pid, 0)
    process.returncode = status
    if status != 0:
        raise SystemExit(f"work {work}: the program ended with {status}")
    return (used.ru_utime + used.ru_stime) * 1e6


class Least:
    """The least time of a process that does a work many times, and of one that does it once."""

    def __init__(self, command, work, times):
        self.command, self.work, self.times = command, work, times
        self.many = self.one = float("inf")

    def again(self):
        self.many = min(self.many, spent(self.command, self.work, self.times + 1))
        self.one = min(self.one, spent(self.command, self.work, 1))

    def once(self):
        return (self.many - self.one) / self.times


def main():
    spec = importlib.util.spec_from_file_location("columns_measure", COLUMNS)
    measure = importlib.util.module_from_spec(spec)
    spec.loader.exec_module(measure)
    measure.HERE = HERE
    measure.NAME = "expressions_speed"
    measure.USES = ("anyhow sub_types plan_leaves plan_typed func_table well_typed plan_denote eval_typed col_fixed col_text batch "
                    "text_match kernels call_kernels eval_values eval_row batch_nodes batch_calls value_sets among_constants "
                    "indexmap simdutf8 eval_batch")
    with tempfile.TemporaryDirectory() as scratch:
        folder = os.path.join(scratch, "linked")
        measure.linked(measure.workspace(scratch, "expressions"), folder)
        ours = measure.build(folder)
        theirs = [os.path.join(scratch, "plain")]
        subprocess.run(["rustc", "-O", "-C", "target-cpu=x86-64-v2", "--edition", "2021", "-o", theirs[0],
                        os.path.join(HERE, "expressions.rs")], check=True, env={**os.environ, "RUSTC_BOOTSTRAP": "1"})
        works = list(enumerate([*WORKS, *[f"{name}, nulls" for name in WORKS], *OF_TEXTS]))
        print("microseconds here, in plain Rust, ratio")
        for work, name in works:
            times = TIMES_OF_TEXTS if name in OF_TEXTS else TIMES
            here, plain = Least(ours, work, times), Least(theirs, work, times)
            for _ in range(RUNS):
                here.again()
                plain.again()
            print(f"{name}: {here.once():.0f} {plain.once():.0f} {here.once() / plain.once():.2f}", flush=True)


if __name__ == "__main__":
    sys.exit(main())
