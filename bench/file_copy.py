"""Times a bare read of a large file, written out again, beside `dd`.

    python3 bench/file_copy.py BINARY [FOLDER]

Three Arrow files of ten million rows of two i64 columns (160 MB each) are made in the folder, in batches of 1,024, 1,000 and
65,536 rows. `run` of a plan that reads one and does nothing else, and `dd` with blocks of 1 MB, run alternately, each nine times
and each without a file to write over. A line a file: the best time of both on the clock, the ratio, and the best processor time
of both. BINARY may be several words, as a loader and its program."""
import os
import resource
import shlex
import subprocess
import sys
import tempfile
import time

from arrow_files import WHOLE, write_file
from plan_bytes import message, number

ROWS = 10_000_000
RUNS = 9


def write_numbers(path, size):
    """The numbers are drawn once and written in each batch."""
    values = os.urandom(16 * size)
    counts = [min(size, ROWS - start) for start in range(0, ROWS, size)]
    write_file(path, [(b"a", WHOLE), (b"b", WHOLE)], [(rows, [[b"", values[:8 * rows]], [b"", values[8 * size:8 * (size + rows)]]]) for rows in counts])


def plan():
    """A read of both columns of the table `t`, which aren't null."""
    whole = message(7, number(2, 2))
    types = message(2, message(1, b"a"), message(1, b"b"), message(2, message(1, whole), message(1, whole)))
    read = message(1, types, message(7, message(1, b"t")))
    return message(3, message(2, message(1, read), message(2, b"a"), message(2, b"b")))


def timed(command, folder):
    before = resource.getrusage(resource.RUSAGE_CHILDREN)
    start = time.perf_counter()
    subprocess.run(command, cwd=folder, check=True, capture_output=True)
    clock = time.perf_counter() - start
    after = resource.getrusage(resource.RUSAGE_CHILDREN)
    return clock, after.ru_utime + after.ru_stime - before.ru_utime - before.ru_stime


def race(binary, folder, name):
    works = [(["dd", f"if={name}", "of=dd.out", "bs=1M"], "dd.out"), (binary + ["run", "plan", "out.arrow", "1", f"t={name}"], "out.arrow")]
    best = [(float("inf"), float("inf"))] * 2
    for _ in range(RUNS):
        for i, (command, out) in enumerate(works):
            best[i] = tuple(map(min, best[i], timed(command, folder)))
            os.remove(os.path.join(folder, out))
    (dd, dd_work), (ours, work) = best
    print(f"{name}: dd {dd:.3f} s, run {ours:.3f} s, {ours / dd:.2f} times; of processor {dd_work:.3f} and {work:.3f}", flush=True)


def main():
    binary = shlex.split(sys.argv[1])
    with tempfile.TemporaryDirectory(dir=sys.argv[2] if len(sys.argv) > 2 else None) as folder:
        with open(os.path.join(folder, "plan"), "wb") as file:
            file.write(plan())
        for size in (1024, 1000, 65536):
            name = f"batches_of_{size}"
            write_numbers(os.path.join(folder, name), size)
            race(binary, folder, name)
            os.remove(os.path.join(folder, name))


main()
