"""Times whole runs over files beside plain Rust that reads the same files, and pandas.

    python3 bench/plans/measure.py BINARY [FOLDER]

BINARY is the proved program, and may be several words, as a loader and its program. Files are made in the folder:

- `join`: the join and group-by of `demo` (`docs/COMMAND_LINE.md`) over 200,000 orders and 800,000 lines, beside the query alone in
  pandas over tables in memory, where Debian's `python3-pandas` is installed;
- `summary`: of a million rows those up to a day, with the product of a price and what a discount leaves of it, both decimals,
  grouped by two texts, with three sums, a maximum and a count;
- `filter`: the sum of a column of ten million rows where another is below 0.

A line for each: the best of five runs of each program, alternately, in seconds of processor time and on the clock, its most memory,
and the same with four workers. What the programs give is compared."""
import os
import random
import shlex
import struct
import subprocess
import sys
import tempfile
import time
from array import array

HERE = os.path.dirname(os.path.abspath(__file__))
sys.path.insert(0, os.path.dirname(HERE))

from arrow_files import DATE, TEXT, WHOLE, decimal, write_file
from plan_bytes import message, number

RUNS = 5
SIZE = 65_536
PANDAS = """
import time, numpy, pandas
k, j = numpy.arange(200_000), numpy.arange(800_000)
orders = pandas.DataFrame({"id": k, "region": pandas.Series(["r0", "r1", "r2"]).take(k % 3).array})
qty = pandas.Series(j % 10, dtype="Int64").mask(j % 11 == 10)
lines = pandas.DataFrame({"oid": j * 7 % 200_001, "qty": qty})
best = (float("inf"), float("inf"))
for _ in range(5):
    clock, work = time.perf_counter(), time.process_time()
    found = lines.merge(orders, left_on="oid", right_on="id").groupby("region")["qty"].agg(["sum", "count"]).sort_index()
    best = min(best, (time.process_time() - work, time.perf_counter() - clock))
print(*best, *found["sum"], *found["count"])
"""

# ---- plans

NULLABLE = 1


def kind(field, *rest):
    return message(field, *rest, number({24: 4, 7: 2, 12: 2, 16: 2, 1: 2}[field], NULLABLE))


BOOL, I64, STRING, DAY = kind(1), kind(7), kind(12), kind(16)


def dec(precision, scale):
    return kind(24, number(1, scale), number(2, precision))


def column(place):
    return message(2, message(1, message(2, number(1, place) if place else b"")), message(4))


def call(function, output, *arguments):
    return message(3, number(1, function), message(3, output), *[message(4, message(3, one)) for one in arguments])


def measure(function, output, *arguments):
    return message(4, message(1, number(1, function), number(4, 3), message(5, output), number(6, 1), *[message(7, message(3, one)) for one in arguments]))


def table(name, columns):
    names = b"".join(message(1, one) for one, _ in columns)
    return message(1, message(2, names, message(2, *[message(1, one) for _, one in columns])), message(7, message(1, name)))


def plan(functions, rel, names):
    files = []
    declared = b""
    for anchor, (file, name) in enumerate(functions, 1):
        if file not in files:
            files.append(file)
        declared += message(2, message(3, number(1, files.index(file) + 1), number(2, anchor), message(3, name)))
    uris = b"".join(message(1, number(1, place), message(2, b"/" + file)) for place, file in enumerate(files, 1))
    return uris + declared + message(3, message(2, message(1, rel), *[message(2, one) for one in names]))


def grouped(source, groups, *measures):
    grouping = message(3, *[message(1, column(place)) for place in groups]) if groups else b""
    return message(4, message(2, source), grouping, *measures)


def ordered(source, places):
    return message(5, message(2, source), *[message(3, message(1, column(place)), number(2, 1)) for place in places])


def join_plan():
    lines = table(b"lines", [(b"oid", I64), (b"qty", I64)])
    orders = table(b"orders", [(b"id", I64), (b"region", STRING)])
    joined = message(6, message(2, lines), message(3, orders), message(4, call(1, BOOL, column(0), column(2))), number(6, 1))
    rel = ordered(grouped(joined, [3], measure(2, I64, column(1)), measure(3, I64, column(1))), [0])
    functions = [(b"functions_comparison.yaml", b"equal:any_any"), (b"functions_arithmetic.yaml", b"sum:i64"),
                 (b"functions_aggregate_generic.yaml", b"count:any")]
    return plan(functions, rel, [b"region", b"sum", b"count"])


MONEY = dec(15, 2)
LAST_DAY = 10_000


def summary_plan():
    source = table(b"t", [(b"flag", STRING), (b"status", STRING), (b"quantity", MONEY), (b"price", MONEY), (b"discount", MONEY), (b"day", DAY)])
    day = message(1, number(16, LAST_DAY))
    kept = message(2, message(2, source), message(3, call(1, BOOL, column(5), day)))
    one = message(1, message(24, message(1, (100).to_bytes(16, "little")), number(2, 15), number(3, 2)))
    left = call(2, MONEY, one, column(4))
    product = call(3, dec(30, 4), column(3), left)
    projected = message(7, message(2, kept), message(3, product))
    whole = dec(38, 2)
    rel = ordered(grouped(projected, [0, 1], measure(4, whole, column(2)), measure(4, whole, column(3)), measure(4, dec(38, 4), column(6)),
                          measure(5, MONEY, column(4)), measure(6, I64)), [0, 1])
    decimals = b"functions_arithmetic_decimal.yaml"
    functions = [(b"functions_comparison.yaml", b"lte:any_any"), (decimals, b"subtract:dec_dec"), (decimals, b"multiply:dec_dec"),
                 (decimals, b"sum:dec"), (decimals, b"max:dec"), (b"functions_aggregate_generic.yaml", b"count:")]
    return plan(functions, rel, [b"flag", b"status", b"quantity", b"price", b"sold", b"discount", b"rows"])


def filter_plan():
    source = table(b"t", [(b"a", I64), (b"b", I64)])
    kept = message(2, message(2, source), message(3, call(1, BOOL, column(1), message(1, number(7, 0)))))
    functions = [(b"functions_comparison.yaml", b"lt:any_any"), (b"functions_arithmetic.yaml", b"sum:i64")]
    return plan(functions, grouped(kept, [], measure(2, I64, column(0))), [b"sum"])


# ---- files

def parts(rows):
    return [(start, min(rows, start + SIZE)) for start in range(0, rows, SIZE)]


def whole(values):
    return [array("q", values).tobytes()]


def texts(values):
    ends, data = array("i", [0]), bytearray()
    for value in values:
        data += value
        ends.append(len(data))
    return [ends.tobytes(), bytes(data)]


def amounts(values):
    return [b"".join(value.to_bytes(16, "little") for value in values)]


def validity(valid):
    bits = bytearray((len(valid) + 7) // 8)
    for place, is_valid in enumerate(valid):
        bits[place // 8] |= is_valid << place % 8
    return bytes(bits)


def write_join(folder):
    orders = [(to - start, [[b"", *whole(range(start, to))], [b"", *texts(b"r%d" % (k % 3) for k in range(start, to))]]) for start, to in parts(200_000)]
    write_file(os.path.join(folder, "orders.arrow"), [(b"id", WHOLE), (b"region", TEXT)], orders)
    lines = [(to - start, [[b"", *whole(7 * j % 200_001 for j in range(start, to))],
                           [validity([j % 11 != 10 for j in range(start, to)]), *whole(0 if j % 11 == 10 else j % 10 for j in range(start, to))]])
             for start, to in parts(800_000)]
    write_file(os.path.join(folder, "lines.arrow"), [(b"oid", WHOLE), (b"qty", WHOLE)], lines)


def write_summary(folder):
    draw = random.Random(1)
    batches = []
    for start, to in parts(1_000_000):
        rows = to - start
        columns = [texts(draw.choices([b"A", b"N", b"R"], k=rows)), texts(draw.choices([b"F", b"O"], k=rows)), amounts(draw.choices(range(100, 5_001), k=rows)),
                   amounts(draw.choices(range(90_000, 10_500_000), k=rows)), amounts(draw.choices(range(11), k=rows)),
                   [array("i", draw.choices(range(8_000, 10_100), k=rows)).tobytes()]]
        batches.append((rows, [[b"", *one] for one in columns]))
    money = decimal(15, 2)
    write_file(os.path.join(folder, "summary.arrow"), [(b"flag", TEXT), (b"status", TEXT), (b"quantity", money), (b"price", money), (b"discount", money), (b"day", DATE)], batches)


def write_filter(folder):
    draw = random.Random(2)
    batches = ((to - start, [[b"", array("q", [value >> 24 for value in array("q", draw.randbytes(8 * (to - start)))]).tobytes()],
                             [b"", draw.randbytes(8 * (to - start))]]) for start, to in parts(10_000_000))
    write_file(os.path.join(folder, "filter.arrow"), [(b"a", WHOLE), (b"b", WHOLE)], batches)


# ---- runs

def timed(command, folder):
    """Seconds of processor time and on the clock, the most memory in MB, and what was printed."""
    start = time.perf_counter()
    process = subprocess.Popen(command, cwd=folder, stdout=subprocess.PIPE)
    said = process.stdout.read()
    _, status, used = os.wait4(process.pid, 0)
    clock = time.perf_counter() - start
    process.returncode = os.waitstatus_to_exitcode(status)
    if process.returncode:
        sys.exit(f"{command}: {process.returncode}: {said.decode()}")
    return (used.ru_utime + used.ru_stime, clock, used.ru_maxrss / 1_000), said


def race(folder, works):
    best, said = [None] * len(works), [b""] * len(works)
    for _ in range(RUNS):
        for place, command in enumerate(works):
            found, said[place] = timed(command, folder)
            best[place] = found if best[place] is None else tuple(map(min, best[place], found))
    return best, said


def is_in(folder, words):
    """Whether the numbers that plain Rust gives, each with its width in bytes, stand in the out file."""
    with open(os.path.join(folder, "out"), "rb") as file:
        out = file.read()
    return all(int(value).to_bytes(int(width), "little", signed=True) in out for width, value in (word.split(b":") for word in words.split()))


def compare(folder, binary, plain, name, files):
    run = binary + ["run", name + ".plan", "out"]
    bound = [f"{table}={file}" for table, file in files]
    (one, four, other), (_, _, said) = race(folder, [run + ["1"] + bound, run + ["4"] + bound, [plain, name] + [file for _, file in files]])
    if not is_in(folder, said):
        sys.exit(f"{name}: what plain Rust gives isn't in the out file: {said.decode()}")
    print(f"{name}: processor {one[0]:.3f} s beside {other[0]:.3f}, {one[0] / other[0]:.2f} times; clock {one[1]:.3f} s beside {other[1]:.3f}, "
          f"{one[1] / other[1]:.2f} times; with four workers processor {four[0]:.3f} s, clock {four[1]:.3f} s, {one[1] / four[1]:.2f} times as fast; "
          f"memory {one[2]:.0f} MB, with four workers {four[2]:.0f}, plain Rust {other[2]:.0f}", flush=True)
    return one


def beside_pandas(one):
    try:
        said = subprocess.run(["/usr/bin/python3", "-c", PANDAS], check=True, capture_output=True).stdout.split()
    except (OSError, subprocess.CalledProcessError) as why:
        print("no pandas:", why)
        return
    work, clock = float(said[0]), float(said[1])
    print(f"join: pandas' query alone processor {work:.3f} s, clock {clock:.3f} s; the whole program {one[0] / work:.2f} and {one[1] / clock:.2f} times; "
          f"pandas' sums and counts {b' '.join(said[2:]).decode()}", flush=True)


def apart(write, folder):
    """Makes files in a process of its own, since a program's most memory counts what the process that starts it holds."""
    maker = os.fork()
    if maker == 0:
        write(folder)
        os._exit(0)
    if os.waitpid(maker, 0)[1]:
        sys.exit("no files")


def main():
    binary = shlex.split(sys.argv[1])
    with tempfile.TemporaryDirectory(dir=sys.argv[2] if len(sys.argv) > 2 else None) as folder:
        plain = os.path.join(folder, "plain")
        subprocess.run(["rustc", "-O", "--edition", "2021", "-o", plain, os.path.join(HERE, "plans.rs")], check=True)
        works = [("join", join_plan, write_join, [("lines", "lines.arrow"), ("orders", "orders.arrow")]), ("summary", summary_plan, write_summary, [("t", "summary.arrow")]),
                 ("filter", filter_plan, write_filter, [("t", "filter.arrow")])]
        for name, make, write, files in works:
            with open(os.path.join(folder, name + ".plan"), "wb") as file:
                file.write(make())
            apart(write, folder)
            one = compare(folder, binary, plain, name, files)
            if name == "join":
                beside_pandas(one)


main()
