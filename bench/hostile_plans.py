"""Times the check of large plans beside the reading of them.

    python3 bench/hostile_plans.py BINARY [FOLDER]

Each plan has about 16 MB. `check` is run on it and on the same plan with a second root, which is read in the same way and
refused before anything in it is checked: that is the time of reading. The last column is the time of both by that of reading."""
import os
import subprocess
import sys
import tempfile
import time

from plan_bytes import message, number, varint


REQUIRED = number(2, 2)
I64 = message(7, REQUIRED)
BOOL = message(1, REQUIRED)


def literal(value):
    return message(1, number(7, value))


def text(start, place, end):
    """A text literal of 8,000 bytes: so many of one letter, a number, and so many of another letter."""
    return message(1, message(12, b"a" * start + b"%06d" % place + b"z" * end))


def column(place):
    return message(2, message(1, message(2, number(1, place) if place else b"")), message(4))


def call(anchor, output, *args):
    return message(3, number(1, anchor), message(3, output), *[message(4, message(3, arg)) for arg in args])


def table(columns):
    names = b"".join(message(1, b"c%d" % place) for place in range(columns))
    return message(1, message(2, names, message(2, message(1, I64) * columns)), message(7, message(1, b"t")))


def filtered(condition, columns=1):
    return message(2, message(2, table(columns)), message(3, condition))


def root(rel, names):
    return message(3, message(2, message(1, rel), *[message(2, name) for name in names]))


URI = message(1, number(1, 1), message(2, b"/functions_boolean.yaml"))
EMPTY_ROOT = root(table(1), [b"c0"])


def declared(anchor, name):
    return message(2, message(3, number(1, 1), number(2, anchor), message(3, name)))


def declarations_and_calls(count):
    """Each of so many declarations called once, all in one call of `and`."""
    declared_all = b"".join(declared(anchor, b"not:bool") for anchor in range(2, count + 2)) + declared(1, b"and:bool")
    calls = [call(anchor, BOOL, message(1, number(1, 1))) for anchor in range(2, count + 2)]
    return URI + declared_all + root(filtered(call(1, BOOL, *calls)), [b"c0"])


def calls_of_the_last(count):
    """Many calls of what is declared last, behind many declarations."""
    declared_all = b"".join(declared(anchor, b"not:bool") for anchor in range(2, count + 2)) + declared(1, b"and:bool")
    calls = [call(count + 1, BOOL, message(1, number(1, 1))) for _ in range(count)]
    return URI + declared_all + root(filtered(call(1, BOOL, *calls)), [b"c0"])


def literals(count):
    options = b"".join(message(2, literal(place)) for place in range(count))
    return root(filtered(message(8, message(1, literal(1)), options)), [b"c0"])


def literal_rows(count):
    rows = b"".join(message(1, message(1, number(7, place))) for place in range(count))
    return root(message(1, message(2, message(1, b"c0"), message(2, message(1, I64))), message(5, rows)), [b"c0"])


def groupings(sets, each, expression):
    def one(start):
        return message(3, b"".join(message(1, expression(start + place)) for place in range(each)))

    return root(message(4, message(2, table(1)), *[one(at * each) for at in range(sets)]), [b"c0"])


def own_expressions(count):
    """Grouping expressions of the aggregate's own, and one grouping that refers to each."""
    references = message(2, b"".join(varint(place) for place in range(count)))
    return root(message(4, message(2, table(1)), message(3, references), b"".join(message(5, literal(place)) for place in range(count))), [b"c0"])


def wide_relations(count, columns):
    """So many relations, each with all columns in a mapping of its own."""
    mapping = message(1, message(2, message(1, b"".join(varint(place) for place in range(columns)))))
    rel = table(columns)
    for _ in range(count - 1):
        rel = message(3, mapping, message(2, rel), number(3, 0), number(4, 1))
    return rel


def wide(count, columns):
    side = 40
    inputs = [wide_relations(side, columns) for _ in range(count // side)]
    return root(message(8, *[message(2, one) for one in inputs], number(3, 6)), [b"c%d" % place for place in range(columns)])


def references_to_columns(count):
    options = b"".join(message(2, column(0)) for _ in range(count))
    return root(filtered(message(8, message(1, column(0)), options)), [b"c0"])


# How keys of grouping expressions are told apart (crates/plan_keys): the factor of their digests, and how many slots the
# table of a thousand groups has. More groups than columns are let go, so no table is larger.
FACTOR = 0x9E3779B97F4A7C15F39CC0605CEDC835
SLOTS = 2**14 - 1


def of_one_slot(place):
    """A literal, of those whose keys all have one slot."""
    digest = 0
    for part in (0, 0, 4, 2, 0):  # a constant, required, of the kind i64, a whole number; and the number itself, left out
        digest = (digest * FACTOR + part) % 2**128
    low, high = digest % 2**64, digest >> 64
    return literal((((((low ^ high) // SLOTS + 1 + place) * SLOTS) ^ high) - low) % 2**64)


PLANS = {
    "declarations, each called once": lambda: declarations_and_calls(260_000),
    "calls of the last declaration": lambda: calls_of_the_last(260_000),
    "literals": lambda: literals(1_400_000),
    "rows of a literal": lambda: literal_rows(1_700_000),
    "references to columns": lambda: references_to_columns(1_000_000),
    "grouping expressions of one set": lambda: groupings(1, 1_400_000, literal),
    "grouping expressions of 64 sets": lambda: groupings(64, 20_000, literal),
    "scattered grouping expressions of 64 sets": lambda: groupings(64, 17_000, lambda place: literal(place * 0x1E3779B97F4A7C15 % (1 << 62))),
    "grouping expressions of 64 sets whose keys have one slot": lambda: groupings(64, 13_500, of_one_slot),
    "equal grouping expressions of 64 sets whose keys have one slot": lambda: groupings(64, 13_500, lambda place: of_one_slot(place % 1_000)),
    "equal grouping expressions of 64 sets": lambda: groupings(64, 20_000, lambda place: literal(place % 1_000)),
    "long texts of 64 sets": lambda: groupings(64, 31, lambda place: text(7_994, place, 0)),
    "equal long texts of 64 sets": lambda: groupings(64, 31, lambda place: text(7_994, place % 1_000, 0)),
    "equal long texts of 64 sets with one end": lambda: groupings(64, 31, lambda place: text(7_930, place % 1_000, 64)),
    "own grouping expressions": lambda: own_expressions(1_100_000),
    "999 relations of 1,024 columns": lambda: wide(960, 1_024),
}


def seconds(binary, path):
    best, line = None, ""
    for _ in range(3):
        start = time.perf_counter()
        done = subprocess.run([binary, "check", path], capture_output=True)
        taken = time.perf_counter() - start
        best, line = taken if best is None else min(best, taken), done.stdout.decode().strip()
    return best, line


def main():
    binary = sys.argv[1]
    with tempfile.TemporaryDirectory() as own:
        folder = sys.argv[2] if len(sys.argv) > 2 else own
        for name, make in PLANS.items():
            plan = make()
            path, twin = os.path.join(folder, "plan"), os.path.join(folder, "twin")
            with open(path, "wb") as file:
                file.write(plan)
            with open(twin, "wb") as file:
                file.write(EMPTY_ROOT + plan)
            both, line = seconds(binary, path)
            reading, refused = seconds(binary, twin)
            print(f"{name}: {len(plan) / 1e6:.1f} MB, {line}; both {both:.2f} s, reading {reading:.2f} s ({refused}), {both / reading:.2f} times")


if __name__ == "__main__":
    main()
