"""Refuses each allocation of three runs in turn.

    python3 bench/refused_memory.py BINARY

BINARY is the program, which takes its memory by the C library's `malloc` and `realloc` and ends by its `_exit`. Each of three commands is run once to count
how often it does, and then once for each of these, which alone finds no memory. Each must then say `no memory` and end with that
number, with OUT not made or a prefix of the answer's file and no other file changed, or give the whole answer, where it did without
the memory. Needs `cc`. A line a command, and at the end the status 1 where any run did otherwise."""
import os
import shutil
import subprocess
import sys
import tempfile

HERE = os.path.dirname(os.path.abspath(__file__))
SHIM = r"""
#include <stddef.h>
#include <stdio.h>
#include <stdlib.h>
#include <stdatomic.h>
#include <sys/syscall.h>
#include <unistd.h>
extern void *__libc_malloc(size_t), *__libc_realloc(void *, size_t);
static atomic_long count;
static long refused;
__attribute__((constructor)) static void begin(void) { char *n = getenv("REFUSED"); refused = n ? atol(n) : 0; count = 0; }
static int is_refused(void) { return ++count == refused; }
void *malloc(size_t n) { return is_refused() ? NULL : __libc_malloc(n); }
void *realloc(void *p, size_t n) { return is_refused() ? NULL : __libc_realloc(p, n); }
void _exit(int status) {
    long counted = count;
    char *name = getenv("COUNTED");
    FILE *file = name ? fopen(name, "w") : NULL;
    if (file) { fprintf(file, "%ld", counted); fclose(file); }
    for (;;) syscall(SYS_exit_group, status);
}
"""
NO_MEMORY = 9, b"no memory\n"
COMMANDS = [
    "run three_rows.plan out.arrow 1",
    "run city_totals.plan out.arrow 2 orders=orders.arrow customers=customers.arrow",
    "run above_average.plan out.arrow 1 orders=orders.arrow",
]


def files(folder):
    found = {}
    for name in os.listdir(folder):
        with open(os.path.join(folder, name), "rb") as file:
            found[name] = file.read()
    return found


def run(binary, command, folder, shim, **more):
    done = subprocess.run([binary] + command.split(), cwd=folder, capture_output=True, env={**os.environ, "LD_PRELOAD": shim, **more})
    found = files(folder)
    if os.path.exists(os.path.join(folder, "out.arrow")):
        os.remove(os.path.join(folder, "out.arrow"))
    return done.returncode, done.stdout, found


def tried(binary, command, folder, shim, counted):
    """How many allocations a command makes, how many of them end it, and which runs did otherwise."""
    before = files(folder)
    whole = run(binary, command, folder, shim, COUNTED=counted)
    with open(counted) as file:
        count = int(file.read())
    if whole[0] != 0:
        sys.exit(f"{command}: {whole[0]}: {whole[1].decode()}")
    answer = whole[2].pop("out.arrow")
    ended, others = 0, []
    for number in range(1, count + 1):
        found = run(binary, command, folder, shim, REFUSED=str(number))
        out = found[2].pop("out.arrow", b"")
        if found[:2] == NO_MEMORY and found[2] == before and answer.startswith(out):
            ended += 1
        elif found != whole or out != answer:
            others.append((number, found[0], found[1]))
    return count, ended, others


def main():
    binary = os.path.abspath(sys.argv[1])
    is_good = True
    with tempfile.TemporaryDirectory() as own:
        folder, source, shim = (os.path.join(own, name) for name in ("examples", "shim.c", "shim.so"))
        shutil.copytree(os.path.join(os.path.dirname(HERE), "examples"), folder)
        with open(source, "w") as file:
            file.write(SHIM)
        subprocess.run(["cc", "-O1", "-fno-builtin", "-shared", "-fPIC", "-o", shim, source], check=True)
        for command in COMMANDS:
            count, ended, others = tried(binary, command, folder, shim, os.path.join(own, "counted"))
            is_good &= not others
            print(f"{command}: {count} allocations, {ended} of them refused end it, {len(others)} runs did otherwise {others[:3]}", flush=True)
    sys.exit(0 if is_good else 1)


main()
