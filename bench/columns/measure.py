#!/usr/bin/env python3
"""Measures the columns beside the same work in plain Rust: `python3 bench/columns/measure.py [numbers | texts]`.

It copies the crates into a scratch folder, adds numbers.txt as a program over them, builds it with `rt try`,
keeps the bitcode that this links, takes the checks of `rt try` out of it, marks functions to be inlined as their
sources hint, and builds it by clang -O3 for x86-64-v2, as `rt run` does with a proved program. numbers.rs is built by
rustc -O for the same processor. Both then run five times, one after the other, and each work's best time and ratio are
printed. Then texts.txt and texts.rs.
"""
import glob
import os
import re
import shutil
import signal
import subprocess
import sys
import tempfile
import time

HERE = os.path.dirname(os.path.abspath(__file__))
TOP = os.path.dirname(os.path.dirname(HERE))
KIT = os.environ.get("RATTLE_KIT", "/opt/rattle")
TOOLS = KIT + "/toolchain"
NAME = "columns_speed"
USES = "anyhow sub_types byteorder col_fixed col_text batch arrow_meta arrow_decode"
RUNS = 5


def children(process):
    found = []
    try:
        for task in os.listdir(f"/proc/{process}/task"):
            with open(f"/proc/{process}/task/{task}/children") as file:
                found += [int(word) for word in file.read().split()]
    except OSError:
        pass
    return found


def workspace(scratch, works):
    """A copy of the crates with the program among them."""
    crates = os.path.join(scratch, "crates")
    shutil.copytree(os.path.join(TOP, "crates"), crates, ignore=shutil.ignore_patterns("out"))
    with open(os.path.join(TOP, "crates.txt")) as file:
        listed = file.read()
    with open(os.path.join(scratch, "crates.txt"), "w") as file:
        file.write(f"{listed}\n{NAME}: {USES}\n")
    shutil.copy(os.path.join(TOP, "HANDLES"), scratch)
    source = os.path.join(crates, NAME, "src")
    os.makedirs(source)
    shutil.copy(os.path.join(HERE, works + ".txt"), os.path.join(source, "main.rt"))
    return os.path.join(crates, NAME)


def linked(crate, into):
    """What `rt try` links, caught while its compiler or its linker runs."""
    os.makedirs(into)
    tried = subprocess.Popen(["rt", "try"], cwd=crate, stdin=subprocess.DEVNULL, stdout=subprocess.PIPE,
                             stderr=subprocess.STDOUT, start_new_session=True)
    try:
        if not caught(tried, into):
            raise SystemExit(tried.stdout.read().decode())
    finally:
        if tried.poll() is None:
            os.killpg(tried.pid, signal.SIGTERM)
        tried.wait()


def caught(tried, into):
    """Whether the folder that the linker ran in was copied before `rt try` ended."""
    seen = set()
    while tried.poll() is None:
        todo = [tried.pid]
        while todo:
            process = todo.pop()
            todo += children(process)
            try:
                with open(f"/proc/{process}/cmdline", "rb") as file:
                    words = file.read().split(b"\0")
            except OSError:
                continue
            links = b"ld.lld" in words[0]
            if process in seen or not (links or b"-fsanitize=address" in words):
                continue
            seen.add(process)
            folder = f"/proc/{process}/cwd"
            try:
                for name in os.listdir(folder):
                    if os.path.isfile(os.path.join(folder, name)):
                        shutil.copyfile(os.path.join(folder, name), os.path.join(into, name))
            except OSError:
                continue
            if links and os.path.exists(os.path.join(into, "module.bc")):
                return True
        time.sleep(0.004)
    return False


def hints():
    """The functions whose sources hint at inlining, by crate, file and name, with what that is in bitcode."""
    words = {"#[inline(always)]": "alwaysinline", "#[inline(never)]": "noinline", "#[inline]": "inlinehint", "#[cold]": "cold"}
    found = {}
    for path in glob.glob(os.path.join(TOP, "crates", "*", "src", "**", "*.rt"), recursive=True):
        crate = os.path.relpath(path, os.path.join(TOP, "crates")).split(os.sep)[0]
        file = os.path.splitext(os.path.basename(path))[0]
        pending = []
        with open(path) as lines:
            for line in map(str.strip, lines):
                name = re.match(r"(?:pub(?:\(crate\))? )?fn (\w+)", line)
                if line in words:
                    pending.append(words[line])
                elif name and pending:
                    found[crate, file, name.group(1)] = " ".join(pending)
                if line not in words and not line.startswith(("#[", "//")):
                    pending = []
    return found


def marked(text):
    """The code with these hints."""
    found = hints()

    def mark(definition):
        parts = definition.group(2).split("::<")[0].split("::")
        for (crate, file, name), words in found.items():
            if parts[0] == crate and parts[-1] == name and file in parts:
                return f"{definition.group(1)}{definition.group(2)}{definition.group(3)} {words} {{"
        return definition.group(0)

    return re.sub(r'(?m)^(define [^@]*@"?)([^"(]+)("?\(.*\) #\d+) \{', mark, text)


def build(folder):
    """The bitcode without the checks of `rt try`, as a program."""
    clang = [TOOLS + "/bin/clang", "--target=x86_64-unknown-linux-gnu", "-x", "ir"]
    code = os.path.join(folder, "module.ll")
    subprocess.run(clang + ["-S", "-emit-llvm", "-O0", "module.bc", "-o", code], cwd=folder, check=True,
                   stderr=subprocess.DEVNULL)
    with open(code) as file:
        text = file.read()
    text = re.sub(r'.*(call void @"rattle-(llvm-checks::|try::site-)|@llvm\.memset.*i8 -86).*\n', "", text)
    text = text.replace(" sanitize_address", "").replace('"probe-stack"="inline-asm" ', "")
    text = text.replace('"target-cpu"="x86-64"', '"target-cpu"="x86-64-v2"').replace('"frame-pointer"="all"', "")
    text = re.sub(r"(?m)^(attributes #\d+ = \{) *\}", r"\1 nounwind }", text)
    with open(code, "w") as file:
        file.write(marked(text))
    subprocess.run(clang + ["--no-default-config", "-march=x86-64-v2", "-O3", "-fPIE", "-ffunction-sections",
                            "-fdata-sections", "-c", code, "-o", "program.o"], cwd=folder, check=True,
                   stderr=subprocess.DEVNULL)
    libraries = [f"{TOOLS}/lib/{name}" for name in ("libm.so.6", "libc.so.6", "libc_nonshared.a",
                                                    "ld-linux-x86-64.so.2", "libgcc.a", "libgcc_s.so.1",
                                                    "crtendS.o", "crtn.o")]
    starts = [f"{TOOLS}/lib/{name}" for name in ("Scrt1.o", "crti.o", "crtbeginS.o")]
    subprocess.run([TOOLS + "/bin/ld.lld", "-m", "elf_x86_64", "-pie", "--gc-sections", "--as-needed",
                    "--dynamic-linker", "/lib64/ld-linux-x86-64.so.2", "-o", "program", *starts, "program.o",
                    "input-1", "input-2", "input-3", *libraries], cwd=folder, check=True)
    loader = [TOOLS + "/lib/ld-linux-x86-64.so.2", "--inhibit-cache", "--library-path", TOOLS + "/lib"]
    return loader + [os.path.join(folder, "program")]


def best(times, command):
    """The least time of each work that the command prints, with those of earlier runs."""
    for line in subprocess.run(command, capture_output=True, text=True, check=True).stdout.splitlines():
        name, _, number = line.rpartition(" ")
        times[name] = min(times.get(name, int(number)), int(number))


def measure(works):
    with tempfile.TemporaryDirectory() as scratch:
        folder = os.path.join(scratch, "linked")
        linked(workspace(scratch, works), folder)
        program = build(folder)
        plain = os.path.join(scratch, "plain")
        subprocess.run(["rustc", "-O", "-C", "target-cpu=x86-64-v2", "-o", plain, os.path.join(HERE, works + ".rs")],
                       check=True)
        ours, theirs = {}, {}
        for _ in range(RUNS):
            best(ours, program)
            best(theirs, [plain])
        print(f"{works}: nanoseconds here, in plain Rust, ratio, ratio to a copy of 8 KB here and in plain Rust")
        for name, number in theirs.items():
            print(f"{name}: {ours[name]} {number} {ours[name] / number:.2f} {ours[name] / ours['copy']:.2f} {ours[name] / theirs['copy']:.2f}", flush=True)


def main():
    for works in sys.argv[1:] or ("numbers", "texts"):
        measure(works)


if __name__ == "__main__":
    main()
