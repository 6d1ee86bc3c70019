#!/usr/bin/env python3
"""Runs the kit's `rt`, with the words that are given, with one of its walks made in one pass: `python3 .ci/rt.py ci`.

`rt` asks for the libraries below a crate along every path of crates.txt, and asks so for each import of a contract. This repository
has a million paths from each of its upper crates, so that a gate would spend much of its time before it has proved anything. Here
each library is visited once in a walk. All else is the kit's own: what is proved, tried and run, and what is refused.

The walk gives what the kit's own gives. That is tried for each crate before anything else: the kit's own walk over the crate, given
this for the libraries that it lists, has to give the same, and so by induction for all. Where a kit has a walk of another form, it
stays as it is.
"""
import importlib.machinery
import importlib.util
import inspect
import os
import resource
import shutil
import sys
import time

sys.dont_write_bytecode = True

BELOW = '''\
    def below(self):
        """Returns the repository's libraries below this crate, each after those that it uses."""
        found = []
        for dep in self.deps:
            found += [it for it in [*dep.below(), dep] if it not in found]
        return found
'''


def loaded():
    """The kit's rt as a module."""
    path = os.path.realpath(shutil.which("rt") or sys.exit("rt is not on the path"))
    loader = importlib.machinery.SourceFileLoader("rt", path)
    rt = importlib.util.module_from_spec(importlib.util.spec_from_loader("rt", loader))
    # (its messages and help begin with the name that it was called by)
    words, sys.argv = sys.argv, [path, *sys.argv[1:]]
    loader.exec_module(rt)
    sys.argv = words
    return rt


def below(crate):
    """The libraries below a crate, each after those that it uses."""
    found, seen = [], set()

    def visit(it):
        for dep in it.deps:
            if id(dep) not in seen:
                seen.add(id(dep))
                visit(dep)
                found.append(dep)

    visit(crate)
    return found


def tried(lib, kit_below):
    """Compares the walk with the kit's own, crate by crate, over this for the libraries that the crate lists."""
    top = os.path.dirname(os.path.dirname(os.path.abspath(__file__)))
    for crate in lib.crates_below(top):
        if [it.name for it in kit_below(crate)] != [it.name for it in below(crate)]:
            sys.exit(f"{crate.name}: this walk gives something else than the kit's own")


def main(words):
    rt = loaded()
    lib = rt.rtlib
    own = lib.Crate.below
    if inspect.getsource(own) == BELOW:
        lib.Crate.below = below
        tried(lib, own)
    begun = time.monotonic()
    status = rt.main(words)
    if words[:1] == ["ci"]:
        used = [resource.getrusage(it) for it in (resource.RUSAGE_SELF, resource.RUSAGE_CHILDREN)]
        minutes = sum(it.ru_utime + it.ru_stime for it in used) / 60
        clock = (time.monotonic() - begun) / 60
        print(f"gate: {minutes:.0f} minutes of processor time, {clock:.0f} on the clock", file=sys.stderr)
    return status


if __name__ == "__main__":
    sys.exit(main(sys.argv[1:]))
