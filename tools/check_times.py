#!/usr/bin/env python3
"""Check time and memory of each crate, from nothing, as rows for docs/CHECK-TIMES.md.

    tools/check_times.py        from the project's root; removes crates/*/out

A crate's check is `rt check`, over what it stands on, which is built before and not counted (`rt lib`). Where another
checkout on this machine has kept work of the crate, rt begins with that: the row says so, and is no figure. Nor does
the check count the tests of a crate, nor its must-fail edits: those are the gate's.
"""
import os
import shutil
import subprocess
import tempfile
import time


def crates():
    """The names in crates.txt, each after those that it stands on, and those on which another stands."""
    needs = {}
    for line in open("crates.txt"):
        line = line.split("#")[0].strip()
        if line:
            name, rest = line.split(":", 1)
            needs[name.split()[0]] = rest.split()
    order = []

    def visit(name):
        if name in needs and name not in order:
            for below in needs[name]:
                visit(below)
            order.append(name)

    for name in needs:
        visit(name)
    return order, {below for each in needs.values() for below in each}


def main():
    order, below = crates()
    for name in order:
        shutil.rmtree(f"crates/{name}/out", ignore_errors=True)
    for name in order:
        folder = f"crates/{name}"
        with tempfile.TemporaryFile("w+", errors="replace") as said:
            began = time.time()
            process = subprocess.Popen(["rt", "check"], cwd=folder, stdout=said, stderr=subprocess.STDOUT)
            _, status, used = os.wait4(process.pid, 0)
            seconds = time.time() - began
            said.seek(0)
            kept = f"rt: {name}: begins with what a check kept" in said.read()
        verdict = " (not proved)" if status else " (not from nothing)" if kept else ""
        print(f"| {name} | {seconds:.0f} | {used.ru_maxrss / 1024:.0f} |{verdict}", flush=True)
        if name in below:
            subprocess.run(["rt", "lib"], cwd=folder, stdout=subprocess.DEVNULL, stderr=subprocess.DEVNULL)


main()
