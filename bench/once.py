#!/usr/bin/env python3
"""once.py BENCH SPEC TIMES BASE WORD [ORDER]: asks the program of crates/bench for WORD so many times over a
specification, and prints what it tells and the milliseconds of a processor for one time, by the least of three runs.
Those of BASE, with which the work of WORD begins, are taken off."""
import os, subprocess, sys, tempfile

bench, spec, times, base, word, *order = sys.argv[1:]
with open(spec) as file:
    text = "".join(f"| {line}\n" for line in file.read().splitlines())


def run(asked):
    """What is told of a row, and the least seconds of three runs."""
    least = float("inf")
    for _ in range(3):
        with tempfile.TemporaryFile("w+") as table, tempfile.TemporaryFile("w+") as told:
            table.write(text + " ".join([asked, times, *order]) + "\n")
            table.seek(0)
            ran = subprocess.Popen([bench], stdin=table, stdout=told)
            _, status, used = os.wait4(ran.pid, 0)
            if status != 0:
                sys.exit(f"{asked}: ended with {status}")
            least = min(least, used.ru_utime + used.ru_stime)
            told.seek(0)
            line = told.read().strip()
    return line, least


_, before = run(base)
told, whole = run(word)
print(f"{told}  ({1000 * (whole - before) / int(times):.2f} ms)")
