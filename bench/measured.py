#!/usr/bin/env python3
"""measured.py OUT CMD..: runs a command with its output in a file, and prints its seconds by the clock and of a
processor, and its peak memory."""
import os, subprocess, sys, time

begun = time.monotonic()
with open(sys.argv[1], "wb") as out:
    run = subprocess.Popen(sys.argv[2:], stdout=out)
_, _, used = os.wait4(run.pid, 0)
processor = used.ru_utime + used.ru_stime
print(f"({time.monotonic() - begun:.2f} seconds, {processor:.2f} of a processor, {used.ru_maxrss // 1024} MiB)")
