#!/usr/bin/env python3
"""limits.py GOALS TASKS PROCESSES BITS: prints a specification with so many of each, in which every task of the first
GOALS sets the variable of a goal, each process but the client pauses twice in turn, and wide variables hold BITS more
bits of a state."""
import sys

goals, tasks, processes, bits = map(int, sys.argv[1:])
print("template main")
for goal in range(goals):
    print(f"    bool b{goal} = false;")
    print(f"    goal g{goal} = b{goal};")
    print(f"    task controllable set{goal}() {{ b{goal} = true; }}")
for task in range(goals, tasks):
    print(f"    task controllable rest{task}() {{ }}")
print("    process client { forever { ...; } }")
for process in range(1, processes):
    print(f"    process p{process} {{ forever {{ pause; pause; }} }}")
for place in range(0, bits, 16):
    print(f"    uint<{min(16, bits - place)}> x{place} = 0;")
print("endtemplate")
