#!/usr/bin/env python3
"""drawn.py SEED PAIRS WIDTH: prints a drawn specification with so many pairs of variables of WIDTH bits, each of which
some task compares, and with a task for each pair that compares one of them with a number."""
import random, sys

seed, pairs, width = map(int, sys.argv[1:])
draw = random.Random(seed)
names = [f"x{number}" for number in range(2 * pairs)]
print("template main")
for name in names:
    print(f"    uint<{width}> {name} = 0;")
shuffled = draw.sample(names, len(names))
for pair in range(pairs):
    a, b = shuffled[2 * pair : 2 * pair + 2]
    c, d, e = draw.choices(names, k=3)
    compare = draw.choice(["==", "<", "<="])
    print(f"    task controllable join{pair}() {{ if ({a} {compare} {b}) {{ {c} = {d} + 1; }} else {{ {e} = {a}; }} }}")
    print(f"    task controllable test{pair}() {{ if ({c} < {draw.randrange(1, 2**width)}) {{ {d} = {e}; }} }}")
print("    process client { forever { x0 = *; ...; } }")
print(f"    goal met = {shuffled[0]} == {shuffled[1]};")
print("endtemplate")
