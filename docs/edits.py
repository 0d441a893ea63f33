#!/usr/bin/env python3
"""Prints the edits of crates/*/must-fail that docs/EDITS.md does not name, and the names there that are no edits."""
import re
from pathlib import Path

TOP = Path(__file__).resolve().parent.parent
edits = {path.stem: path for path in sorted(TOP.glob('crates/*/must-fail/*.edit'))}
named = set(re.findall(r'^\| `(\w+)`', (TOP / 'docs/EDITS.md').read_text(), re.M))
for name, path in edits.items():
    if name not in named:
        print(f'lacking: {path.relative_to(TOP)}')
for name in sorted(named - edits.keys()):
    print(f'no edit: {name}')
