#!/usr/bin/env python3
"""Prints a line for each crate, family by family: its name, and as much of the first sentence of its source as fits.

    docs/crates_table.py            prints the lines
    docs/crates_table.py --write    puts them into docs/ARCHITECTURE.md, between its two marks

The families are the lines of crates.txt that begin with `#`, the sentences those of each crate's `//!`.
"""
import re
import sys
from pathlib import Path

TOP = Path(__file__).resolve().parent.parent
PAGE = TOP / 'docs/ARCHITECTURE.md'
WIDTH = 120
MARKS = '<!-- crates: printed by docs/crates_table.py -->', '<!-- end of crates -->'


def sentence(name):
    """The first sentence of a crate's source, without the full stop."""
    roots = [TOP / 'crates' / name / 'src' / root for root in ('lib.rt', 'main.rt')]
    text = next(root for root in roots if root.exists()).read_text()
    head = []
    for line in text.splitlines():
        if not line.startswith('//!') or line.strip() == '//!':
            break
        head.append(line[3:].strip())
    return re.split(r'\.(?:\s|$)', ' '.join(head))[0]


def fitting(line):
    """A line, up to the last stop within its width where it is longer."""
    if len(line) <= WIDTH:
        return line
    return line[:max(stop.start() for stop in re.finditer(r'[,;:] ', line[:WIDTH + 1]))]


def lines():
    """The lines of the table."""
    for line in (TOP / 'crates.txt').read_text().splitlines():
        if line.startswith('#'):
            title = line[1:].strip()
            yield ''
            yield f'**{title[:1].upper()}{title[1:]}**'
        elif line.strip():
            name = re.split(r'[\s:]', line)[0]
            yield fitting(f'- `{name}`: {sentence(name)}')


def main(words):
    table = '\n'.join(lines()).strip('\n')
    if words != ['--write']:
        print(table)
        return
    page = PAGE.read_text()
    before, rest = page.split(MARKS[0])
    after = rest.split(MARKS[1])[1]
    PAGE.write_text(f'{before}{MARKS[0]}\n\n{table}\n\n{MARKS[1]}{after}')


main(sys.argv[1:])
