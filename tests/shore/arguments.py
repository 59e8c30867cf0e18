#!/usr/bin/env python3
"""The shell's arguments and exit status, what the pages quote, and that an engine whose two ways differ is told.

Arguments: the shell, and one whose plan answers something else (wrong.cpp)."""
import re
import subprocess
import sys
from pathlib import Path

ROOT = Path(__file__).resolve().parent.parent.parent
EXAMPLES = ROOT / 'shore' / 'examples'
SUM = 'sum{ b.depth | b <- berths }'

# Arguments, standard input, status, what is printed and what is not.
RUNS = [
    (['-h'], '', 0, ['usage: shell', '.load FILE.csv', '.quit'], []),
    (['--help'], '', 0, ['usage: shell'], []),
    (['-x'], '', 2, ['usage: shell'], []),
    (['-c'], '', 2, ['usage: shell'], []),
    (['nowhere.csv'], '', 2, ['cannot read nowhere.csv'], []),
    (['nowhere.ask'], '', 1, ['cannot read nowhere.ask'], []),
    (['berths.csv', '-c', SUM], 'sum{ 8 }\n', 0, ['160\n'], ['8\n']),
    (['-p', 'berths.csv', '-c', SUM], 'sum{ 88 }\n', 0, ['160\n', '88\n'], []),
    (['berths.csv'], SUM + '\n', 0, ['160\n'], ['desk>']),
    (['berths.csv'], SUM, 0, ['160\n'], []),
    (['-c', 'sum{ x }', '-c', 'sum{ 9 }'], '', 1, ['not understood', '9\n'], []),
    (['-e', '-c', 'sum{ x }', '-c', 'sum{ 9 }'], '', 1, ['not understood'], ['9\n']),
    (['-e'], 'sum{ true }\nsum{ 9 }\n', 1, ['refused 25'], ['9\n']),
    (['-c', 'sum{ 9 } &'], '', 0, ['question 1 goes on', '9\n'], []),
    (['-c', '.mode csv', 'berths.csv', '-c', 'bag{ b | b <- berths }'], '', 0, ['berth,depth\n1,90\n2,70\n'], [':']),
    (['harbour.ask'], '', 0, ['by loops and by plan'], ['refused', 'not understood']),
]


def run(shell, arguments, typed):
    ended = subprocess.run([shell, *arguments], input=typed, text=True, capture_output=True, cwd=EXAMPLES, timeout=600, check=False)
    return ended.returncode, ended.stdout + ended.stderr


def held(shell, wanted):
    arguments, typed, status, there, not_there = wanted
    given, printed = run(shell, arguments, typed)
    good = given == status and all(part in printed for part in there) and not any(part in printed for part in not_there)
    if not good:
        print('%s: status %d\n%s' % (arguments, given, printed))
    return good


def quoted(page):
    """The transcripts of a page: blocks from the first prompt on."""
    blocks = re.findall(r'(?:^    .*\n)+', page.read_text(), re.M)
    lines = [''.join(line[4:] + '\n' for line in block.split('\n')) for block in blocks]
    return [block[block.index('desk> '):].strip() + '\n' for block in lines if 'desk> ' in block]


def true_of(shell, page):
    """Whether a page's transcripts are what the shell prints over the first two examples' tables."""
    blocks = quoted(page)
    good = bool(blocks)
    for block in blocks:
        typed = ''.join(line[6:] + '\n' for line in block.split('\n') if line.startswith('desk> '))
        printed = run(shell, ['-c', '.load berths.csv', '-c', '.load bollards.csv', '-c', '.echo on', '-p'], typed)[1]
        if printed[printed.index('desk> '):] != block:
            print('%s quotes\n%sbut the shell prints\n%s' % (page.name, block, printed))
            good = False
    return good


def main():
    shell, wrong = (str(Path(word).resolve()) for word in sys.argv[1:])
    faults = sum(not held(shell, wanted) for wanted in RUNS)
    pages = [ROOT / 'docs' / 'SHORE.md', ROOT / 'README.md']
    faults += sum(not true_of(shell, page) for page in pages)
    faults += not held(wrong, (['berths.csv', '-c', SUM], '', 3, ['BOTH WAYS DIFFER: by loops answer 160, by plan answer 161'], []))
    faults += not held(wrong, (['-c', 'sum{ true }'], '', 1, ['refused 25'], ['DIFFER']))
    print('arguments: %d runs, %d pages, %d faults' % (len(RUNS), len(pages), faults))
    sys.exit(1 if faults else 0)


if __name__ == '__main__':
    main()
