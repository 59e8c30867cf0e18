#!/usr/bin/env python3
"""Transcripts of the shell: each golden/NAME.ask, typed into it, gives golden/NAME.out.

Arguments: the shell, and what it is run by. By itself each transcript is a process of its own, whose exit status
is held, too. With --together one process has them all, one behind the other: for valgrind. With --write the
transcripts are written anew."""
import re
import subprocess
import sys
import tempfile
from pathlib import Path

HERE = Path(__file__).resolve().parent
ROOT = HERE.parent.parent
GOLDEN = HERE / 'golden'

sys.path.insert(0, str(ROOT / 'tests' / 'examples'))
sys.dont_write_bytecode = True

from notation import Calendar, Table, packed, question  # noqa: E402

BERTHS = Table('berths', 'bag', 'berth depth', (1, 90), (2, 70), bounds=[2, 90])
BOLLARDS = Table('bollards', 'bag', 'berth pull', (1, 50), (1, 60), bounds=[1, 60])
EMPTY = Table('empty', 'bag', 'n')
COLLECTION = packed([BERTHS])[:5] + b'\4' + packed([BERTHS])[6:]
LOCK = Calendar('lock', (5, 480, 720)).packed()

# Files that transcripts load: name and content.
FILES = {
    'empty.csv': '',
    'headings.csv': 'berth no,2nd,,Länge\n1,2,3,4\n',
    'twice.csv': 'a,b,a\n1,2,3\n',
    'nine.csv': 'a,b,c,d,e,f,g,h,i\n',
    'cells.csv': 'a,b\n1,2\n\n3\n',
    'word.csv': 'a,b\n1,2\n3,four\n',
    'wide.csv': 'a,b\n1,-2147483648\n2,2147483648\n',
    'rows.csv': 'n\n' + '7\n' * 1025,
    'semicolons.csv': '\ufeff"a";"b"\r\n1;2\r\n-3; 4\r\n',
    'large.csv': 'n\n' + ''.join('%d\n' % row for row in range(1024)),
    'harbour.csv': 'n\n1\n',
    'none.csv': 'second\n',
    'back.csv': 'second\n1\n2\n2\n3\n2\n',
    'ends.csv': 'second\n-2147483648\n2147483647\n',
    'last.csv': 'second\n2147483647\n',
    'chain.csv': 'second\n0\n10\n20\n20\n',
    'later.csv': 'second\n10\n20\n30\n30\n40\n',
    'twice.rows.csv': 'n\n1\n1\n2\n',
    'twelve.csv': 'n\n' + ''.join('%d\n' % row for row in range(12)),
    'thirteen.csv': 'n\n' + ''.join('%d\n' % row for row in range(13)),
    'listing.ask': '.load berths.csv\nsum{ b.depth | b <- berths }\nsum{ b.depth |',
    'again.ask': 'sum{ 7 }\n.read again.ask\n',
    'listing.tables': packed([BERTHS, BOLLARDS]),
    'wrong.tables': packed([BERTHS]),
    'wrong.tables.names': '@0 berths(berth)\n',
    'cut.tables': packed([BERTHS, BOLLARDS])[:-1],
    'question.tables': packed([BERTHS]) + question('sum{ 7 }', [], []),
    'collection.tables': packed([BOLLARDS.numbered(3)]) + COLLECTION,
    'long.tables': packed([Table('over', 'bag', 'n', *[(row,) for row in range(1025)])]),
    'ninth.tables': packed([EMPTY] * 9),
    'beyond.tables': packed([BERTHS, Table('b', 'bag', 'n', (5,), (-6,), bounds=[5])]),
    'wide.tables': packed([Table('b', 'bag', 'n', bounds=[2 ** 31 + 1])]),
    'above.tables': packed([BERTHS.numbered(8)]),
    'used.tables': packed([BERTHS.numbered(4), BOLLARDS.numbered(4)]),
    'hours.csv': 'weekday,first,end\nMon,08:00,16:00\ntuesday,8:00,16:00\n5,360,1440\n',
    'two-columns.csv': 'weekday,first\nMon,08:00\n',
    'no-weekday.csv': 'weekday;first;end\nMon;08:00;16:00\nMo;08:00;16:00\n',
    'no-time.csv': 'weekday,first,end\nMon,08:00,4pm\n',
    'no-window.csv': 'weekday,first,end\n\nMon,08:00,65536\n',
    'backwards.csv': 'weekday,first,end\nMon,16:00,08:00\n',
    'eighth-day.csv': 'weekday,first,end\nSun,08:00,16:00\n7,08:00,16:00\n',
    'many-windows.csv': 'weekday,first,end\n' + ''.join('Mon,%d,%d\n' % (minute, minute + 1) for minute in range(33)),
    'alone.calendars': LOCK * 2,
    'cut.calendars': (LOCK * 2)[:-1],
    'window.calendars': LOCK + Calendar('lock', (5, 0, 1), (5, 720, 480)).packed(),
    'fifth.calendars': LOCK * 5,
    'named.calendars': LOCK * 2,
    'named.names': 'open{lock}\n',
    'two.tables': packed([BERTHS]),
    'two.tables.calendars': b'\0',
}

# What is not the same each time.
VARIES = [(re.compile(r'\d+\.\d+ (ms|s)\b'), r'# \1'),
          (re.compile(r'[\d,]+ rows offered of'), '# rows offered of')]


def furnish(folder):
    for csv in (ROOT / 'shore' / 'examples').glob('*.csv'):
        (folder / csv.name).write_bytes(csv.read_bytes())
    for name, content in FILES.items():
        (folder / name).write_bytes(content if isinstance(content, bytes) else content.encode())


def run(command, arguments, folder):
    ended = subprocess.run([*command, '-c', '.echo on', *arguments], cwd=folder, stdin=subprocess.DEVNULL,
                           capture_output=True, timeout=600)
    printed = ended.stdout.decode() + ended.stderr.decode()
    for varies, shown in VARIES:
        printed = varies.sub(shown, printed)
    return printed, ended.returncode


def transcript(command, ask):
    with tempfile.TemporaryDirectory() as folder:
        furnish(Path(folder))
        printed, status = run(command, [str(ask)], folder)
        return '%sstatus %d\n' % (printed, status)


def together(command, asks):
    """All of them in one process; .quit would end it."""
    with tempfile.TemporaryDirectory() as folder:
        furnish(Path(folder))
        arguments = [word for ask in asks for word in (str(ask), '-c', '.reset', '-c', '.echo on')]
        printed, status = run(command, arguments, folder)
        return '%sstatus %d\n' % (printed, status)


def shown(ask):
    return ask.with_suffix('.out').read_text()


def differ(name, wanted, given):
    for line, (one, other) in enumerate(zip(wanted.split('\n'), given.split('\n')), 1):
        if one != other:
            print('%s, line %d\n  wanted %s\n  given  %s' % (name, line, one, other))
            return
    print('%s: wanted %d bytes, given %d' % (name, len(wanted), len(given)))


def main():
    words = [word for word in sys.argv[1:] if word not in ('--write', '--together')]
    command = [*words[1:], str(Path(words[0]).resolve())]
    asks = sorted(GOLDEN.glob('*.ask'))
    faults = 0
    if '--together' in sys.argv:
        asks = [ask for ask in asks if ask.stem not in ('quit', 'echo')]
        wanted = ''.join(re.sub(r'status \d+\n$', '', shown(ask)) for ask in asks) + 'status 1\n'
        given = together(command, asks)
        if wanted != given:
            differ('together', wanted, given)
            faults += 1
    else:
        for ask in asks:
            given = transcript(command, ask)
            if '--write' in sys.argv:
                ask.with_suffix('.out').write_text(given)
            elif given != shown(ask):
                differ(ask.stem, shown(ask), given)
                faults += 1
    print('golden: %d transcripts, %d lines, %d faults' % (len(asks), sum(shown(ask).count('\n') for ask in asks), faults))
    sys.exit(1 if faults or len(asks) < 30 else 0)


if __name__ == '__main__':
    main()
