#!/usr/bin/env python3
"""The shell at a terminal: completion and history (where it has libedit), the progress bar, Ctrl-C while a question runs
and at the prompt, a second question while a long one runs, one in the background that is told when it ends.

Its argument: the shell."""
import os
import pty
import re
import select
import subprocess
import sys
import tempfile
import time
from pathlib import Path

PATIENCE = 120
PROMPT = 'desk> '
LONG = 'sum{ 1 | a <- large, b <- large, c <- large, a.n + b.n + c.n < 0 }'


class Terminal:
    """A shell at a terminal of its own."""

    def __init__(self, shell, folder):
        self.seen, self.held = '', 0
        self.child, self.end = pty.fork()
        if self.child == 0:
            os.chdir(folder)
            os.environ.update(HOME=folder, TERM='xterm')
            os.execv(shell, [shell, 'large.csv'])

    def type(self, text):
        os.write(self.end, text.encode())

    def wait(self, pattern):
        """Reads until a pattern is shown behind what was waited for last."""
        limit = time.monotonic() + PATIENCE
        while True:
            found = re.search(pattern, self.seen[self.held:])
            if found:
                self.held += found.end()
                return found.group()
            ready = select.select([self.end], [], [], max(0, limit - time.monotonic()))[0]
            if not ready:
                sys.exit('terminal: waited for %s; there was\n%s' % (pattern, self.seen[-2000:]))
            try:
                self.seen += os.read(self.end, 65536).decode(errors='replace')
            except OSError:
                sys.exit('terminal: ended while %s was waited for; there was\n%s' % (pattern, self.seen[-2000:]))

    def status(self):
        return os.waitstatus_to_exitcode(os.waitpid(self.child, 0)[1])


def has_libedit(shell):
    return 'libedit' in subprocess.run(['ldd', shell], capture_output=True, text=True, check=False).stdout


def questions(at):
    at.wait('quit leaves')
    at.wait(PROMPT)
    at.type('max{ x.n | x <- large }\n')
    at.wait(r'\n1023\r')
    at.wait(PROMPT)
    at.type('max{ x.n // the largest\n')
    at.wait(r'  \.\.> ')
    at.type('| x <- large, x.n < 5 }\n')
    at.wait(r'\n4\r')


def edited(at):
    at.wait(PROMPT)
    at.type('\x1b[A\n')
    at.wait(r'\n4\r')
    at.wait(PROMPT)
    at.type('min{ x.n | x <- lar\t }\n')
    at.wait(r'\n0\r')
    at.wait(PROMPT)
    at.type('\x1b[A\n')
    at.wait(r'\n0\r')
    at.wait(PROMPT)
    at.type('.runn\t\n')
    at.wait('no question goes on')
    at.wait(PROMPT)
    at.type('.calendar lock Sat 00:00-00:01\n')
    at.wait('lock: 1 window, calendar 0')
    at.wait(PROMPT)
    at.type('some{ open(lo\t, 10080) }\n')
    at.wait(r'\ntrue\r')
    at.wait(PROMPT)
    at.type('.pai\tlar\tlar\t0\n')
    at.wait('refused 53, .*: large is a bag')


def stopped(at):
    at.wait(PROMPT)
    at.type(LONG + '\n')
    at.wait(r'[1-9][\d,]* rows offered of at most 2,149,582,848, \d+ s \(Ctrl-C stops\)')
    at.type('\x03')
    at.wait(r'stopped, [\d,]+ rows offered of at most 2,149,582,848')
    at.wait(PROMPT)
    for _ in range(25):
        at.type('sum{ 1 | x <-\x03')
        at.wait(PROMPT)
    at.type('sum{ 7 }\n')
    at.wait(r'\n7\r')


def meanwhile(at):
    at.wait(PROMPT)
    at.type(LONG + ' &\n')
    at.wait('question 1 goes on')
    at.wait(PROMPT)
    at.type('sum{ 1 | x <- large, x.n < 8 }\n')
    at.wait(r'\n8\r')
    at.wait(PROMPT)
    at.type('.running\n')
    at.wait(r'1: sum')
    at.wait('rows offered of')
    at.wait(PROMPT)
    at.type('.stop\n')
    at.wait('question 1 is stopped')
    at.wait(PROMPT)
    at.type('sum{ 9 | x <- large, y <- large, x.n + y.n < 1 } &\n')
    at.wait('question 1 goes on')
    for _ in range(PATIENCE):
        at.wait(PROMPT)
        if 'question 1: sum{ 9' in at.seen:
            break
        time.sleep(0.5)
        at.type('\n')
    if not re.search(r'question 1: sum\{ 9[^\n]*\n9\r', at.seen):
        sys.exit('terminal: the question in the background was not told; there was\n%s' % at.seen[-2000:])


def main():
    shell = str(Path(sys.argv[1]).resolve())
    with tempfile.TemporaryDirectory() as folder:
        Path(folder, 'large.csv').write_text('n\n' + ''.join('%d\n' % row for row in range(1024)))
        at = Terminal(shell, folder)
        questions(at)
        if has_libedit(shell):
            edited(at)
        stopped(at)
        meanwhile(at)
        at.type('.quit\n')
        status = at.status()
        if status != 1:
            sys.exit('terminal: status %d' % status)
        if has_libedit(shell) and 'min{' not in Path(folder, '.dislogha_history').read_text().replace('\\040', ' '):
            sys.exit('terminal: no history')
    print('terminal: all seen%s' % ('' if has_libedit(shell) else ', no libedit'))


if __name__ == '__main__':
    main()
