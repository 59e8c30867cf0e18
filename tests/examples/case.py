"""A case: a question over tables and calendars, with what it must give, worked out by hand."""
from notation import packed, question, words


class Case:
    def __init__(self, name, place, paper, tables, ask, plan='', gives=None, G=None,
                 plain=None, refused=0, scratch=2048, cut=0, behind=0, absent=(), calendars=(), tail=0, says=''):
        """`plan` has the lines behind "one"; `gives` are the answer's words by hand, `G` where it
        is not their count; `plain` is the same query in plain Python, a second reckoning; `cut`
        bytes of the data are left off at its end, `behind` bytes 0 follow the question, which may
        also name `absent` tables, and `tail` bytes 0 follow the calendars."""
        self.name, self.place, self.paper, self.says = name, place, ' '.join(paper.split()), says
        self.tables, self.absent, self.ask = tables, list(absent), ' '.join(ask.split())
        self.number, self.scratch, self.gives, self.plain = refused, scratch, gives, plain
        self.cut, self.behind = cut, behind
        self.calendars, self.tail = list(calendars), tail
        self.G = G if G is not None or gives is None else len(gives)
        self.plan = ''.join(line.strip() + '\n' for line in ['one', *plan.strip().split('\n')])

    def check(self):
        """The words by hand against plain Python, where there is an answer."""
        if self.number == 0 and self.plain and words(self.plain()) != self.gives:
            raise ValueError('%s: by hand %s, in plain Python %s'
                             % (self.name, self.gives, words(self.plain())))

    def line(self):
        """Name, scratch words, data, calendars, question, number, G, answer words, plan; `-` for nothing."""
        answered = self.number == 0
        data = packed(self.tables)
        calendars = b''.join(calendar.packed() for calendar in self.calendars) + bytes(self.tail)
        asked = question(self.ask, self.tables + self.absent, self.calendars) + bytes(self.behind)
        fields = [
            self.name, str(self.scratch), data[:len(data) - self.cut].hex() or '-',
            calendars.hex() or '-', asked.hex(), str(self.number),
            str(self.G) if answered else '-',
            ' '.join(str(word) for word in self.gives) if answered else '-',
            self.plan.replace('\n', '\\n') if answered else '-',
        ]
        return '\t'.join(fields) + '\n'
