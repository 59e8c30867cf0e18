"""Outages of a table counted for a question, with what they must come to, worked out by hand."""
import json
from itertools import combinations

from notation import packed, question


class Outages:
    # No case names a table that is not there.
    absent = []

    def __init__(self, name, paper, tables, of, ask, gives=None, refused=0, plain=None, says=''):
        """`of` is the number of the table; `gives` are the counts by hand; `plain` says of the rows that are left
        whether they give true, for a second reckoning."""
        self.name, self.paper, self.says = name, paper, says
        self.tables, self.of, self.ask = tables, of, ask
        self.gives, self.number, self.plain = gives or [], refused, plain
        self.G = len(self.gives)

    def check(self):
        """The counts by hand against plain Python over all combinations of positions."""
        if self.number:
            return
        rows = self.tables[self.of].rows
        subsets = [[rows[at] for at in left] for count in range(len(rows) + 1) for left in combinations(range(len(rows)), count)]
        truths = sum(bool(self.plain(subset)) for subset in subsets)
        if [truths, len(subsets) - truths] != self.gives:
            raise ValueError('%s: by hand %s, in plain Python %d of %d' % (self.name, self.gives, truths, len(subsets)))

    def line(self):
        """A line as the recorded calls in tests/outages have it."""
        case = {'name': self.name, 'data': packed(self.tables).hex(), 'question': question(self.ask, self.tables, []).hex(),
                'scratch': 'min', 'answer': 4, 'table': self.of,
                'out': {'number': self.number, 'length': len(self.gives), 'words': self.gives}}
        return json.dumps(case, separators=(',', ':')) + '\n'
