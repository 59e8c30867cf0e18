"""A tariff, and a question that is charged by it, with what it must give, worked out by hand."""
import json
import struct

from notation import packed, question, words


class Tariff:
    def __init__(self, name, steps, minimum, by_hand):
        """Each step is an upper draught and a rate; `by_hand` are the record's bytes in hexadecimal."""
        self.name, self.steps, self.minimum, self.by_hand = name, steps, minimum, by_hand
        numbers = [number for step in steps for number in step] + [minimum]
        content = bytes([len(steps)]) + struct.pack('<%dI' % len(numbers), *numbers)
        self.packed = struct.pack('<HH', len(content), 22) + content
        if self.packed != bytes.fromhex(by_hand):
            raise ValueError('%s: by hand %s, packed %s' % (name, by_hand, self.packed.hex()))

    def shown(self):
        return ', '.join('up to %d cm %d' % step for step in self.steps) or 'no step'


class Charged:
    # No case names a table that is not there.
    absent = []

    def __init__(self, name, paper, tariff, tables, ask, gives=None, refused=0, plain=None, says=''):
        """`gives` are the words by hand, `plain` the same in plain Python, a second reckoning."""
        self.name, self.paper, self.says = name, paper, says
        self.tariff, self.tables, self.ask = tariff, tables, ask
        self.gives, self.number, self.plain = gives or [], refused, plain
        self.G = len(self.gives)

    def check(self):
        if self.number == 0 and words(self.plain()) != self.gives:
            raise ValueError('%s: by hand %s, in plain Python %s' % (self.name, self.gives, words(self.plain())))

    def line(self):
        """A line as the recorded calls in tests/tariffs have it."""
        case = {'name': self.name, 'data': packed(self.tables).hex(), 'question': question(self.ask, self.tables, []).hex(),
                'scratch': 'min', 'answer': 40, 'tariff': self.tariff.packed.hex(),
                'out': {'number': self.number, 'length': len(self.gives), 'words': self.gives}}
        return json.dumps(case, separators=(',', ':')) + '\n'
