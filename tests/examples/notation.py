"""Tables, calendars and questions in a small readable notation, and their bytes.

    question   monoid{ head | qualifier, qualifier, .. }      or  monoid{ head }
    monoid     list  bag  set  sum  max  some  all  min
    qualifier  x <- term (generator)   let x = term (binding)   term (condition)
    term       7  -3  true  false  x  Table  x.column  x.0  (a, b)  (a,)  a + b  a - b  a * b
               a = b  a < b  a and b  a or b  not a  if a then b else c
               open(Calendar, a)  open(2, a)  and a question inside the question

Kinds 1 to 19 and 21 are all there is, so the other comparisons are short for these: a > b is b < a,
a <= b is not b < a, a >= b is not a < b, a != b is not a = b. A column's name stands for its
index, a calendar's for its place. Names are numbered from 0 in the order of their qualifiers in the bytes; a name that is
neither bound nor a table's is name 255, which is out of scope.
"""
import copy
import re
from collections import namedtuple
from datetime import datetime, timedelta

COLLECTIONS = {'list': 1, 'bag': 2, 'set': 3}
MONOIDS = {'list': 1, 'bag': 2, 'set': 3, 'sum': 4, 'max': 5, 'some': 6, 'all': 7, 'min': 8}
BINARY = {'+': 6, '-': 7, '*': 8, '=': 9, '<': 10, 'and': 11, 'or': 12}
TOKEN = re.compile(r'\s*(\d+|\w+|<-|<=|>=|!=|[-+*=<>(){}|.,])')


# The greatest bound of a column (document 02, E5).
WIDEST = 2 ** 31


# In place of a number: the record has none.
NO_NUMBER = 'no number'


class Table:
    """A stored table; going through it gives its rows by column name, for plain Python. Each column is
    declared 2^31 where no bounds are given. Its number is its place among the tables of a case where it
    has none of its own. By column it has the words that are stored, written by hand."""

    def __init__(self, name, collection, columns, *rows, bounds=None):
        self.name, self.collection, self.columns = name, collection, columns.split()
        self.number, self.kind, self.stored = None, 20, None
        self.bounds = [WIDEST for column in self.columns] if bounds is None else bounds
        row = namedtuple(name + '_row', self.columns)
        self.rows = [row(*cells) for cells in rows]

    def __iter__(self):
        return iter(self.rows)

    def numbered(self, number):
        """The same table under a number of its own."""
        table = copy.copy(self)
        table.number = number
        return table

    def of_kind(self, kind):
        """The same bytes under another kind."""
        table = copy.copy(self)
        table.kind = kind
        return table

    def by_column(self, *stored):
        """The same table as kind 23 (document 02, E10); what is stored by hand must be what it comes to."""
        table = self.of_kind(23)
        table.stored = list(stored)
        if table.stored != columns_of(self.rows, len(self.columns)):
            raise ValueError('%s by column: by hand %s, in plain Python %s'
                             % (self.name, table.stored, columns_of(self.rows, len(self.columns))))
        return table

    def cells(self):
        if self.stored is not None:
            return b''.join(unsigned32(word) for word in self.stored)
        return b''.join(signed32(cell) for row in self.rows for cell in row)

    def packed(self, place):
        number = place if self.number is None else self.number
        head = b'' if number == NO_NUMBER else bytes([number])
        head += bytes([COLLECTIONS[self.collection], len(self.columns)]) + unsigned16(len(self.rows))
        bounds = b''.join(unsigned32(bound) for bound in self.bounds)
        return record(self.kind, head + bounds + self.cells())


class Calendar:
    """A stored calendar (document 02, E4) with windows (weekday, first, end). To break it: another kind or
    count of windows, bytes cut off with or without the length saying so."""

    def __init__(self, name, *windows, kind=24, count=None, short=0, cut=0):
        self.name, self.windows, self.kind, self.cut = name, windows, kind, cut
        self.count, self.short = len(windows) if count is None else count, short

    def open(self, minute):
        """Whether a minute is open, by Python's own dates."""
        try:
            moment = datetime(2000, 1, 1) + timedelta(minutes=minute)
        except OverflowError:
            return False
        of_day = 60 * moment.hour + moment.minute
        hours = [range(first, end) for weekday, first, end in self.windows if weekday == moment.weekday()]
        return 2000 <= moment.year < 2400 and any(of_day in window for window in hours)

    def packed(self):
        windows = [bytes([weekday]) + unsigned16(first) + unsigned16(end) for weekday, first, end in self.windows]
        content = bytes([self.count]) + b''.join(windows)
        whole = record(self.kind, content[:len(content) - self.short])
        return whole[:len(whole) - self.cut]


def columns_of(rows, columns):
    """The cells of each column, as differences from the cell above (the first from 0), wrapped at 32 bits
    and folded: 0, -1, 1, -2 become 0, 1, 2, 3."""
    stored = []
    for column in range(columns):
        cells = [row[column] for row in rows]
        for above, cell in zip([0] + cells, cells):
            difference = (cell - above + 2 ** 31) % 2 ** 32 - 2 ** 31
            stored.append(2 * difference if difference >= 0 else -2 * difference - 1)
    return stored


def unsigned16(number):
    return number.to_bytes(2, 'little')


def unsigned32(number):
    return number.to_bytes(4, 'little')


def signed32(number):
    return number.to_bytes(4, 'little', signed=True)


def record(kind, content):
    return unsigned16(len(content)) + unsigned16(kind) + content


def packed(tables):
    return b''.join(table.packed(place) for place, table in enumerate(tables))


def question(text, tables, calendars):
    """The bytes of a question over tables and calendars."""
    reader = Reader(text)
    tree = reader.term()
    if reader.next is not None or tree[0] != 'comprehension':
        raise ValueError('not one question: ' + text)
    return Writer(tables, calendars).term(tree, {})


class Reader:
    """Recursive descent over the tokens; trees are tuples that begin with their sort."""

    def __init__(self, text):
        self.text, self.at, self.next = text, 0, None
        self.step()

    def step(self):
        token, self.next = self.next, None
        if self.text[self.at:].strip():
            found = TOKEN.match(self.text, self.at)
            if not found:
                raise ValueError('no token at: ' + self.text[self.at:])
            self.next, self.at = found.group(1), found.end()
        return token

    def take(self, token):
        if self.next != token:
            raise ValueError('%s expected, not %s, in: %s' % (token, self.next, self.text))
        return self.step()

    def term(self):
        if self.next == 'if':
            self.step()
            truth = self.term()
            self.take('then')
            first = self.term()
            self.take('else')
            return ('choice', truth, first, self.term())
        return self.chain(lambda: self.chain(self.negation, ['and']), ['or'])

    def chain(self, part, operators):
        left = part()
        while self.next in operators:
            left = (self.step(), left, part())
        return left

    def negation(self):
        if self.next == 'not':
            self.step()
            return ('not', self.negation())
        return self.comparison()

    def comparison(self):
        left = self.chain(self.product, ['+', '-'])
        if self.next not in ('=', '<', '>', '<=', '>=', '!='):
            return left
        operator, right = self.step(), self.chain(self.product, ['+', '-'])
        return {
            '=': ('=', left, right), '!=': ('not', ('=', left, right)),
            '<': ('<', left, right), '>=': ('not', ('<', left, right)),
            '>': ('<', right, left), '<=': ('not', ('<', right, left)),
        }[operator]

    def product(self):
        return self.chain(self.path, ['*'])

    def path(self):
        term = self.primary()
        while self.next == '.':
            self.step()
            term = ('field', term, self.step())
        return term

    def primary(self):
        token = self.step()
        if token == '-':
            return ('number', -int(self.step()))
        if token.isdigit():
            return ('number', int(token))
        if token in ('true', 'false'):
            return ('truth', token == 'true')
        if token == '(':
            return self.parenthesis()
        if token in MONOIDS and self.next == '{':
            return self.comprehension(token)
        if token == 'open' and self.next == '(':
            self.step()
            calendar = self.step()
            self.take(',')
            minute = self.term()
            self.take(')')
            return ('open', calendar, minute)
        if not re.match(r'[A-Za-z]', token):
            raise ValueError('no term at %s in: %s' % (token, self.text))
        return ('name', token)

    def parenthesis(self):
        terms = [self.term()]
        record_meant = self.next == ','
        while self.next == ',':
            self.step()
            if self.next != ')':
                terms.append(self.term())
        self.take(')')
        return ('record', terms) if record_meant else terms[0]

    def comprehension(self, monoid):
        self.take('{')
        head, qualifiers = self.term(), []
        if self.next == '|':
            self.step()
            qualifiers.append(self.qualifier())
            while self.next == ',':
                self.step()
                qualifiers.append(self.qualifier())
        self.take('}')
        return ('comprehension', monoid, qualifiers, head)

    def qualifier(self):
        if self.next == 'let':
            self.step()
            name = self.step()
            self.take('=')
            return ('binding', name, self.term())
        term = self.term()
        if self.next == '<-':
            self.step()
            return ('generator', term[1], self.term())
        return ('condition', term)


class Writer:
    """Trees to bytes. A scope gives what each name is, as far as columns are to be found:
    ('row', table), ('record', parts), ('collection', element), or None for numbers and truths."""

    def __init__(self, tables, calendars):
        self.tables, self.calendars, self.numbers = tables, calendars, {}

    def place(self, name):
        return [table.name for table in self.tables].index(name)

    def number(self, name):
        place = self.place(name)
        own = self.tables[place].number
        return place if own is None else own

    def calendar(self, name):
        return int(name) if name.isdigit() else [calendar.name for calendar in self.calendars].index(name)

    def term(self, tree, scope):
        sort = tree[0]
        if sort == 'number':
            return record(1, signed32(tree[1]))
        if sort == 'truth':
            return record(2, bytes([tree[1]]))
        if sort == 'name' and tree[1] in scope:
            return record(3, unsigned16(self.numbers[tree[1]]))
        if sort == 'name' and not any(table.name == tree[1] for table in self.tables):
            return record(3, unsigned16(255))
        if sort == 'name':
            return record(15, bytes([self.number(tree[1])]))
        if sort == 'field':
            return record(4, bytes([self.index(tree, scope)]) + self.term(tree[1], scope))
        if sort == 'record':
            return record(5, b''.join(self.term(part, scope) for part in tree[1]))
        if sort == 'not':
            return record(13, self.term(tree[1], scope))
        if sort == 'choice':
            return record(19, b''.join(self.term(part, scope) for part in tree[1:]))
        if sort == 'open':
            return record(21, bytes([self.calendar(tree[1])]) + self.term(tree[2], scope))
        if sort == 'comprehension':
            return self.comprehension(tree, scope)
        return record(BINARY[sort], self.term(tree[1], scope) + self.term(tree[2], scope))

    def comprehension(self, tree, scope):
        _, monoid, qualifiers, head = tree
        content = bytes([MONOIDS[monoid]])
        for qualifier in qualifiers:
            content += self.qualifier(qualifier, scope)
            scope = self.behind(qualifier, scope)
        return record(14, content + self.term(head, scope))

    def qualifier(self, qualifier, scope):
        if qualifier[0] == 'condition':
            return record(18, self.term(qualifier[1], scope))
        content = self.term(qualifier[2], scope)
        if qualifier[1] in self.numbers:
            raise ValueError('bound twice: ' + qualifier[1])
        number = self.numbers.setdefault(qualifier[1], len(self.numbers))
        return record(16 if qualifier[0] == 'generator' else 17, unsigned16(number) + content)

    def behind(self, qualifier, scope):
        """The scope behind a qualifier."""
        if qualifier[0] == 'condition':
            return scope
        kind = self.kind(qualifier[2], scope)
        return {**scope, qualifier[1]: kind[1] if qualifier[0] == 'generator' else kind}

    def kind(self, tree, scope):
        sort = tree[0]
        if sort == 'name' and tree[1] in scope:
            return scope[tree[1]]
        if sort == 'name':
            return ('collection', ('row', self.tables[self.place(tree[1])]))
        if sort == 'record':
            return ('record', [self.kind(part, scope) for part in tree[1]])
        if sort == 'field':
            kind = self.kind(tree[1], scope)
            return kind[1][int(tree[2])] if kind[0] == 'record' else None
        if sort == 'comprehension' and tree[1] in COLLECTIONS:
            for qualifier in tree[2]:
                scope = self.behind(qualifier, scope)
            return ('collection', self.kind(tree[3], scope))
        return None

    def index(self, tree, scope):
        if tree[2].isdigit():
            return int(tree[2])
        sort, table = self.kind(tree[1], scope)
        if sort != 'row':
            raise ValueError('no row has the column ' + tree[2])
        return table.columns.index(tree[2])


# Values in plain Python: whole numbers and truths, tuples for records, lists for collections.

def order(value):
    """A key that puts values in document 01's order: a collection by fewer elements first."""
    if isinstance(value, list):
        return (len(value), [order(element) for element in value])
    if isinstance(value, tuple):
        return tuple(order(part) for part in value)
    return int(value)


def listof(values):
    return list(values)


def bagof(values):
    return sorted(values, key=order)


def setof(values):
    kept = []
    for value in bagof(values):
        if not kept or order(kept[-1]) != order(value):
            kept.append(value)
    return kept


def most(values):
    """Max as request E1 has it: the greatest head, over nothing 0."""
    return max(values, default=0)


def least(values):
    """Request E1's min, its mirror."""
    return min(values, default=0)


def words(value):
    if isinstance(value, list):
        return [len(value)] + [word for element in value for word in words(element)]
    if isinstance(value, tuple):
        return [word for part in value for word in words(part)]
    return [int(value)]
