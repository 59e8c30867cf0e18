#!/usr/bin/env python3
"""The page in headless Chromium: the worked cases (tests/examples) typed in, and what the page does beside answering. Pictures are left under
target/shore/pictures. Behind shore/page/build."""
import json
import re
import sys
import time
from pathlib import Path

sys.dont_write_bytecode = True
sys.path.insert(0, str(Path(__file__).resolve().parent))

import worked  # noqa: E402
from browser import Browser, choose  # noqa: E402
from notation import NO_NUMBER, question  # noqa: E402

ROOT = Path(__file__).resolve().parent.parent.parent
PAGE = ROOT / 'target' / 'shore' / 'desk.html'
PICTURES = ROOT / 'target' / 'shore' / 'pictures'

# Fewer cases, or fewer things seen beside them, have shown nothing.
LEAST_CASES = 320
LEAST_SEEN = 50

MOST_ROWS = 1024
ENTER, DOWN, RIGHT = ('Enter', 13), ('ArrowDown', 40), ('ArrowRight', 39)
SHOWN = "document.body.dataset.state === 'shown'"

# The words that a value has as it is shown: a collection's count and elements, a record's fields.
READ = '''(() => {
  const words = shown => {
    if (shown.matches('.scalar')) return [{ true: '1', false: '0' }[shown.textContent] ?? shown.textContent];
    const rows = [...shown.querySelector('table').rows].slice(1);
    const cells = rows.flatMap(row => [...row.cells]).flatMap(cell =>
      cell.firstElementChild ? words(cell.firstElementChild) : [{ true: '1', false: '0' }[cell.textContent] ?? cell.textContent]);
    return shown.dataset.sort === 'record' ? cells : [String(rows.length), ...cells];
  };
  const value = way => {
    const shown = document.getElementById(way + '-value').firstElementChild;
    return !shown || shown.querySelector('td.more') ? null : words(shown).join(' ');
  };
  const text = id => document.getElementById(id).textContent;
  const mark = document.querySelector('#question-under mark');
  return {
    said: text('said'), same: text('same'), lines: text('lines'), bytes: text('bytes').replace(/ /g, ''),
    loops: asked.loops?.words, plan: asked.plan?.words, loopsWords: text('loops-words'), planWords: text('plan-words'),
    loopsValue: value('loops'), planValue: value('plan'),
    mark: mark && mark.textContent, dim: Boolean(mark && mark.classList.contains('dim')), wrong: document.querySelectorAll('.wrong').length,
    operators: document.querySelectorAll('#plan .operator').length,
  };
})()'''


class Seen:
    """What was seen and what was not so."""

    def __init__(self):
        self.count, self.faults = 0, []

    def so(self, what, holds, told=''):
        self.count += 1
        if not holds:
            self.faults.append(what)
            print('page: NOT SO: %s %s' % (what, told))

    def same(self, what, is_, should):
        self.so(what, is_ == should, 'is %r, should be %r' % (is_, should))


def typeable(case):
    """Whether a case can be typed: no bytes that are broken on purpose, no table that none can be, no scratch of its own."""
    def whole(table):
        return table.kind in (20, 23) and table.number != NO_NUMBER and len(table.rows) <= MOST_ROWS and len(table.bounds) == len(table.columns)

    def kept(calendar):
        return calendar.kind == 24 and calendar.count == len(calendar.windows) and not (calendar.short or calendar.cut)
    broken = case.cut or case.behind or case.tail or case.scratch != 2048
    return not broken and all(map(whole, case.tables)) and all(map(kept, case.calendars))


def number_of(table, place):
    return place if table.number is None else table.number


def tables_of(case):
    """The tables for the page. A name that is used twice gets another one."""
    names, made = set(), []
    for place, table in enumerate(case.tables):
        name = table.name
        while name in names:
            name += '_'
        names.add(name)
        made.append({'name': name, 'collection': table.collection, 'columns': table.columns, 'all': False,
                     'number': str(number_of(table, place)), 'bounds': list(map(str, table.bounds)),
                     'rows': [list(map(str, row)) for row in table.rows]})
    return made


def clock(minute):
    return '%02d:%02d' % divmod(minute, 60)


def calendars_of(case):
    """The calendars for the page, by numbers of weekdays, which may be none."""
    names, made = set(), []
    for calendar in case.calendars:
        name = calendar.name
        while name in names:
            name += '_'
        names.add(name)
        hours = ' '.join('%d %s-%s' % (weekday, clock(first), clock(end)) for weekday, first, end in calendar.windows)
        made.append({'name': name, 'hours': hours or 'never'})
    return made


def text_of(case):
    """The question's text: a table that is not there is named by its number, and so is its column; a name that is not bound is number 255."""
    text = case.ask
    for place, table in enumerate(case.absent):
        text = re.sub(r'\b%s\b' % table.name, '@%d' % number_of(table, len(case.tables) + place), text)
        text = re.sub(r'\bm\.n\b', 'm.0', text)
    if worked.UNBOUND in question(case.ask, case.tables + case.absent, case.calendars):
        text = re.sub(r'\bx\b', '#255', text)
    return text


def hold(page, seen, case):
    """One worked case, typed in."""
    page.value('tables = %s; showTables(); calendars = %s; showCalendars()' % (json.dumps(tables_of(case)), json.dumps(calendars_of(case))))
    page.type('#question', text_of(case))
    read = page.wait(SHOWN, READ)
    if case.number != 0:
        seen.so('%s is refused' % case.name, read['said'].startswith('Refused %d (' % case.number), read['said'])
        seen.so('%s is marked' % case.name, (read['mark'] and not read['dim']) or read['wrong'] > 0, str(read))
        seen.so('%s is not answered' % case.name, read['same'] == '' and read['loopsWords'] == '')
        return
    words = ' '.join(map(str, case.gives))
    seen.same('%s by loops' % case.name, read['loops'], words)
    seen.same('%s by plan' % case.name, read['plan'], words)
    seen.same('%s lines' % case.name, read['lines'], case.plan)
    seen.same('%s bytes' % case.name, read['bytes'], question(case.ask, case.tables, case.calendars).hex())
    seen.same('%s operators' % case.name, read['operators'], case.plan.count('\n'))
    seen.so('%s said' % case.name, read['same'] == 'Both answers are the same, word for word.', read['same'])
    if len(case.gives) <= 300:
        seen.same('%s words shown' % case.name, [read['loopsWords'], read['planWords']], [words, words])
    if read['loopsValue'] is not None:
        seen.same('%s value shown' % case.name, [read['loopsValue'], read['planValue']], [words, words])


def worked_cases(page, seen):
    held = [case for case in worked.cases() if typeable(case)]
    answered = sum(case.number == 0 for case in held)
    for case in held:
        try:
            hold(page, seen, case)
        except RuntimeError as fault:
            sys.exit('page: FAILED at %s: %s' % (case.name, fault))
    print('page: %d of %d worked cases typed, %d of them answered' % (len(held), len(worked.cases()), answered))
    seen.so('enough cases', len(held) >= LEAST_CASES and answered >= LEAST_CASES // 2)


def fresh(page):
    page.open(PAGE)
    page.wait(SHOWN)


def ask(page, text):
    page.type('#question', text)
    return page.wait(SHOWN, READ)


def faults(page, seen):
    """Unfinished text is dim; what is wrong is underlined where it is."""
    fresh(page)
    read = ask(page, 'bag{ b.berth | b <- ber')
    seen.so('unfinished is dim', read['said'].startswith('Unfinished: ') and (read['dim'] or not read['mark']), str(read))
    page.picture(PICTURES / 'unfinished.png')
    read = ask(page, 'bag{ b.berht | b <- berths }')
    seen.same('wrong column', [read['mark'], read['dim']], ['berht', False])
    seen.so('meant column', "is 'berth' meant" in read['said'], read['said'])
    read = ask(page, 'bag{ (é: b.berth, sum{ l.pull and true | l <- bollards }) | b <- berths }')
    seen.same('refused part behind a letter of two bytes', read['mark'], 'l.pull and true')
    seen.so('refusal said', read['said'].startswith('Refused 25 (a type, field or table that does not fit): '), read['said'])
    seen.so('dim while one types', page.value("document.querySelector('#question').closest('section').matches('.typing')"))
    page.wait("!document.querySelector('.typing')")
    page.picture(PICTURES / 'refused.png')
    ask(page, 'bag{ (berth: b.berth, pull: sum{ l.pull | l <- bollards, l.berth = b.berth }) | b <- berths }')
    page.picture(PICTURES / 'answered.png')


def between(page, seen):
    """The rows between operators; where the question that would show them is no question, none are claimed."""
    fresh(page)
    rows = page.value("[...document.querySelectorAll('#plan .between')].map(each => [...each.querySelectorAll('tr')].slice(1)"
                      ".map(row => [...row.cells].map(cell => cell.textContent)))")
    seen.same('rows between operators', rows, [[], [['(1, 90)'], ['(2, 70)']],
                                              [['(1, 90)', '(1, 50)'], ['(1, 90)', '(1, 60)'], ['(2, 70)', 'pad']],
                                              [['(1, 90)', '110'], ['(2, 70)', '0']]])
    seen.same('one bracket', page.value("[...document.querySelectorAll('.bracket > .operator')].map(each => each.className)"),
              ['operator outer', 'operator nest'])
    read = ask(page, 'max{ a.depth | %s }' % ', '.join('%s <- berths' % name for name in 'abcdefghi'))
    seen.same('nine generators', read['loops'], '90')
    said = page.value("[...document.querySelectorAll('#plan .between')].slice(-2).map(each => each.textContent.split('berths')[0] + "
                      "(each.querySelector('.small')?.textContent ?? ''))")
    seen.same('rows of nine places', [said[0][:12], said[1]], ['256 rows of ', 'rows of The question that would show them is too large to be asked.'])


def editing(page, seen):
    """A table made and typed cell by cell, without the mouse where there is a key."""
    fresh(page)
    page.click('#add-table')
    table = '#tables .table:last-child'
    page.type(table + ' input.name', 'ships')
    page.type(table + ' tr:nth-child(1) th:nth-child(1) input', 'ship')
    page.type(table + ' tr:nth-child(1) th:nth-child(2) input', 'draught')
    page.type(table + ' tr:nth-child(3) td:nth-child(1) input', '7')
    page.type(table + ' tr:nth-child(3) td:nth-child(2) input', '85')
    page.press(*ENTER)
    seen.same('Enter in the last row adds one', page.value('tables[3].rows.length'), 2)
    page.call('Input.insertText', text='8')
    page.type(table + ' tr:nth-child(4) td:nth-child(2) input', '-12')
    read = ask(page, 'list{ (s.ship, s.draught) | s <- ships }')
    seen.same('typed cells cannot stand in a list', read['said'][:10], 'Refused 26')
    read = ask(page, 'bag{ (s.ship, b.berth) | s <- ships, b <- berths, s.draught <= b.depth }')
    seen.same('typed cells', read['loops'], '3 7 1 8 1 8 2')
    page.type(table + ' tr:nth-child(3) td:nth-child(2) input', '8x')
    page.wait(SHOWN)
    seen.same('no number is said', page.text('#said'), "Table ships, row 1, column draught: '8x' is no whole number.")
    seen.same('no number is marked', page.value("document.querySelector('.wrong input').value"), '8x')
    page.type(table + ' tr:nth-child(3) td:nth-child(2) input', '80')
    page.type(table + ' tr:nth-child(2) th:nth-child(2) input', '79')
    page.wait(SHOWN)
    seen.so('beyond its bound is refused', page.text('#said').startswith('Refused 43 ('), page.text('#said'))
    seen.same('beyond its bound is marked', page.value("[...document.querySelectorAll('.wrong input')].map(input => input.value)"), ['80'])
    page.picture(PICTURES / 'cell.png')
    page.type(table + ' tr:nth-child(2) th:nth-child(2) input', '80')
    page.type(table + ' input.number', '1')
    page.wait(SHOWN)
    seen.so('a number used twice is refused', page.text('#said').startswith('Refused 51 ('), page.text('#said'))
    page.type(table + ' input.number', '3')
    page.wait(SHOWN)
    seen.same('and all is well again', page.value(READ)['loops'], '3 7 1 8 1 8 2')


def replied(page, engine, place, text):
    """Until an engine has replied to all it was asked, and what is said of the reply begins so: what was said before may begin alike."""
    page.wait("!%s.busy && document.getElementById('%s').textContent.startsWith(%s)" % (engine, place, json.dumps(text)))


def calendars(page, seen):
    """Calendars typed, asked in a question, and what they are at a minute."""
    fresh(page)
    said = '#calendars .calendar:nth-child(%d) p'
    page.wait("document.querySelector('%s').textContent !== ''" % (said % 1))
    seen.same('open now', [page.text('#moment-said'), page.text(said % 1)], ['Tue 2026-11-17 09:30 (minute 14137050)', 'open'])
    asked = 'set{ (k.hour, open(lock, 14136480 + 60 * k.hour)) | k <- locks }'
    seen.same('hours of a day', ask(page, asked)['loops'], '3 6 1 7 1 18 0')
    page.click('#add-calendar')
    second = '#calendars .calendar:nth-child(2) '
    page.type(second + 'input.name', 'quay')
    page.type(second + 'textarea', 'Tue 07:00-07:01 Thu 18:00-24:00')
    page.type('#moment', '14137050')
    page.wait("document.querySelector('%s').textContent.startsWith('closed')" % (said % 2))
    seen.same('a minute by its number', page.text('#moment-said'), 'Tue 2026-11-17 09:30 (minute 14137050)')
    seen.same('it opens', page.text(said % 2), 'closed; it opens Thu 2026-11-19 18:00 (minute 14140440)')
    read = ask(page, 'set{ k.hour | k <- locks, open(quay, 14136480 + 60 * k.hour) or open(1, 14139360 + 60 * k.hour) }')
    seen.same('typed hours', read['loops'], '2 7 18')
    seen.so('named in the plan', 'open(quay, 14136480 + 60 * locks.hour)' in page.text('#plan'), page.text('#plan'))
    page.picture(PICTURES / 'calendars.png')
    read = ask(page, 'set{ k.hour | k <- locks, open(quay, 0) or open(2, k.hour) }')
    seen.same('not lent is marked', [read['said'], read['mark']], ['Refused 42 (a calendar that is not lent): there is no calendar 2.', 'open(2, k.hour)'])
    seen.so('meant calendar', "is 'quay' meant" in ask(page, 'some{ open(kuay, 0) }')['said'], page.text('#said'))
    for moment, shown in (('2026-02-29', 'Refused 41 ('), ('soon', 'A minute is written'), ('-5', 'minute -5'), ('2399-12-31 23:59', 'Fri 2399-12-31 23:59 (')):
        page.type('#moment', moment)
        replied(page, 'clock', 'moment-said', shown)
    seen.same('no more', page.text(said % 2), 'closed; it opens no more')
    page.type(second + 'textarea', 'Tue 07:00-07:01 Thu 18:00-06:00')
    page.wait(SHOWN)
    seen.same('a window that ends before it begins', page.text('#said'),
              'Refused 41 (a calendar that breaks its layout, or a fifth one): Calendar quay: Thu 18:00-06:00.')
    seen.same('it is marked', page.value("[...document.querySelectorAll('.wrong')].map(each => each.value)"), ['Tue 07:00-07:01 Thu 18:00-06:00'])
    page.wait("!document.querySelector('.typing')")
    page.picture(PICTURES / 'hours.png')
    page.type(second + 'textarea', 'Tue 7 to 8')
    page.wait(SHOWN)
    seen.so('no hours', page.text('#said').startswith("Calendar quay: 'to' is neither weekdays"), page.text('#said'))
    page.type(second + 'textarea', 'never')
    page.type(second + 'input.name', 'lock')
    page.wait(SHOWN)
    seen.same('a name twice', page.text('#said'), "Calendar lock: another calendar is called 'lock', too.")
    page.click(second + 'button')
    seen.same('hours again', ask(page, asked)['loops'], '3 6 1 7 1 18 0')


def opened(page, seen, folder):
    """Files opened, and one that is none."""
    fresh(page)
    (folder / 'tide-hours.csv').write_text('hour;level\n6;120\n12;-30\n')
    (folder / 'broken.csv').write_text('a,b\n1,2\n3,4.5\n')
    choose(page, '#csv-files', folder / 'tide-hours.csv', folder / 'broken.csv')
    page.wait("tables.length === 4 && !document.getElementById('csv-said').hidden")
    seen.same('table of a file', page.value('[tables[3].name, tables[3].columns, tables[3].bounds, tables[3].rows]'),
              ['tide_hours', ['hour', 'level'], ['12', '120'], [['6', '120'], ['12', '-30']]])
    seen.same('fault of a file', page.text('#csv-said'), "broken.csv: line 3, column 2: '4.5' is no whole number")
    seen.same('question over a file', ask(page, 'sum{ t.level | t <- tide_hours }')['loops'], '90')


def shuffled(page, seen):
    """The rows of bags and sets in another order, and nothing changes; a list's rows stay."""
    fresh(page)
    page.value("tables.push(newTable('log', 'list', ['second'], [['3'], ['1'], ['2']])); setTables(tables)")
    ask(page, 'bag{ (b.berth, sum{ l.pull | l <- bollards, l.berth = b.berth }, list{ g.second | g <- log }) | b <- berths }')
    before = page.value('JSON.stringify(tables.map(table => table.rows))')
    answer = page.value(READ)['loops']
    page.click('#shuffle')
    page.wait(SHOWN)
    after = page.value('JSON.stringify(tables.map(table => table.rows))')
    seen.so('rows have moved', before != after)
    seen.same('rows of a list have not', json.loads(after)[3], [['3'], ['1'], ['2']])
    seen.so('rows are the same ones', all(sorted(a) == sorted(b) for a, b in zip(json.loads(before), json.loads(after))))
    seen.so('nothing changes', page.text('#shuffled').endswith('both answers are what they were, word for word.'), page.text('#shuffled'))
    seen.same('the same answer', page.value(READ)['loops'], answer)
    page.picture(PICTURES / 'shuffled.png')


def long_question(page, seen, folder):
    """A question that takes long: progress, Stop between two portions, and on from there."""
    fresh(page)
    (folder / 'many.csv').write_text('n\n' + ''.join('%d\n' % row for row in range(MOST_ROWS)))
    choose(page, '#csv-files', folder / 'many.csv')
    page.wait('tables.length === 4')
    page.type('#question', 'sum{ 1 | a <- many, b <- many, c <- many, a.n + b.n = c.n }')
    page.wait("!document.getElementById('stop').hidden && asked.rows > 0")
    seen.so('progress is said', 'rows offered' in page.text('#said'), page.text('#said'))
    first = page.value('asked.rows')
    page.wait('asked.rows > %d' % first)
    page.picture(PICTURES / 'running.png')
    page.click('#stop')
    seen.same('stopped', page.value('document.body.dataset.state'), 'stopped')
    stopped = page.value('asked.rows')
    seen.so('rows of whole portions', stopped % 65535 == 0, str(stopped))
    time.sleep(0.3)
    seen.same('nothing runs on', page.value('asked.rows'), stopped)
    page.click('#go-on')
    page.wait('asked.rows > %d' % stopped)
    seen.so('on from there', page.value('asked.rows') > stopped)
    start = time.monotonic()
    read = ask(page, 'sum{ a.n | a <- many }')
    seen.same('another question meanwhile', read['loops'], str(sum(range(MOST_ROWS))))
    seen.so('without waiting', time.monotonic() - start < 30)
    # An answer longer than the first buffer: 2,049 and more words.
    read = ask(page, 'bag{ (a.n, b.n) | a <- many, b <- many, b.n < 5 }')
    seen.same('a long answer', read['loops'].count(' '), 2 * 5 * MOST_ROWS)
    seen.same('both ways', read['same'], 'Both answers are the same, word for word.')


def rounds(page, rows, quota):
    return max(1, -(-rows // quota))


def at_seats(page, seen):
    """Four seats with quotas of their own: each ends in its rows divided by its quota, rounded up, rounds."""
    fresh(page)
    page.click('#tabs button:nth-child(2)')
    questions = ['sum{ l.pull | b <- berths, l <- bollards }', 'set{ (b.berth, k.hour) | b <- berths, k <- locks }',
                 'some{ b.depth > 80 | b <- berths }', 'bag{ (b.berth, sum{ l.pull | l <- bollards, l.berth = b.berth }) | b <- berths }']
    offered, quotas, gives = [12, 16, 4, 12], [5, 3, 1000, 1], ['220', '6 1 6 1 7 1 18 2 6 2 7 2 18', '1', '2 1 110 2 0']
    for place, (text, quota) in enumerate(zip(questions, quotas)):
        box = '.seat:nth-child(%d)' % (place + 1)
        page.type(box + ' textarea', text)
        page.type(box + ' input', str(quota))
        page.focus(box + ' textarea')
        page.press('Enter', 13, 2)
        page.wait("seats[%d].unfinished" % place)
    page.click('#round')
    page.wait('rounds === 1')
    page.picture(PICTURES / 'seats.png')
    page.click('#run')
    page.wait("!running && !seats.some(seat => seat.unfinished)")
    for place in range(4):
        taken = rounds(page, offered[place], quotas[place])
        said = page.value('seats[%d].said.textContent' % place)
        seen.same('seat %d' % (place + 1), said, 'Finished: %d rows in %d round%s.' % (offered[place], taken, '' if taken == 1 else 's'))
        read = page.value("[...seats[%d].answer.querySelectorAll('.scalar, td')].map(cell => cell.textContent).join(' ')" % place)
        shown = ' '.join(gives[place].split()[1:] if place in (1, 3) else ['true'] if place == 2 else [gives[place]])
        seen.same('answer at seat %d' % (place + 1), read, shown)
    page.picture(PICTURES / 'rounds.png')
    page.type('.seat:nth-child(2) input', '0')
    page.click('#round')
    replied(page, 'rota', 'rota-said', 'Refused 49 (')
    page.type('.seat:nth-child(2) input', '3')
    page.type('#rota', '5')
    page.click('#round')
    replied(page, 'rota', 'rota-said', 'Refused 49 (')
    seen.so('49 is said', True)
    page.type('#rota', '2')
    page.click('.seat:nth-child(1) button')
    page.wait('seats[0].unfinished')
    page.type('#tables .table:nth-child(1) td input', '5')
    page.wait('!seats[0].unfinished')
    seen.so('tables changed', 'given up' in page.value('seats[0].said.textContent'))
    page.type('.seat:nth-child(1) textarea', 'set{ (k.berth, k.hour) | k <- locks, open(lock, 14136480 + 60 * k.hour) }')
    page.click('.seat:nth-child(1) button')
    page.wait('seats[0].unfinished')
    page.click('#run')
    page.wait('!running && !seats[0].unfinished')
    seen.same('hours at a seat', page.value("[...seats[0].answer.querySelectorAll('td')].map(cell => cell.textContent).join(' ')"), '1 6 2 7')
    page.click('.seat:nth-child(1) button')
    page.wait('seats[0].unfinished')
    page.type('#calendars textarea', 'Tue 18:00-19:00')
    page.wait('!seats[0].unfinished')
    seen.so('calendars changed', 'given up' in page.value('seats[0].said.textContent'))
    page.click('.seat:nth-child(1) button')
    page.wait('seats[0].unfinished')
    page.click('#run')
    page.wait('!running && !seats[0].unfinished')
    seen.same('other hours at a seat', page.value("[...seats[0].answer.querySelectorAll('td')].map(cell => cell.textContent).join(' ')"), '1 18')


CHARGED = '''(() => ({
  rows: [...document.querySelectorAll('#dues tr')].map(row => [...row.cells].map(cell => cell.textContent).join(' ')),
  words: document.getElementById('dues-words').textContent,
  wrong: [...document.querySelectorAll('#tariff .wrong input')].map(input => input.getAttribute('aria-label')).join(),
  mark: document.querySelector('#dues-under mark')?.textContent ?? '',
}))()'''


def charged(page, text):
    """The dues as they are shown, once that is said of them."""
    replied(page, 'charging', 'dues-said', text)
    return page.value(CHARGED)


def ships_charged(page, seen):
    """A tariff typed, ships charged, what is refused and where."""
    fresh(page)
    page.click('#tabs button:nth-child(3)')
    charged(page, "no name and no table is called 'ships' here.")
    page.click('#example-ships')
    shown = charged(page, '5 rows charged, together 67,000 cents; the tariff has 33 bytes.')
    seen.same('dues', shown['rows'], ['ship draught cents', '1 450 7500', '2 820 22500', '3 395 4000', '4 80 3000', '4 1180 30000'])
    seen.same('their words', shown['words'], '5 1 7500 2 22500 3 4000 4 3000 4 30000')
    page.picture(PICTURES / 'dues.png')
    rate = '#tariff tr:nth-child(4) td:nth-child(2) input'
    page.type(rate, '1')
    shown = charged(page, '5 rows charged, together 20,500 cents')
    seen.same('a lower rate', shown['rows'][1:], ['1 450 7500', '2 820 3000', '3 395 4000', '4 80 3000', '4 1180 3000'])
    page.type(rate, '10000001')
    no_tariff = 'Refused 44 (a tariff that breaks its layout or is outside its ranges, or none): '
    shown = charged(page, no_tariff + 'step 3, up to 1200 cm, has a rate of 10000001 cents.')
    seen.same('the rate is marked', [shown['wrong'], shown['rows'], shown['mark']], ['Rate of step 3', [], ''])
    page.picture(PICTURES / 'dues-refused.png')
    page.type(rate, 'free')
    seen.same('no number', charged(page, 'draughts and cents are numbers')['wrong'], 'Rate of step 3')
    page.type(rate, '2500')
    page.type('#tariff tr:nth-child(3) td input', '400')
    seen.same('a step that does not rise', charged(page, 'Refused 44')['wrong'], 'Upper draught of step 2')
    page.type('#tariff tr:nth-child(3) td input', '800')
    page.type('#tariff .minimum input', '10000001')
    seen.same('the minimum', charged(page, 'Refused 44')['wrong'], 'Minimum charge in cents')
    page.type('#tariff .minimum input', '0')
    charged(page, '5 rows charged, together 65,000 cents')
    page.click('#tariff tr:nth-child(4) button')
    shown = charged(page, 'Refused 46 (a draught below 0 or above the last step): ship 2 has 820 cm, and the last step ends at 800 cm.')
    seen.same('nothing is marked in the tariff', shown['wrong'], '')
    for place in range(14):
        page.click('#add-step')
    seen.so('sixteen steps', page.value("byId('add-step').disabled && tariff.steps.length === 16"))
    charged(page, '5 rows charged, together 44,000 cents; the tariff has 137 bytes.')
    page.type('#dues-question', 'set{ (s.ship, s.draught) | s <- ships }')
    shown = charged(page, 'Refused 45 (')
    seen.same('another type', [shown['mark'], shown['rows']], ['set{ (s.ship, s.draught) | s <- ships }', []])
    page.type('#dues-question', 'bag{ (s.ship, s.draft) | s <- ships }')
    seen.same('not understood', charged(page, "no column is called 'draft'")['mark'], 'draft')
    page.type('#dues-question', 'bag{ s | s <- ships, s.ship < 3 }')
    charged(page, '2 rows charged')
    page.type('#tables .table:nth-child(4) tr:nth-child(3) td:nth-child(2) input', '99999')
    charged(page, 'Refused 46 (a draught below 0 or above the last step): ship 1 has 99999 cm')
    while page.value('tariff.steps.length') > 0:
        page.click('#tariff .step button')
    charged(page, no_tariff + 'it has 0 steps.')


def counted(page, text):
    """The counts as they are shown, once that is said of them."""
    replied(page, 'counting', 'outages-said', text)
    return page.value('''[...document.querySelectorAll('#outages .count')].map(count => [...count.children].map(part => part.textContent).join(' ')
      + ' ' + count.querySelector('.bar').style.width)''')


def outages_counted(page, seen):
    """A table whose rows may be out, counts as bars, what is refused."""
    fresh(page)
    page.click('#tabs button:nth-child(4)')
    counted(page, "no name and no table is called 'tugs' here.")
    page.click('#example-tugs')
    seen.same('counts', counted(page, '32 subsets of the rows of tugs, the others being out.'), ['true 14  43.8 % 43.75%', 'false 18  56.3 % 56.25%'])
    page.picture(PICTURES / 'outages.png')
    page.type('#outages-question', 'some{ t.pull >= 40 | t <- tugs }')
    page.wait("document.querySelector('#outages .no')?.textContent === '24'")
    seen.same('another question', counted(page, '32 subsets')[1], 'false 8  25.0 % 25%')
    page.type('#tables .table:nth-child(4) tr:nth-child(4) td:nth-child(2) input', '10')
    page.wait("document.querySelector('#outages .no')?.textContent === '16'")
    page.value("byId('out-table').selectedIndex = 0; byId('out-table').onchange()")
    seen.same('rows that do not matter', counted(page, '4 subsets of the rows of berths'), ['true 4  100.0 % 100%', 'false 0  0.0 % 0%'])
    page.type('#outages-question', 'sum{ t.pull | t <- tugs }')
    counted(page, 'Refused 55 (a question that is neither a some nor an all): its monoid is sum.')
    seen.same('it is marked', page.text('#outages-under mark'), 'sum{ t.pull | t <- tugs }')
    page.type('#outages-question', 'some{ t.pul > 0 | t <- tugs }')
    counted(page, "no column is called 'pul'")
    page.type('#outages-question', 'some{ x.n = 1 | x <- long }')
    for rows, said in ((12, '4,096 subsets of the rows of long'), (13, 'Refused 56 (a table that is absent or has more than 12 rows): long has 13 rows.')):
        page.value("setTables([newTable('long', 'bag', ['n'], [...Array(%d).keys()].map(each => [String(each)]), { number: '0' })])" % rows)
        shown = counted(page, said)
        seen.same('%d rows' % rows, shown, ['true 2,048  50.0 % 50%', 'false 2,048  50.0 % 50%'] if rows == 12 else [])
    page.picture(PICTURES / 'outages-refused.png')
    page.value('setTables([])')
    page.type('#outages-question', 'some{ true }')
    counted(page, 'Refused 56 (a table that is absent or has more than 12 rows): there is no table 0.')


# The logs as they are drawn: what stands beside each dot, the rows that are marked, and the rows that each line joins, found by the dots at its ends.
DRAWN = '''(() => {
  const rows = [...document.querySelectorAll('#logs .row')];
  const text = (row, part) => row.querySelector(part)?.textContent ?? '';
  const at = (x, y) => rows.filter(row => row.querySelector('circle').getAttribute('cx') === x && row.querySelector('circle').getAttribute('cy') === y);
  const end = (line, which) => at(line.getAttribute('x' + which), line.getAttribute('y' + which)).map(row => text(row, '.position')).join();
  return {
    rows: rows.map(row => [text(row, '.position'), text(row, '.second'), text(row, '.mark')].join(' ').trim()),
    pairs: [...document.querySelectorAll('#logs line')].map(line => [end(line, 1), end(line, 2)].join('-')).join(' '),
    names: [...document.querySelectorAll('#logs .name')].map(name => name.textContent),
  };
})()'''


def paired(page, text):
    """The logs as they are drawn, once that is said of them."""
    replied(page, 'pairing', 'logs-said', text)
    return page.value(DRAWN)


def two_logs(page, seen):
    """Two logs side by side: pairs joined, singles marked, what is refused."""
    fresh(page)
    page.click('#tabs button:nth-child(5)')
    no_log = 'Refused 53 (a time column that falls, or a table that is absent or not a list): '
    paired(page, no_log + 'berths is a bag.')
    page.click('#example-logs')
    drawn = paired(page, '4 pairs, 1 single of ship, 2 singles of quay; 87 bytes in three records.')
    seen.same('names', drawn['names'], ['ship', 'quay'])
    seen.same('rows and marks', drawn['rows'], ['0 0', '1 95', '2 240 single', '3 600', '4 1810',
                                               '0 12', '1 101', '2 410 single', '3 588', '4 900 single', '5 1799'])
    seen.same('lines', drawn['pairs'], '0-0 1-1 3-3 4-5')
    page.picture(PICTURES / 'logs.png')
    page.type('#tolerance', '200')
    seen.same('a larger tolerance', paired(page, '5 pairs, 0 singles of ship, 1 single of quay;')['pairs'], '0-0 1-1 2-2 3-3 4-5')
    for typed in ('3601', '-1', '4294967296'):
        page.type('#tolerance', typed)
        paired(page, 'Refused 54 (')
        page.type('#tolerance', '3600')
        paired(page, '5 pairs')
    page.type('#tolerance', '1.5')
    seen.same('no tolerance', [paired(page, 'A tolerance')['rows'], page.text('#logs-said')], [[], 'A tolerance is a number of seconds.'])
    page.type('#tolerance', '12')
    page.type('#tables .table:nth-child(4) tr:nth-child(3) td input', '100')
    paired(page, no_log + 'ship falls from 100 to 95 at position 1.')
    page.picture(PICTURES / 'logs-refused.png')
    page.type('#tables .table:nth-child(4) tr:nth-child(3) td input', '95')
    seen.same('the same second twice', paired(page, '3 pairs, 2 singles of ship, 3 singles of quay;')['pairs'], '0-1 3-3 4-5')
    page.type('#tables .table:nth-child(4) tr:nth-child(2) th input', '1')
    paired(page, 'Refused 43 (a bound over 2^31, or a cell beyond its column\'s): Table ship, row 1, column second.')
    page.click('#tables .table:nth-child(4) .buttons button:nth-child(4)')
    paired(page, '3 pairs')
    page.value("byId('second-log').selectedIndex = 3; byId('second-log').onchange()")
    drawn = paired(page, '5 pairs, 0 singles of ship, 0 singles of ship; 83 bytes')
    seen.same('a log against itself', [drawn['names'], drawn['pairs']], [['ship', 'ship'], '0-0 1-1 2-2 3-3 4-4'])
    page.value("setTables(['a', 'b'].map((name, place) => newTable(name, 'list', ['second'], [...Array(1024).keys()].map(each => [String(7 * each + place)]), "
               "{ number: String(place) })))")
    seen.same('long logs', len(paired(page, '1,024 pairs, 0 singles of a, 0 singles of b; 8,235 bytes')['rows']), 2048)
    page.value('setTables([])')
    paired(page, no_log + 'there is no table 0.')


def other_panels(page, seen):
    fresh(page)
    page.focus('#question')
    page.value("document.querySelector('#tabs button').focus()")
    for _ in range(5):
        page.press(*RIGHT)
    seen.so('tabs go by keys', page.value("!document.getElementById('proved-panel').hidden && document.getElementById('question-panel').hidden"))
    proved = page.text('#proved-panel')
    seen.so('says what is not proved', 'What is not' in proved and 'compilation to WebAssembly' in proved and 'is ours' in proved)
    page.picture(PICTURES / 'proved.png')
    page.size(600, 900)
    fresh(page)
    seen.so('fits a narrow window', page.value('document.documentElement.scrollWidth <= 600'))
    page.picture(PICTURES / 'narrow.png')
    page.size(1440, 1000)
    seen.so('asks for nothing', not re.search(r'(src|href)=|https?://', PAGE.read_text().split("const ENGINE")[0]))
    seen.same('and got nothing', page.value("performance.getEntriesByType('resource').filter(each => !each.name.startsWith('blob:')).length"), 0)


def main():
    start = time.monotonic()
    folder = ROOT / 'target' / 'shore' / 'files'
    folder.mkdir(parents=True, exist_ok=True)
    seen, beside = Seen(), Seen()
    with Browser() as page:
        fresh(page)
        page.picture(PICTURES / 'desk.png')
        worked_cases(page, seen)
        faults(page, beside)
        between(page, beside)
        editing(page, beside)
        calendars(page, beside)
        opened(page, beside, folder)
        shuffled(page, beside)
        long_question(page, beside, folder)
        at_seats(page, beside)
        ships_charged(page, beside)
        outages_counted(page, beside)
        two_logs(page, beside)
        other_panels(page, beside)
        beside.same('no script failed', page.faults, [])
    wrong = seen.faults + beside.faults
    print('page: %d things held of the cases, %d beside them, %d not so; %.0f s'
          % (seen.count, beside.count, len(wrong), time.monotonic() - start))
    if wrong or beside.count < LEAST_SEEN:
        sys.exit('page: FAILED')


main()
