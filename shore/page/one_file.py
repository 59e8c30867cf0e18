"""one_file.py MODULE PAGE: page.html with all that it needs in it, as one file."""
import base64
import json
import sys
from pathlib import Path

HERE = Path(__file__).resolve().parent
SCRIPTS = ['engine.js', 'values.js', 'tables.js', 'calendars.js', 'plan.js', 'question.js', 'seats.js', 'dues.js', 'outages.js', 'logs.js', 'page.js']
EXAMPLES = HERE.parent / 'examples'
HOURS = 'Mon-Fri 06:00-14:00, Sat 08:00-12:00'
TARIFF = {'steps': [['400', '1000'], ['800', '1500'], ['1200', '2500']], 'minimum': '3000'}
TUGS = 'all{ sum{ t.pull | t <- tugs } >= 100 and some{ t.pull >= 40 | t <- tugs } }'
SHIPS = 'bag{ (ship: s.ship, draught: s.draught) | s <- ships }'


def script(value):
    """A value of JavaScript, such that no tag ends in it."""
    return json.dumps(value).replace('</', '<\\/')


def table(name, collection):
    lines = (EXAMPLES / (name + '.csv')).read_text().split()
    return {'name': name, 'collection': collection, 'columns': lines[0].split(','), 'rows': [line.split(',') for line in lines[1:]]}


def examples():
    """The tables, calendars and questions that the page begins with, the ships and the tariff, the tugs, and the two logs that it has for pairing."""
    questions = [line.split(': ', 1) for line in (HERE / 'questions').read_text().splitlines() if line]
    return {'tables': [table('berths', 'bag'), table('bollards', 'bag'), table('locks', 'set')], 'calendars': [{'name': 'lock', 'hours': HOURS}],
            'ships': table('ships', 'bag'), 'shipsQuestion': SHIPS, 'tariff': TARIFF,
            'tugs': table('tugs', 'bag'), 'tugsQuestion': TUGS,
            'logs': [table('ship', 'list'), table('quay', 'list')], 'questions': questions}


def main(module, page):
    parts = {name: (HERE / name).read_text() for name in ('page.css', 'proved.html')}
    parts['engine'] = base64.b64encode(Path(module).read_bytes()).decode()
    parts['examples'] = script(examples())
    parts['worker'] = script((HERE / 'worker.js').read_text())
    parts['script'] = '\n'.join((HERE / name).read_text() for name in SCRIPTS)
    text = (HERE / 'page.html').read_text()
    for name, part in parts.items():
        text = text.replace('@%s@' % name, part)
    Path(page).write_text(text)
    print('%s: %s bytes' % (page, format(len(text.encode()), ',')))


main(*sys.argv[1:])
