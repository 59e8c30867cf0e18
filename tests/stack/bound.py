#!/usr/bin/env python3
"""bound.py ARCHIVE HEADER: the most stack that each call can need, from the frames of the compiled archive.

A frame is what a function takes below its caller: return address, pushes, `sub rsp`. Functions that call each other
or themselves are a group; how often each can stand on the stack at once follows from document 01's sizes, and GROUPS
says it. The bound of a call is the dearest way down the call graph, each group counted whole. Fails where a bound
passes the figure that HEADER publishes, and where a group, or a function of one, is not in GROUPS. Prints each group's frames, and
what they take in all, too. x86-64 only."""
import re
import subprocess
import sys

# A question has at most 256 records and 32 levels; bindings lengthen a chain of terms, two records for each 28
# levels: so at most 238 terms one inside the other. A normal form has 512 nodes: a generator is two of them.
RECORDS, LEVELS, NESTED, NODES, WORDS = 256, 32, 238, 512, 512
LIBC = 64  # memset and memcpy


def along(frames, terms, generators):
    """A chain of terms, each with the functions of one of the lists in `terms`, and generators among them."""
    each, every = (max(sum(map(frames, functions)) for functions in lists) for lists in (terms, generators))
    return max(each * n + every * ((NODES - 1 - n) // 2) for n in range(NESTED + 1))


def times(count, *lists):
    """So many times the functions of the dearest of the lists."""
    return lambda frames: count * max(sum(map(frames, functions)) for functions in lists)


# Loops for collections, and below them loops for totals; what leads from the former to the latter is there once. A function that
# the compiler puts in line takes nothing. `above`: other functions that go from generator to generator above them.
def loops(f, above=()):
    collect, scalar = 'loop_collect::', 'loop_scalar::'
    generators = [[collect + 'collect', collect + 'each'], [scalar + 'fold', scalar + 'rounds', scalar + 'total'], *above]
    record = [collect + name for name in ('write', 'flat', 'parts', 'part')]
    total = [scalar + name for name in ('term', 'reduced')]
    operand = [scalar + name for name in ('scalar', 'operand', 'term')]
    terms = [[collect + 'write'] + generators[0], record, total + generators[1], operand]
    return along(f, terms, generators) + sum(map(f, record + operand))


# For each group the most that it takes, from its frames. A group of a crate that has several is named by one of its functions.
GROUPS = {
    # a level is a term's record or a qualifier's
    'front_parser': times(LEVELS, ['term', 'content', 'compound'], ['term', 'content', 'comprehension']),
    # levels of terms, and a qualifier or field before the deep one for each record
    'front_scope': lambda f: LEVELS * f('term') + RECORDS * max(f('terms'), f('quals')),
    # a record of the question is a term, a qualifier before the deep one, or a condition that is gone through
    'front_emit': times(RECORDS, ['placed'], ['qualifiers'], ['clause']),
    'front_resolve': times(RECORDS, ['resolve']),
    'front_bounds': times(NESTED, ['form_size']),
    'loop_collect': loops,
    'loop_scalar': loops,
    # each row is judged, and its head read, before the answer's words are written (document 02, E6)
    'loop_draughts': lambda f: loops(f, [['loop_draughts::judge', 'loop_draughts::judge_each']]) + f('draught') + f('one_draught'),
    'plan_marks': lambda f: along(f, [['term', 'registers', 'clauses'], ['term', 'terms']], [['registers']]),
    'plan_links::term': lambda f: along(f, [['term', 'clauses']], [['clauses']]) + f('terms'),
    'plan_links::loops': times(NODES // 2, ['loops']),
    'plan_lines::ops': lambda f: along(f, [['inside', 'ops']], [['growers']]) + f('ops_upto'),
    'plan_lines::term': times(NESTED, ['term', 'terms']),
    'plan_lines::openings': times(NODES // 2, ['openings']),
    'plan_lines::closings': times(NODES // 2, ['closings']),
    'plan_lines::growers': times(NODES // 2, ['growers']),
    'plan_lines::grows': times(NODES // 2, ['grows']),
    'plan_lines::head': times(NODES // 2, ['head']),
    'base_text': times(20, ['decimal']),
    'exec_terms': times(NESTED, ['scalar', 'operand']),
    'answer_canonical': times(NESTED, ['walk']),
    'answer_compare': times(NESTED, ['compare']),
    'answer_types::skip': times(NESTED, ['skip']),
    'answer_types::width_fields': times(NESTED, ['width_fields']),
    'answer_types::singles': times(NESTED, ['singles']),
    'answer_types::field_segments': times(NESTED, ['field_segments']),
}
# In a portion the words of scratch may say anything: a term is one word at least, and what is below it stands behind it.
ANY_WORDS = {key: (lambda rule: lambda f: rule(f) * WORDS // NESTED)(GROUPS[key])
             for key in GROUPS if key.startswith(('exec_', 'answer_'))}
# Groups that go down one chain of terms, the later ones from where the earlier ones stand: together they take no more than
# the dearest of them does for the whole chain.
CHAINS = [['front_emit', 'front_resolve'], ['loop_collect', 'loop_scalar', 'loop_draughts'], [key for key in GROUPS if key.startswith('plan_lines')],
          ['plan_links::term', 'plan_links::loops'], [key for key in GROUPS if key.startswith('answer_')]]


def frames_of(archive):
    """Each function's frame and whom it calls."""
    listing = subprocess.run(['objdump', '-dr', '--no-show-raw-insn', '-M', 'intel', archive],
                             capture_output=True, text=True, check=True).stdout
    functions, at, low, last, name = {}, None, 0, '', ''
    for line in listing.splitlines():
        if (m := re.match(r'^[0-9a-f]+ <(.*)>:$', line)):
            name = m[1]
            at = functions[name] = {'frame': 8, 'calls': set()}
            low, last = 0, ''
        elif at is None:
            continue
        elif (m := re.search(r'R_X86_64_(?:PLT32|PC32)\s+(\S.*?)([-+]0x[0-9a-f]+)?$', line)):
            if last in ('call', 'jmp'):
                at['calls'].add(re.sub(r'^\.text\.', '', m[1]))
        elif (m := re.match(r'^\s+[0-9a-f]+:\s+(\S+)\s*(.*)$', line)):
            op, rest = m[1], m[2]
            size = re.match(r'rsp,0x([0-9a-f]+)$', rest)
            value = int(size[1], 16) if size else 0
            value -= 1 << 64 if value >> 63 else 0
            if op == 'push':
                low += 8
            elif op == 'sub' and size:
                low += max(value, 0)
            at['frame'] = max(at['frame'], 8 + low)
            if op == 'call' and (m := re.search(r'<([^>+]*)>$', rest)) and m[1] == name:
                at['calls'].add(name)
            last = 'call' if op == 'call' else 'jmp' if op.startswith('j') else op
    return functions


def groups_of(functions):
    """Strongly connected components: for each function the set that it is in."""
    reach = {}

    def reached(f):
        seen, todo = set(), [f]
        while todo:
            for g in functions[todo.pop()]['calls']:
                if g in functions and g not in seen:
                    seen.add(g)
                    todo.append(g)
        return seen
    for f in functions:
        reach[f] = reached(f)
    return {f: frozenset(g for g in reach[f] if f in reach[g]) for f in functions}


def main():
    functions = frames_of(sys.argv[1])
    group = groups_of(functions)
    header = open(sys.argv[2]).read()
    published = int(re.search(r'constexpr std::size_t stack_bytes = (\d+);', header)[1])
    unknown = set()

    def rule(members):
        crate = sorted(members)[0].split('::')[0]
        for key in GROUPS:
            if key == crate or key in members:
                counted = set()
                GROUPS[key](lambda f: counted.add(whole(key, f)) or 0)
                unknown.update(members - counted)
                return key
        unknown.update(members)
        return None

    def whole(key, function):
        return function if '::' in function else key.split('::')[0] + '::' + function

    def cost(key, any_words):
        table = ANY_WORDS if any_words and key in ANY_WORDS else GROUPS
        return table[key](lambda f: functions.get(whole(key, f), {'frame': 0})['frame'])

    def bound(f, any_words, seen=frozenset(), memo={}):
        """The dearest way down from f, and the groups on it; `seen`: the chains that were counted above it."""
        if f not in functions:
            return LIBC, ()
        spot = (f, any_words, seen)
        if spot in memo:
            return memo[spot]
        members, own, way = group[f], functions[f]['frame'], ()
        below = functions[f]['calls'] - {f}
        if members:
            below = {g for m in members for g in functions[m]['calls']} - members
            key = rule(members)
            chain = next((i for i, c in enumerate(CHAINS) if key in c), None)
            own = 0 if key is None or chain in seen else max(cost(k, any_words) for k in (CHAINS[chain] if chain is not None else [key]))
            seen = seen if chain is None else seen | {chain}
            way = (f'{key} {own}',) if own else ()
        most, rest = max([bound(g, any_words, seen) for g in below] or [(0, ())])
        memo[spot] = own + most, way + rest
        return memo[spot]

    over = 0
    for call in sorted(f for f in functions if f.startswith('dislogha_')):
        needed, way = bound(call, call in ('dislogha_portion', 'dislogha_round'))
        print(f'{call:28} {needed:7} of {published}: {", ".join(way)}')
        over += needed > published
    for members in sorted(set(group.values()), key=sorted):
        if members and (key := rule(members)):
            frames = ', '.join(f'{f.split("::")[1]} {functions[f]["frame"]}' for f in sorted(members))
            print(f'  {key}: {frames}; {cost(key, False)} in all' + (f', {cost(key, True)} over any scratch' if key in ANY_WORDS else ''))
    for function in sorted(unknown):
        print('no rule for', function)
    return over > 0 or len(unknown) > 0 or len(functions) < 50


sys.exit(main())
