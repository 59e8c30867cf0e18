#!/usr/bin/env python3
"""same.py SEED COUNT: the engine as WebAssembly, in headless Chromium, against the native archive on made inputs: number, length, and a sum over every
buffer, every word of scratch and the rubbish around both (same.cpp). Behind tests/build, shore/page/build and tests/shore/inputs.rs."""
import subprocess
import sys
import time
from collections import Counter
from pathlib import Path

sys.dont_write_bytecode = True
sys.path.insert(0, str(Path(__file__).resolve().parent))

from browser import Browser, choose  # noqa: E402

ROOT = Path(__file__).resolve().parent.parent.parent
OUT = ROOT / 'target' / 'tests' / 'same'
PAGE = ROOT / 'target' / 'shore' / 'page'

# The calls that same.cpp makes of each input, in their order, three words each.
CALLS = ['check', 'check, little scratch', 'loops', 'plan', 'loops, just enough', 'plan, just enough', 'loops, too little', 'plan, too little',
         'lines', 'lines, too little', 'portions', 'rounds', 'first open', 'dates',
         'tariff', 'tariff, just enough', 'tariff, too little', 'outages', 'outages, too little', 'outages of no table',
         'logs of the data', 'logs', 'logs, just enough', 'logs, too little']

# A run that never came to one of these has shown little.
NUMBERS = {0, 11, 12, 13, 21, 22, 23, 24, 25, 26, 27, 28, 31, 32, 33, 41, 42, 43, 44, 45, 46, 50, 51, 52, 53, 54, 55, 56}

# The module over the inputs, and what the archive gave; `next` goes through some inputs and tells how many words were compared, and which differ.
LOAD = '''
(async () => {
  const [code, inputs, native] = await Promise.all([...document.querySelector('input').files].map(file => file.arrayBuffer()));
  const wasi = new Proxy({}, { get: () => () => 8 });
  const { instance: { exports } } = await WebAssembly.instantiate(code, { wasi_snapshot_preview1: wasi });
  exports._initialize();
  const grow = end => {
    const pages = Math.ceil((end - exports.memory.buffer.byteLength) / 65536);
    if (pages > 0) exports.memory.grow(pages);
  };
  const first = exports.__heap_base.value + 15 & ~15, end = first + inputs.byteLength, out = end + 15 & ~15;
  grow(out);
  new Uint8Array(exports.memory.buffer, first).set(new Uint8Array(inputs));
  const words = exports.words_for(first, inputs.byteLength);
  grow(out + 8 * words);
  const made = new BigUint64Array(exports.memory.buffer, out, words), expected = new BigUint64Array(native);
  let at = first, word = 0;
  window.next = (count, ofEach) => {
    at += exports.run(at, end - at, out + 8 * word, count);
    const differ = [];
    for (const last = Math.min(words, word + count * ofEach); word < last; word++) {
      if (made[word] !== expected[word] && differ.length < 30) differ.push([word, String(made[word]), String(expected[word])]);
    }
    return { word, differ };
  };
  return [words, expected.length];
})()
'''

# Inputs that the browser goes through before it says so.
SOME = 500


def run(*words):
    subprocess.run(list(map(str, words)), check=True, cwd=ROOT)


def build():
    """same.cpp for the archive and, with the very object that the page has, for WebAssembly."""
    OUT.mkdir(parents=True, exist_ok=True)
    flags = ['-std=c++17', '-O2', '-Wall', '-Wextra', '-Werror', '-Iinclude']
    run('g++', *flags, '-Wconversion', '-o', OUT / 'native', 'tests/shore/same.cpp', 'target/staticlib/libengine.a')
    run('clang++', '--target=wasm32-wasi', '-mexec-model=reactor', '-fuse-ld=%s' % (PAGE / 'wasm-ld'), *flags, '-fno-exceptions',
        '-Wl,--export=run,--export=words_for,--export=__heap_base,-z,stack-size=1048576,--stack-first,--fatal-warnings',
        'tests/shore/same.cpp', PAGE / 'engine.o', '-o', OUT / 'same.wasm')


def add_deepest():
    """The questions that drive each recursion deepest: WebAssembly has a stack of its own."""
    run('tests/stack/shapes.py', OUT / 'shapes')
    with open(OUT / 'inputs', 'ab') as inputs:
        for line in (OUT / 'shapes').read_text().splitlines():
            for part in line.split()[1:]:
                lent = b'' if part == '-' else bytes.fromhex(part)
                inputs.write(len(lent).to_bytes(4, 'little') + lent)


def differing():
    """How many words were compared, and those that differ: place, what it is, what it should be."""
    with Browser() as page:
        page.value("document.body.innerHTML = '<input type=file multiple>'")
        choose(page, 'input', OUT / 'same.wasm', OUT / 'inputs', OUT / 'expected')
        words, expected = page.value(LOAD)
        told, differ = {'word': 0}, []
        while told['word'] < words == expected:
            told = page.value('next(%d, %d)' % (SOME, 3 * len(CALLS)))
            differ += told['differ']
    return told['word'] if words == expected else 0, differ


def main(seed, count):
    build()
    run('target/tests/inputs', OUT / 'inputs', seed, count)
    add_deepest()
    run(OUT / 'native', OUT / 'inputs', OUT / 'expected')
    start = time.monotonic()
    words, differ = differing()
    for word, is_, should in differ[:30]:
        place, call = divmod(word // 3, len(CALLS))
        print('same: input %d, %s: %s is %s, should be %s' % (place, CALLS[call], ('number', 'length', 'sum')[word % 3], is_, should))
    numbers = Counter(memoryview((OUT / 'expected').read_bytes()).cast('Q')[0::3])
    calls = words // 3
    print('same: %s inputs, %s calls, %d words differ; %.0f s in the browser; numbers %s'
          % (format(calls // len(CALLS), ','), format(calls, ','), len(differ), time.monotonic() - start, dict(sorted(numbers.items()))))
    if differ or calls == 0 or NUMBERS - set(numbers):
        sys.exit('same: FAILED; never given: %s' % sorted(NUMBERS - set(numbers)))


main(*(sys.argv[1:] or ['1', '20000']))
