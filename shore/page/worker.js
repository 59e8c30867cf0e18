// Runs in each worker: one instance of the module, which is given text and gives JSON back (page.cpp).
// A message is {id, call, text, numbers}; what is sent back has its id. `start` brings the module; `loops` and `portions` answer, timed, the latter with
// word of its progress; any other is the module's own call of that name.
'use strict';

// Rows of a portion, the most that there may be, and milliseconds after which others are listened to.
const ROWS = 65535, LISTEN = 40;
const encoder = new TextEncoder(), decoder = new TextDecoder();
let module, started, turn = 0, spent = 0;

function reply() {
  return JSON.parse(decoder.decode(new Uint8Array(module.memory.buffer, module.reply(), module.reply_length())));
}

function call(name, text, numbers = []) {
  const bytes = encoder.encode(text);
  new Uint8Array(module.memory.buffer, module.room(bytes.length), bytes.length).set(bytes);
  module[name](bytes.length, ...numbers);
  return reply();
}

function loops(text) {
  const loaded = call('load', text);
  if (loaded.number !== 0) return loaded;
  const start = performance.now();
  module.loops();
  const ms = performance.now() - start;
  module.answer();
  return { ...reply(), ms };
}

// Begins the question, or goes on with it where there is no text. No portion is made once another message with `portions` or `halt` has come.
async function portions(id, text) {
  const mine = ++turn;
  if (text !== undefined) {
    const loaded = call('load', text);
    if (loaded.number !== 0) return { id, reply: loaded };
    module.begin();
    spent = 0;
  }
  for (;;) {
    const start = performance.now();
    let unfinished = 1;
    while (unfinished && performance.now() - start < LISTEN) unfinished = module.portion(ROWS);
    spent += performance.now() - start;
    if (!unfinished) {
      module.answer();
      return { id, reply: { ...reply(), ms: spent } };
    }
    postMessage({ id, rows: Number(module.offered()), ms: spent });
    await new Promise(resolve => setTimeout(resolve));
    if (mine !== turn) return { id, halted: true };
  }
}

// What of WASI the C++ library names and nothing here uses: 8 is "bad file".
const wasi = new Proxy({}, { get: () => () => 8 });

async function said(id, name, text, numbers) {
  if (name === 'portions') return portions(id, text);
  return { id, reply: name === 'loops' ? loops(text) : call(name, text, numbers) };
}

onmessage = async ({ data: { id, call: name, text, numbers } }) => {
  if (name === 'start') {
    started = WebAssembly.instantiate(text, { wasi_snapshot_preview1: wasi }).then(instance => {
      module = instance.exports;
      module._initialize();
    });
  } else if (name === 'halt') {
    turn++;
  } else {
    try {
      await started;
      postMessage(await said(id, name, text, numbers));
    } catch (fault) {
      postMessage({ id, failed: String(fault) });
    }
  }
};
