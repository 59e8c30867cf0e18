// The engine in its workers. A worker that is busy with one long call can only be ended and begun anew.

const decoded = Uint8Array.from(atob(ENGINE), character => character.charCodeAt(0));
const compiled = WebAssembly.compile(decoded);
compiled.catch(fault => moduleFailed(String(fault)));
const script = URL.createObjectURL(new Blob([WORKER], { type: 'text/javascript' }));

class Engine {
  constructor() {
    this.asked = 0;
    this.waiting = new Map();
    this.begin();
  }

  begin() {
    this.worker = new Worker(script);
    compiled.then(module => this.worker.postMessage({ call: 'start', text: module }));
    this.worker.onmessage = ({ data }) => {
      const waits = this.waiting.get(data.id);
      if (!waits) return;
      if (data.failed) {
        this.end();
        moduleFailed(data.failed);
      } else if (data.rows !== undefined) {
        waits.progress(data.rows, data.ms);
      } else {
        this.waiting.delete(data.id);
        if (!data.halted) waits.resolve(data.reply);
      }
    };
  }

  get busy() { return this.waiting.size > 0; }

  // The reply of a call; none comes where it is ended before.
  ask(call, text, numbers = [], progress = () => {}) {
    return new Promise(resolve => {
      const id = ++this.asked;
      this.waiting.set(id, { resolve, progress });
      compiled.then(() => this.worker.postMessage({ id, call, text, numbers }));
    });
  }

  // Ends what is under way, however long its call is.
  end() {
    this.waiting.clear();
    this.worker.terminate();
    this.begin();
  }

  // Ends portions that are under way, between two of them; `ask('portions')` goes on with them.
  halt() {
    this.waiting.clear();
    this.worker.postMessage({ call: 'halt' });
  }
}

// The module has ended badly: no refusal, but a fault of the page.
function moduleFailed(why) {
  byId('said').className = 'said bad';
  byId('said').textContent = `This page has failed (${why}). Please tell whoever keeps it, with the tables and the question.`;
  document.body.dataset.state = 'failed';
}
