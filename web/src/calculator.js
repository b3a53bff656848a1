// A worker that carries out one task after another, so that the page goes on meanwhile.
class Calculator {
  constructor({ module, worker }) {
    this.worker = new Worker(URL.createObjectURL(new Blob([worker], { type: 'text/javascript' })));
    this.waiting = new Map();
    this.count = 0;
    this.worker.onmessage = ({ data: { id, answer, error } }) => {
      const { done, failed } = this.waiting.get(id);
      this.waiting.delete(id);
      if (error) failed(new Error(error));
      else done(answer);
    };
    this.opened = this.ask('open', { compressed: fromBase64(module) });
  }

  ask(task, given) {
    return new Promise((done, failed) => {
      this.waiting.set(++this.count, { done, failed });
      this.worker.postMessage({ id: this.count, task, given });
    });
  }

  async study(given) {
    await this.opened;
    return this.ask('study', given);
  }

  end() {
    this.worker.terminate();
  }
}
