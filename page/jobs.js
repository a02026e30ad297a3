'use strict';
// The worker: it has one job at a time. A worker that was ended, or that stopped, is replaced by a new one.

const Jobs = (() => {
  const SOURCE = `${ghostEngine}\n${ghostObjects}\n${ghostMarks}\n${ghostWorker}\n`
    + 'const take = ghostWorker(ghostEngine(), ghostObjects(), ghostMarks(), '
    + '(message, whole = []) => postMessage(message, whole));\n'
    + 'onmessage = (event) => take(event.data);\n';
  let module = null;                  // a promise of the module's bytes
  let worker = null;
  let ready = null;                   // a promise that is kept once the worker has its module
  let waiting = null;                 // both ends of the promise of the job that is under way
  let heard = () => {};               // is called with each step

  function start() {
    const url = URL.createObjectURL(new Blob([SOURCE], { type: 'text/javascript' }));
    const mine = new Worker(url);
    URL.revokeObjectURL(url);
    worker = mine;
    mine.onmessage = (event) => { if (mine === worker) hear(event.data); };
    mine.onerror = ({ message }) => { if (mine === worker) hear({ kind: 'stopped', name: 'Error', message }); };
    module = module || Store.unpacked(GHOST_MODULE);
    ready = module.then((bytes) => ask({ kind: 'load', bytes }));
    ready.catch(() => {});
    return ready;
  }

  // a promise of the worker's result for a message
  function ask(message) {
    return new Promise((resolve, reject) => {
      waiting = { resolve, reject };
      worker.postMessage(message);
    });
  }

  function hear(message) {
    if (message.kind === 'step') {
      heard(message);
      return;
    }
    if (!waiting) return;
    const { resolve, reject } = waiting;
    waiting = null;
    if (message.kind === 'stopped') reject(message);
    else resolve(message.result);
  }

  function replace() {
    worker.terminate();
    waiting = null;
    start();
  }

  // a promise of a job's result; `told` is called with each step
  async function work(job, told) {
    heard = told;
    await ready;
    try {
      return await ask({ kind: 'work', job });
    } catch (error) {
      if (error.name !== 'Ended') replace();
      throw error;
    }
  }

  // ends the job under way: its promise fails with the name `Ended`
  function end() {
    const ended = waiting;
    replace();
    if (ended) ended.reject({ name: 'Ended' });
  }

  return { start, ask, work, end };
})();
