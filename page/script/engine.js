// The engine runs in workers of its own, so that the page answers while it works. Jobs that nobody
// waits for have one for themselves.
const jobs = new Map(), workers = {};
const ASIDE = ["agrees", "risk"];
let nextJob = 1, engineReady = null;

async function inflated(text) {
  const packed = Uint8Array.from(atob(text), c => c.charCodeAt(0));
  const stream = new Blob([packed]).stream().pipeThrough(new DecompressionStream("deflate"));
  return new Uint8Array(await new Response(stream).arrayBuffer());
}

function startWorker(name, wasm) {
  const url = URL.createObjectURL(new Blob([$("worker").textContent], { type: "text/javascript" }));
  const worker = workers[name] = new Worker(url);
  worker.onmessage = ({ data: { id, result, error, isRefused, progress } }) => {
    const job = jobs.get(id);
    if (!job) return;
    if (progress) return job.tell && job.tell(progress);
    jobs.delete(id);
    if (error === undefined) job.done(result);
    else job.fail(Object.assign(new Error(error), { isRefused }));
  };
  worker.onerror = event => {
    for (const job of jobs.values())
      job.fail(new Error(event.message || "the worker cannot be started"));
    jobs.clear();
  };
  return post(worker, "start", { wasm });
}

async function startEngine() {
  const wasm = await inflated($("wasm").textContent);
  return Promise.all([startWorker("main", wasm), startWorker("aside", wasm)]);
}

function post(worker, job, given, tell) {
  return new Promise((done, fail) => {
    jobs.set(nextJob, { done, fail, tell });
    worker.postMessage({ id: nextJob++, job, ...given });
  });
}

// Asks for a job of the engine. `tell` gets what it tells meanwhile.
async function ask(job, given, tell) {
  await engineReady;
  return post(workers[ASIDE.includes(job) ? "aside" : "main"], job, given, tell);
}
