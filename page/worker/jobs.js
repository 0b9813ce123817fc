// The jobs that the page asks for, one after another.
const JOBS = {
  view,
  agrees,
  risk,
  riskOfSets,
  covered,
  output,
  outputOfPeers,
  attack
};

onmessage = async ({ data }) => {
  const { id, job } = data;
  try {
    if (job === "start") {
      wasm = await WebAssembly.compile(data.wasm);
      postMessage({ id, result: true });
    } else {
      postMessage({ id, result: JOBS[job](data, progress => postMessage({ id, progress })) });
    }
  } catch (error) {
    const isStopped = error instanceof WebAssembly.RuntimeError || error instanceof RangeError;
    const text = error instanceof Refused ? error.message :
      isStopped                           ? "The engine stopped: " + error.message :
                                            String(error);
    postMessage({ id, error: text, isRefused: error instanceof Refused });
  }
};
