// ---- The worker: runs scripts, so that the page never waits; an engine that trapped is replaced

let wasm = null, engine = null;
onmessage = async ({data}) => {
  wasm = data.wasm || wasm;
  if (!data.job) return;
  try {
    engine ||= await Engine.of(wasm);
    const told = await engine.run(data.job);
    postMessage({ask: data.ask, told}, told.words ? [told.words.buffer] : []);
  } catch (fault) {
    engine = null;
    postMessage({ask: data.ask, fault: String(fault)});
  }
};
