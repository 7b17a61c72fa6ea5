// The page's worker: it answers one message at a time. The first message contains the module.
const ACTS = { answers, view, packet, capture, test, solved, reason, listing, bench };
onmessage = ({ data: { id, what, given, module } }) => {
  if (module) wasm = module;
  try {
    postMessage({ id, made: what === undefined ? null : ACTS[what](...given) });
  } catch (fault) {
    postMessage({ id, fault: { message: String(fault.message), name: fault.name } });
  }
};
