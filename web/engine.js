// Runs the module that is in the page.

const find = id => document.getElementById(id);
const text = new TextDecoder();

// The bytes that are packed in an element.
async function unpack(id) {
  const packed = Uint8Array.from(atob(find(id).textContent), letter => letter.charCodeAt(0));
  const stream = new Blob([packed]).stream().pipeThrough(new DecompressionStream('gzip'));
  return new Uint8Array(await new Response(stream).arrayBuffer());
}

let compiled;

// The module. It is compiled once: what a browser has compiled for one call serves the next.
function compiledModule() {
  compiled ??= unpack('module').then(bytes => WebAssembly.compile(bytes));
  return compiled;
}

// What the page shows if the module can't be sent to a worker.
const faultOf = fault =>
  (fault instanceof WebAssembly.CompileError ? `This browser can't run the module: ${fault.message}` : `It stopped: ${fault.message}`);

// Begins what `ember-mesh WORDS..` does over these files. `answer` comes from the worker: a status, out, err, files and seconds, or a
// `fault`; or it is `{ stopped: true }` after `stop()`.
function begin(words, files) {
  const url = URL.createObjectURL(new Blob([find('worker').textContent], { type: 'text/javascript' }));
  const worker = new Worker(url);
  let settle;
  const answer = new Promise(resolve => { settle = resolve; });
  const end = it => {
    worker.terminate();
    URL.revokeObjectURL(url);
    settle(it);
  };
  worker.onmessage = ({ data }) => end(data);
  worker.onerror = event => end({ fault: `It stopped: ${event.message || 'the worker failed'}` });
  compiledModule()
    .then(module => worker.postMessage({ module, words, files }))
    .catch(fault => end({ fault: faultOf(fault) }));
  return { answer, stop: () => end({ stopped: true }) };
}

const isAbleToRun = () =>
  ['WebAssembly', 'Worker', 'DecompressionStream', 'BigInt', 'Response'].every(name => name in window) && 'arrayBuffer' in Blob.prototype;
