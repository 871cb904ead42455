// A worker computes one call, and is then thrown away with its memory.

const lineOf = words => utf8.encode(`ember-mesh: ${words}\n`);

const noMemory = () => ({ status: NO_MEMORY, out: new Uint8Array(), err: lineOf('out of memory'), files: [] });

// What the page shows if there is no answer. An answer is never made up: want of memory is said by the status of the program.
function answerOfFault(fault) {
  if (fault instanceof OutOfMemory || (fault instanceof RangeError && /memory|allocat/i.test(fault.message))) return noMemory();
  return { fault: `It stopped: ${fault.message}` };
}

async function answerTo({ module, words, files }) {
  try {
    const instance = await WebAssembly.instantiate(module, {});
    const began = performance.now();
    const answer = command(instance.exports, words, files);
    // The library may have no memory for the line.
    return { ...(answer.status === NO_MEMORY ? noMemory() : answer), seconds: (performance.now() - began) / 1000 };
  } catch (fault) {
    return answerOfFault(fault);
  }
}

onmessage = async ({ data }) => {
  const answer = await answerTo(data);
  const blocks = answer.fault ? [] : [answer.out, answer.err, ...answer.files.map(([, bytes]) => bytes)];
  postMessage(answer, blocks.map(bytes => bytes.buffer));
};

// Where a module can't be given to a worker.
onmessageerror = () => postMessage({ fault: 'It stopped: the worker got no module' });
