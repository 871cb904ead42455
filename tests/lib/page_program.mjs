// The page's own worker in place of ember-mesh: node page_program.mjs PAGE WORDS..
//
// It takes the worker and the module out of the page, lends the call all files of the current folder (and standard input under the name
// `-`), and leaves what the call leaves: files, standard output, standard error, the status. A call that stopped has status 125.
//
// node page_program.mjs --memory PAGE WORDS..: the call again and again, with 1 page more of memory each time, until it is met. Each call ends
// with status 12 and the one line of it, or as the last does. Prints how many were tried.
//
// node page_program.mjs --least PAGE MODULE: writes the page's module with a memory that can't grow.
import { readFileSync, readdirSync, statSync, writeFileSync, mkdirSync, writeSync } from 'node:fs';
import { dirname } from 'node:path';
import { gunzipSync } from 'node:zlib';

const elementOf = (page, id) => page.match(new RegExp(`<script [^>]*id="${id}">([^]*?)</script>`))[1];

export function partsOf(path) {
  const page = readFileSync(path, 'utf8');
  return { worker: elementOf(page, 'worker'), module: new Uint8Array(gunzipSync(Buffer.from(elementOf(page, 'module'), 'base64'))) };
}

// What the worker posts if it is sent this, with the bytes of a module compiled.
export function answerTo(worker, request) {
  const data = { ...request, module: new WebAssembly.Module(request.module) };
  return new Promise(resolve => {
    const listen = new Function('postMessage', 'onmessage', `${worker}\nreturn onmessage;`);
    listen(resolve)({ data });
  });
}

function filesIn(folder, prefix = '') {
  return readdirSync(folder).flatMap(name => {
    const path = `${folder}/${name}`;
    if (statSync(path).isDirectory()) return filesIn(path, `${prefix}${name}/`);
    return [[prefix + name, new Uint8Array(readFileSync(path))]];
  });
}

function leave({ out, err, files, status }) {
  for (const [name, bytes] of files) {
    mkdirSync(dirname(name), { recursive: true });
    writeFileSync(name, bytes);
  }
  try {
    for (let at = 0; at < out.length; ) at += writeSync(1, out, at);
  } catch {
    writeSync(2, 'ember-mesh: cannot write to standard output\n');
    return 4;
  }
  for (let at = 0; at < err.length; ) at += writeSync(2, err, at);
  return status;
}

// ---- want of memory
function numberAt(bytes, at) {
  let value = 0, shift = 0;
  for (;;) {
    const byte = bytes[at++];
    value += (byte & 127) * 2 ** shift;
    shift += 7;
    if (byte < 128) return [value, at];
  }
}

function numberOf(value) {
  const bytes = [];
  for (; value > 127; value = Math.floor(value / 128)) bytes.push((value & 127) | 128);
  return [...bytes, value];
}

// The least size of the module's memory, in pages, and the module with a memory of at most this size.
function withMemory(module, most) {
  for (let at = 8; ; ) {
    const id = module[at], [size, from] = numberAt(module, at + 1);
    if (id === 5) {
      const least = numberAt(module, from + 2)[0], body = [1, 1, ...numberOf(least), ...numberOf(Math.max(least, most))];
      return [least, new Uint8Array([...module.slice(0, at), 5, ...numberOf(body.length), ...body, ...module.slice(from + size)])];
    }
    at = from + size;
  }
}

const isSame = (one, other) => JSON.stringify(one, shown) === JSON.stringify(other, shown);
const shown = (key, value) => (key === 'seconds' ? 0 : value instanceof Uint8Array ? Buffer.from(value).toString('base64') : value);

async function tryMemory({ worker, module }, request) {
  const whole = await answerTo(worker, { ...request, module });
  const line = 'ember-mesh: out of memory\n';
  let refused = 0;
  for (let pages = withMemory(module, 0)[0]; ; pages++) {
    const answer = await answerTo(worker, { ...request, module: withMemory(module, pages)[1] });
    if (isSame(answer, whole)) break;
    const said = new TextDecoder().decode(answer.err ?? new Uint8Array());
    if (answer.status !== 12 || answer.files.length || answer.out.length || (said && said !== line)) {
      console.log(`${pages} pages of memory: ${JSON.stringify({ ...answer, err: said })}`);
      return 1;
    }
    refused++;
  }
  console.log(`${refused} times out of memory, then status ${whole.status}`);
  return refused ? 0 : 1;
}

async function main([first, ...rest]) {
  const [page, ...words] = first.startsWith('--') ? rest : [first, ...rest];
  const parts = partsOf(page);
  if (first === '--least') {
    writeFileSync(words[0], withMemory(parts.module, 0)[1]);
    return 0;
  }
  const files = filesIn('.');
  if (first === '--memory') return tryMemory(parts, { words, files });
  files.push(['-', new Uint8Array(readFileSync(0))]);
  const answer = await answerTo(parts.worker, { module: parts.module, words, files });
  if (!answer.fault) return leave(answer);
  console.error(answer.fault);
  return 125;
}

if (process.argv[1] === new URL(import.meta.url).pathname) main(process.argv.slice(2)).then(status => process.exit(status));
