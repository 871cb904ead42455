// Tries the C parts of the page's module: node page_parts.mjs PARTS SEED. Prints what is wrong, and last how much was tried.
//
// - Arithmetic of 128 bits, against whole numbers of JavaScript: random pairs with few and many bits, and runs of ones.
// - The heap: blocks of random sizes, which are filled, resized and freed. They are aligned, lie apart, and keep their bytes; and where memory
//   ends, or a size is absurd, a request is refused and nothing else changes.
import { readFileSync } from 'node:fs';

const [path, seed] = process.argv.slice(2);
const { instance } = await WebAssembly.instantiate(readFileSync(path), {});
const parts = instance.exports;
const view = () => new DataView(parts.memory.buffer);
const PAIRS = 300000, STEPS = 30000, LINE = 16;
let faults = 0, state = BigInt(seed);

function fault(...words) {
  if (faults++ < 20) console.log(...words);
}

// A generator of 64 bits (xorshift), so that a seed repeats a run.
function random64() {
  state ^= BigInt.asUintN(64, state << 13n);
  state ^= state >> 7n;
  state ^= BigInt.asUintN(64, state << 17n);
  return state;
}
const below = count => Number(random64() % BigInt(count));

// ---- arithmetic
function random128() {
  const bits = BigInt(below(129)), all = (random64() << 64n) | random64();
  const kinds = [all, (1n << bits) - 1n, 1n << bits, ((1n << 128n) - 1n) << bits, all & (all >> 3n)];
  return BigInt.asUintN(128, kinds[below(kinds.length)]) >> BigInt(below(128));
}

const ROOM = 512n;
const halves = it => [BigInt.asUintN(64, it), BigInt.asUintN(64, it >> 64n)];
const result = () => view().getBigUint64(Number(ROOM), true) | (view().getBigUint64(Number(ROOM) + 8, true) << 64n);

const signed = it => BigInt.asIntN(128, it);
const wanted = {
  __udivti3: (a, b) => b && a / b,
  __umodti3: (a, b) => b && a % b,
  __divti3: (a, b) => b && signed(a) / signed(b),
  __modti3: (a, b) => b && signed(a) % signed(b),
  __multi3: (a, b) => a * b,
};
const shifted = {
  __ashlti3: (a, count) => a << BigInt(count),
  __lshrti3: (a, count) => a >> BigInt(count),
  __ashrti3: (a, count) => signed(a) >> BigInt(count),
};

function compare(name, right, a, b, words) {
  parts[name](ROOM, ...halves(a), ...words);
  if (result() !== BigInt.asUintN(128, right)) fault(`${name}(${a}, ${b}) is ${result()}, and should be ${right}`);
}

function tryArithmetic() {
  for (let i = 0; i < PAIRS; i++) {
    const a = random128(), b = random128(), count = below(128);
    for (const [name, right] of Object.entries(wanted)) if (b) compare(name, right(a, b), a, b, halves(b));
    for (const [name, right] of Object.entries(shifted)) compare(name, right(a, count), a, count, [count]);
  }
  console.log(`arithmetic: ${PAIRS} pairs, ${faults} faults`);
}

// ---- the heap
const blocks = [];

function fill(block) {
  new Uint8Array(parts.memory.buffer, block.at, block.size).fill(block.mark);
}

// Whether these bytes are all its mark: the first is, and each is the one before it.
function isFilled(block, size) {
  const bytes = Buffer.from(parts.memory.buffer, block.at, size);
  return !size || (bytes[0] === block.mark && bytes.subarray(1).equals(bytes.subarray(0, size - 1)));
}

function check(block) {
  if (block.at % LINE) fault(`a block of ${block.size} bytes at ${block.at}`);
  if (!isFilled(block, block.size)) fault(`a block of ${block.size} bytes at ${block.at} was overwritten`);
}

const randomSize = () => below(2 ** below(18)) + (below(50) ? 0 : 2 ** 16 * below(8));

// A pointer that is returned beside a word that says whether it is one.
function got(name, ...words) {
  parts[name](ROOM, ...words);
  return view().getBigUint64(Number(ROOM), true) ? Number(view().getBigUint64(Number(ROOM) + 8, true)) : 0;
}

function step(i) {
  const kind = below(3);
  if (kind === 0 || !blocks.length) {
    const size = randomSize(), block = { at: got('rattle_alloc', BigInt(size), 1n), size, mark: i % 251 };
    if (!block.at) return fault(`no block of ${size} bytes`);
    fill(block);
    return blocks.push(block);
  }
  const place = below(blocks.length), block = blocks[place];
  check(block);
  if (kind === 1) {
    parts.rattle_dealloc(BigInt(block.at));
    return blocks.splice(place, 1);
  }
  const size = randomSize(), at = got('rattle_realloc', BigInt(block.at), BigInt(block.size), BigInt(size), 1n);
  if (!isFilled({ at, mark: block.mark }, Math.min(size, block.size))) fault(`a block of ${block.size} bytes lost some when it became one of ${size}`);
  return fill(Object.assign(block, { at, size }));
}

function tryRefusals() {
  const before = parts.memory.buffer.byteLength;
  for (const size of [2n ** 32n, 2n ** 40n, 2n ** 40n + 1n, 2n ** 63n, 2n ** 64n - 1n])
    if (got('rattle_alloc', size, 1n) || parts.malloc(size)) fault(`a block of ${size} bytes in a memory of 4 GB`);
  if (parts.memory.buffer.byteLength !== before) fault('a refused request took memory');
  const large = [];
  for (let at; (at = Number(parts.malloc(2n ** 28n))); ) large.push(at);
  if (large.length > 16 || large.length < 8) fault(`${large.length} blocks of 2^28 bytes`);
  large.forEach(at => parts.free(BigInt(at)));
  if (!Number(parts.malloc(2n ** 28n))) fault('a freed block is not given again');
}

function tryHeap() {
  for (let i = 0; i < STEPS; i++) step(i);
  tryRefusals();
  blocks.forEach(check);
  const taken = blocks.map(it => [it.at, it.at + it.size]).sort((a, b) => a[0] - b[0]);
  taken.forEach(([at], i) => { if (i && at < taken[i - 1][1]) fault(`blocks at ${taken[i - 1][0]} and ${at} overlap`); });
  console.log(`heap: ${STEPS} steps, ${blocks.length} blocks left, ${faults} faults in all`);
}

tryArithmetic();
tryHeap();
process.exit(faults ? 1 : 0);
