// Calls ember_mesh_command of a module. include/ember.h has the structs; a pointer and a size have 8 bytes in either kind of memory.

const ABI = 1;
const NO_MEMORY = 12;
const SIZE = { bytes: 16, file: 32, answer: 64 };
const utf8 = new TextEncoder();
const text = new TextDecoder();

class OutOfMemory extends Error {}

// Puts bytes into the module's memory, and returns where they are. Nothing is freed: an instance serves one call.
function put(exports, bytes) {
  const at = Number(exports.malloc(BigInt(bytes.length || 1)));
  if (!at) throw new OutOfMemory();
  new Uint8Array(exports.memory.buffer).set(bytes, at);
  return at;
}

// Puts a table of pointers and sizes, one for each of these bytes.
function putTable(exports, list) {
  const table = new Uint8Array(SIZE.bytes * list.length);
  const view = new DataView(table.buffer);
  list.forEach((bytes, i) => {
    view.setBigUint64(SIZE.bytes * i, BigInt(put(exports, bytes)), true);
    view.setBigUint64(SIZE.bytes * i + 8, BigInt(bytes.length), true);
  });
  return put(exports, table);
}

function wordAt(exports, at) {
  return Number(new DataView(exports.memory.buffer).getBigUint64(at, true));
}

// A copy of the bytes to which the pointer and the size at this place lead.
function blockAt(exports, at) {
  return new Uint8Array(exports.memory.buffer, wordAt(exports, at), wordAt(exports, at + 8)).slice();
}

function answerAt(exports, at) {
  const first = wordAt(exports, at + 48), count = wordAt(exports, at + 56);
  return {
    status: new DataView(exports.memory.buffer).getUint32(at, true),
    out: blockAt(exports, at + 16),
    err: blockAt(exports, at + 32),
    files: Array.from({ length: count }, (_, i) => {
      const named = first + SIZE.file * i;
      return [text.decode(blockAt(exports, named)), blockAt(exports, named + SIZE.bytes)];
    }),
  };
}

// What `ember-mesh WORDS..` leaves in a folder with these files, each a name and bytes: its status, what it writes to standard output
// and to standard error, and the files that it writes.
function command(exports, words, files) {
  if (exports.ember_abi() !== ABI) throw new Error(`the module has interface ${exports.ember_abi()}, and not ${ABI}`);
  const wordsAt = putTable(exports, words.map(word => utf8.encode(word)));
  const filesAt = putTable(exports, files.flatMap(([name, bytes]) => [utf8.encode(name), bytes]));
  const answer = put(exports, new Uint8Array(SIZE.answer));
  exports.ember_mesh_command(BigInt(wordsAt), BigInt(words.length), BigInt(filesAt), BigInt(files.length), BigInt(answer));
  return answerAt(exports, answer);
}
