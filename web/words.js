// What the user chose, as words of ember-mesh.

const JOINED_BY = { union: '|', difference: '&!', intersection: '&' };
const MOST_BYTES = 2 ** 28;

// The expression of an operation over this many meshes.
function expressionOf(operation, count) {
  return Array.from({ length: count }, (_, i) => `m${i + 1}`).join(JOINED_BY[operation]);
}

// A word that names this file. Without ./ a name that begins with a hyphen would be an option, or standard input.
const wordOf = name => (name.startsWith('-') ? `./${name}` : name);

// A name with this ending that none of these files has.
function freeName(ending, names) {
  for (let i = 1; ; i++) {
    const name = `result${i > 1 ? `-${i}` : ''}.${ending}`;
    if (!names.includes(name)) return name;
  }
}

// The call for these files, each a name and bytes: its words and files, and the names of the result and of its view. The view of a GLB is
// made by the same call. Any other is made later, so that the result doesn't wait for it.
function callFor({ expression, step, format }, files) {
  const names = files.map(([name]) => wordOf(name));
  const result = freeName(format, names), view = freeName('html', names), looks = format === 'glb' ? ['--view', view] : [];
  const words = ['bool', `--expr=${expression}`, `--step=${step}`, '-o', result, ...looks, ...names];
  return { words, files: files.map(([, bytes], i) => [names[i], bytes]), result, view };
}

// Why a file can't join these, or nothing.
function refusalOf(file, names) {
  if (names.includes(file.name)) return `${file.name}: there is a file of this name already; rename one of the two`;
  if (file.size > MOST_BYTES) return `${file.name}: more than ${MOST_BYTES} bytes; simplify the mesh`;
  return '';
}

// The list with the item at one place moved to another.
function moved(list, from, to) {
  const rest = list.filter((_, i) => i !== from);
  return [...rest.slice(0, to), list[from], ...rest.slice(to)];
}

const counted = (count, unit) => `${count.toLocaleString('en')} ${unit}${count === 1 ? '' : 's'}`;

const toThreeDigits = value => value.toLocaleString('en', { minimumSignificantDigits: 3, maximumSignificantDigits: 3 });

function sizeText(bytes) {
  if (bytes < 1000) return counted(bytes, 'byte');
  return bytes < 1e6 ? `${toThreeDigits(bytes / 1e3)} kB` : `${toThreeDigits(bytes / 1e6)} MB`;
}

// What `ember-mesh info` says of a mesh, in short.
function factsOf(info) {
  const side = i => String(Number((info.to[i] - info.from[i]).toPrecision(6)));
  const facts = [counted(info.triangles, 'triangle')];
  if (info.from && info.to) facts.push([0, 1, 2].map(side).join(' × '));
  if (info['loose edges']) facts.push(counted(info['loose edges'], 'loose edge'));
  return facts;
}
