// The list of files: their order, and what is known of each.

// Each has `name`, `bytes`, and `facts`: what `ember-mesh info` says of it, or `fault`: why it can't be read.
let files = [];
let onListChange = () => {};

function setFiles(list) {
  files = list;
  showList();
  onListChange();
}

function makeElement(kind, properties, ...inside) {
  const made = Object.assign(document.createElement(kind), properties);
  made.append(...inside);
  return made;
}

function makeButton(sign, title, act) {
  const made = makeElement('button', { type: 'button', title, onclick: act }, sign);
  made.setAttribute('aria-label', title);
  return made;
}

function moveFile(from, to) {
  setFiles(moved(files, from, to));
}

// Moves a file by a button, which keeps the focus.
function stepFile(from, to, button) {
  moveFile(from, to);
  const buttons = find('files').children[to].querySelectorAll('button');
  const same = buttons[button];
  (same.disabled ? buttons[1 - button] : same).focus();
}

function makeButtons(file, i) {
  const up = makeButton('↑', `Move ${file.name} up`, () => stepFile(i, i - 1, 0));
  const down = makeButton('↓', `Move ${file.name} down`, () => stepFile(i, i + 1, 1));
  const away = makeButton('×', `Take ${file.name} away`, () => {
    setFiles(files.filter(it => it !== file));
    (find('files').querySelector('button[title^=Take]') || find('pick')).focus();
  });
  up.disabled = i === 0;
  down.disabled = i === files.length - 1;
  return makeElement('span', { className: 'buttons' }, up, down, away);
}

let dragged = -1;

function makeDraggable(item, i) {
  item.draggable = true;
  item.ondragstart = event => {
    dragged = i;
    event.dataTransfer.effectAllowed = 'move';
    event.dataTransfer.setData('text/plain', files[i].name);
  };
  item.ondragend = () => { dragged = -1; };
  item.ondragover = event => {
    if (dragged < 0) return;
    event.preventDefault();
    item.classList.toggle('over', dragged !== i);
  };
  item.ondragleave = () => item.classList.remove('over');
  item.ondrop = event => {
    if (dragged < 0) return;
    event.preventDefault();
    event.stopPropagation();
    moveFile(dragged, i);
  };
}

function makeItem(file, i) {
  const told = file.fault ?? [...(file.facts ?? ['..']), sizeText(file.bytes.length)].join(', ');
  const item = makeElement(
    'li', {},
    makeElement('b', {}, `m${i + 1}`),
    makeElement('span', { className: 'file' }, makeElement('span', { className: 'name' }, file.name),
      makeElement('span', { className: file.fault ? 'fault' : 'facts' }, told)),
    makeButtons(file, i),
  );
  makeDraggable(item, i);
  return item;
}

function showList() {
  find('files').replaceChildren(...files.map(makeItem));
}

// ---- what is known of a file
let measured = Promise.resolve();

// Measures one file after the other, so that many files don't need the memory of many modules.
function measureLater(file) {
  measured = measured.then(() => files.includes(file) && measure(file));
}

async function measure(file) {
  const name = wordOf(file.name);
  const answer = await begin(['info', name], [[name, file.bytes]]).answer;
  if (answer.status === 0) file.facts = factsOf(JSON.parse(text.decode(answer.out)));
  else file.fault = answer.fault ?? text.decode(answer.err).trim();
  showList();
}

// Adds a file, and returns why it can't, or nothing.
async function addFile(chosen) {
  const why = refusalOf(chosen, files.map(file => file.name));
  if (why) return why;
  const bytes = await chosen.arrayBuffer().catch(() => null);
  if (!bytes) return `${chosen.name}: cannot be read`;
  const file = { name: chosen.name, bytes: new Uint8Array(bytes) };
  setFiles([...files, file]);
  measureLater(file);
  return '';
}

async function addInOrder(list) {
  const refused = [];
  for (const it of list) refused.push(await addFile(it));
  return refused.filter(Boolean);
}

let added = Promise.resolve();

// Adds these files, and returns why others of them can't be added. Files of a later drop wait: two of one name would be taken while the
// first is read.
function addFiles(list) {
  added = added.then(() => addInOrder(list));
  return added;
}
