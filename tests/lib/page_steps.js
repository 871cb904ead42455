// What tests do on the page, as a user would: each is called by tests/check_page in the browser.

const find = id => document.getElementById(id);

async function until(holds, what) {
  for (let i = 0; i < 2400; i++) {
    if (holds()) return;
    await new Promise(go => setTimeout(go, 50));
  }
  throw new Error(`waited for: ${what}`);
}

// The page makes an address for each result; this keeps what the address stands for, since no policy of the page lets a script read it.
function keepBlobs() {
  if (window.keptBlobs) return;
  window.keptBlobs = new Map();
  const make = URL.createObjectURL;
  URL.createObjectURL = blob => {
    const url = make.call(URL, blob);
    window.keptBlobs.set(url, blob);
    return url;
  };
}

const bytesOf = letters => Uint8Array.from(atob(letters), it => it.charCodeAt(0));
const itemTexts = () => [...find('files').children].map(it => it.innerText.replace(/\s+/g, ' '));

// Drops files, each a name and its bytes in base64, and waits until the page knows what is in them.
async function drop(files) {
  keepBlobs();
  const before = find('files').children.length, dropped = new DataTransfer();
  for (const [name, letters] of files) dropped.items.add(new File([bytesOf(letters)], name));
  const event = new DragEvent('drop', { bubbles: true, cancelable: true, dataTransfer: dropped });
  find('drop').dispatchEvent(event);
  await until(() => find('refused').textContent || find('files').children.length === before + files.length, 'the files');
  await until(() => itemTexts().every(it => !it.includes('..,')), 'what is in the files');
  return { items: itemTexts(), refused: find('refused').textContent };
}

function choose(id, value) {
  const field = find(id);
  field.value = value;
  field.dispatchEvent(new Event(field.tagName === 'SELECT' ? 'change' : 'input', { bubbles: true }));
}

async function letters(blob) {
  const bytes = new Uint8Array(await blob.arrayBuffer());
  let text = '';
  for (let at = 0; at < bytes.length; at += 32768) text += String.fromCharCode(...bytes.subarray(at, at + 32768));
  return btoa(text);
}

const told = () => ({ state: find('state').textContent, lines: find('lines').textContent, hasResult: !find('result').hidden });

// Presses Compute, waits for the answer, and returns what the page shows of it; `bytes` is what Save saves, in base64.
async function compute() {
  const began = performance.now();
  find('compute').click();
  await until(() => !find('compute').disabled, 'the answer');
  const seconds = (performance.now() - began) / 1000;
  if (!told().hasResult) return { ...told(), seconds };
  const save = find('save');
  return { ...told(), seconds, name: save.download, bytes: await letters(window.keptBlobs.get(save.href)) };
}

async function stopSoon() {
  find('compute').click();
  await new Promise(go => setTimeout(go, 300));
  const wasRunning = !find('stop').disabled;
  find('stop').click();
  await until(() => !find('compute').disabled, 'the end');
  return { ...told(), wasRunning };
}

// Drags the item at one place of the list onto that at another.
function drag(from, to) {
  const items = find('files').children, held = new DataTransfer();
  for (const [it, kind] of [[items[from], 'dragstart'], [items[to], 'dragover'], [items[to], 'drop'], [items[from], 'dragend']])
    it.dispatchEvent(new DragEvent(kind, { bubbles: true, cancelable: true, dataTransfer: held }));
  return itemTexts();
}

function press(title) {
  [...document.querySelectorAll('#files button')].find(it => it.title === title).click();
  return itemTexts();
}
