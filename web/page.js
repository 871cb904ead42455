// What the user does, and what the page shows of it.

const chosen = name => find('form').elements[name].value;
let running = null;
let viewing = null;
let saved = [];

// ---- the operation, the step and the format
function showExpression() {
  if (chosen('operation') !== 'expression') find('expression').value = expressionOf(chosen('operation'), files.length);
  find('compute').disabled = !files.length || Boolean(running);
}

function showNumber() {
  find('number').hidden = chosen('step') !== 'number';
}

function chosenStep() {
  return chosen('step') === 'number' ? find('number').value.trim() : chosen('step');
}

// ---- files
async function take(list) {
  find('refused').textContent = '';
  find('refused').textContent = (await addFiles(list)).join('\n');
}

const hasFiles = event => event.dataTransfer && [...event.dataTransfer.types].includes('Files');

function listenForFiles() {
  const drop = find('drop');
  find('pick').onchange = async event => {
    await take([...event.target.files]);
    event.target.value = '';
  };
  document.ondragover = event => {
    if (!hasFiles(event)) return;
    event.preventDefault();
    drop.classList.add('over');
  };
  document.ondragleave = event => { if (!event.relatedTarget) drop.classList.remove('over'); };
  document.ondrop = event => {
    if (!hasFiles(event)) return undefined;
    event.preventDefault();
    drop.classList.remove('over');
    return take([...event.dataTransfer.files]);
  };
}

// ---- the answer
function showState(words, isFault = false) {
  find('state').textContent = words;
  find('state').classList.toggle('fault', isFault);
}

function clearAnswer() {
  viewing?.stop();
  saved.forEach(url => URL.revokeObjectURL(url));
  saved = [];
  find('lines').textContent = '';
  find('result').hidden = find('save-view').hidden = find('view').hidden = true;
  find('view').removeAttribute('srcdoc');
}

function showLink(link, name, bytes) {
  const url = URL.createObjectURL(new Blob([bytes]));
  saved.push(url);
  Object.assign(link, { href: url, download: name });
}

// Makes the panel of the view small, so that it leaves room for the mesh in the frame. The report has the counts.
const SMALL = `<style>
#name, #counts { display: none }
#panel { left: 8px; top: 8px; padding: 4px 10px }
@media (max-width: 30em) { #panel p + p { display: none } }
</style></head>`;

function showView(name, bytes) {
  showLink(find('save-view'), name, bytes);
  find('view').srcdoc = text.decode(bytes).replace('</head>', SMALL);
  find('save-view').hidden = find('view').hidden = false;
}

// Makes the view after the result, so that the result can be saved sooner.
async function makeView(call, bytes) {
  viewing = begin(['view', '-o', call.view, call.result], [[call.result, bytes]]);
  find('view-state').textContent = 'Making the view';
  const answer = await viewing.answer;
  find('view-state').textContent = answer.status ? text.decode(answer.err).trim() : answer.fault ?? '';
  if (answer.status === 0) showView(...answer.files[0]);
}

function showResult(answer, call) {
  const written = new Map(answer.files), bytes = written.get(call.result), view = written.get(call.view);
  showLink(find('save'), call.result, bytes);
  find('save').textContent = `Save ${call.result} (${sizeText(bytes.length)})`;
  find('result').hidden = false;
  if (view) showView(call.view, view);
  else makeView(call, bytes);
}

function showFault(words) {
  showState(`${words}. Please report it, with the files.`, true);
}

function showAnswer(answer, call) {
  if (answer.stopped) return showState('Stopped.');
  if (answer.fault) return showFault(answer.fault);
  find('lines').textContent = text.decode(answer.err).trim();
  if (answer.status) return showState(`Refused, with status ${answer.status}:`, true);
  showState(`Done in ${answer.seconds.toFixed(2)} s.`);
  return showResult(answer, call);
}

// ---- computing
function setRunning(call) {
  running = call;
  find('choices').disabled = Boolean(call);
  find('stop').disabled = !call;
  showExpression();
}

async function compute() {
  const call = callFor(
    { expression: find('expression').value, step: chosenStep(), format: chosen('format') },
    files.map(({ name, bytes }) => [name, bytes]),
  );
  const began = performance.now();
  clearAnswer();
  showState('Computing');
  const timer = setInterval(() => { find('time').textContent = `${((performance.now() - began) / 1000).toFixed(1)} s`; }, 500);
  setRunning(begin(call.words, call.files));
  const answer = await running.answer;
  clearInterval(timer);
  find('time').textContent = '';
  setRunning(null);
  showAnswer(answer, call);
}

function listen() {
  const form = find('form');
  form.onsubmit = event => {
    event.preventDefault();
    if (files.length && !running) compute();
  };
  form.elements.operation.onchange = showExpression;
  form.elements.step.onchange = showNumber;
  find('expression').oninput = () => { form.elements.operation.value = 'expression'; };
  find('stop').onclick = () => running?.stop();
  window.onunhandledrejection = event => showFault(`It stopped: ${event.reason.message}`);
  onListChange = showExpression;
  listenForFiles();
  // Some browsers restore the form when the page is loaded again.
  showNumber();
  showExpression();
}

find('licences').ontoggle = async () => { find('licence-text').textContent ||= text.decode(await unpack('packed-licences')); };

if (isAbleToRun()) {
  listen();
  find('unable').remove();
  find('form').hidden = false;
}
