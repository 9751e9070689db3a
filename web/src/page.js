// The page: one bench, drawn anew after every call.
import { byId, el, fill, saveFile, copyText, bytesOfFile, chosen, sayWrong } from './dom.js';
import { hexOf, counted } from './bytes.js';
import { openLibrary, isWellFormed, partLines, save, restore, PACKETS_MOST, SEEPROM_MOST, PART_MOST } from './library.js';
import {
  newBench, carryOut, carryLine, benchOf, keptText, hasSomething, losesByWatch, imagesAround, numbersOf, pointOf, reportLines, reportTrace, playTrace, traceLines,
  readKept, imageLine, occOrder, prepare, putAway, planOrder, askedPlan, sendPlan,
} from './bench.js';
import { heardLine, savedLine } from './lines.js';
import { answerWords } from './words.js';
import { readTrace } from './trace.js';
import { orderTitle, packetTitle } from './fields.js';
import { BRING_UP, preparedBy, readNumber } from './commands.js';
import { keepCalls, keptCalls, keepTyped, keptTyped } from './keep.js';
import { showCall, outcome } from './call-view.js';
import { showSession, showStacks } from './session-view.js';
import { showChart, showLegend } from './chart.js';
import { showPlan } from './plan-view.js';
import {
  fillCommands, showFields, formOrder, showPreview, focusWrong, showWay, showPart, checkFree, freeOrder, freePacket, editAsFree, lineOrders,
} from './bench-view.js';

const LIST_MOST = 300;
const REPORT_MOST = 600;
const TRACE_MOST = 20000; // entries; more would fill what the browser keeps

const app = { library: null, bench: null, around: null, seen: null, typed: {}, parted: { first: null, second: null } };

function notice(words) {
  byId('notice').hidden = !words;
  byId('notice').textContent = words ?? '';
}

// ---- what is drawn

// The call that is looked at: the last one, or an earlier one that was chosen in the list.
const seenIndex = () => app.seen ?? app.bench.items.length - 1;

function seenImages() {
  const { bench } = app;
  if (bench.items.length === 0) return { before: null, after: bench.image };
  if (app.seen !== null) return imagesAround(bench, app.seen);
  app.around ??= imagesAround(bench, bench.items.length - 1);
  return app.around;
}

function lookedBack(number) {
  if (app.seen === null) return [];
  const back = el('button', { type: 'button', class: 'link', id: 'to-now', onclick: () => look(null) }, 'Back to the last call');
  return [el('p', { class: 'quiet' }, `The session as it stood after call ${number}. `, back)];
}

function drawSession(number) {
  const { before, after } = seenImages();
  showSession(byId('session-body'), after, before, isWellFormed(app.library, after), lookedBack(number));
}

function chartPoints() {
  const { bench } = app;
  const moved = ({ order, heard }) => ((order.name === 'undo' || order.name === 'redo') && heard.answer === 0 ? order.name : null);
  return [pointOf(bench.first), ...bench.items.filter((item) => item.heard).map((item) => ({ ...item.point, moved: moved(item) }))];
}

function drawChart(number) {
  const points = chartPoints();
  showLegend(byId('legend'), points.at(-1));
  showChart(byId('chart'), points, app.seen === null ? null : number);
}

function listItem(item, index, number) {
  const { words, good } = outcome(item);
  return el('li', {}, el('button', { type: 'button', 'aria-current': index === seenIndex() ? 'true' : null, onclick: () => look(index) },
    el('span', { class: 'number' }, number === null ? '–' : String(number)),
    el('span', { class: 'what' }, el('span', {}, orderTitle(item.order)), el('span', { class: `tag ${good ? 'good' : 'bad'}` }, words))));
}

function drawList(numbers) {
  const { items } = app.bench;
  const from = Math.max(0, items.length - LIST_MOST);
  const shown = items.slice(from).map((item, at) => listItem(item, from + at, numbers[from + at])).reverse();
  const older = from > 0 ? [el('li', { class: 'quiet' }, `and ${counted(from)} older; the lines have all`)] : [];
  fill(byId('call-list'), shown.length ? [...shown, ...older] : el('li', { class: 'quiet' }, 'none'));
}

function traceWords({ bytes, entries, of, bar }) {
  if (!bar) return `${counted(entries)} entries, ${counted(bytes.length)} bytes.`;
  if (entries === 0) return `None: ${bar}.`;
  return `Only the first ${counted(entries)} of ${counted(of)} can stand in a trace: ${bar}.`;
}

function drawReport() {
  const lines = reportLines(app.bench, byId('with-answers').checked);
  const more = lines.length > REPORT_MOST ? [`… ${counted(lines.length - REPORT_MOST)} more lines; copying takes all`] : [];
  byId('report').textContent = [...lines.slice(0, REPORT_MOST), ...more].join('\n') || '# no call yet';
  const trace = reportTrace(app.bench);
  byId('trace-said').textContent = traceWords(trace);
  for (const id of ['copy-trace', 'save-trace']) byId(id).disabled = trace.entries === 0;
}

function drawFiles() {
  const { bench } = app;
  byId('trace-lines').hidden = !bench.trace;
  byId('trace-lines').textContent = bench.trace ? traceLines(bench).join('\n') : '';
  byId('loaded-said').textContent = bench.loaded ?? '';
  byId('seeprom-said').textContent = bench.seeprom.length ? `${counted(bench.seeprom.length)} bytes are lent.` : 'None is lent, that is, an empty one.';
}

function sayHeard(words, good) {
  byId('heard').className = `heard ${good ? 'good' : 'bad'}`;
  byId('heard').textContent = words;
}

function drawHeard(item, number) {
  const { words, good } = item ? outcome(item) : { words: '', good: true };
  sayHeard(item ? `${number ? `Call ${number}, ` : ''}${orderTitle(item.order)}: ${words}` : '', good);
}

function draw() {
  const { items } = app.bench;
  const numbers = numbersOf(items);
  const index = seenIndex();
  byId('call-name').textContent = app.seen === null ? 'Last call' : 'An earlier call';
  showCall(byId('call-body'), items[index], numbers[index]);
  drawHeard(items.at(-1), numbers.at(-1));
  drawSession(numbers[index]);
  showStacks(app.bench.image);
  drawChart(numbers[index]);
  drawList(numbers);
  drawReport();
  drawFiles();
  showPlan(app.bench, removePacket);
  showPreview(app.bench);
  byId('bring-up').className = items.length ? '' : 'main';
}

function look(index) {
  app.seen = index === app.bench.items.length - 1 ? null : index;
  draw();
  // The list was drawn anew, and with it what had the focus.
  byId('call-list').querySelector('[aria-current=true]')?.focus({ preventScroll: true });
  byId('call').scrollIntoView({ block: 'nearest' });
}

// ---- what is done

function keep() {
  const kept = keepCalls(keptText(app.bench));
  notice(kept ? null : 'Your browser doesn’t keep these calls: copy the lines before you close the page.');
}

function done() {
  app.seen = null;
  sayFull(false);
  keep();
  draw();
}

function carry(order) {
  const before = app.bench.image;
  carryOut(app.bench, order);
  app.around = { before, after: app.bench.image };
  done();
}

function begin(bench) {
  byId('line-answers').hidden = true;
  app.bench = bench;
  app.around = null;
  done();
}

function ask(words, yes) {
  const dialog = byId('ask');
  byId('ask-words').textContent = words;
  byId('ask-yes').textContent = yes;
  dialog.returnValue = 'no';
  dialog.showModal();
  return new Promise((settle) => {
    dialog.addEventListener('close', () => settle(dialog.returnValue === 'yes'), { once: true });
  });
}

async function mayBegin(what) {
  const count = app.bench.items.length;
  if (!hasSomething(app.bench)) return true;
  const calls = count ? `, with ${counted(count)} ${count === 1 ? 'call' : 'calls'},` : '';
  return ask(`${what} The session here${calls} is lost then, unless you saved it.`, 'Begin anew');
}

async function mayWatch() {
  if (!losesByWatch(app.bench)) return true;
  const lost = 'What could be undone and redone is lost then, and no undo leads back; an image that you save first does.';
  return ask(`A watch-only session opens over this one. ${lost}`, 'Open watch-only');
}

// What is prepared for a plan is the bench's, and stays.
const anew = (start) => Object.assign(newBench(app.library, start), { packets: app.bench.packets });

async function fresh() {
  if (await mayBegin('A fresh session begins.')) begin(anew());
}

async function watch() {
  if (await mayWatch()) carry({ name: 'watch' });
}

function bringUp() {
  for (const [id, values] of BRING_UP) {
    const prepared = preparedBy(id);
    carryOut(app.bench, occOrder(app.bench, 0x10, prepared.type, prepared.data(values)));
  }
  app.around = null;
  done();
}

function sendPrepared(event) {
  event.preventDefault();
  const order = formOrder(app.bench);
  if (order) carry(order);
  else focusWrong(byId('prepared'));
}

function sendFree(event) {
  event.preventDefault();
  const order = freeOrder();
  if (order) carry(order);
  else focusWrong(byId('free'));
}

// ---- a plan

function addPacket(order, form) {
  const full = app.bench.packets.length === PACKETS_MOST;
  if (!order) return focusWrong(form);
  if (full) return sayFull(true);
  prepare(app.bench, order);
  done();
  sayHeard(`Packet ${app.bench.packets.length} of the plan: ${packetTitle(order.bytes)}`, true);
}

function sayFull(full) {
  byId('add-wrong').hidden = !full;
  byId('add-wrong').textContent = full ? `${PACKETS_MOST} packets are prepared, one more than a plan takes: remove one first.` : '';
}

// The list was drawn anew; the focus stays in it, at what took the place of what went.
function removePacket(at) {
  putAway(app.bench, at);
  done();
  const buttons = byId('packets').querySelectorAll('button');
  (buttons[Math.min(at, buttons.length - 1)] ?? byId('plan-number')).focus();
}

function askPlan(event) {
  event.preventDefault();
  carry(planOrder(app.bench, byId('plan-number').value));
}

function sendFound() {
  const item = askedPlan(app.bench);
  const sent = sendPlan(app.bench, item);
  app.around = null;
  done();
  const refused = `Packet ${item.heard.found[sent - 1]} wasn’t accepted; those after it weren’t sent.`;
  byId('ask-plan').focus();
  if (sent < item.heard.found.length) byId('plan-said').append(el('p', { class: 'wrong' }, refused));
}

function dropPackets() {
  app.bench.packets = [];
  done();
  byId('plan-number').focus();
}

// ---- lines

function restoreLine({ bytes }) {
  const { answer, image } = restore(app.library, bytes);
  if (answer === 0) app.bench = anew(image);
  return String(answer);
}

const answerText = (item) => (item?.heard ? heardLine(item.order, item.heard) : 'ok');

// The answer to a line. `fresh`, `load` and `restore` begin anew, and the calls before them aren't kept.
function runLine(order) {
  if (order.name === 'save') return savedLine(save(app.library, app.bench.image));
  if (order.name === 'restore') return restoreLine(order);
  if (order.name !== 'fresh' && order.name !== 'load') {
    return answerText(carryLine(app.bench, order.name === 'send' ? occOrder(app.bench, order.sender, order.type, order.data) : order));
  }
  app.bench = anew(order.bytes);
  return 'ok';
}

// Lines ask for what they would lose of the session that is here.
async function mayRun(orders) {
  const names = orders.map(({ name }) => name);
  if (['fresh', 'load', 'restore'].some((name) => names.includes(name))) return mayBegin('The lines begin anew.');
  return names.includes('watch') ? mayWatch() : true;
}

async function sendLines(event) {
  event.preventDefault();
  const orders = lineOrders(app.bench.packets);
  if (!orders?.length || !(await mayRun(orders))) return;
  const answers = orders.map(runLine);
  app.around = null;
  byId('line-answers').hidden = false;
  byId('line-answers').textContent = answers.join('\n');
  done();
}

// A form with one number.
function sendNumber(event, name, most) {
  event.preventDefault();
  const input = byId(`${name}-number`);
  const read = readNumber(input.value, most);
  sayWrong(input, byId(`${name}-wrong`), ...(read.wrong ? [read.wrong] : []));
  if (read.wrong) input.focus();
  else carry({ name, number: read.value });
}

// ---- files

async function playFile(bytes, name) {
  const read = readTrace(bytes);
  partFrom('first', bytes, name);
  if (read.orders.length > TRACE_MOST) notice(`The trace has ${counted(read.orders.length)} entries; this page plays ${counted(TRACE_MOST)} at most.`);
  else if (await mayBegin('The trace plays on a fresh session.')) begin(playTrace(app.library, read, app.bench.packets));
}

// ---- where two traces part

const partName = (which) => (app.parted[which] ? `${app.parted[which].name}, ${counted(app.parted[which].bytes.length)} bytes` : 'none yet');

function drawParted() {
  const { first, second } = app.parted;
  byId('part-said').textContent = first || second ? `First: ${partName('first')}. Second: ${partName('second')}.` : '';
  byId('part-lines').hidden = !first || !second;
  byId('part-lines').textContent = first && second ? partLines(app.library, first.bytes, second.bytes).join('\n') : '';
}

function partFrom(which, bytes, name) {
  const long = bytes.length > PART_MOST;
  sayWrong(byId(`part-${which}`), byId('part-wrong'), ...(long ? [`${name} has ${counted(bytes.length)} bytes; ${counted(PART_MOST)} are taken at most.`] : []));
  app.parted[which] = long ? null : { bytes, name };
  drawParted();
}

async function loadSession(bytes) {
  const read = readKept(app.library, bytes);
  sayWrong(byId('image-file'), byId('image-wrong'), ...(read.wrong ? [read.wrong] : []));
  if (read.wrong || !(await mayBegin('Another session is loaded.'))) return;
  begin(Object.assign(anew(read.image), { loaded: read.words }));
}

// A session that isn't well formed has no save; its image holds all.
function saveSession(button) {
  const { answer, bytes } = save(app.library, app.bench.image);
  sayWrong(button, byId('save-wrong'), ...(answer === 0 ? [] : [`Answer ${answerWords(answer)}. Its image can be saved.`]));
  if (answer === 0) saveFile('bjargolsk.save', bytes);
}

const lendSeeprom = (bytes) => carry({ name: 'seeprom', bytes: bytes.slice(0, SEEPROM_MOST) });

function onFile(id, take) {
  byId(id).addEventListener('change', async ({ target }) => {
    if (target.files.length) await take(await bytesOfFile(target.files[0]), target.files[0].name);
    target.value = '';
  });
}

async function copy(button, text) {
  const words = button.textContent;
  button.textContent = (await copyText(text)) ? 'Copied' : 'The browser didn’t copy';
  setTimeout(() => { button.textContent = words; }, 1500);
}

const onClick = (id, act) => byId(id).addEventListener('click', ({ currentTarget }) => act(currentTarget));

function wireFiles() {
  onClick('copy-lines', (button) => copy(button, `${reportLines(app.bench, byId('with-answers').checked).join('\n')}\n`));
  onClick('copy-trace', (button) => copy(button, hexOf(reportTrace(app.bench).bytes, '')));
  onClick('save-trace', () => saveFile('bjargolsk.trace', reportTrace(app.bench).bytes));
  onClick('save-session', saveSession);
  onClick('save-image', () => saveFile('bjargolsk.image', app.bench.image));
  onClick('copy-image', (button) => copy(button, imageLine(app.bench.image)));
  byId('with-answers').addEventListener('change', drawReport);
  onFile('trace-file', playFile);
  onFile('part-first', (bytes, name) => partFrom('first', bytes, name));
  onFile('part-second', (bytes, name) => partFrom('second', bytes, name));
  onFile('image-file', loadSession);
  onFile('seeprom-file', lendSeeprom);
}

// ---- what was typed comes back after a reload

const keyOf = (input) => (input.type === 'radio' ? input.name : input.id);

function rememberTyped({ target }) {
  if (!keyOf(target) || target.type === 'file') return;
  app.typed[keyOf(target)] = target.type === 'checkbox' ? target.checked : target.value;
  keepTyped(app.typed);
}

function restoreTyped() {
  for (const input of document.querySelectorAll('main input:not([type=file]), main select, main textarea')) {
    const value = app.typed[keyOf(input)];
    if (value === undefined) continue;
    if (input.type === 'radio') input.checked = input.value === value;
    else if (input.type === 'checkbox') input.checked = value;
    else input.value = value;
  }
}

// ---- the beginning

function wireBench() {
  byId('prepared').addEventListener('submit', sendPrepared);
  byId('free').addEventListener('submit', sendFree);
  byId('lines').addEventListener('submit', sendLines);
  byId('plan-form').addEventListener('submit', askPlan);
  onClick('add-prepared', () => addPacket(formOrder(app.bench), byId('prepared')));
  onClick('add-free', () => addPacket(freePacket(), byId('free')));
  onClick('send-plan', sendFound);
  onClick('drop-packets', dropPackets);
  byId('forget-form').addEventListener('submit', (event) => sendNumber(event, 'forget', 0xffffffffn));
  byId('time-form').addEventListener('submit', (event) => sendNumber(event, 'time', 0xffffffffffffffffn));
  onClick('undo', () => carry({ name: 'undo' }));
  onClick('redo', () => carry({ name: 'redo' }));
  onClick('fresh', fresh);
  onClick('watch', watch);
  onClick('bring-up', bringUp);
  onClick('edit-bytes', () => {
    const order = formOrder(app.bench);
    if (order) editAsFree(order);
    else focusWrong(byId('prepared'));
  });
  byId('command').addEventListener('input', () => showFields(app.typed));
  byId('prepared').addEventListener('input', () => showPreview(app.bench));
  byId('free-bytes').addEventListener('input', checkFree);
  for (const input of document.querySelectorAll('input[name=way]')) input.addEventListener('change', () => showWay(chosen('way')));
  for (const input of document.querySelectorAll('input[name=part]')) input.addEventListener('change', showPart);
  document.addEventListener('input', rememberTyped);
}

function keptBench() {
  const text = keptCalls();
  try {
    return text ? benchOf(app.library, text) : newBench(app.library);
  } catch {
    notice('What the browser kept of your calls can’t be read; a fresh session began.');
    return newBench(app.library);
  }
}

const wasmBytes = () => Uint8Array.from(atob(byId('library').textContent.replace(/\s/g, '')), (letter) => letter.charCodeAt(0));

async function start() {
  app.library = await openLibrary(wasmBytes());
  app.typed = keptTyped();
  fillCommands();
  restoreTyped();
  showFields(app.typed);
  showWay(chosen('way'));
  showPart();
  app.bench = keptBench();
  wireBench();
  wireFiles();
  draw();
  new ResizeObserver(() => drawChart(numbersOf(app.bench.items)[seenIndex()])).observe(byId('chart'));
  document.documentElement.dataset.ready = 'yes';
}

start().catch((error) => notice(`This browser can’t run the page: ${error.message}`));
