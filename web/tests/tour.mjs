// The tour of the built page in headless Chromium. usage: tour.mjs TOP BUILT.html; SHOTS=FOLDER keeps pictures.
import fs from 'node:fs';
import os from 'node:os';
import path from 'node:path';
import { pathToFileURL } from 'node:url';
import { openBrowser, run, devtools, click, type, choose, press, focused, textOf, picture, look } from './browser.mjs';
import { VERSION } from '../src/library.js';

const [top, built] = process.argv.slice(2);
const shots = process.env.SHOTS;
const browser = await openBrowser();
let steps = 0;
const TRIES = 400; // a machine that does other things too gets ten seconds
const soon = () => new Promise((settle) => { setTimeout(settle, 25); });

function hold(right, words) {
  if (!right) throw new Error(words);
  steps++;
}

// A question that was answered is acted on a moment later, so the text gets a while to come.
async function holdText(selector, wanted) {
  const right = (text) => text !== null && text.includes(wanted);
  let text = await textOf(browser, selector);
  for (let tries = 0; tries < TRIES && !right(text); tries++) {
    await soon();
    text = await textOf(browser, selector);
  }
  hold(right(text), `${selector} says “${text}”, wanted is “${wanted}”`);
}

const ready = async () => {
  for (let tries = 0; tries < TRIES; tries++) {
    if (await run(browser, 'return document.documentElement.dataset.ready === "yes"')) return;
    await soon();
  }
  throw new Error(`the page isn't ready: ${await textOf(browser, '#notice')}`);
};

const opened = async () => {
  await browser.at('POST', '/url', { url: pathToFileURL(built).href });
  await ready();
};

const isAsking = () => run(browser, 'return document.getElementById("ask").open');

// A question may come a moment later, as after a file was read.
const sayYes = async () => {
  for (let tries = 0; tries < TRIES && !(await isAsking()); tries++) await soon();
  await click(browser, '#ask-yes');
};

const choosePrepared = (id) => run(browser, `const one = document.getElementById('command'); one.value = arguments[0];
  one.dispatchEvent(new Event('input', { bubbles: true })); one.dispatchEvent(new Event('change', { bubbles: true }))`, id);

const shot = async (name) => {
  if (!shots) return;
  fs.mkdirSync(shots, { recursive: true });
  await picture(browser, path.join(shots, `${name}.png`));
};

// Every error that the page throws or logs fails the tour.
const watchErrors = () => run(browser, `window.thrown = []; addEventListener('error', (event) => window.thrown.push(event.message));
  addEventListener('unhandledrejection', (event) => window.thrown.push(String(event.reason)))`);
const holdNoErrors = async () => hold((await run(browser, 'return window.thrown ?? []')).length === 0, `the page threw: ${await run(browser, 'return window.thrown')}`);

async function bringUp() {
  await opened();
  await watchErrors();
  await holdText('#is-limit', '0 W');
  await click(browser, '#bring-up');
  await holdText('#is-state', '3 active');
  await holdText('#is-limit', '1,500 W');
  await holdText('#is-role', 'master');
  await holdText('#verdict', 'status 00 success');
  hold((await run(browser, 'return document.querySelectorAll("#journal li").length')) === 6, 'the journal shows six entries');
}

async function capAndPoll() {
  await choosePrepared('user');
  await click(browser, 'input[name=sender][value="32"]');
  await type(browser, '#field-user-user', '1000');
  await click(browser, '#send-prepared');
  await holdText('#is-limit', '1,000 W');
  await holdText('#is-limit', 'changed; was 1,500 W');
  await holdText('#journal li', 'user cap → none');
  await choosePrepared('poll');
  await click(browser, '#send-prepared');
  await holdText('#call-body', 'cap in force: the limit');
  await holdText('#call-body', '1,000 W');
}

async function undoAndRedo() {
  await click(browser, '#undo');
  await holdText('#verdict', 'taken back: user cap');
  await holdText('#is-limit', '1,500 W');
  await holdText('#redo-store li', 'user cap → 1,000 W');
  await click(browser, '#redo');
  await holdText('#verdict', 'put in again: user cap');
  await holdText('#is-limit', '1,000 W');
  hold((await run(browser, 'return document.querySelectorAll("#chart .moved").length')) === 2, 'undo and redo are marked in the drawing');
  await click(browser, '#redo');
  await holdText('#verdict', 'answer 8: nothing to redo');
}

async function wrongPacket() {
  await choosePrepared('caps');
  await click(browser, 'input[name=sender][value="16"]');
  await type(browser, '#field-caps-minimum', '1600');
  await click(browser, '#send-prepared');
  await holdText('#verdict', 'status 13 invalid data');
  await holdText('#fault', 'Data byte 5, maximum: clash');
  const marked = await run(browser, 'return [...document.querySelectorAll("#call-body .bytes mark")].map((one) => one.innerText)');
  hold(marked.length === 1 && marked[0] === '05', `the first byte of the maximum is marked, not ${marked}`);
  await holdText('#is-limit', '1,000 W');
}

async function wrongTyped() {
  await type(browser, '#field-caps-minimum', '5x');
  await holdText('#field-caps-minimum-wrong', 'is no number');
  await type(browser, '#field-caps-minimum', '500');
  await click(browser, '#edit-bytes');
  await type(browser, '#free-bytes', '01 00 00 01 1G 00 12');
  await holdText('#free-wrong', 'Byte 5: “G” is no hex digit.');
  await holdText('#free-wrong mark', 'G');
  await click(browser, '#send-free');
  hold((await focused(browser)) === 'free-bytes', 'the focus is at the wrong bytes');
  await type(browser, '#free-bytes', '01 00 00 01 10 00 13');
  await click(browser, '#send-free');
  await holdText('#verdict', 'status 14 checksum failure');
  await type(browser, '#free-sender', '30');
  await click(browser, '#send-free');
  await holdText('#verdict', 'answer 2: the sender is neither');
}

async function mailbox() {
  await click(browser, 'input[name=way][value=prepared]');
  await choosePrepared('timer');
  await click(browser, '#send-prepared');
  await holdText('#verdict', 'status 00/00 success');
  await holdText('#bell', '8000: response');
  await type(browser, '#time-number', '400');
  await click(browser, '#time-form button');
  await holdText('#is-timer', '600 µs left');
  await type(browser, '#time-number', '600');
  await click(browser, '#time-form button');
  await holdText('#bell', '0002: the timer has expired');
  await type(browser, '#forget-number', '99');
  await click(browser, '#forget-form button');
  await holdText('#verdict', 'answer 9: fewer changes');
}

const runLines = async (text) => {
  await run(browser, 'document.getElementById("line-text").value = arguments[0]', text);
  await click(browser, '#send-lines');
};

// The report runs as lines, and gives the same session.
async function lines() {
  const report = await run(browser, 'return document.getElementById("report").textContent');
  const kept = () => run(browser, 'return JSON.parse(localStorage.getItem(`bjargolsk-${arguments[0]}-calls`)).items.join()', VERSION);
  const before = await kept();
  await click(browser, 'input[name=way][value=lines]');
  await runLines(`fresh\n${report}`);
  await holdText('#ask-words', 'is lost then');
  await sayYes();
  await holdText('#line-answers', 'ok');
  hold((await kept()) === before, 'the lines of the report give the same calls');
  await runLines('undo\nocc 10 0');
  await holdText('#lines-wrong', 'Line 2, column 9: hex digit expected.');
}

async function holdSameAfterReload() {
  const before = await run(browser, 'return [document.getElementById("session-body").innerText, document.getElementById("call-list").innerText]');
  await browser.at('POST', '/refresh', {});
  await ready();
  await watchErrors();
  const after = await run(browser, 'return [document.getElementById("session-body").innerText, document.getElementById("call-list").innerText]');
  hold(before.join() === after.join(), 'a reload keeps the session, what changed and the calls');
}

async function reload() {
  await holdSameAfterReload();
  hold(!(await run(browser, 'return document.getElementById("lines").hidden')), 'a reload keeps the way to send');
}

async function lookBack() {
  await click(browser, '#call-list li:last-child button');
  await holdText('#session-body', 'as it stood after call 1');
  await holdText('#is-state', '1 standby');
  await click(browser, '#to-now');
  await holdText('#is-state', '3 active');
}

async function freshAsks() {
  await click(browser, '#fresh');
  await press(browser, 'escape');
  await holdText('#is-state', '3 active');
  await click(browser, '#fresh');
  await sayYes();
  await holdText('#is-state', '1 standby');
  await holdText('#call-list', 'none');
}

// Nothing is asked of a fresh session, and nothing of a watch-only one with empty stores: neither loses anything.
async function watchOnlyAtOnce() {
  for (const number of [1, 2]) {
    await click(browser, '#watch');
    hold(!(await isAsking()), 'watch-only opens without asking');
    await holdText('#heard', `Call ${number}, Open watch-only: opened, both stores empty`);
    await holdText('#is-profile', 'watch-only');
  }
  await click(browser, '#fresh');
  await holdText('#ask-yes', 'Begin anew');
  await sayYes();
  await holdText('#is-profile', 'full');
}

async function watchOnlyAsks() {
  await click(browser, '#bring-up');
  await click(browser, '#watch');
  await holdText('#ask-words', 'no undo leads back');
  await holdText('#ask-yes', 'Open watch-only');
  await press(browser, 'escape');
  await holdText('#is-profile', 'full');
  await holdText('#undo-next', '6 held');
  await click(browser, '#watch');
  await sayYes();
  await holdText('#is-profile', 'watch-only');
  await holdText('#is-profile', 'changed; was full');
  await holdText('#watch-only', 'nothing but the pending logs');
  await holdText('#journal', 'nothing to undo');
  await holdText('#is-limit', '1,500 W');
  await holdText('#call-list li', 'Open watch-only');
  await holdText('#trace-said', 'Only the first 6 of 7 can stand in a trace: a trace has no kind for watch.');
}

async function watchOnlyRefuses() {
  await click(browser, 'input[name=way][value=prepared]');
  await choosePrepared('user');
  await click(browser, '#send-prepared');
  await holdText('#verdict', 'status 16 present state prohibits');
  await holdText('#why', 'The session is watch-only: poll and clear log alone are open.');
  await holdText('#is-limit', '1,500 W');
  await shot('watch-light');
  await choosePrepared('cores');
  await click(browser, '#send-prepared');
  await holdText('#verdict', 'status 05/20 denied chip-op access');
  await holdText('#why', 'The session is watch-only, and the request would make an entry.');
  await holdText('#bell', '8000: response');
  await choosePrepared('poll');
  await click(browser, '#send-prepared');
  await holdText('#verdict', 'status 00 success');
  await click(browser, '#undo');
  await holdText('#verdict', 'answer 6: nothing to undo');
}

// A reload, looking back, and the report's lines, which open it again.
async function watchOnlyKept() {
  await holdSameAfterReload();
  await holdText('#is-profile', 'watch-only');
  await click(browser, '#call-list li:last-child button');
  await holdText('#is-profile', 'full');
  await click(browser, '#to-now');
  await holdText('#is-profile', 'watch-only');
  const report = await run(browser, 'return document.getElementById("report").textContent');
  hold(report.split('\n').includes('watch'), 'the report has a line watch');
  const shown = await textOf(browser, '#session-body');
  await click(browser, 'input[name=way][value=lines]');
  await runLines(`fresh\n${report}`);
  await sayYes();
  await holdText('#line-answers', '0 07 22 16');
  hold((await textOf(browser, '#session-body')) === shown, 'the lines of the report give the same watch-only session');
}

// A line asks as the button does.
async function watchLineAsks() {
  await runLines('fresh\nsend 10 21 03 01');
  await sayYes();
  await runLines('watch\nsend 10 21 03 00');
  await holdText('#ask-yes', 'Open watch-only');
  await click(browser, '#ask-no');
  await holdText('#is-profile', 'full');
  await click(browser, '#send-lines');
  await sayYes();
  await holdText('#line-answers', '0\n0 02 21 16 00 01 00 00 3A');
  await holdText('#is-profile', 'watch-only');
}

// ---- a plan

const addPrepared = async (id, field, value) => {
  await choosePrepared(id);
  if (field) await choosePreparedField(`field-${id}-${field}`, value);
  await click(browser, '#add-prepared');
};
const choosePreparedField = (id, value) => run(browser, `const one = document.getElementById(arguments[0]); one.value = arguments[1];
  one.dispatchEvent(new Event('input', { bubbles: true }))`, id, value);
const choosePlanned = (value) => choosePreparedField('plan-number', value);
const isDisabled = (selector) => run(browser, 'return document.querySelector(arguments[0]).disabled', selector);
const countOf = (selector) => run(browser, 'return document.querySelectorAll(arguments[0]).length', selector);

// Five packets in the wrong order; the plan, sent.
async function planned() {
  await runLines('fresh');
  await sayYes();
  await holdText('#is-profile', 'full');
  await click(browser, 'input[name=way][value=prepared]');
  hold(!(await run(browser, 'return document.getElementById("plan-fold").open')), 'without a packet the plan is folded');
  await addPrepared('state', 'state', '3');
  for (const id of ['throttles', 'caps', 'thermal', 'role']) await addPrepared(id);
  await holdText('#packets li:nth-child(3)', 'Caps 500 W to 1,500 W');
  await holdText('#call-list', 'none');
  await click(browser, '#ask-plan');
  await holdText('#plan-said', 'To state 3 active, in this order:');
  hold((await textOf(browser, '#plan-order')).replace(/\s+/g, ' ') === '2 Throttles 4 Thermal thresholds 5 Role master 3 Caps 500 W to 1,500 W 1 Set state active', 'the order in words');
  await holdText('#verdict', 'plan 2 4 5 3 1');
  await holdText('#is-state', '1 standby');
  await shot('plan-light');
  await click(browser, '#send-plan');
  await holdText('#is-state', '3 active');
  await holdText('#is-limit', '1,500 W');
  await holdText('#plan-said', 'ask again');
  hold(await isDisabled('#send-plan'), 'a plan that was sent can’t be sent again');
  hold((await countOf('#call-list li')) === 6, 'the plan and its five packets are calls');
  await holdText('#trace-said', '5 entries');
}

// The empty plan, none, and a refusal; packets removed and too many; kept over a reload.
async function plannedElse() {
  await click(browser, '#ask-plan');
  await holdText('#plan-said', 'The plan is empty: state 3 active is there already.');
  await choosePlanned('2');
  await click(browser, '#ask-plan');
  await holdText('#plan-said', 'No plan: no order of these packets leads to state 2 observation');
  await holdText('#heard', 'no plan');
  await choosePlanned('4');
  await click(browser, '#ask-plan');
  await holdText('#plan-said', 'Answer 10: more than five packets, or a wanted state other than 2 and 3.');
  await click(browser, '#packets li:nth-child(2) button');
  hold((await countOf('#packets li')) === 4, 'a packet is removed');
  await holdText('#packets li:nth-child(2)', 'Caps');
  hold((await textOf(browser, '#plan-said')) === '', 'what was said of other packets goes');
  await click(browser, 'input[name=way][value=free]');
  await type(browser, '#free-bytes', '01 0');
  await click(browser, '#add-free');
  await holdText('#free-wrong', 'Byte 2: its second hex digit is missing.');
  await type(browser, '#free-bytes', '01 20 00 03 00 02 00 00 26');
  await click(browser, '#add-free');
  await holdText('#packets li:nth-child(5)', 'Set state observation');
  await click(browser, '#add-free');
  await holdText('#heard', 'Packet 6 of the plan: Set state observation');
  await click(browser, '#add-free');
  await holdText('#add-wrong', '6 packets are prepared, one more than a plan takes: remove one first.');
  await holdSameAfterReload();
  await holdText('#packets li:nth-child(6)', 'Set state observation');
}

// The report and lines with packets and plans.
async function plannedLines() {
  const report = await run(browser, 'return document.getElementById("report").textContent');
  hold(report.includes('\nplan 3\n#   answered 0 plan 2 4 5 3 1\n'), 'the report has the plan');
  await click(browser, 'input[name=way][value=lines]');
  await runLines('packet 00');
  await holdText('#lines-wrong', 'six packets at most');
  await runLines('packet\npacket 05 21 00 02 03 00 00 2B\npacket 04 21 00 07 13 10 01 00 55 5F 05 01 09\npacket 01 20 00 03 00 02 00 00 26\nfresh\nplan 2\nplan 256');
  await holdText('#lines-wrong', 'Line 7, column 6: number over 255.');
  await runLines('packet\npacket 05 21 00 02 03 00 00 2B\npacket 04 21 00 07 13 10 01 00 55 5F 05 01 09\npacket 01 20 00 03 00 02 00 00 26\nfresh\nplan 2');
  await sayYes();
  await holdText('#line-answers', 'ok\nok\nok\nok\nok\n0 plan 1 2 3');
  await holdText('#plan-order li:nth-child(1)', 'Role slave');
  await click(browser, '#drop-packets');
  await holdText('#packets', 'none yet');
}

// ---- traces

async function trace(name, folder) {
  await choose(browser, '#trace-file', path.join(top, folder, `${name}.trace`));
  const lines = fs.readFileSync(path.join(top, folder, `${name}.lines`), 'latin1').trimEnd();
  if (await isAsking()) await click(browser, '#ask-yes');
  for (let tries = 0; tries < TRIES && (await textOf(browser, '#trace-lines')).trimEnd() !== lines; tries++) {
    if (await isAsking()) await click(browser, '#ask-yes');
    await soon();
  }
  hold((await textOf(browser, '#trace-lines')).trimEnd() === lines, `the lines of ${name}.trace are those of replay`);
}

// A trace that was played is the first; a second beside it, and both by themselves.
async function parted() {
  const folder = path.join(top, 'second/cases/parts');
  const linesOf = (name) => fs.readFileSync(path.join(folder, `${name}.lines`), 'latin1').trimEnd();
  await holdText('#part-said', 'First: undo-300-times.trace, 300 bytes. Second: none yet.');
  for (const name of ['off-at-34', 'cut-first', 'unknown-second', 'equal']) {
    for (const which of ['first', 'second']) await choose(browser, `#part-${which}`, path.join(folder, `${name}.${which}`));
    await holdText('#part-said', `First: ${name}.first`);
    await holdText('#part-lines', linesOf(name));
  }
  const long = path.join(fs.mkdtempSync(path.join(os.tmpdir(), 'web-tour-')), 'long.trace');
  fs.writeFileSync(long, new Uint8Array(1048577).fill(4));
  await choose(browser, '#part-second', long);
  await holdText('#part-wrong', 'long.trace has 1,048,577 bytes; 1,048,576 are taken at most.');
  fs.writeFileSync(long, new Uint8Array(1048576).fill(4));
  for (const which of ['first', 'second']) await choose(browser, `#part-${which}`, long);
  await holdText('#part-lines', 'shared 1048576 entries, 1048576 bytes; next 1048577');
  fs.rmSync(path.dirname(long), { recursive: true });
}

const shownSession = () =>
  run(browser, 'return [...document.querySelectorAll("#session-body dd, #journal li, #redo-store li")].map((one) => one.firstChild.textContent).join()');

// An image saved is the session: loaded again it shows the same, and the next id and what can be undone too.
async function saveAndLoad() {
  const folder = fs.mkdtempSync(path.join(os.tmpdir(), 'web-tour-'));
  await devtools(browser, 'Browser.setDownloadBehavior', { behavior: 'allow', downloadPath: folder });
  await click(browser, '#bring-up');
  await click(browser, '#undo');
  const before = await shownSession();
  const file = path.join(folder, 'bjargolsk.image');
  await click(browser, '#save-image');
  for (let tries = 0; tries < TRIES && !fs.existsSync(file); tries++) await soon();
  hold(fs.readFileSync(file).length === 4411, 'the image that was saved has 4,411 bytes');
  await click(browser, '#fresh');
  await sayYes();
  await holdText('#call-list', 'none');
  hold((await shownSession()) !== before, 'the fresh session is another one');
  await choose(browser, '#image-file', file);
  for (let tries = 0; tries < TRIES && (await shownSession()) !== before; tries++) await soon();
  hold((await shownSession()) === before, 'the image that was loaded shows the session that was saved');
  await holdText('#trace-said', 'this one was loaded');
  await click(browser, '#copy-lines');
  for (let tries = 0; tries < TRIES && (await textOf(browser, '#copy-lines')) !== 'Copied'; tries++) await soon();
  await holdText('#copy-lines', 'Copied');
  fs.rmSync(folder, { recursive: true });
}

const loadFile = async (file, wanted) => {
  await choose(browser, '#image-file', file);
  await sayYes();
  await holdText('#loaded-said', wanted);
};

// A save of a session with something to redo is that session again, after a reload too.
async function saveAndRestore() {
  const folder = fs.mkdtempSync(path.join(os.tmpdir(), 'web-tour-'));
  await devtools(browser, 'Browser.setDownloadBehavior', { behavior: 'allow', downloadPath: folder });
  const file = path.join(folder, 'bjargolsk.save');
  const before = await shownSession();
  await click(browser, '#save-session');
  for (let tries = 0; tries < TRIES && !fs.existsSync(file); tries++) await soon();
  hold(fs.readFileSync(file).length === 4409, 'the save has 4,409 bytes');
  await click(browser, '#undo');
  await loadFile(file, 'This session came from a save.');
  hold((await shownSession()) === before, 'the save that was restored shows the session that was saved');
  await holdSameAfterReload();
  await holdText('#loaded-said', 'This session came from a save.');
  fs.rmSync(folder, { recursive: true });
}

// An old save is moved up; one that isn't taken is told so, and the session stays.
async function oldSaves() {
  await loadFile(path.join(top, 'saves/every-kind.base'), 'bytes, moved up, then restored.');
  await loadFile(path.join(top, 'saves/every-kind.new'), 'This session came from a save.');
  const before = await shownSession();
  await choose(browser, '#image-file', path.join(top, 'saves/unset-dvfs.base'));
  await holdText('#image-wrong', 'As a save of the base version, 257 bytes, it can’t be moved up. Answer 11: the save won’t read or is ill formed.');
  hold((await shownSession()) === before, 'a save that is refused leaves the session');
  await run(browser, 'document.getElementById("image-wrong").scrollIntoView({ block: "center" })');
  await shot('refused-save');
}

async function saveLines() {
  await click(browser, 'input[name=way][value=lines]');
  await runLines('restore 01\nsave\nfresh\nsave');
  await sayYes();
  await holdText('#line-answers', '11\nsave 01');
  const saved = (await textOf(browser, '#line-answers')).split('\n')[1];
  await runLines(`restore ${saved.slice(5)}\nsave`);
  await holdText('#line-answers', `0\n${saved}`);
}

async function imageAndSeeprom() {
  const damaged = path.join(fs.mkdtempSync(path.join(os.tmpdir(), 'web-tour-')), 'damaged.image');
  fs.writeFileSync(damaged, new Uint8Array(4411));
  await choose(browser, '#image-file', damaged);
  await sayYes();
  await holdText('#session-body', 'isn’t well formed');
  await click(browser, '#undo');
  await holdText('#verdict', 'answer 1: the session isn’t well formed');
  await click(browser, '#save-session');
  await holdText('#save-wrong', 'Answer 1: the session isn’t well formed. Its image can be saved.');
  fs.writeFileSync(damaged, 'too short');
  await choose(browser, '#image-file', damaged);
  await holdText('#image-wrong', 'Here are 9 bytes: a save has 4,409');
  await click(browser, '#fresh');
  await sayYes();
  fs.writeFileSync(damaged, Uint8Array.from({ length: 20 }, (_, at) => at));
  await choose(browser, '#seeprom-file', damaged);
  await holdText('#seeprom-said', '20 bytes are lent');
  await click(browser, 'input[name=way][value=prepared]');
  await choosePrepared('read');
  await type(browser, '#field-read-offset', '8');
  await click(browser, '#send-prepared');
  await holdText('#data', '08 09 0A 0B 0C 0D 0E 0F');
  fs.rmSync(path.dirname(damaged), { recursive: true });
}

// Nothing but keys: a role from the top of the page on, the same for a plan, then undo, redo, and watch-only with its question.
async function keysAlone() {
  await click(browser, '#fresh');
  await sayYes();
  await choosePrepared('role');
  await choosePlanned('2');
  await run(browser, 'document.activeElement.blur(); window.scrollTo(0, 0)');
  const reach = async (wanted) => {
    for (let presses = 0; presses < 40; presses++) {
      await press(browser, 'tab');
      if ((await focused(browser)) === wanted) return;
    }
    throw new Error(`tab doesn't reach ${wanted}`);
  };
  await reach('command');
  await reach('send-prepared');
  await press(browser, 'enter');
  await holdText('#is-role', 'master');
  await reach('add-prepared');
  await press(browser, 'enter');
  await holdText('#packets li', 'Role master');
  await reach('ask-plan');
  await press(browser, 'enter');
  await holdText('#plan-said', 'No plan');
  await reach('drop-packets');
  await press(browser, 'space');
  await holdText('#packets', 'none yet');
  hold((await focused(browser)) === 'plan-number', 'the focus is at the wanted state where the list is gone');
  await reach('undo');
  await press(browser, 'space');
  await holdText('#is-role', 'not received');
  await reach('redo');
  await press(browser, 'enter');
  await holdText('#is-role', 'master');
  await run(browser, 'document.getElementById("bring-up").focus()');
  await reach('watch');
  await press(browser, 'enter');
  hold((await focused(browser)) === 'ask-no', 'the question has the focus, at what loses nothing');
  await reach('ask-yes');
  await press(browser, 'enter');
  await holdText('#is-profile', 'watch-only');
  hold((await focused(browser)) === 'watch', 'the focus is back at the button');
}

// What a screen reader needs: each control has a name, no id twice, one first heading.
async function names() {
  const nameless = await run(browser, `return [...document.querySelectorAll('button, input, select, textarea')].filter((one) =>
    !(one.labels?.length || one.getAttribute('aria-label') || one.textContent.trim())).map((one) => one.outerHTML.slice(0, 80))`);
  hold(nameless.length === 0, `controls without a name: ${nameless}`);
  const twice = await run(browser, `const ids = [...document.querySelectorAll('[id]')].map((one) => one.id); return ids.filter((id, at) => ids.indexOf(id) !== at)`);
  hold(twice.length === 0, `ids that stand twice: ${twice}`);
}

const LOOKS = [
  ['wide-light', { width: 1440, height: 900, scheme: 'light' }], ['wide-dark', { width: 1440, height: 900, scheme: 'dark' }],
  ['middle-light', { width: 900, height: 1100, scheme: 'light' }],
  ['least-light', { width: 320, height: 700, scheme: 'light' }],
  ['narrow-light', { width: 390, height: 844, scheme: 'light' }], ['narrow-dark', { width: 390, height: 844, scheme: 'dark' }],
];

async function noneSticksOut(name) {
  const out = await run(browser, `const wide = document.documentElement.clientWidth;
    return [...document.querySelectorAll('header *, main *')].filter((one) => one.getBoundingClientRect().right > wide + 1 && !one.closest('pre, .unseen, svg'))
      .map((one) => one.tagName + '#' + one.id).slice(0, 5)`);
  hold(out.length === 0, `${name}: sticks out to the right: ${out}`);
}

// The first sight, and the tour's own: bring-up, cap, poll, undo; then a wrong packet.
async function pictures() {
  await holdNoErrors();
  await run(browser, 'localStorage.clear()');
  await browser.at('POST', '/refresh', {});
  await ready();
  await watchErrors();
  await look(browser, LOOKS[0][1]);
  await shot('first-light');
  await look(browser, LOOKS[1][1]);
  await shot('first-dark');
  await click(browser, '#bring-up');
  await capAndPoll();
  await shot('poll-dark');
  await undoAndRedo();
  await wrongPacket();
  await click(browser, '#undo');
  await look(browser, LOOKS[0][1]);
  await shot('undo-light');
  for (const id of ['throttles', 'user', 'state']) await addPrepared(id);
  await choosePlanned('2');
  await click(browser, '#ask-plan');
  await holdText('#plan-order', 'Set state observation');
  await click(browser, '#call-list li:nth-child(3) button');
  for (const which of ['first', 'second']) await choose(browser, `#part-${which}`, path.join(top, `second/cases/parts/off-at-34.${which}`));
  for (const [name, how] of LOOKS) {
    await look(browser, how);
    await run(browser, 'window.scrollTo(0, 0)');
    await noneSticksOut(name);
    await shot(name);
    await run(browser, 'document.getElementById("call").scrollIntoView()');
    await shot(`${name}-call`);
    for (const part of ['plan', 'calls', 'trace-file', 'image-file']) {
      await run(browser, 'document.getElementById(arguments[0]).scrollIntoView()', part);
      await shot(`${name}-${part}`);
    }
  }
}

try {
  await look(browser, LOOKS[0][1]);
  for (const part of [bringUp, capAndPoll, undoAndRedo, wrongPacket, wrongTyped, mailbox, lines, reload, lookBack, freshAsks]) await part();
  for (const part of [watchOnlyAtOnce, watchOnlyAsks, watchOnlyRefuses, watchOnlyKept, watchLineAsks, planned, plannedElse, plannedLines]) await part();
  await trace('bring-up', 'examples');
  await trace('kind-ff-third', 'second/cases/traces');
  await trace('undo-300-times', 'second/cases/traces');
  for (const part of [parted, saveAndLoad, saveAndRestore, oldSaves, saveLines, imageAndSeeprom, keysAlone, names, pictures, holdNoErrors]) await part();
  console.log(`web/test: the tour in headless Chromium: ${steps} looks, all as wanted`);
} catch (error) {
  console.error(`web/test: the tour: ${error.message}`);
  await shot('failed');
  process.exitCode = 1;
} finally {
  await browser.close();
}
