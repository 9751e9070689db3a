// The WebAssembly against the stored vectors: every call with its answer, session bytes and reply. usage: vectors.mjs TOP BUILT.html
import fs from 'node:fs';
import path from 'node:path';
import { call, freshImage, openLibrary, isPlan, partLines, save, restore, moveUp, PACKETS_MOST, SESSION } from '../src/library.js';
import { readTrace, replayLine, traceOf } from '../src/trace.js';
import { readLine, framed } from '../src/lines.js';
import { same, hexOf } from '../src/bytes.js';
import {
  newBench, carryOut, occOrder, benchOf, keptText, losesByWatch, imagesAround, reportLines, reportTrace, prepare, putAway, planOrder, askedPlan, stillHolds, sendPlan, readKept,
} from '../src/bench.js';
import { PREPARED, BRING_UP, preparedBy, mailboxed, readField } from '../src/commands.js';
import { readSession } from '../src/session.js';
import { readStore } from '../src/entries.js';
import { newStandin, answerTo } from './standin.mjs';
import { wasmOf, helpOf } from './built.mjs';

const [top, built] = process.argv.slice(2);
const library = await openLibrary(wasmOf(built));

// Lines are bytes: a stored line may have any.
const linesIn = (file) => {
  const lines = fs.readFileSync(path.join(top, file), 'latin1').split('\n');
  if (lines.at(-1) === '') lines.pop();
  return lines.map((line) => line.replace(/\r$/, ''));
};

function fail(words) {
  console.error(`web/test: ${words}`);
  process.exit(1);
}

const helpLines = helpOf(top);

const callsIn = (standin) => Object.values(standin.counts).reduce((sum, count) => sum + count, 0);

function holdLines(inputFile, answersFile, seeprom) {
  const standin = newStandin(library, helpLines, seeprom);
  const expected = linesIn(answersFile);
  let at = 0;
  for (const [number, line] of linesIn(inputFile).entries()) {
    for (const answer of answerTo(standin, line)) {
      if (answer !== expected[at]) {
        fail(`${inputFile}, line ${number + 1}: ${line.slice(0, 200)}\n  answered ${answer.slice(0, 400)}\n  stored   ${(expected[at] ?? 'nothing').slice(0, 400)}`);
      }
      at++;
    }
  }
  if (at !== expected.length) fail(`${inputFile}: ${at} answer lines, ${expected.length} are stored`);
  const each = Object.entries(standin.counts).map(([name, count]) => `${name} ${count}`).join(', ');
  console.log(`web/test: ${inputFile}: ${callsIn(standin)} calls and ${at} answer lines as stored (${each})`);
}

function played(bytes) {
  const { orders, stop } = readTrace(bytes);
  let image = freshImage(library);
  const lines = orders.map((order, at) => {
    const heard = call(library, image, order);
    image = heard.image;
    return replayLine(at + 1, order, heard);
  });
  return stop ? [...lines, stop] : lines;
}

function holdTrace(traceFile, linesFile) {
  const lines = played(new Uint8Array(fs.readFileSync(path.join(top, traceFile))));
  const expected = linesIn(linesFile);
  const at = lines.findIndex((line, place) => line !== expected[place]);
  if (at !== -1 || lines.length !== expected.length) fail(`${traceFile}: line ${at + 1} is ${lines[at]}, stored is ${expected[at]}`);
  return lines.length;
}

function holdTraces() {
  const folder = 'second/cases/traces';
  const names = fs.readdirSync(path.join(top, folder)).filter((name) => name.endsWith('.trace')).map((name) => name.slice(0, -6));
  let lines = holdTrace('examples/bring-up.trace', 'examples/bring-up.lines');
  for (const name of names) lines += holdTrace(`${folder}/${name}.trace`, `${folder}/${name}.lines`);
  console.log(`web/test: ${names.length + 1} traces, ${lines} lines as stored`);
}

// The trace that the page makes of the example's calls is the example's trace.
function holdMadeTrace() {
  let sequence = 1;
  const orders = linesIn('examples/bring-up.calls').map((line) => readLine(line)).filter(Boolean).map((order) => {
    if (order.name !== 'send') return order;
    return { name: 'occ', sender: order.sender, bytes: framed(sequence++, order.type, order.data) };
  });
  const made = traceOf(orders);
  const stored = fs.readFileSync(path.join(top, 'examples/bring-up.trace'));
  if (made.bar || !same(made.bytes, stored)) fail('the trace made of examples/bring-up.calls is another one than examples/bring-up.trace');
  console.log(`web/test: the trace made of ${orders.length} calls is examples/bring-up.trace`);
}

// Each stored pair with the lines that `part` prints of it.
function holdParts() {
  const folder = 'second/cases/parts';
  const names = fs.readdirSync(path.join(top, folder)).filter((name) => name.endsWith('.lines')).map((name) => name.slice(0, -6));
  const bytesOf = (file) => new Uint8Array(fs.readFileSync(path.join(top, folder, file)));
  for (const name of names) {
    const told = partLines(library, bytesOf(`${name}.first`), bytesOf(`${name}.second`)).join('\n');
    const stored = linesIn(`${folder}/${name}.lines`).join('\n');
    if (told !== stored) fail(`${folder}/${name}: told is ${told}, stored is ${stored}`);
  }
  console.log(`web/test: ${names.length} pairs of traces part as stored`);
}

// ---- saves

const filesIn = (folder, end) => fs.readdirSync(path.join(top, folder)).filter((name) => name.endsWith(end)).map((name) => `${folder}/${name}`);
const bytesIn = (file) => new Uint8Array(fs.readFileSync(path.join(top, file)));

// A save is restored, and saved again it has the same bytes; so has the file that the page takes, as bytes and as text.
function holdRestored(file, saved) {
  const { answer, image } = restore(library, saved);
  if (answer !== 0) fail(`${file} is restored with answer ${answer}`);
  if (!same(save(library, image).bytes, saved)) fail(`${file}: saved again it has other bytes`);
  for (const bytes of [saved, Buffer.from(`save ${hexOf(saved, '')}\n`)]) {
    if (!same(readKept(library, bytes).image ?? [], image)) fail(`${file} is taken as another session`);
  }
}

function holdBase(file) {
  const base = bytesIn(file);
  const kept = file.replace(/base$/, 'new');
  const { answer, bytes } = moveUp(library, base);
  if (!fs.existsSync(path.join(top, kept))) {
    if (answer !== 11 || !readKept(library, base).wrong) fail(`${file} is moved up with answer ${answer}`);
    return;
  }
  if (answer !== 0 || !same(bytes, bytesIn(kept))) fail(`${file} isn’t moved up to ${kept}, answer ${answer}`);
  holdRestored(kept, bytes);
  if (!readKept(library, base).words?.includes('moved up')) fail(`${file} isn’t told to be an old save`);
}

function holdSaves() {
  const folder = 'second/cases/saves';
  const bases = filesIn('saves', '.base');
  const refused = [...filesIn(folder, '.up-11').map((file) => [moveUp, file]), ...filesIn(folder, '.down-11').map((file) => [restore, file])];
  for (const file of bases) holdBase(file);
  for (const file of filesIn(folder, '.down-12')) holdRestored(file, bytesIn(file));
  for (const [judge, file] of refused) if (judge(library, bytesIn(file)).answer !== 11) fail(`${file} isn’t answered 11`);
  if (save(library, new Uint8Array(SESSION)).answer !== 1) fail('a damaged session is saved');
  console.log(`web/test: ${bases.length} old saves moved up, restored and saved as stored; ${refused.length} saves refused`);
}

// What a prepared command sends where nobody changes its fields.
function preparedAlone(bench, prepared) {
  const values = Object.fromEntries(prepared.fields.map((field) => [field.id, readField(field, String(field.value)).value]));
  if (!prepared.request) return occOrder(bench, 0x10, prepared.type, prepared.data(values));
  return { name: 'sbe', bytes: mailboxed(prepared, values, { sequence: 1, response: true, acknowledge: false }), counts: true };
}

const statusOf = ({ order, heard }) => hexOf(order.name === 'occ' ? heard.reply.slice(2, 3) : heard.reply.slice(0, 4));

const kindsIn = (bench, store) => {
  const read = readStore(readSession(bench.image)[store]);
  if (read.brokenAt !== undefined) fail(`the ${store} isn't read whole, from ${read.brokenAt} on`);
  return read.entries.map((entry) => entry.kind);
};

function activeMaster() {
  const bench = newBench(library);
  for (const [id, values] of BRING_UP) carryOut(bench, occOrder(bench, 0x10, preparedBy(id).type, preparedBy(id).data(values)));
  return bench;
}

// Each prepared command is accepted as it stands, on an active master; together they make an entry of every kind, and all of them can be taken back.
function holdPrepared() {
  const bench = activeMaster();
  carryOut(bench, { name: 'seeprom', bytes: new Uint8Array(8) });
  // A log that can be cleared, and standby, where the role is open.
  const order = ['reset', ...PREPARED.map((one) => one.id).filter((id) => id !== 'reset' && id !== 'state'), 'state'];
  for (const id of order) {
    const item = carryOut(bench, preparedAlone(bench, preparedBy(id)));
    if (!/^(00 ?)+$/.test(statusOf(item))) fail(`the prepared ${id} is answered by status ${statusOf(item)}`);
  }
  const kinds = kindsIn(bench, 'journal');
  if (new Set(kinds).size !== 12) fail(`the prepared commands make entries of the kinds ${[...new Set(kinds)]} only`);
  for (const kind of [...kinds].reverse()) if (carryOut(bench, { name: 'undo' }).heard.high !== kind) fail('undo takes another kind than the stack shows');
  if (kindsIn(bench, 'redo').join() !== [...kinds].reverse().join()) fail('the redo store shows other kinds than were taken back');
  console.log(`web/test: ${PREPARED.length} prepared commands are accepted; ${kinds.length} entries of 12 kinds, taken back as the stacks show them`);
}

// ---- watch-only

const OPEN_TO_WATCH = ['poll', 'clear', 'exit', 'ring', 'read'];

function watchedStatus({ id, request }) {
  if (OPEN_TO_WATCH.includes(id)) return request ? '00 00 00 00' : '00';
  return request ? '00 05 00 20' : '16';
}

// A master with a log, an entry in each store, and a watch-only session opened over it.
function watchedBench() {
  const bench = activeMaster();
  if (losesByWatch(newBench(library)) || !losesByWatch(bench)) fail('what opening watch-only loses is told wrongly, of a fresh session or a master');
  for (const id of ['reset', 'cores']) carryOut(bench, preparedAlone(bench, preparedBy(id)));
  carryOut(bench, { name: 'undo' });
  carryOut(bench, { name: 'watch' });
  if (losesByWatch(bench)) fail('a watch-only session with empty stores is told to lose something');
  return bench;
}

// The record and what is worked out of it, the next id and the timer; not the stores, nor the profile.
const KEPT_BY_WATCH = [[0, 237], [4401, 4410]];

function holdOpened(bench, at) {
  const { before, after } = imagesAround(bench, at);
  if (!KEPT_BY_WATCH.every(([from, end]) => same(before.slice(from, end), after.slice(from, end)))) fail('opening watch-only alters more than stores and profile');
  if (!after.slice(237, 4401).every((byte) => byte === 0)) fail('opening watch-only leaves something in the stores');
  if (readSession(before).profile !== 0 || readSession(after).profile !== 1) fail('the profile isn’t read as full, then watch-only');
}

// What was kept, and what is reported, lead to the same session.
function holdCarriedOn(bench, at) {
  if (!same(benchOf(library, keptText(bench)).image, bench.image)) fail('a reload gives another watch-only session');
  const standin = newStandin(library, helpLines);
  for (const line of reportLines(bench, true)) answerTo(standin, line);
  if (!same(standin.image, bench.image)) fail('the lines of the report give another watch-only session');
  const { entries, bar } = reportTrace(bench);
  if (entries !== at || bar !== 'a trace has no kind for watch') fail(`the trace ends after ${entries} entries: ${bar}`);
}

function holdWatch() {
  const bench = watchedBench();
  const at = bench.items.length - 1;
  holdOpened(bench, at);
  carryOut(bench, { name: 'seeprom', bytes: new Uint8Array(8) });
  for (const prepared of PREPARED) {
    const status = statusOf(carryOut(bench, preparedAlone(bench, prepared)));
    if (status !== watchedStatus(prepared)) fail(`watch-only: the prepared ${prepared.id} is answered by status ${status}`);
  }
  if (kindsIn(bench, 'journal').join() !== '1' || !losesByWatch(bench)) fail('watch-only: the clear isn’t held alone');
  for (const name of ['undo', 'redo']) if (carryOut(bench, { name }).heard.high !== 1) fail(`watch-only: ${name} doesn’t move the clear`);
  holdCarriedOn(bench, at);
  console.log(`web/test: watch-only: ${OPEN_TO_WATCH.length} of ${PREPARED.length} prepared commands are open, the others refused by 16 and 05/20; kept, reported, traced up to it`);
}

// ---- a plan

// State 3, throttles, caps, thresholds, role, as in docs/PLANNING.md; together they lead to active in the order 2 4 5 3 1.
function plannedBench() {
  const bench = newBench(library);
  for (const id of ['state', 'throttles', 'caps', 'thermal', 'role']) {
    const prepared = preparedBy(id);
    const values = Object.fromEntries(prepared.fields.map((field) => [field.id, readField(field, String(field.value)).value]));
    prepare(bench, occOrder(bench, 0x10, prepared.type, prepared.data({ ...values, state: 3 })));
  }
  return bench;
}

const asked = (bench, number) => carryOut(bench, planOrder(bench, number)).heard;

function holdFound(bench) {
  const { answer, found, image } = asked(bench, 3);
  if (answer !== 0 || found.join(' ') !== '2 4 5 3 1') fail(`the plan is ${found}, with answer ${answer}`);
  if (!same(image, bench.first)) fail('asking for a plan alters the session');
  if (!isPlan(library, image, planOrder(bench, 3), [5, 4, 3, 2, 1]) || isPlan(library, image, planOrder(bench, 3), [1, 2, 3, 4, 5])) fail('a proposal is checked wrongly');
}

function holdSent(bench) {
  const item = askedPlan(bench);
  if (!stillHolds(bench, item)) fail('a plan that was just found is told not to hold');
  if (sendPlan(bench, item) !== 5 || readSession(bench.image).state !== 3) fail('the plan that was sent doesn’t lead to active');
  if (stillHolds(bench, item)) fail('the plan is told to hold after it was sent');
  if (asked(bench, 3).found.length !== 0) fail('the plan for a state that is there isn’t empty');
  if (reportTrace(bench).entries !== 5) fail('a plan stands in the way of a trace');
}

// What is kept and what is reported ask for the same plans, of the same packets.
function holdPlansKept(bench) {
  const again = benchOf(library, keptText(bench));
  if (keptText(again) !== keptText(bench)) fail('a reload gives other packets or plans');
  const standin = newStandin(library, helpLines);
  const answers = reportLines(bench, false).map((line) => [line, answerTo(standin, line)]).filter(([line]) => line.startsWith('plan')).map(([, answer]) => answer);
  if (answers.join() !== '0 plan 2 4 5 3 1,0 plan,0 no plan,10') fail(`the lines of the report ask for plans that are answered ${answers.join()}`);
  if (standin.packets.map((packet) => hexOf(packet)).join() !== bench.packets.map((packet) => hexOf(packet)).join()) fail('the report prepares other packets');
}

function holdPlan() {
  const bench = plannedBench();
  holdFound(bench);
  holdSent(bench);
  putAway(bench, 1);
  if (askedPlan(bench) !== null) fail('the plan of other packets is shown');
  if (asked(bench, 2).found !== null) fail('a plan without a way down from active is told');
  while (bench.packets.length < PACKETS_MOST) prepare(bench, { name: 'occ', bytes: Uint8Array.of(0) });
  if (asked(bench, 2).answer !== 10) fail('six packets aren’t answered 10');
  putAway(bench, 5);
  holdPlansKept(bench);
  console.log('web/test: a plan is found, checked, sent, kept over a reload and reported');
}

// Cases that were stored for another length of the image say nothing about this library.
function storedHere(file) {
  const session = linesIn(file).find((line) => /^\? image must be \d+ bytes$/.test(line));
  return session === `? image must be ${SESSION} bytes`;
}

function holdStored(inputFile, answersFile) {
  if (storedHere(answersFile)) return holdLines(inputFile, answersFile);
  console.log(`web/test: ${inputFile}: skipped, stored for an image of another length than ${SESSION} bytes`);
}

holdLines('second/cases/vectors.txt', 'second/cases/vectors.out');
holdLines('second/cases/seeprom/lines', 'second/cases/seeprom/answers', new Uint8Array(fs.readFileSync(path.join(top, 'second/cases/seeprom/image'))));
holdLines('examples/bring-up.txt', 'examples/bring-up.out');
holdStored(process.env.WEB_STDIN ?? 'crates/standin/stdin', process.env.WEB_STDOUT ?? 'crates/standin/stdout');
holdTraces();
holdMadeTrace();
holdParts();
holdSaves();
holdPrepared();
holdWatch();
holdPlan();
