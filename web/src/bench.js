// The bench: a session, what was called on it so far, and what is lent. No part of the page is touched here.
import { hexOf, fromHex, number16, same, counted } from './bytes.js';
import { call, freshImage, isCall, isPlan, moveUp, restore, BASE_SAVED, SAVED, SESSION, SEEPROM_MOST } from './library.js';
import { lineOf, heardLine, packetLines, preparedAfter, readLine, framed } from './lines.js';
import { replayLine, traceOf } from './trace.js';
import { orderTitle } from './fields.js';
import { answerWords } from './words.js';

export function newBench(library, start = null) {
  const image = start ?? freshImage(library);
  return { library, start, first: image, image, seeprom: new Uint8Array(), packets: [], occSequence: 1, sbeSequence: 1, items: [], trace: null, loaded: null };
}

// What the drawing needs of an image.
export const pointOf = (image) => ({ limit: number16(image, 230), maximum: number16(image, 4), user: number16(image, 170) });

const heardOf = (bench, image, order) => call(bench.library, image, order, { seeprom: bench.seeprom });

// Carries an order out and keeps it with what was heard. Lending a SEEPROM is no call, and is kept as well: later reads depend on it.
export function carryOut(bench, order) {
  const heard = isCall(order) ? heardOf(bench, bench.image, order) : null;
  if (order.name === 'seeprom') bench.seeprom = order.bytes.slice(0, SEEPROM_MOST);
  if (heard) bench.image = heard.image;
  countUp(bench, order);
  const item = { order, heard, point: pointOf(bench.image) };
  bench.items.push(item);
  return item;
}

// A packet under the next sequence; it counts up when the order is sent or prepared, so that a preview costs none.
export const occOrder = (bench, sender, type, data) => ({ name: 'occ', sender, bytes: framed(bench.occSequence, type, data), counts: true });

function countUp(bench, order) {
  if (!order.counts) return;
  if (order.name === 'occ') bench.occSequence = (bench.occSequence + 1) & 255;
  else bench.sbeSequence = (bench.sbeSequence + 1) & 0xffff;
}

// ---- a plan: the packets that are prepared, and the order that was found for them

export function prepare(bench, order) {
  bench.packets = [...bench.packets, order.bytes];
  countUp(bench, order);
}

export function putAway(bench, index) {
  bench.packets = bench.packets.filter((_, at) => at !== index);
}

// What is asked holds the packets as they are now; later ones don't change it.
export const planOrder = (bench, number) => ({ name: 'plan', number: BigInt(number), packets: bench.packets });

const samePackets = (some, others) => some.length === others.length && some.every((packet, at) => same(packet, others[at]));

// The last plan that was asked for; null where it was of other packets.
export function askedPlan(bench) {
  const item = bench.items.findLast(({ order }) => order.name === 'plan');
  return item && samePackets(item.order.packets, bench.packets) ? item : null;
}

// Whether a plan that was found is one on the session as it is now. The library checks it.
export const stillHolds = (bench, { order, heard }) => heard.found !== null && isPlan(bench.library, bench.image, order, heard.found);

// The packets of a plan that was found, in its order.
export const packetsOf = ({ order, heard }) => heard.found.map((number) => order.packets[number - 1]);

const succeeded = ({ heard }) => heard.answer === 0 && heard.reply[2] === 0;

// Sends them from HTMGT, up to the first that isn't accepted; how many were sent.
export function sendPlan(bench, item) {
  const packets = packetsOf(item);
  const refused = packets.findIndex((bytes) => !succeeded(carryOut(bench, { name: 'occ', sender: 0x10, bytes })));
  return refused === -1 ? packets.length : refused + 1;
}

// The session before and after an item: the calls up to it are made once more, on a copy, so nothing has to be stored.
export function imagesAround(bench, index) {
  const again = newBench(bench.library, bench.start);
  for (const item of bench.items.slice(0, index)) carryOut(again, item.order);
  const before = again.image;
  carryOut(again, bench.items[index].order);
  return { before, after: again.image };
}

// Calls are numbered from 1; lending isn't one.
export const numbersOf = (items) => {
  let number = 0;
  return items.map((item) => (item.heard ? ++number : null));
};

// ---- kept over a reload: the orders alone. They are carried out again, so what is shown can't differ from what the library answers.

// The lines of each item; before a plan's those that prepare its packets, where others were prepared. `held` is what is prepared then.
function linesOfItems(bench) {
  let held = [];
  const items = bench.items.map(({ order }) => {
    if (order.name !== 'plan') return [lineOf(order)];
    const lines = [...packetLines(held, order.packets), lineOf(order)];
    held = order.packets;
    return lines;
  });
  return { items, held };
}

export function keptText(bench) {
  const { items, held } = linesOfItems(bench);
  const lines = [...items.flat(), ...packetLines(held, bench.packets)];
  const start = bench.start ? hexOf(bench.start, '') : null;
  return JSON.stringify({ start, occSequence: bench.occSequence, sbeSequence: bench.sbeSequence, trace: bench.trace, loaded: bench.loaded, items: lines });
}

// A line that was read: packets are prepared, what else it orders is carried out.
export function carryLine(bench, order) {
  if (order.name === 'plan') return carryOut(bench, planOrder(bench, order.number));
  if (order.name !== 'packet') return carryOut(bench, order);
  bench.packets = preparedAfter(bench.packets, order).packets;
  return null;
}

export function benchOf(library, text) {
  const kept = JSON.parse(text);
  const bench = newBench(library, kept.start ? fromHex(kept.start) : null);
  for (const line of kept.items) carryLine(bench, readLine(line, { seepromMost: SEEPROM_MOST }));
  return Object.assign(bench, { occSequence: kept.occSequence, sbeSequence: kept.sbeSequence, trace: kept.trace, loaded: kept.loaded });
}

export const hasSomething = (bench) => bench.items.length > 0 || bench.start !== null;

// Opening watch-only takes the full profile and both stores. It is tried on a copy: a session that would stay as it is loses nothing.
export const losesByWatch = (bench) => hasSomething(bench) && !same(heardOf(bench, bench.image, { name: 'watch' }).image, bench.image);

// ---- the calls for somebody else: lines of `standin`

const LINE_SEEPROM_MOST = 8192; // what a line can lend

function reportOf(item, number, lines, withAnswers) {
  const { order, heard } = item;
  const remark = `# ${number === null ? '' : `${number} `}${orderTitle(order)}`;
  if (order.name === 'seeprom' && order.bytes.length > LINE_SEEPROM_MOST) return [`${remark}; more than a line lends: ./standin FILE`];
  return [remark, ...lines, ...(withAnswers && heard ? [`#   answered ${heardLine(order, heard)}`] : [])];
}

export function reportLines(bench, withAnswers) {
  const numbers = numbersOf(bench.items);
  const start = bench.start ? ['# the session that was loaded', `load ${hexOf(bench.start, '')}`] : [];
  const { items, held } = linesOfItems(bench);
  const more = packetLines(held, bench.packets);
  const prepared = more.length ? ['# prepared for a plan', ...more] : [];
  return [...start, ...bench.items.flatMap((item, at) => reportOf(item, numbers[at], items[at], withAnswers)), ...prepared];
}

// A trace begins with a fresh session and lends no SEEPROM. A plan changes nothing, so it is passed over.
export function reportTrace(bench) {
  const orders = bench.items.map((item) => item.order).filter((order) => order.name !== 'plan');
  if (bench.start) return { bytes: new Uint8Array(), entries: 0, of: orders.length, bar: 'a trace begins with a fresh session, and this one was loaded' };
  return { ...traceOf(orders), of: orders.length };
}

// ---- a trace played on a fresh session, entry by entry

export function playTrace(library, { orders, stop }, packets = []) {
  const bench = Object.assign(newBench(library), { packets });
  for (const order of orders) carryOut(bench, order);
  bench.trace = { entries: orders.length, stop };
  return bench;
}

export function traceLines(bench) {
  const { entries, stop } = bench.trace;
  const lines = bench.items.slice(0, entries).map((item, at) => replayLine(at + 1, item.order, item.heard));
  return stop ? [...lines, stop] : lines;
}

// ---- a session from a file: an image, a save, or one of the base version, by the length; its bytes, or the text that `image` and `save` print

// A save as an image, or why there is none; `from` says what it was.
function restored(library, bytes, from) {
  const { answer, image } = restore(library, bytes);
  return answer === 0 ? { image, words: `This session came from ${from}.` } : { wrong: `The save isn’t taken. Answer ${answerWords(answer)}.` };
}

function movedUp(library, bytes) {
  const { answer, bytes: saved } = moveUp(library, bytes);
  const old = `a save of the base version, ${counted(bytes.length)} bytes`;
  return answer === 0 ? restored(library, saved, `${old}, moved up, then restored`) : { wrong: `As ${old}, it can’t be moved up. Answer ${answerWords(answer)}.` };
}

function readForm(library, bytes) {
  if (bytes.length === SESSION) return { image: bytes, words: 'This session came from an image, taken as it is.' };
  if (bytes.length === SAVED) return restored(library, bytes, 'a save');
  if (bytes.length >= BASE_SAVED.least && bytes.length <= BASE_SAVED.most) return movedUp(library, bytes);
  const due = `a save has ${counted(SAVED)}, one of the base version ${BASE_SAVED.least} to ${counted(BASE_SAVED.most)}, an image ${counted(SESSION)}`;
  return { wrong: `Here are ${counted(bytes.length)} bytes: ${due}.` };
}

const letters = (bytes) => String.fromCharCode(...bytes.slice(0, 4 * SESSION));

// The bytes that a text spells; null where it is none.
function spelledIn(bytes) {
  const text = letters(bytes).trim().replace(/^(image|load|save|restore)\s+/, '').replace(/\s/g, '');
  return /^([0-9A-Fa-f]{2})+$/.test(text) ? fromHex(text) : null;
}

export const readKept = (library, bytes) => readForm(library, (bytes.length === SESSION ? null : spelledIn(bytes)) ?? bytes);

// Of a packet with status 13: the reason, the data byte from 1, and its place in the packet from 0.
export const faultOf = (order, heard) =>
  order.name === 'occ' && heard?.small ? { reason: heard.small, dataByte: heard.high, at: 3 + heard.high } : null;

export const bellOf = (order, heard) => (heard && heard.answer === 0 && (order.name === 'sbe' || order.name === 'time') ? heard.high : null);

export const imageLine = (image) => `image ${hexOf(image, '')}`;
