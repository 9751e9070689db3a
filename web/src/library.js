// The proved library. Everything that answers on this page answers through here; the rest of the page sends, shows and keeps.
import { number16, number32, joined } from './bytes.js';

export const VERSION = 7; // BJARGOLSK_VERSION of include/bjargolsk.h
export const SESSION = 4411;
const OCC_REPLY = 4096;
const SBE_REPLY = 32;
export const COMMAND_MOST = 8192;
export const SEEPROM_MOST = 65536;
export const PACKET_MOST = 4096; // BJARGOLSK_SLOT
export const PACKETS_MOST = 6; // one more than a plan takes, as in `standin`
const ORDER = 5;
const PART = 118;
export const SAVED = 4409;
export const BASE_SAVED = { least: 232, most: 2280 };
export const PART_MOST = 1048576; // bytes of a trace, as in `part`

// Lent buffers stand in pages of their own, behind what the module uses itself.
const PAGE = 65536;
const AT = {
  session: 0, command: 8192, reply: 16384, packets: 24576, order: 49152, text: 49408, out: 57344, seeprom: PAGE, data: 2 * PAGE, first: 3 * PAGE, second: 3 * PAGE + PART_MOST,
};
const PAGES = 3 + (2 * PART_MOST) / PAGE;

export async function openLibrary(wasm) {
  const { instance } = await WebAssembly.instantiate(wasm, {});
  const { memory, ...calls } = instance.exports;
  const base = memory.grow(PAGES) * PAGE;
  const lent = new Uint8Array(memory.buffer, base, PAGES * PAGE);
  return { calls, lent, base };
}

const answerOf = (result) => result & 0xff;
const smallOf = (result) => (result >>> 8) & 0xff;
const highOf = (result) => result >>> 16;

// What stands in a buffer after the call, as a copy.
const taken = (library, at, length) => library.lent.slice(at, at + length);

function lend(library, at, bytes) {
  library.lent.set(bytes, at);
  return library.base + at;
}

// A buffer to be written: zeros, so that nothing of an earlier call shows.
function lendEmpty(library, at, length) {
  library.lent.fill(0, at, at + length);
  return library.base + at;
}

function occ(library, session, length, order, room) {
  const command = lend(library, AT.command, order.bytes);
  const reply = lendEmpty(library, AT.reply, COMMAND_MOST);
  return library.calls.bjargolsk_occ(session, length, order.sender, command, BigInt(order.bytes.length), reply, BigInt(room ?? OCC_REPLY));
}

function sbe(library, session, length, order, room, image) {
  const request = lend(library, AT.command, order.bytes);
  const reply = lendEmpty(library, AT.reply, COMMAND_MOST);
  const seeprom = lend(library, AT.seeprom, image);
  const data = lendEmpty(library, AT.data, SEEPROM_MOST);
  return library.calls.bjargolsk_sbe_seeprom(session, length, request, BigInt(order.bytes.length), reply, BigInt(room ?? SBE_REPLY),
    seeprom, BigInt(image.length), data, BigInt(SEEPROM_MOST));
}

// Each packet in its slot, filled up with zeros; the last slot ends with its packet.
const slotted = (packets) => joined(...packets.map((packet, at) =>
  (at === packets.length - 1 ? packet : joined(packet, new Uint8Array(PACKET_MOST - packet.length)))));

function plan(library, session, length, order) {
  const slots = slotted(order.packets);
  const packets = lend(library, AT.packets, slots);
  const numbers = lendEmpty(library, AT.order, ORDER);
  return library.calls.bjargolsk_plan(session, length, packets, BigInt(slots.length), Number(order.number), numbers, BigInt(ORDER));
}

const made = {
  occ,
  sbe,
  plan,
  undo: (library, session, length) => library.calls.bjargolsk_undo(session, length),
  redo: (library, session, length) => library.calls.bjargolsk_redo(session, length),
  forget: (library, session, length, order) => library.calls.bjargolsk_forget(session, length, Number(order.number)),
  time: (library, session, length, order) => library.calls.bjargolsk_time(session, length, BigInt.asIntN(64, order.number)),
  watch: (library, session, length) => library.calls.bjargolsk_watch(session, length),
};

export const isCall = (order) => order.name in made;

// A reply says its own length; it is written on answer 0 alone.
function replyOf(library, order, answer) {
  if (answer !== 0) return null;
  if (order.name === 'sbe') return taken(library, AT.reply, SBE_REPLY);
  if (order.name !== 'occ') return null;
  return taken(library, AT.reply, number16(library.lent, AT.reply + 3) + 7);
}

// A read of the SEEPROM (D7 03) that succeeds leaves as many bytes as its request's size says.
function dataOf(library, order, reply) {
  const read = order.name === 'sbe' && reply && reply[6] === 0xd7 && reply[7] === 0x03 && number32(reply, 0) === 0;
  return read ? taken(library, AT.data, number32(order.bytes, 12)) : null;
}

// The numbers of the packets in the order that was found; null where none was.
const orderOf = (library, order, result) => (order.name === 'plan' && smallOf(result) === 1 ? Array.from(taken(library, AT.order, highOf(result))) : null);

// Makes one call on a copy of the image. `room` is the reply buffer's length, whole unless said.
export function call(library, image, order, { seeprom = new Uint8Array(), room } = {}) {
  const session = lend(library, AT.session, image);
  const result = made[order.name](library, session, BigInt(image.length), order, room, seeprom) >>> 0;
  const answer = answerOf(result);
  const reply = replyOf(library, order, answer);
  const data = dataOf(library, order, reply);
  const found = orderOf(library, order, result);
  return { answer, small: smallOf(result), high: highOf(result), reply, data, found, image: taken(library, AT.session, image.length) };
}

// Whether an order of packets is a plan on this session.
export function isPlan(library, image, { packets, number }, order) {
  const session = lend(library, AT.session, image);
  const slots = slotted(packets);
  const result = library.calls.bjargolsk_plan_ok(session, BigInt(image.length), lend(library, AT.packets, slots), BigInt(slots.length), Number(number),
    lend(library, AT.order, order), BigInt(order.length));
  return smallOf(result) === 1;
}

// The lines that `part` prints of two traces.
export function partLines(library, first, second) {
  const text = lendEmpty(library, AT.text, PART);
  const result = library.calls.bjargolsk_part(lend(library, AT.first, first), BigInt(first.length), lend(library, AT.second, second), BigInt(second.length),
    text, BigInt(PART));
  return String.fromCharCode(...taken(library, AT.text, highOf(result))).trimEnd().split('\n');
}

// ---- saved sessions

export function save(library, image) {
  const session = lend(library, AT.session, image);
  const result = library.calls.bjargolsk_save(session, BigInt(image.length), lendEmpty(library, AT.out, SAVED), BigInt(SAVED));
  return { answer: answerOf(result), bytes: taken(library, AT.out, highOf(result)) };
}

export function moveUp(library, saved) {
  const result = library.calls.bjargolsk_move_up(lend(library, AT.first, saved), BigInt(saved.length), lendEmpty(library, AT.out, SAVED), BigInt(SAVED));
  return { answer: answerOf(result), bytes: taken(library, AT.out, highOf(result)) };
}

export function restore(library, saved) {
  const session = lendEmpty(library, AT.session, SESSION);
  const result = library.calls.bjargolsk_restore(session, BigInt(SESSION), lend(library, AT.first, saved), BigInt(saved.length));
  return { answer: answerOf(result), image: taken(library, AT.session, SESSION) };
}

export function freshImage(library) {
  const session = lendEmpty(library, AT.session, SESSION);
  library.calls.bjargolsk_fresh(session, BigInt(SESSION));
  return taken(library, AT.session, SESSION);
}

// Forgetting no change answers 1 where the session isn't well formed, and changes nothing else.
export const isWellFormed = (library, image) => call(library, image, { name: 'forget', number: 0n }).answer === 0;
