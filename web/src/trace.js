// Recorded traces (docs/INTERFACE.md, "Recorded traces"): cut into entries, which the proved calls play one by one; and made of calls.
import { hexOf, joined } from './bytes.js';

// Bytes of an entry, its kind too.
const LENGTHS = { 1: 66, 2: 4098, 3: 33, 4: 1 };

function orderOf(entry) {
  if (entry[0] === 4) return { name: 'undo' };
  if (entry[0] === 3) return { name: 'sbe', bytes: entry.slice(1) };
  return { name: 'occ', sender: entry[1], bytes: entry.slice(2) };
}

// The orders of the whole entries, and the line that says where the trace breaks off, if it does.
export function readTrace(bytes) {
  const orders = [];
  for (let at = 0; at < bytes.length; ) {
    const length = LENGTHS[bytes[at]];
    if (!length) return { orders, stop: `unknown kind at ${at}` };
    if (at + length > bytes.length) return { orders, stop: `cut entry at ${at}` };
    orders.push(orderOf(bytes.slice(at, at + length)));
    at += length;
  }
  return { orders, stop: null };
}

const statusOf = { occ: (reply) => reply.slice(2, 3), sbe: (reply) => reply.slice(0, 4) };

// The line that `replay` prints of entry `number`: the session answer, and the reply's status where one was written.
export function replayLine(number, order, heard) {
  const status = heard.reply ? ` ${hexOf(statusOf[order.name](heard.reply), '')}` : '';
  return `${number} ${heard.answer}${status}`;
}

// ---- made of calls

const filled = (bytes, length) => joined(bytes, new Uint8Array(length - bytes.length));

function entryOf(order) {
  if (order.name === 'undo') return Uint8Array.of(4);
  if (order.name === 'sbe') return joined([3], filled(order.bytes, 32));
  if (order.bytes.length <= 64) return joined([1, order.sender], filled(order.bytes, 64));
  return joined([2, order.sender], filled(order.bytes, 4096));
}

// Why a call can't stand in a trace as it was made; null where it can.
function barOf(order) {
  if (order.name === 'seeprom') return 'a trace lends no SEEPROM';
  if (!['occ', 'sbe', 'undo'].includes(order.name)) return `a trace has no kind for ${order.name}`;
  if (order.name === 'occ' && order.bytes.length < 4) return 'a command under 4 bytes would be filled up';
  if (order.name === 'occ' && order.bytes.length > 4096) return 'a command over 4,096 bytes has no kind';
  if (order.name === 'sbe' && order.bytes.length < 32) return 'a request under 32 bytes would be filled up';
  if (order.name === 'sbe' && order.bytes.length > 32) return 'a request over 32 bytes would be cut';
  return null;
}

// The trace of the orders up to the first that a trace can't hold; `bar` says which and why.
export function traceOf(orders) {
  const entries = [];
  for (const [at, order] of orders.entries()) {
    const bar = barOf(order);
    if (bar) return { bytes: joined(...entries), entries: at, bar };
    entries.push(entryOf(order));
  }
  return { bytes: joined(...entries), entries: orders.length, bar: null };
}
