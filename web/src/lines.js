// The lines of `standin` (docs/PROTOCOL.md): read into orders, and written of calls, so that a bug report can go both ways.
import { hex, hexOf, readBytes, asBytes, joined, same } from './bytes.js';
import { COMMAND_MOST, PACKET_MOST, PACKETS_MOST, SESSION } from './library.js';

const LONGEST = 32768;
const ALONE = ['undo', 'redo', 'watch', 'fresh', 'image', 'save', 'why', 'show', 'journal', 'help'];
const NUMBER_MOST = { forget: 4294967295n, time: 18446744073709551615n, buffer: 8192n, plan: 255n };

const complaint = (words, at) => ({ wrong: words, at });
const BLANKS = ' \t';
const isBlank = (letter) => letter === ' ' || letter === '\t';
const afterBlanks = (text, at) => {
  while (at < text.length && isBlank(text[at])) at++;
  return at;
};
const afterWord = (text, at) => {
  while (at < text.length && !isBlank(text[at])) at++;
  return at;
};

function bytesFrom(line, at, most, what) {
  const read = readBytes(line, at, most, BLANKS);
  if (!read.wrong) return read;
  if (read.wrong === 'digit') return complaint('hex digit expected', read.at);
  return complaint(`${what} over ${most} bytes`, read.at);
}

// A byte that must be there, as a sender.
function dueByte(line, at) {
  const begin = afterBlanks(line, at);
  for (const place of [begin, begin + 1]) {
    if (!/^[0-9A-Fa-f]$/.test(line[place] ?? '')) return complaint('hex digit expected', Math.min(place, line.length));
  }
  return { byte: parseInt(line.slice(begin, begin + 2), 16), next: begin + 2 };
}

function numberFrom(line, at, name) {
  const begin = afterBlanks(line, at);
  const digits = /^[0-9]*/.exec(line.slice(begin))[0];
  if (digits === '') return complaint('number expected', begin);
  if (BigInt(digits) > NUMBER_MOST[name]) return complaint(`number over ${NUMBER_MOST[name]}`, begin);
  const rest = afterBlanks(line, begin + digits.length);
  return rest < line.length ? complaint('nothing more expected', rest) : { number: BigInt(digits) };
}

function occLine(line, at) {
  const sender = dueByte(line, at);
  if (sender.wrong) return sender;
  const read = bytesFrom(line, sender.next, COMMAND_MOST, 'command');
  return read.wrong ? read : { name: 'occ', sender: sender.byte, bytes: read.bytes };
}

function sbeLine(line, at) {
  const read = bytesFrom(line, at, COMMAND_MOST, 'command');
  return read.wrong ? read : { name: 'sbe', bytes: read.bytes };
}

function sendLine(line, at) {
  const sender = dueByte(line, at);
  if (sender.wrong) return sender;
  const type = dueByte(line, sender.next);
  if (type.wrong) return type;
  const read = readBytes(line, type.next, COMMAND_MOST - 6, BLANKS);
  if (read.wrong) return complaint(read.wrong === 'digit' ? 'hex digit expected' : `command over ${COMMAND_MOST} bytes`, read.at);
  return { name: 'send', sender: sender.byte, type: type.byte, data: read.bytes };
}

function loadLine(line, at) {
  const read = readBytes(line, at, SESSION, BLANKS);
  if (read.wrong === 'digit') return complaint('hex digit expected', read.at);
  if (read.wrong || read.bytes.length !== SESSION) return { wrong: `image must be ${SESSION} bytes` };
  return { name: 'load', bytes: read.bytes };
}

// Of whatever length: the library judges it.
function restoreLine(line, at) {
  const read = bytesFrom(line, at, Infinity, 'save');
  return read.wrong ? read : { name: 'restore', bytes: read.bytes };
}

function seepromLine(line, at, most) {
  const read = bytesFrom(line, at, most, 'seeprom');
  return read.wrong ? read : { name: 'seeprom', bytes: read.bytes };
}

function packetLine(line, at) {
  const read = bytesFrom(line, at, PACKET_MOST, 'packet');
  return read.wrong ? read : { name: 'packet', bytes: read.bytes };
}

// The packets that are prepared after an order: a packet more, or none where it is empty. `wrong` where there is no place for it.
export function preparedAfter(packets, order) {
  if (order.name !== 'packet') return { packets };
  if (order.bytes.length === 0) return { packets: [] };
  return packets.length === PACKETS_MOST ? { wrong: 'six packets at most' } : { packets: [...packets, order.bytes] };
}

function numberLine(line, at, name) {
  if (name === 'buffer' && afterBlanks(line, at) === line.length) return { name, number: null };
  const read = numberFrom(line, at, name);
  return read.wrong ? read : { name, number: read.number };
}

function aloneLine(line, at, name) {
  const rest = afterBlanks(line, at);
  return rest < line.length ? complaint('nothing more expected', rest) : { name };
}

// A line as an order; null where it has no answer; `wrong` and `at`, from 0, where it isn't understood.
export function readLine(line, { seepromMost = 8192 } = {}) {
  const begin = afterBlanks(line, 0);
  if (line.length > LONGEST) return complaint(`line over ${LONGEST} bytes`, LONGEST);
  if (begin === line.length || line[begin] === '#') return null;
  const end = afterWord(line, begin);
  const word = line.slice(begin, end);
  if (word === 'occ') return occLine(line, end);
  if (word === 'sbe') return sbeLine(line, end);
  if (word === 'send') return sendLine(line, end);
  if (word === 'load') return loadLine(line, end);
  if (word === 'restore') return restoreLine(line, end);
  if (word === 'seeprom') return seepromLine(line, end, seepromMost);
  if (word === 'packet') return packetLine(line, end);
  if (Object.hasOwn(NUMBER_MOST, word)) return numberLine(line, end, word);
  if (ALONE.includes(word)) return aloneLine(line, end, word);
  return complaint('unknown word', begin);
}

export const complaintLine = (read) => `? ${read.wrong}${read.at === undefined ? '' : ` at column ${read.at + 1}`}`;

// The sum of all bytes, modulo 65,536. It is the sender's to make; the library tests it.
const checksum = (bytes) => bytes.reduce((sum, byte) => (sum + byte) & 0xffff, 0);

export function framed(sequence, type, data) {
  const unsummed = joined([sequence, type], asBytes(data.length, 2), data);
  return joined(unsummed, asBytes(checksum(unsummed), 2));
}

// ---- of orders

const LINE = {
  occ: (order) => `occ ${hex(order.sender)} ${hexOf(order.bytes)}`.trimEnd(),
  sbe: (order) => `sbe ${hexOf(order.bytes)}`.trimEnd(),
  forget: (order) => `forget ${order.number}`,
  time: (order) => `time ${order.number}`,
  seeprom: (order) => `seeprom ${hexOf(order.bytes)}`.trimEnd(),
  plan: (order) => `plan ${order.number}`,
};

export const lineOf = (order) => LINE[order.name]?.(order) ?? order.name;

// The lines that take the packets prepared from those to these; none where they are the same.
export function packetLines(from, to) {
  const kept = from.length <= to.length && from.every((packet, at) => same(packet, to[at]));
  return [...(kept ? [] : ['packet']), ...to.slice(kept ? from.length : 0).map((packet) => `packet ${hexOf(packet)}`)];
}

// ---- of what was heard

const bellText = (heard) => ` bell ${hex(heard.high, 4)}`;

function dataText(data) {
  if (!data) return '';
  return data.length ? ` data ${hexOf(data, '')}` : ' data';
}

const HEARD = {
  occ: (heard) => ` ${hexOf(heard.reply)}`,
  sbe: (heard) => ` ${hexOf(heard.reply)}${bellText(heard)}${dataText(heard.data)}`,
  undo: (heard) => ` ${hex(heard.high)} ${heard.small}`,
  redo: (heard) => ` ${hex(heard.high)}`,
  forget: () => '',
  time: bellText,
  watch: () => '',
  plan: ({ found }) => (found ? ` plan${found.map((number) => ` ${number}`).join('')}` : ' no plan'),
};

// The answer line that `standin` gives.
export const heardLine = (order, heard) => `${heard.answer}${heard.answer === 0 ? HEARD[order.name](heard) : ''}`;

export const savedLine = ({ answer, bytes }) => (answer === 0 ? `save ${hexOf(bytes, '')}` : String(answer));
