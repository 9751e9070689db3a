// What is sent and what comes back, cut into fields: { at, length, name, words }. A field that has too few bytes ends the cutting.
import { hex, number16, number32, number64, counted } from './bytes.js';
import {
  OCC_STATUSES, SBE_STATUSES, WATCH_ONLY_REFUSES, STATES, ROLES, FRUS, FORMATS, SENDERS, LOG_REASONS, named, sbeStatus,
} from './words.js';
import { userWords, degrees, coresWords, readSession, isWatchOnly } from './session.js';

const plain = (bytes) => (bytes.length <= 4 ? `${bytes.reduce((sum, byte) => sum * 256 + byte, 0)}` : '');
const watt = (bytes) => `${counted(number16(bytes, 0))} W`;
const word = (table) => (bytes) => named(table, bytes[0]);
const celsius = (bytes) => degrees(bytes[0]);
const text = (bytes) => `“${String.fromCharCode(...bytes.filter((byte) => byte !== 0))}”`;
const nothing = () => '';

// A plan is [length, name, words of the bytes]..; Infinity takes what is left.
function cut(bytes, plan, from, end) {
  const fields = [];
  let at = from;
  for (const [length, name, words = plain] of plan) {
    const taken = Math.min(length, end - at);
    if (taken <= 0 || (length !== Infinity && taken < length)) break;
    fields.push({ at, length: taken, name, words: words(bytes.slice(at, at + taken)) });
    at += taken;
  }
  if (at < end) fields.push({ at, length: end - at, name: 'more bytes', words: '' });
  return fields;
}

// ---- commands

const TYPES = { 0x00: 'poll', 0x12: 'clear log', 0x20: 'set state', 0x21: 'configuration', 0x22: 'user cap', 0x25: 'reset prep' };

const version = [1, 'version', nothing];
const numbers = (bytes) => [0, 2, 4, 6, 8].map((at) => number16(bytes, at)).join(' ');
const fruSet = [[1, 'FRU type', word(FRUS)], [1, 'DVFS', celsius], [1, 'ERROR', celsius], [1, 'timeout', (bytes) => `${bytes[0]} s`]];
const pairSet = [[1, 'hub'], [1, 'MBA'], [10, 'five numbers', numbers]];

const repeated = (plan, bytes, from, end) => {
  const length = plan.reduce((sum, [one]) => sum + one, 0);
  return Array.from({ length: Math.floor(Math.max(0, end - from) / length) }, () => plan).flat();
};

const CONFIGURED = {
  0x03: () => [[1, 'role', word(ROLES)]],
  0x07: () => [version, [2, 'minimum', watt], [2, 'maximum', watt], [2, 'oversubscription', watt]],
  0x12: (bytes, from, end) => [version, [1, 'number of sets'], ...repeated(pairSet, bytes, from + 3, end)],
  0x13: (bytes, from, end) => [version, [1, 'number of sets'], ...repeated(fruSet, bytes, from + 3, end)],
};

const DATA = {
  0x00: () => [version],
  0x12: () => [[1, 'log id']],
  0x20: () => [version, [1, 'state', word(STATES)], [1, 'reserved', nothing]],
  0x21: (bytes, from, end) => [[1, 'format', word(FORMATS)], ...(CONFIGURED[bytes[from]]?.(bytes, from, end) ?? [])],
  0x22: () => [[2, 'user cap', (bytes) => userWords(number16(bytes, 0))]],
  0x25: () => [version, [1, 'reason', (bytes) => ({ 0: 'no failure', ...LOG_REASONS })[bytes[0]] ?? 'unknown']],
};

function occCommandFields(bytes) {
  if (bytes.length < 4) return [{ at: 0, length: bytes.length, name: 'too short for a packet', words: '' }].filter((field) => field.length);
  const head = cut(bytes, [[1, 'sequence'], [1, 'type', word(TYPES)], [2, 'data length L']], 0, 4);
  const end = Math.min(4 + number16(bytes, 2), bytes.length);
  const data = cut(bytes, DATA[bytes[1]]?.(bytes, 4, end) ?? [[Infinity, 'data', nothing]], 4, end);
  const tail = cut(bytes, [[2, 'checksum', nothing], [Infinity, 'ignored', nothing]], end, bytes.length);
  return [...head, ...data, ...tail];
}

const REQUESTS = {
  D101: ['deadman loop', [[8, 'time', (bytes) => `${counted(number64(bytes, 0))} ms`]]],
  D102: ['exit cache contained mode', [[4, 'number of pairs'], [4, 'step'], [8, 'cache address', nothing]]],
  D103: ['core functional status', [[4, 'mask', (bytes) => coresWords(number32(bytes, 0))]]],
  D301: ['put ring from image', [[2, 'target type'], [1, 'reserved', nothing], [1, 'chiplet id'], [2, 'ring id'], [2, 'ring mode']]],
  D401: ['control timer', [[4, 'reserved', nothing], [4, 'timeout', (bytes) => `${counted(number32(bytes, 0))} µs`]]],
  D703: ['read SEEPROM', [[4, 'offset'], [4, 'size'], [8, 'address', nothing]]],
  D704: ['set FFDC address', [[4, 'size of the FFDC area'], [4, 'size of the pass-through area'], [8, 'address of the FFDC area', nothing],
    [8, 'address of the pass-through area', nothing]]],
};

const FLAGS = [[0x0100, 'response asked'], [0x0200, 'acknowledge asked'], [0x0001, 'start'], [0x0002, 'stop']];
const flagWords = (bytes) => FLAGS.filter(([bit]) => number16(bytes, 0) & bit).map(([, words]) => words).join(', ') || 'none';

const requestOf = (bytes) => REQUESTS[hex(bytes[6] ?? 0) + hex(bytes[7] ?? 0)];

function sbeRequestFields(bytes) {
  const plan = [[2, 'reserved', nothing], [2, 'flags', flagWords], [2, 'sequence'], [1, 'class', nothing],
    [1, 'command', () => requestOf(bytes)?.[0] ?? 'unknown'], ...(requestOf(bytes)?.[1] ?? [])];
  return cut(bytes, [...plan, [Infinity, 'ignored', nothing]], 0, bytes.length);
}

export const sentFields = (order) => (order.name === 'occ' ? occCommandFields(order.bytes) : sbeRequestFields(order.bytes));

// ---- replies

const pollStatus = (bytes) =>
  [[0x80, 'master'], [0x02, 'observation-ready'], [0x01, 'active-ready']].filter(([bit]) => bytes[0] & bit).map(([, words]) => words).join(', ') || 'none';

const POLL = [
  [1, 'status', pollStatus], [1, 'extended status', nothing], [1, 'OCCs present'], [1, 'wanted format', word(FORMATS)], [1, 'state', word(STATES)],
  [2, 'reserved', nothing], [1, 'log id', (bytes) => (bytes[0] ? String(bytes[0]) : 'no log pends')], [4, 'log address', nothing], [2, 'log length'],
  [2, 'reserved', nothing], [16, 'code level', text], [6, 'sensor text', text], [1, 'number of blocks'], [1, 'version of the block header'],
];
const CAPS = [
  [4, 'block', text], [1, 'reserved', nothing], [1, 'format'], [1, 'length of a sensor'], [1, 'number of sensors'], [2, 'cap in force: the limit', watt],
  [2, 'power reading', watt], [2, 'cap without redundant power', watt], [2, 'maximum', watt], [2, 'minimum', watt],
  [2, 'user cap', (bytes) => userWords(number16(bytes, 0))],
];

export const statusName = (status) => (OCC_STATUSES[status] ?? ['unknown', ''])[0];

function replyPlan(reply) {
  if (reply[2] !== 0) return [[1, 'log id', () => 'none']];
  return reply[1] === 0 ? [...POLL, ...CAPS] : [];
}

function occReplyFields(reply) {
  const head = [[1, 'sequence'], [1, 'type', word(TYPES)], [1, 'status', (bytes) => statusName(bytes[0])], [2, 'data length']];
  const end = reply.length - 2;
  return [...cut(reply, head, 0, 5), ...cut(reply, replyPlan(reply), 5, end), ...cut(reply, [[2, 'checksum', nothing]], end, reply.length)];
}

export const sbeStatusName = (reply) => SBE_STATUSES[sbeStatus(reply)] ?? 'unknown';

function sbeReplyFields(reply) {
  const plan = [[2, 'primary status'], [2, 'secondary status', () => sbeStatusName(reply)], [2, 'sequence'], [1, 'class', nothing],
    [1, 'command', () => requestOf(reply)?.[0] ?? 'unknown'], [Infinity, 'data', nothing]];
  return cut(reply, plan, 0, reply.length);
}

export const replyFields = (order, reply) => (order.name === 'occ' ? occReplyFields(reply) : sbeReplyFields(reply));

// No command or request alters the profile, so the session after it tells by which one it was judged.
const byProfile = (order, heard, status) => (isWatchOnly(readSession(heard.image)) ? WATCH_ONLY_REFUSES[order.name][status] : undefined);

// Why a command or request got its status; '' where the status says enough.
export function whyWords(order, heard) {
  if (!heard.reply) return '';
  if (order.name === 'sbe') return byProfile(order, heard, sbeStatus(heard.reply)) ?? '';
  return byProfile(order, heard, heard.reply[2]) ?? OCC_STATUSES[heard.reply[2]]?.[1] ?? '';
}

// ---- an order as a title

const DETAILS = { 0x12: [4, 'log id'], 0x20: [5, 'state'], 0x22: [4, 'user cap'], 0x25: [5, 'reason'] };

// A role by its name, caps by their bounds; of the others the format says enough.
function configuredTitle(fields, format) {
  const words = (name) => fields.find((field) => field.name === name)?.words;
  if (format === 0x03) return `role ${words('role') ?? ''}`.trimEnd();
  if (format === 0x07) return `caps ${words('minimum') ?? ''} to ${words('maximum') ?? ''}`;
  return format in CONFIGURED ? FORMATS[format] : 'configuration of an unknown format';
}

function occTitle({ sender, bytes }) {
  const from = ` (${SENDERS[sender] ?? `sender ${hex(sender)}`})`;
  if (bytes.length < 4) return `${bytes.length} bytes${from}`;
  const fields = occCommandFields(bytes);
  if (bytes[1] === 0x21) return `${configuredTitle(fields, bytes[4])}${from}`;
  const detail = fields.find((field) => field.at === DETAILS[bytes[1]]?.[0] && field.name === DETAILS[bytes[1]][1]);
  const name = TYPES[bytes[1]] ?? `type ${hex(bytes[1])}`;
  return `${name}${detail ? `${bytes[1] === 0x25 ? ',' : ''} ${detail.words}` : ''}${from}`;
}

const TITLES = {
  occ: occTitle,
  sbe: ({ bytes }) => (bytes.length < 8 ? `mailbox request of ${bytes.length} bytes` : `mailbox ${hex(bytes[6])} ${hex(bytes[7])} ${requestOf(bytes)?.[0] ?? 'unknown'}`),
  undo: () => 'undo',
  redo: () => 'redo',
  forget: ({ number }) => `forget the ${counted(number)} oldest`,
  time: ({ number }) => `${counted(number)} µs pass`,
  watch: () => 'open watch-only',
  plan: ({ number, packets }) => `a plan of ${packets.length} ${packets.length === 1 ? 'packet' : 'packets'} for state ${number} ${named(STATES, number)}`,
  seeprom: ({ bytes }) => `SEEPROM lent, ${counted(bytes.length)} bytes`,
};

// A prepared packet in a few words; its sender is always HTMGT.
export function packetTitle(bytes) {
  const title = occTitle({ sender: 0x10, bytes }).replace(' (HTMGT)', '');
  return title[0].toUpperCase() + title.slice(1);
}

export function orderTitle(order) {
  const title = TITLES[order.name](order);
  return title[0].toUpperCase() + title.slice(1);
}
