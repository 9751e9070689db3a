// A session's bytes (docs/IMAGE.md) read into fields and said in words. Limit, readiness and wanted format are read too, never worked out.
import { hex, number16, number32, number64, counted } from './bytes.js';
import { STATES, ROLES, PROFILES, FRUS, FORMATS, LOG_REASONS, named } from './words.js';

const JOURNAL = 239;
const REDO = 2289;
const STORE = 2048;
const LOGS = [185, 187, 189, 191];
const PAIRS = 16;

const areaAt = (image, at) => ({ address: number64(image, at), size: number32(image, at + 8) });

// The used bytes of a store; `tooLong` where the image says that more are used than there are.
function storeAt(image, lengthAt, at) {
  const used = number16(image, lengthAt);
  return { used, tooLong: used > STORE, bytes: image.slice(at, at + Math.min(used, STORE)) };
}

export function readSession(image) {
  return {
    state: image[0],
    role: image[1],
    minimum: number16(image, 2),
    maximum: number16(image, 4),
    over: number16(image, 6),
    presence: number16(image, 8),
    sets: image.slice(10, 170),
    user: number16(image, 170),
    thermal: image.slice(172, 181),
    received: { role: image[181], caps: image[182], throttles: image[183], thermal: image[184] },
    logs: LOGS.map((at) => ({ id: image[at], reason: image[at + 1] })).filter((log) => log.id !== 0),
    mask: number32(image, 193),
    deadman: { running: image[197], time: number64(image, 198) },
    ffdc: areaAt(image, 206),
    pass: areaAt(image, 218),
    limit: number16(image, 230),
    observationReady: image[232],
    activeReady: image[233],
    wanted: image[234],
    nextId: number16(image, 235),
    journal: storeAt(image, 237, JOURNAL),
    redo: storeAt(image, 2287, REDO),
    timer: { running: image[4401], left: number64(image, 4402) },
    profile: image[4410],
  };
}

export const isWatchOnly = (session) => session.profile === 1;

// ---- in words

const watts = (value) => `${counted(value)} W`;
const ifReceived = (mark, words) => (mark ? words : 'not received');
const yesNo = (value) => (value ? 'yes' : 'no');
const listed = (items) => (items.length ? items.join(', ') : 'none');

export const userWords = (cap) => (cap === 0 ? 'none' : watts(cap));

export const stateWords = (state) => `${state} ${named(STATES, state)}`;

export const degrees = (value) => (value === 255 ? 'not defined' : `${value} °C`);

export function thermalWords(bytes) {
  const rows = FRUS.map((name, at) => [name, ...bytes.slice(3 * at, 3 * at + 3)]);
  const defined = rows.filter(([, dvfs, error, timeout]) => dvfs !== 255 || error !== 255 || timeout !== 255);
  return listed(defined.map(([name, dvfs, error, timeout]) => `${name}: DVFS ${degrees(dvfs)}, ERROR ${degrees(error)}, timeout ${timeout} s`));
}

// A pair is a bit of the presence, the first in the lowest.
export const pairsOf = (presence) =>
  Array.from({ length: PAIRS }, (_, pair) => pair).filter((pair) => presence & (1 << pair));
export const pairName = (pair) => `${pair >> 1}.${pair & 1}`;

const setWords = (session, pair) => {
  const numbers = Array.from({ length: 5 }, (_, at) => number16(session.sets, 10 * pair + 2 * at));
  return `hub ${pair >> 1} MBA ${pair & 1}: ${numbers.join(' ')}`;
};

// Bit 0, the most significant, is core 0.
export const coresOf = (mask) => Array.from({ length: 32 }, (_, core) => core).filter((core) => Math.floor(mask / 2 ** (31 - core)) % 2);
export const coresWords = (mask) => (mask === 0 ? 'none' : `cores ${coresOf(mask).join(' ')}`);

export const deadmanWords = ({ running, time }) => (running ? `runs, ${counted(time)} ms` : 'off');
export const timerWords = ({ running, left }) => (running ? `runs, ${counted(left)} µs left` : 'off');
export const areaWords = ({ address, size }) => (size === 0 ? 'none' : `${hex(address, 16)}, ${counted(size)} bytes`);
export const logWords = ({ id, reason }) => `id ${id}: ${named(LOG_REASONS, reason)}`;
export const capsWords = (minimum, maximum, over) => `${counted(minimum)} to ${watts(maximum)}, oversubscription ${watts(over)}`;

// What the page shows of a session: [part, [name, words]..]. A name is what a change is told by.
export function sessionParts(session) {
  return [
    ['Power', [
      ['State', stateWords(session.state)],
      ['Role', ifReceived(session.received.role, named(ROLES, session.role))],
      ['Limit', watts(session.limit)],
      ['User cap', userWords(session.user)],
      ['Caps', ifReceived(session.received.caps, capsWords(session.minimum, session.maximum, session.over))],
      ['Observation-ready', yesNo(session.observationReady)],
      ['Active-ready', yesNo(session.activeReady)],
      ['Wanted format', `${hex(session.wanted)} ${named(FORMATS, session.wanted)}`],
    ]],
    ['Configuration and logs', [
      ['Thermal', ifReceived(session.received.thermal, thermalWords(session.thermal))],
      ['Throttles', ifReceived(session.received.throttles, listed(pairsOf(session.presence).map((pair) => setWords(session, pair))))],
      ['Pending logs', listed(session.logs.map(logWords))],
      ['Next log id', String(session.nextId)],
    ]],
    ['Self-boot engine', [
      ['Not functional', coresWords(session.mask)],
      ['Deadman loop', deadmanWords(session.deadman)],
      ['Timer', timerWords(session.timer)],
      ['FFDC area', areaWords(session.ffdc)],
      ['Pass-through area', areaWords(session.pass)],
    ]],
    ['Profile and room', [
      ['Profile', named(PROFILES, session.profile)],
      ['Journal', `${counted(session.journal.used)} of 2,048 bytes used`],
      ['Redo store', `${counted(session.redo.used)} bytes used`],
    ]],
  ];
}
