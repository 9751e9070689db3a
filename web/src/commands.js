// The prepared commands: their fields, and the bytes made of them. Values that the stand-in refuses can be chosen too; refusing is its part.
import { asBytes, joined } from './bytes.js';

const choice = (id, label, options, value) => ({ id, label, kind: 'choice', options, value });
const number = (id, label, most, value, unit = '') => ({ id, label, kind: 'number', most: BigInt(most), value, unit });
const rows = (id, label, columns, value) => ({ id, label, kind: 'rows', columns, value });

const WORD = 0xffff;
const LONG = 0xffffffff;
const REGISTER = 0xffffffffffffffffn;

const startStop = choice('flag', 'Start or stop', [[1, 'start'], [2, 'stop']], 1);
const setsOf = (list) => joined(...list);

const OCC = [
  { id: 'poll', name: 'Poll', type: 0x00, fields: [], data: () => [0x10] },
  {
    id: 'state', name: 'Set state', type: 0x20, data: ({ state }) => [0x00, Number(state), 0x00],
    fields: [choice('state', 'State', [[1, '1 standby'], [2, '2 observation'], [3, '3 active'], [4, '4, no such state']], 2)],
  },
  {
    id: 'role', name: 'Role', type: 0x21, data: ({ role }) => [0x03, Number(role)],
    fields: [choice('role', 'Role', [[0, '0 slave'], [1, '1 master'], [2, '2, no such role']], 1)],
  },
  {
    id: 'caps', name: 'Caps', type: 0x21,
    data: ({ minimum, maximum, over }) => joined([0x07, 0x10], asBytes(minimum, 2), asBytes(maximum, 2), asBytes(over, 2)),
    fields: [number('minimum', 'Minimum', WORD, '500', 'W'), number('maximum', 'Maximum', WORD, '1500', 'W'),
      number('over', 'Oversubscription', WORD, '0', 'W')],
  },
  {
    id: 'throttles', name: 'Throttles', type: 0x21,
    data: ({ sets }) => joined([0x12, 0x10, sets.length & 255], setsOf(sets.map(([hub, mba, ...five]) =>
      joined([Number(hub), Number(mba)], ...five.map((one) => asBytes(one, 2)))))),
    fields: [rows('sets', 'Sets, one to a line', [['hub', 255], ['MBA', 255], ['1st', WORD], ['2nd', WORD], ['3rd', WORD], ['4th', WORD],
      ['5th number', WORD]], '0 1 100 200 100 200 10')],
  },
  {
    id: 'thermal', name: 'Thermal thresholds', type: 0x21,
    data: ({ sets }) => joined([0x13, 0x10, sets.length & 255], setsOf(sets.map((set) => set.map(Number)))),
    fields: [rows('sets', 'Sets, one to a line', [['FRU type', 255], ['DVFS', 255], ['ERROR', 255], ['timeout', 255]], '0 85 95 5')],
  },
  {
    id: 'user', name: 'User cap', type: 0x22, data: ({ user }) => asBytes(user, 2),
    fields: [number('user', 'User cap, 0 for none', WORD, '1000', 'W')],
  },
  {
    id: 'clear', name: 'Clear log', type: 0x12, data: ({ log }) => [Number(log)],
    fields: [number('log', 'Log id', 255, '1')],
  },
  {
    id: 'reset', name: 'Reset prep', type: 0x25, data: ({ reason }) => [0x00, Number(reason)],
    fields: [choice('reason', 'Reason', [[0, '0 no failure'], [1, '1 this OCC failed'], [2, '2 another OCC failed'], [3, '3, no such reason']], 1)],
  },
];

const SBE = [
  {
    id: 'deadman', name: 'D1 01 Deadman loop', request: [0xd1, 0x01], flags: ({ flag }) => Number(flag), data: ({ time }) => asBytes(time, 8),
    fields: [startStop, number('time', 'Time', REGISTER, '5000', 'ms')],
  },
  { id: 'exit', name: 'D1 02 Exit cache contained mode', request: [0xd1, 0x02], data: () => [], fields: [] },
  {
    id: 'cores', name: 'D1 03 Core functional status', request: [0xd1, 0x03], data: ({ mask }) => asBytes(mask, 4),
    fields: [number('mask', 'Mask: 1 means not functional', LONG, '0x00000003')],
  },
  {
    id: 'ring', name: 'D3 01 Put ring from image', request: [0xd3, 0x01],
    data: ({ target, chiplet, ring, mode }) => joined(asBytes(target, 2), [0, Number(chiplet)], asBytes(ring, 2), asBytes(mode, 2)),
    fields: [choice('target', 'Target type', [[0, '0 processor'], [1, '1 pervasive, nest, PCI, MC, PAU, IOHS, cache'], [2, '2 all caches'],
      [3, '3 all cores'], [4, '4 OCMB'], [5, '5, no such type']], 1), number('chiplet', 'Chiplet id', 255, '0x20'), number('ring', 'Ring id', WORD, '0'),
    number('mode', 'Ring mode', WORD, '0')],
  },
  {
    id: 'timer', name: 'D4 01 Control timer', request: [0xd4, 0x01], flags: ({ flag }) => Number(flag),
    data: ({ timeout }) => joined(asBytes(0, 4), asBytes(timeout, 4)),
    fields: [startStop, number('timeout', 'Timeout', LONG, '1000', 'µs')],
  },
  {
    id: 'read', name: 'D7 03 Read SEEPROM', request: [0xd7, 0x03], data: ({ offset, size }) => joined(asBytes(offset, 4), asBytes(size, 4)),
    fields: [number('offset', 'Offset', LONG, '0'), number('size', 'Size', LONG, '8', 'bytes')],
  },
  {
    id: 'areas', name: 'D7 04 Set FFDC address', request: [0xd7, 0x04],
    data: ({ ffdcSize, passSize, ffdc, pass }) => joined(asBytes(ffdcSize, 4), asBytes(passSize, 4), asBytes(ffdc, 8), asBytes(pass, 8)),
    fields: [number('ffdc', 'FFDC address', REGISTER, '0x80'), number('ffdcSize', 'FFDC size', LONG, '128', 'bytes'),
      number('pass', 'Pass-through address', REGISTER, '0x100'), number('passSize', 'Pass-through size', LONG, '0', 'bytes')],
  },
];

export const PREPARED = [...OCC, ...SBE];
export const GROUPS = [['On-chip controller (OCC)', OCC], ['Self-boot engine (SBE) mailbox', SBE]];

export const preparedBy = (id) => PREPARED.find((one) => one.id === id) ?? PREPARED[0];

// The 32 bytes of a request: reserved, flags, sequence, class and command, 24 bytes of data.
export function mailboxed(prepared, values, { sequence, response, acknowledge }) {
  const flags = (response ? 0x0100 : 0) | (acknowledge ? 0x0200 : 0) | (prepared.flags?.(values) ?? 0);
  const head = joined([0, 0], asBytes(flags, 2), asBytes(sequence, 2), prepared.request);
  const data = prepared.data(values);
  return joined(head, data, new Uint8Array(24 - data.length));
}

// ---- what is typed into a field

const wrong = (words) => ({ wrong: words });

// Decimal, or hex after 0x.
export function readNumber(typed, most) {
  const trimmed = typed.trim().replace(/,/g, '');
  if (trimmed === '') return wrong('A number is missing.');
  if (!/^([0-9]+|0[xX][0-9A-Fa-f]+)$/.test(trimmed)) return wrong(`“${typed.trim()}” is no number; 1000 and 0x3E8 are.`);
  const value = BigInt(trimmed);
  return value > most ? wrong(`${trimmed} is over ${most}, the most that the field holds.`) : { value };
}

function readRow(line, columns, at) {
  const cells = line.trim().split(/\s+/);
  const due = columns.map(([name]) => name).join(', ');
  if (cells.length !== columns.length) return wrong(`Line ${at + 1}: ${columns.length} numbers are due (${due}), ${cells.length} are there.`);
  const read = cells.map((cell, place) => readNumber(cell, BigInt(columns[place][1])));
  const bad = read.findIndex((cell) => cell.wrong);
  return bad === -1 ? { value: read.map((cell) => cell.value) } : wrong(`Line ${at + 1}, ${columns[bad][0]}: ${read[bad].wrong}`);
}

function readRows(typed, field) {
  const lines = typed.split('\n').filter((line) => line.trim() !== '');
  const read = lines.map((line, at) => readRow(line, field.columns, at));
  return read.find((row) => row.wrong) ?? { value: read.map((row) => row.value) };
}

export function readField(field, typed) {
  if (field.kind === 'choice') return { value: typed };
  return field.kind === 'rows' ? readRows(typed, field) : readNumber(typed, field.most);
}

// ---- the tour: an OCC becomes a master and goes to active, as examples/bring-up.txt

export const BRING_UP = [
  ['role', { role: 1 }],
  ['thermal', { sets: [[0, 85, 95, 5]] }],
  ['caps', { minimum: 500, maximum: 1500, over: 0 }],
  ['throttles', { sets: [[0, 1, 100, 200, 100, 200, 10]] }],
  ['state', { state: 2 }],
  ['state', { state: 3 }],
];
