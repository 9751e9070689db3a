// Numbers of the interface in words (docs/INTERFACE.md). Words only: which number comes when is the library's.
import { hex } from './bytes.js';

export const ANSWERS = {
  0: 'done',
  1: 'the session isn’t well formed',
  2: 'the sender is neither 10 (HTMGT) nor 20 (BMC)',
  3: 'the buffer for the reply, or for a plan’s order, is too short',
  4: 'the command is too short: under 4 bytes for the OCC, under 32 for the SBE',
  5: 'the journal has no room for the change',
  6: 'nothing to undo: the journal is empty',
  7: 'the newest entry can’t be put in: the record would be ill formed',
  8: 'nothing to redo: the redo store is empty',
  9: 'fewer changes are held than are to be forgotten',
  10: 'more than five packets, or a wanted state other than 2 and 3',
  11: 'the save won’t read or is ill formed',
  13: 'the buffer for the save is too short',
};

export const answerWords = (answer) => `${answer}: ${ANSWERS[answer] ?? 'unknown'}`;

export const OCC_STATUSES = {
  0x00: ['success', ''],
  0x11: ['invalid command', 'the type isn’t known, or this sender may not send it'],
  0x12: ['invalid length', 'the length is wrong for the packet or for this command'],
  0x13: ['invalid data', 'a field is wrong'],
  0x14: ['checksum failure', 'the last two bytes aren’t the sum of those before them'],
  0x15: ['internal error', 'a log is due, and four pend already or the ids are used up'],
  0x16: ['present state prohibits', 'the role, the state or what is still missing forbids it'],
};

export const SBE_STATUSES = {
  '00/00': 'success',
  '01/01': 'class not supported',
  '01/02': 'command not supported',
  '02/03': 'invalid address',
  '02/04': 'invalid target type',
  '02/05': 'invalid chiplet id',
  '02/18': 'input buffer overflow',
  '02/19': 'invalid parameters',
  '05/20': 'denied chip-op access',
};

// Why a watch-only session refuses: these two statuses and no others come by the profile.
export const WATCH_ONLY_REFUSES = {
  occ: { 0x16: 'the session is watch-only: poll and clear log alone are open' },
  sbe: { '05/20': 'the session is watch-only, and the request would make an entry' },
};

export const REASONS = { 1: 'bad version', 2: 'bad count', 3: 'out of range', 4: 'repeated', 5: 'clash', 6: 'not pending' };

export const KINDS = {
  0x01: 'clear log',
  0x02: 'set state',
  0x03: 'role',
  0x04: 'caps',
  0x05: 'user cap',
  0x06: 'thermal thresholds',
  0x07: 'throttles',
  0x08: 'reset prep',
  0x09: 'core mask',
  0x0a: 'deadman loop',
  0x0b: 'FFDC and pass-through areas',
  0x0c: 'timer',
};

export const STATES = { 1: 'standby', 2: 'observation', 3: 'active' };
export const ROLES = { 0: 'slave', 1: 'master' };
export const PROFILES = { 0: 'full', 1: 'watch-only' };
export const SENDERS = { 0x10: 'HTMGT', 0x20: 'BMC' };
export const FRUS = ['processor', 'Centaur', 'DIMM'];
export const FORMATS = { 0x00: 'none', 0x03: 'role', 0x07: 'caps', 0x12: 'throttles', 0x13: 'thermal thresholds' };
export const LOG_REASONS = { 1: 'this OCC failed', 2: 'another OCC failed' };

export const named = (table, value) => table[value] ?? 'unknown';

const BELLS = [[0x8000, 'response'], [0x4000, 'acknowledge'], [0x0002, 'the timer has expired']];

export function bellWords(bell) {
  const rung = BELLS.filter(([bit]) => bell & bit).map(([, words]) => words);
  return rung.length ? `${hex(bell, 4)}: ${rung.join(', ')}` : `${hex(bell, 4)}: not rung`;
}

export const sbeStatus = (reply) => `${hex(reply[0] * 256 + reply[1])}/${hex(reply[2] * 256 + reply[3])}`;
