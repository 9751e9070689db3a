// The journal and the redo store as entries, and what each would put back, in words (docs/INTERFACE.md, "The journal and the redo store").
import { hexOf, number16, number32, number64 } from './bytes.js';
import { KINDS, ROLES, named } from './words.js';
import {
  userWords, stateWords, thermalWords, coresWords, deadmanWords, timerWords, areaWords, logWords, capsWords, pairsOf, pairName,
} from './session.js';

const BODIES = { 1: 3, 2: 1, 3: 2, 4: 7, 5: 2, 6: 10, 7: 163, 8: 2, 9: 4, 10: 9, 11: 24, 12: 9 };

// The entries, oldest first; `brokenAt` is the place of a kind that there isn't, or of a body that is cut.
export function readStore({ bytes, tooLong }) {
  const entries = [];
  if (tooLong) return { entries, tooLong };
  for (let at = 0; at < bytes.length; ) {
    const length = BODIES[bytes[at]];
    if (length === undefined || at + 1 + length > bytes.length) return { entries, brokenAt: at };
    entries.push({ kind: bytes[at], body: bytes.slice(at + 1, at + 1 + length) });
    at += 1 + length;
  }
  return { entries };
}

const clock = (body) => ({ running: body[0], time: number64(body, 1), left: number64(body, 1) });
const area = (body, at) => ({ address: number64(body, at), size: number32(body, at + 8) });
const unless = (received, words) => (received ? words : 'not received');

function throttlesWords(body) {
  const pairs = pairsOf(number16(body, 1)).map(pairName);
  return unless(body[0], pairs.length ? `pairs ${pairs.join(' ')}` : 'no pair');
}

// Bodies that say the same in both stores.
const VALUES = {
  2: (body) => stateWords(body[0]),
  3: (body) => unless(body[0], named(ROLES, body[1])),
  4: (body) => unless(body[0], capsWords(number16(body, 1), number16(body, 3), number16(body, 5))),
  5: (body) => userWords(number16(body, 0)),
  6: (body) => unless(body[0], thermalWords(body.slice(1))),
  7: throttlesWords,
  9: (body) => `not functional: ${coresWords(number32(body, 0))}`,
  10: (body) => deadmanWords(clock(body)),
  11: (body) => `FFDC ${areaWords(area(body, 0))}; pass-through ${areaWords(area(body, 12))}`,
  12: (body) => timerWords(clock(body)),
};

const cleared = (body) => logWords({ id: body[1], reason: body[2] });

function undoWords({ kind, body }) {
  if (kind === 1) return `the log ${cleared(body)} is back, at place ${body[0] + 1}`;
  if (kind === 8) return `state ${stateWords(body[0])}${body[1] ? '; the log that it made goes' : ''}`;
  return VALUES[kind](body);
}

function redoWords({ kind, body }) {
  if (kind === 1) return `the log ${cleared(body)} is cleared`;
  if (kind === 8) return `state 1 standby${body[0] ? `; the log id ${body[0]} is back` : ''}`;
  return VALUES[kind](body);
}

export const kindWords = (kind) => named(KINDS, kind);

// What undo or redo would make of the newest entry.
export const wouldRestore = (entry, store) => (store === 'journal' ? undoWords(entry) : redoWords(entry));

export const entryLine = ({ kind, body }) => `${hexOf([kind])} ${hexOf(body, '')}`;
