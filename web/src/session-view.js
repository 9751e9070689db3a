// The session's fields, with what changed; the journal and the redo store as two stacks.
import { el, fill, byId } from './dom.js';
import { readSession, sessionParts, isWatchOnly } from './session.js';
import { readStore, kindWords, wouldRestore } from './entries.js';
import { counted } from './bytes.js';

const BIG = ['State', 'Role', 'Limit', 'Wanted format'];
const STACK_SHOWN = 100;

const wordsByName = (image) => new Map(sessionParts(readSession(image)).flatMap(([, rows]) => rows));

function shownField(name, words, before) {
  const changed = before && before.get(name) !== words;
  return { changed, children: [words, changed ? el('span', { class: 'was' }, `changed; was ${before.get(name)}`) : null] };
}

const idOf = (name) => `is-${name.toLowerCase().replace(/[^a-z]+/g, '-')}`;

function bigView(parts, before) {
  const rows = parts.flatMap(([, fields]) => fields).filter(([name]) => BIG.includes(name));
  return el('dl', { class: 'big' }, rows.map(([name, words]) => {
    const { changed, children } = shownField(name, words, before);
    return el('div', { class: changed ? 'changed' : null }, el('dt', {}, name), el('dd', { id: idOf(name) }, children));
  }));
}

function partView([title, rows], before) {
  const cells = rows.filter(([name]) => !BIG.includes(name)).map(([name, words]) => {
    const { changed, children } = shownField(name, words, before);
    return [el('dt', { class: changed ? 'changed' : null }, name), el('dd', { class: changed ? 'changed' : null, id: idOf(name) }, children)];
  });
  return [el('h3', {}, title), el('dl', { class: 'part' }, cells)];
}

const WATCH_ONLY = 'Watch-only: commands and requests change nothing but the pending logs. “Fresh session” begins a full one.';

function profileView(session) {
  return isWatchOnly(session) ? el('p', { class: 'quiet', id: 'watch-only' }, WATCH_ONLY) : null;
}

// `before` is the image before the call that is shown; null where there is none.
export function showSession(place, image, before, wellFormed, ...notes) {
  const session = readSession(image);
  const parts = sessionParts(session);
  const old = before && wordsByName(before);
  const damaged = wellFormed ? null : el('p', { class: 'wrong' }, 'This session isn’t well formed: every call answers 1.');
  fill(place, notes, damaged ?? profileView(session), bigView(parts, old), parts.map((part) => partView(part, old)));
}

// ---- the stacks, newest on top

function stackItem(entry, store) {
  return el('li', {}, el('strong', {}, kindWords(entry.kind)), ` → ${wouldRestore(entry, store)}`);
}

function brokenItem(read) {
  if (read.tooLong) return [el('li', { class: 'none' }, 'damaged: more bytes are used than there are')];
  return read.brokenAt === undefined ? [] : [el('li', { class: 'none' }, `damaged at byte ${read.brokenAt}`)];
}

function olderItem(count) {
  return count > STACK_SHOWN ? [el('li', { class: 'none' }, `and ${counted(count - STACK_SHOWN)} older`)] : [];
}

function showStack(list, read, store, empty) {
  const newest = read.entries.slice(-STACK_SHOWN).reverse();
  const items = newest.map((entry) => stackItem(entry, store));
  const rest = [...olderItem(read.entries.length), ...brokenItem(read)];
  fill(list, items.length || rest.length ? [...items, ...rest] : el('li', { class: 'none' }, empty));
}

const nextWords = (read, verb) => (read.entries.length ? `${counted(read.entries.length)} held; ${verb} takes the top one` : 'empty');

export function showStacks(image) {
  const session = readSession(image);
  const journal = readStore(session.journal);
  const redo = readStore(session.redo);
  showStack(byId('journal'), journal, 'journal', 'nothing to undo');
  showStack(byId('redo-store'), redo, 'redo', 'nothing to redo');
  byId('undo-next').textContent = nextWords(journal, 'undo');
  byId('redo-next').textContent = nextWords(redo, 'redo');
}
