// What was sent, and what came back: bytes, and field by field.
import { hexOf, hex, counted } from './bytes.js';
import { el, fill } from './dom.js';
import { answerWords, REASONS, SENDERS, bellWords, sbeStatus } from './words.js';
import { sentFields, replyFields, orderTitle, packetTitle, statusName, sbeStatusName, whyWords } from './fields.js';
import { faultOf, bellOf } from './bench.js';
import { kindWords } from './entries.js';

const STEPS = [
  '“Bring up a master” makes six calls: the OCC is active, its limit 1,500 W.',
  'Choose User cap, let the BMC send it: the limit falls to 1,000 W.',
  'Undo: the limit is the maximum again. Redo: the cap is back.',
];
const SHOWN = 512; // bytes; a packet may have thousands, and none that is marked stands so far behind
const ROWS_SHOWN = 200;

const isGood = ({ order, heard }) => {
  if (heard.answer !== 0) return false;
  if (order.name === 'plan') return heard.found !== null;
  if (order.name === 'occ') return heard.reply[2] === 0;
  return order.name !== 'sbe' || sbeStatus(heard.reply) === '00/00';
};

function planWords({ found }) {
  if (!found) return 'no plan';
  return found.length ? `plan ${found.join(' ')}` : 'the empty plan';
}

function statusWords(order, heard) {
  if (order.name === 'occ') return `status ${hex(heard.reply[2])} ${statusName(heard.reply[2])}`;
  if (order.name === 'sbe') return `status ${sbeStatus(heard.reply)} ${sbeStatusName(heard.reply)}`;
  if (order.name === 'undo') return `taken back: ${kindWords(heard.high)}`;
  if (order.name === 'redo') return `put in again: ${kindWords(heard.high)}`;
  if (order.name === 'time') return heard.high ? 'the timer has expired' : 'no bell';
  if (order.name === 'watch') return 'opened, both stores empty';
  if (order.name === 'plan') return planWords(heard);
  return 'forgotten';
}

// A call's outcome as a few words, for the list and for whoever doesn't see the page.
export function outcome(item) {
  if (!item.heard) return { words: 'lent', good: true };
  const { order, heard } = item;
  const words = heard.answer === 0 ? statusWords(order, heard) : `answer ${answerWords(heard.answer)}`;
  return { words, good: isGood(item) };
}

const fieldAt = (fields, at) => fields.find((field) => at >= field.at && at < field.at + field.length);

// ---- bytes, those of a field together; the wrong one marked

function fieldBytes(bytes, field, markAt) {
  const texts = Array.from(bytes.slice(field.at, field.at + field.length), (byte, place) =>
    (field.at + place === markAt ? el('mark', { title: 'the byte that is wrong' }, hex(byte)) : hex(byte)));
  return el('span', { title: field.name }, texts.flatMap((text, at) => (at ? [' ', text] : [text])));
}

function bytesView(name, bytes, fields, markAt) {
  const shown = fields.filter((field) => field.at < SHOWN).map((field) => ({ ...field, length: Math.min(field.length, SHOWN - field.at) }));
  const more = bytes.length > SHOWN ? [` … ${counted(bytes.length - SHOWN)} more`] : [];
  return [
    el('h3', {}, name, el('span', { class: 'quiet' }, ` ${counted(bytes.length)} bytes`)),
    el('p', { class: 'bytes' }, shown.map((field) => [fieldBytes(bytes, field, markAt), ' ']), more),
  ];
}

function fieldTable(name, bytes, fields, markAt) {
  const row = (field) => {
    const bad = markAt !== undefined && fieldAt([field], markAt);
    const text = hexOf(bytes.slice(field.at, field.at + Math.min(field.length, 24))) + (field.length > 24 ? ' …' : '');
    return el('tr', { class: bad ? 'bad' : null },
      el('td', { class: 'number' }, String(field.at)), el('td', {}, text), el('th', { scope: 'row' }, field.name), el('td', {}, field.words));
  };
  const heads = ['Offset', 'Bytes', 'Field', 'Says'].map((head, at) => el('th', { scope: 'col', class: at === 0 ? 'number' : null }, head));
  return el('table', { class: 'fieldtable' }, el('caption', { class: 'unseen' }, name), el('thead', {}, el('tr', {}, heads)),
    el('tbody', {}, fields.slice(0, ROWS_SHOWN).map(row)));
}

const folded = (open, name, ...children) => el('details', { open }, el('summary', {}, name), children);

// ---- the parts of the view

function faultView(fault, fields) {
  if (!fault) return [];
  const field = fieldAt(fields, fault.at);
  return [el('p', { class: 'wrong', id: 'fault' }, `Data byte ${fault.dataByte}${field ? `, ${field.name}` : ''}: ${REASONS[fault.reason]}.`)];
}

// Why, where no byte tells it better.
function whyView(order, heard) {
  const why = faultOf(order, heard) ? '' : whyWords(order, heard);
  return why ? [el('p', { id: 'why' }, `${why[0].toUpperCase()}${why.slice(1)}.`)] : [];
}

function bellView(order, heard) {
  const bell = bellOf(order, heard);
  return bell === null ? [] : [el('p', { id: 'bell' }, el('strong', {}, 'Doorbell '), bellWords(bell))];
}

function sentView(order, fault) {
  if (!order.bytes || order.name === 'seeprom') return [];
  const fields = sentFields(order);
  const from = order.name === 'occ' ? `Sent by ${SENDERS[order.sender] ?? 'sender'} (${hex(order.sender)})` : 'Sent';
  return [
    ...bytesView(from, order.bytes, fields, fault?.at),
    folded(Boolean(fault), 'What was sent, field by field', fieldTable('What was sent', order.bytes, fields, fault?.at)),
  ];
}

function replyView(order, heard) {
  if (!heard?.reply) return [];
  const fields = replyFields(order, heard.reply);
  return [
    ...bytesView('Reply', heard.reply, fields),
    folded(true, 'The reply, field by field', fieldTable('The reply', heard.reply, fields)),
  ];
}

// The packets of a plan that was found, in its order; else those that were tried.
function planView(order, heard) {
  if (order.name !== 'plan') return [];
  const numbers = heard.found ?? order.packets.map((_, at) => at + 1);
  const named = numbers.map((number) => `${number} ${packetTitle(order.packets[number - 1])}`);
  return named.length ? [el('p', {}, `${heard.found ? 'In this order' : 'The packets'}: ${named.join('; ')}.`)] : [];
}

// A packet by its number and words.
export const packetWords = (number, bytes) => [el('span', { class: 'number' }, String(number)), el('span', {}, packetTitle(bytes))];

function dataView(heard) {
  if (!heard?.data) return [];
  return [el('h3', {}, 'Read from the SEEPROM'), el('p', { class: 'bytes', id: 'data' }, hexOf(heard.data.slice(0, SHOWN)) || 'no byte')];
}

export function showCall(place, item, number) {
  if (!item) {
    fill(place, el('p', {}, 'Nothing was sent yet. To see what it does:'), el('ol', { class: 'steps' }, STEPS.map((step) => el('li', {}, step))));
    return;
  }
  const { order, heard } = item;
  const { words, good } = outcome(item);
  const fault = faultOf(order, heard);
  fill(place,
    el('p', {}, `${number ? `Call ${number}: ` : ''}${orderTitle(order)}`),
    el('p', { class: `verdict ${good ? 'good' : 'bad'}`, id: 'verdict' }, words),
    heard?.answer === 0 ? el('p', { class: 'quiet', id: 'answer' }, `Session answer ${answerWords(heard.answer)}`) : null,
    faultView(fault, order.bytes ? sentFields(order) : []),
    heard ? whyView(order, heard) : null, bellView(order, heard), planView(order, heard), dataView(heard), sentView(order, fault), replyView(order, heard));
}
