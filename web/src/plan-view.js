// The packets that are prepared for a plan, and what came of asking for one.
import { byId, el, fill } from './dom.js';
import { hexOf } from './bytes.js';
import { STATES, answerWords, named } from './words.js';
import { packetTitle } from './fields.js';
import { askedPlan, stillHolds } from './bench.js';
import { packetWords } from './call-view.js';

const BYTES_SHOWN = 14;

const shortHex = (bytes) => hexOf(bytes.slice(0, BYTES_SHOWN)) + (bytes.length > BYTES_SHOWN ? ' …' : '');

function packetItem(bytes, at, remove) {
  const name = `Remove packet ${at + 1}, ${packetTitle(bytes)}`;
  return el('li', {}, packetWords(at + 1, bytes),
    el('button', { type: 'button', class: 'remove', 'aria-label': name, title: name, onclick: () => remove(at) }, '×'),
    el('code', { class: 'quiet' }, shortHex(bytes)));
}

function listView(packets, remove) {
  if (packets.length) return packets.map((bytes, at) => packetItem(bytes, at, remove));
  return el('li', { class: 'none' }, 'none yet: “Add to the plan” takes a packet in place of sending it');
}

// ---- what was found

const stateName = ({ number }) => `state ${number} ${named(STATES, number)}`;

const orderView = ({ order, heard }) =>
  el('ol', { class: 'packets', id: 'plan-order' }, heard.found.map((number) => el('li', {}, packetWords(number, order.packets[number - 1]))));

function foundView(item, holds) {
  if (!item.heard.found.length) return [el('p', {}, `The plan is empty: ${stateName(item.order)} is there already.`)];
  const later = holds ? null : el('p', { class: 'quiet' }, 'It was one for the session as it stood then; of this one ask again.');
  return [el('p', {}, `To ${stateName(item.order)}, in this order:`), orderView(item), later];
}

function saidView(item, holds) {
  const { order, heard } = item;
  if (heard.answer !== 0) return [el('p', { class: 'wrong' }, `Answer ${answerWords(heard.answer)}.`)];
  if (heard.found) return foundView(item, holds);
  return [el('p', {}, `No plan: no order of these packets leads to ${stateName(order)} from this session.`)];
}

export function showPlan(bench, remove) {
  const item = askedPlan(bench);
  const holds = item !== null && stillHolds(bench, item);
  fill(byId('packets'), listView(bench.packets, remove));
  fill(byId('plan-said'), item ? saidView(item, holds) : []);
  byId('send-plan').disabled = !holds || item.heard.found.length === 0;
  byId('drop-packets').disabled = bench.packets.length === 0;
  if (bench.packets.length) byId('plan-fold').open = true;
}
