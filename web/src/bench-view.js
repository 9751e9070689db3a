// The bench: prepared commands with their fields, free bytes, and lines. Each gives orders; carrying them out is the page's.
import { hexOf, readBytes, wrongInWords, counted } from './bytes.js';
import { byId, el, fill, sayWrong, markedText, chosen } from './dom.js';
import { GROUPS, preparedBy, mailboxed, readField } from './commands.js';
import { readLine, preparedAfter } from './lines.js';
import { occOrder } from './bench.js';
import { COMMAND_MOST, PACKET_MOST } from './library.js';

const fieldId = (prepared, field) => `field-${prepared.id}-${field.id}`;
const wrongPlace = (input) => byId(`${input.id}-wrong`);
const current = () => preparedBy(byId('command').value);

// ---- prepared commands

export function fillCommands() {
  fill(byId('command'), GROUPS.map(([name, list]) =>
    el('optgroup', { label: name }, list.map((one) => el('option', { value: one.id }, one.name)))));
}

function inputFor(prepared, field, typed) {
  const id = fieldId(prepared, field);
  const value = typed[id] ?? String(field.value);
  const attributes = { id, 'aria-describedby': `${id}-wrong`, spellcheck: 'false' };
  if (field.kind === 'choice') {
    return el('select', attributes, field.options.map(([number, words]) => el('option', { value: number, selected: String(number) === value }, words)));
  }
  if (field.kind === 'rows') return el('textarea', { ...attributes, rows: 3 }, value);
  return el('input', { ...attributes, value });
}

function fieldView(prepared, field, typed) {
  const id = fieldId(prepared, field);
  const unit = field.unit ? `, ${field.unit}` : '';
  const hint = field.kind === 'rows' ? `: ${field.columns.map(([name]) => name).join(', ')}` : '';
  return el('div', { class: field.kind === 'rows' ? 'wide' : null },
    el('label', { class: 'field', for: id }, `${field.label}${unit}${hint}`, inputFor(prepared, field, typed)),
    el('p', { class: 'wrong', id: `${id}-wrong`, hidden: true }));
}

export function showFields(typed) {
  const prepared = current();
  byId('sender-switch').hidden = prepared.request !== undefined;
  byId('flags').hidden = prepared.request === undefined;
  byId('add-prepared').hidden = prepared.request !== undefined;
  const list = el('div', { class: 'fields' }, prepared.fields.map((field) => fieldView(prepared, field, typed)));
  fill(byId('command-fields'), prepared.fields.length ? list : []);
}

// The values of all fields; null where one is wrong, which is said at its place.
function readValues(prepared) {
  const values = {};
  let right = true;
  for (const field of prepared.fields) {
    const input = byId(fieldId(prepared, field));
    const read = readField(field, input.value);
    sayWrong(input, wrongPlace(input), ...(read.wrong ? [read.wrong] : []));
    values[field.id] = read.value;
    right = right && !read.wrong;
  }
  return right ? values : null;
}

const mailboxOptions = (bench) => ({
  sequence: bench.sbeSequence, response: byId('flag-response').checked, acknowledge: byId('flag-acknowledge').checked,
});

function preparedOrder(bench, prepared, values, sender) {
  if (!prepared.request) return occOrder(bench, sender, prepared.type, prepared.data(values));
  return { name: 'sbe', bytes: mailboxed(prepared, values, mailboxOptions(bench)), counts: true };
}

// The order as the form stands, or null.
export function formOrder(bench) {
  const prepared = current();
  const values = readValues(prepared);
  return values && preparedOrder(bench, prepared, values, Number(chosen('sender')));
}

export function showPreview(bench) {
  const order = formOrder(bench);
  const bytes = order?.bytes ?? [];
  byId('preview').textContent = order ? hexOf(bytes.slice(0, 64)) + (bytes.length > 64 ? ' …' : '') : 'a field is wrong';
}

export const focusWrong = (form) => form.querySelector('[aria-invalid=true]')?.focus();

// ---- free bytes

export function showWay(way) {
  for (const id of ['prepared', 'free', 'lines']) byId(id).hidden = id !== way;
}

export function showPart() {
  for (const id of ['free-sender-field', 'add-free']) byId(id).hidden = chosen('part') !== 'occ';
}

function readSender() {
  const input = byId('free-sender');
  const read = readBytes(input.value);
  const right = !read.wrong && read.bytes.length === 1;
  sayWrong(input, byId('free-sender-wrong'), ...(right ? [] : ['One byte of two hex digits is due, as 10 or 20.']));
  return right ? read.bytes[0] : null;
}

export function checkFree() {
  const area = byId('free-bytes');
  const read = readBytes(area.value, 0, COMMAND_MOST);
  sayWrong(area, byId('free-wrong'), ...(read.wrong ? [wrongInWords(area.value, read), markedText(area.value, read.at)] : []));
  return read;
}

export function freeOrder() {
  const read = checkFree();
  const toOcc = chosen('part') === 'occ';
  const sender = toOcc ? readSender() : 0;
  if (read.wrong) byId('free-bytes').setSelectionRange(read.at, read.at + 1);
  if (read.wrong || sender === null) return null;
  return toOcc ? { name: 'occ', sender, bytes: read.bytes } : { name: 'sbe', bytes: read.bytes };
}

// The free bytes as a packet for a plan, whose sender is HTMGT always.
export function freePacket() {
  const read = checkFree();
  const area = byId('free-bytes');
  if (read.wrong) area.setSelectionRange(read.at, read.at + 1);
  else if (read.bytes.length === 0 || read.bytes.length > PACKET_MOST) {
    sayWrong(area, byId('free-wrong'), `A packet for a plan has 1 to ${counted(PACKET_MOST)} bytes; here are ${counted(read.bytes.length)}.`);
  } else return { name: 'occ', sender: 0x10, bytes: read.bytes };
  return null;
}

// An order's bytes as free ones, to be changed.
export function editAsFree(order) {
  document.querySelector('input[name=way][value=free]').checked = true;
  document.querySelector(`input[name=part][value=${order.name}]`).checked = true;
  if (order.name === 'occ') byId('free-sender').value = hexOf([order.sender]);
  byId('free-bytes').value = hexOf(order.bytes);
  showWay('free');
  showPart();
  checkFree();
  byId('free-bytes').focus();
}

// ---- lines

const SHOWN_BY_THE_PAGE = ['why', 'show', 'journal', 'image', 'help'];
const barOfLine = (order) => (order?.name === 'buffer' ? { wrong: 'this page always lends whole reply buffers', at: 0 } : order);

function wrongLine(lines, number, read) {
  const area = byId('line-text');
  const begin = lines.slice(0, number).reduce((sum, line) => sum + line.length + 1, 0);
  const at = read.at ?? 0;
  sayWrong(area, byId('lines-wrong'), `Line ${number + 1}, column ${at + 1}: ${read.wrong}.`, markedText(lines[number], at));
  area.focus();
  area.setSelectionRange(begin + at, begin + at + 1);
}

// The orders of all lines; null where one isn't understood. What `show` and its like would print stands on the page, so they are passed over.
// `prepared` are the packets that are there before the first line.
export function lineOrders(prepared) {
  const area = byId('line-text');
  const lines = area.value.split('\n').map((line) => line.replace(/\r$/, ''));
  sayWrong(area, byId('lines-wrong'));
  const orders = [];
  let packets = prepared;
  for (const [number, line] of lines.entries()) {
    const order = barOfLine(readLine(line));
    const after = order?.name === 'packet' ? preparedAfter(packets, order) : { packets };
    if (order?.wrong || after.wrong) {
      wrongLine(lines, number, order.wrong ? order : after);
      return null;
    }
    packets = after.packets;
    if (order && !SHOWN_BY_THE_PAGE.includes(order.name)) orders.push(order);
  }
  return orders;
}
