// The line protocol over the WebAssembly: what the page uses, put together as `standin` puts it, so that the stored cases can be run.
import { hex, hexOf } from '../src/bytes.js';
import { call, freshImage, isCall, save, restore } from '../src/library.js';
import { readLine, complaintLine, heardLine, preparedAfter, savedLine, framed } from '../src/lines.js';
import { readSession, sessionParts, pairsOf, pairName, coresOf } from '../src/session.js';
import { readStore, entryLine, kindWords, wouldRestore } from '../src/entries.js';
import { sentFields, replyFields, orderTitle, statusName, sbeStatusName, whyWords } from '../src/fields.js';
import { STATES, ROLES, PROFILES, REASONS, named } from '../src/words.js';

const mark = (received) => (received ? 'received' : 'not received');
const yesNo = (value) => (value ? 'yes' : 'no');
const listed = (items) => (items.length ? items.join(' ') : 'none');
const areaText = ({ address, size }) => `${hex(address, 16)} ${hex(size, 8)}`;

function storeText(store, whole, damaged, long) {
  const read = readStore(store);
  if (read.tooLong) return long;
  return read.brokenAt === undefined ? `${whole} ${read.entries.length}` : `${damaged} ${read.brokenAt}`;
}

const journalHead = (session) => storeText(session.journal, 'journal', 'damaged at', 'too long');

// `show` of what the page reads from the session's bytes: holds the page's reading to the proved program's.
function showLines(image) {
  const s = readSession(image);
  return [
    `state ${s.state} ${named(STATES, s.state)}`,
    `role ${s.role} ${named(ROLES, s.role)} ${mark(s.received.role)}`,
    `caps ${s.minimum} ${s.maximum} ${s.over} ${mark(s.received.caps)}`,
    `user cap ${s.user}`,
    `limit ${s.limit}`,
    `observation-ready ${yesNo(s.observationReady)}`,
    `active-ready ${yesNo(s.activeReady)}`,
    `wanted format ${hex(s.wanted)}`,
    `thresholds ${Array.from(s.thermal).join(' ')} ${mark(s.received.thermal)}`,
    `throttles ${listed(pairsOf(s.presence).map(pairName))} ${mark(s.received.throttles)}`,
    `logs ${listed(s.logs.map((log) => `${log.id}:${log.reason}`))}`,
    `cores out ${listed(coresOf(s.mask))}`,
    `deadman ${s.deadman.running ? 'on' : 'off'} ${s.deadman.time}`,
    `area ffdc ${areaText(s.ffdc)}`,
    `area pass ${areaText(s.pass)}`,
    storeText(s.redo, 'redo', 'redo damaged at', 'redo too long'),
    s.timer.running ? `timer on ${s.timer.left}` : 'timer off',
    `profile ${named(PROFILES, s.profile)}`,
    `next id ${s.nextId}`,
    journalHead(s),
    `room ${s.journal.tooLong ? 0 : 2048 - s.journal.used}`,
    '.',
  ];
}

function journalLines(image) {
  const session = readSession(image);
  const { entries, brokenAt, tooLong } = readStore(session.journal);
  const whole = brokenAt === undefined && !tooLong;
  return [journalHead(session), ...(whole ? entries.map(entryLine) : []), '.'];
}

// A bench as `standin` has one. `counts` is what was called, for the report.
export function newStandin(library, helpLines, seeprom = new Uint8Array()) {
  return { library, helpLines, image: freshImage(library), seeprom, room: undefined, packets: [], sequence: 1, why: '0', counts: {} };
}

// An order as it is carried out: a packet framed, a plan with its packets.
function wholeOrder(standin, order) {
  if (order.name === 'plan') return { ...order, packets: standin.packets };
  if (order.name !== 'send') return order;
  const bytes = framed(standin.sequence, order.type, order.data);
  standin.sequence = (standin.sequence + 1) & 255;
  return { name: 'occ', sender: order.sender, bytes };
}

// What the header says of every call but those that answer 0: the session's bytes stay.
function holdKept(before, heard, line) {
  if (heard.answer !== 0 && hexOf(before) !== hexOf(heard.image)) throw new Error(`the session changed, with answer ${heard.answer}: ${line}`);
}

// Fields lie end to end and cover every byte.
function holdTiled(fields, bytes, what) {
  const end = fields.reduce((at, field) => (field.at === at && field.length > 0 ? at + field.length : NaN), 0);
  if (end !== bytes.length) throw new Error(`${what}: the fields don't cover its ${bytes.length} bytes`);
}

// What the page would show of this call has words everywhere.
function holdShown(order, heard, line) {
  if (order.bytes) holdTiled(sentFields(order), order.bytes, `sent by ${line}`);
  if (heard.reply) holdTiled(replyFields(order, heard.reply), heard.reply, `replied to ${line}`);
  const session = readSession(heard.image);
  const newest = ['journal', 'redo'].flatMap((store) => readStore(session[store]).entries.slice(-1).map((entry) => [kindWords(entry.kind), wouldRestore(entry, store)]));
  const fields = [order.bytes ? sentFields(order) : [], heard.reply ? replyFields(order, heard.reply) : []].flat().map((field) => [field.name, field.words]);
  const words = [orderTitle(order), ...sessionParts(session).flat(3), ...newest.flat(), ...fields.flat()];
  const bad = words.find((one) => typeof one !== 'string' || /undefined|NaN|null/.test(one));
  if (bad !== undefined) throw new Error(`shown of ${line}: ${bad}`);
}

// A status has its name; the profile is the reason of 05/20 always, of 16 in a watch-only session and in no other.
function holdStatus(order, heard, line) {
  if (!heard.reply) return;
  const name = order.name === 'occ' ? statusName(heard.reply[2]) : sbeStatusName(heard.reply);
  if (name === 'unknown') throw new Error(`a status without a name: ${line}`);
  const watched = readSession(heard.image).profile === 1;
  const denied = order.name === 'sbe' ? name === 'denied chip-op access' : heard.reply[2] === 0x16 && watched;
  if (whyWords(order, heard).includes('watch-only') !== denied) throw new Error(`the profile is told wrongly as the reason: ${line}`);
}

function count(standin, name) {
  standin.counts[name] = (standin.counts[name] ?? 0) + 1;
}

function called(standin, order, line) {
  const heard = call(standin.library, standin.image, order, { seeprom: standin.seeprom, room: standin.room });
  holdKept(standin.image, heard, line);
  holdShown(order, heard, line);
  holdStatus(order, heard, line);
  standin.image = heard.image;
  count(standin, order.name);
  if (order.name === 'occ') standin.why = heard.small ? `${heard.high} ${REASONS[heard.small]}` : '0';
  return [heardLine(order, heard)];
}

const said = {
  fresh: (standin) => {
    standin.image = freshImage(standin.library);
    return ['ok'];
  },
  load: (standin, order) => {
    standin.image = order.bytes;
    return ['ok'];
  },
  seeprom: (standin, order) => {
    standin.seeprom = order.bytes;
    return ['ok'];
  },
  buffer: (standin, order) => {
    standin.room = order.number === null ? undefined : Number(order.number);
    return ['ok'];
  },
  packet: (standin, order) => {
    const after = preparedAfter(standin.packets, order);
    if (!after.wrong) standin.packets = after.packets;
    return [after.wrong ? complaintLine(after) : 'ok'];
  },
  save: (standin) => {
    count(standin, 'save');
    return [savedLine(save(standin.library, standin.image))];
  },
  restore: (standin, order) => {
    count(standin, 'restore');
    const { answer, image } = restore(standin.library, order.bytes);
    if (answer === 0) standin.image = image;
    return [String(answer)];
  },
  image: (standin) => [`image ${hexOf(standin.image, '')}`],
  why: (standin) => [standin.why],
  show: (standin) => showLines(standin.image),
  journal: (standin) => journalLines(standin.image),
  help: (standin) => standin.helpLines,
};

// The answer lines of one line.
export function answerTo(standin, line) {
  const order = readLine(line);
  if (order === null) return [];
  if (order.wrong) return [complaintLine(order)];
  return isCall(order) || order.name === 'send' ? called(standin, wholeOrder(standin, order), line) : said[order.name](standin, order);
}
