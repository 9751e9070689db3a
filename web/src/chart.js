// Limit, maximum and user cap over the calls, undo and redo marked. Three lines are told apart by their strokes too, not by colour alone.
import { svg, el, fill } from './dom.js';
import { counted } from './bytes.js';
import { userWords } from './session.js';

const HEIGHT = 220;
const EDGE = { left: 52, right: 14, top: 26, bottom: 26 };
const SERIES = [['maximum', 'maximum'], ['limit', 'limit'], ['user', 'user cap']]; // the last is drawn on top
const LEAST_TOP = 100;
const TICKS_MOST = 12;
const MARKS_LETTERED = 60;

// A round number at or over the greatest value, in four steps.
function topOf(points) {
  const most = Math.max(1, ...points.flatMap((point) => [point.limit, point.maximum, point.user]));
  const step = 10 ** Math.floor(Math.log10(most));
  return Math.max(LEAST_TOP, Math.ceil((most * 1.05) / step) * step);
}

function scales(points, width) {
  const top = topOf(points);
  const across = (width - EDGE.left - EDGE.right) / points.length;
  const up = HEIGHT - EDGE.top - EDGE.bottom;
  return { top, x: (at) => EDGE.left + at * across, y: (value) => HEIGHT - EDGE.bottom - (value / top) * up };
}

// A value holds until the next call, the last one to the edge. A user cap of 0 is none, and has no line.
function stepPath(points, name, { x, y }) {
  const drawn = (value) => name !== 'user' || value !== 0;
  const steps = points.map((point, at) => {
    const value = point[name];
    const held = at > 0 && drawn(points[at - 1][name]);
    const across = held ? `H${x(at)}` : '';
    if (!drawn(value)) return across;
    return across + (held ? `V${y(value)}` : `M${x(at)} ${y(value)}`);
  });
  const end = drawn(points.at(-1)[name]) ? `H${x(points.length)}` : '';
  return steps.join('') + end;
}

// A user cap that is the limit lies inside its line, on a ground of its own.
function seriesPaths(points, name, scale) {
  const d = stepPath(points, name, scale);
  const path = svg('path', { class: `series ${name}`, d, 'data-series': name });
  return name === 'user' ? [svg('path', { class: 'series around', d }), path] : [path];
}

// 1, 2, 5, 10, 20, 50, ..
function roundStep(least) {
  const power = 10 ** Math.floor(Math.log10(Math.max(1, least)));
  return [1, 2, 5, 10].map((step) => step * power).find((step) => step >= least);
}

function grid({ top, x, y }, count) {
  const values = [0, 0.25, 0.5, 0.75, 1].map((part) => Math.round(part * top));
  const every = roundStep(count / TICKS_MOST);
  const calls = Array.from({ length: count }, (_, at) => at).filter((at) => at % every === 0);
  return [
    values.map((value) => [
      svg('line', { class: 'axis', x1: EDGE.left, x2: x(count), y1: y(value), y2: y(value) }),
      svg('text', { class: 'tick', x: EDGE.left - 6, y: y(value) + 4, 'text-anchor': 'end' }, counted(value)),
    ]),
    calls.map((at) => svg('text', { class: 'tick', x: x(at), y: HEIGHT - 8, 'text-anchor': 'middle' }, at === 0 ? 'start' : String(at))),
  ].flat(2);
}

function movedMark(point, at, lettered, { x }) {
  const line = svg('line', { x1: x(at), x2: x(at), y1: lettered ? 20 : 8, y2: HEIGHT - EDGE.bottom });
  const letter = point.moved === 'undo' ? 'U' : 'R';
  const badge = [svg('circle', { cx: x(at), cy: 12, r: 8 }), svg('text', { x: x(at), y: 16 }, letter)];
  return svg('g', { class: 'moved' }, svg('title', {}, `${point.moved}, call ${at}`), line, lettered ? badge : []);
}

function described(points) {
  const moved = points.map((point, at) => (point.moved ? `${point.moved} at call ${at}` : null)).filter(Boolean);
  const now = points.at(-1);
  const end = `Now: limit ${now.limit} W, maximum ${now.maximum} W, user cap ${now.user} W.`;
  return `${points.length - 1} calls. ${end} ${moved.length ? `Marked: ${moved.slice(-20).join(', ')}.` : 'No undo or redo.'}`;
}

function sample(name) {
  return svg('svg', { width: 34, height: 10, 'aria-hidden': 'true' }, svg('path', { class: `series ${name}`, d: 'M0 5H34' }));
}

export function showLegend(place, point) {
  const values = { limit: `${counted(point.limit)} W`, maximum: `${counted(point.maximum)} W`, user: userWords(point.user) };
  const items = SERIES.map(([name, words]) => el('span', {}, sample(name), `${words} `, el('strong', {}, values[name])));
  fill(place, items, el('span', { class: 'quiet' }, 'U undo, R redo'));
}

// points: one of the start and one of each call; `moved` is undo or redo where one took effect. `seen` is the call that is looked at.
export function showChart(place, points, seen) {
  const width = Math.max(260, place.clientWidth);
  const scale = scales(points, width);
  const marks = points.map((point, at) => [point, at]).filter(([point]) => point.moved);
  fill(place, svg('svg', { viewBox: `0 0 ${width} ${HEIGHT}`, height: HEIGHT, role: 'img', 'aria-label': described(points) },
    grid(scale, points.length),
    seen ? svg('line', { class: 'seen', x1: scale.x(seen), x2: scale.x(seen), y1: EDGE.top, y2: HEIGHT - EDGE.bottom }) : null,
    SERIES.map(([name]) => seriesPaths(points, name, scale)),
    points.length === 1 ? svg('text', { class: 'none-yet', x: width / 2, y: HEIGHT / 2 - 8 }, 'no call yet') : null,
    marks.map(([point, at]) => movedMark(point, at, marks.length <= MARKS_LETTERED, scale))));
}
