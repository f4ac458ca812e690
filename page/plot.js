// Plots of a run: a column over an axis, one line for each value of a second one; of two rule sets side by side, the one before in dashes.
import { made } from './elements.js';
import { number, shown } from './lines.js';

const WIDTH = 640, HEIGHT = 300, LEFT = 64, BOTTOM = 40, TOP = 14, RIGHT = 24;
const HUES = 6;

/** Round values from one to another, some five. */
export function ticks(from, to) {
  const raw = (to - from) / 5 || 1, power = 10 ** Math.floor(Math.log10(raw));
  const step = [1, 2, 5, 10].map(it => it * power).find(it => it >= raw * 0.999);
  const found = [];
  for (let i = Math.ceil(from / step - 1e-9); i * step <= to + step * 1e-9; i++) found.push(+(i * step).toPrecision(12));
  return found;
}

/** The lines of a plot: the points of each value of the other axes, by the text of these; each point with its texts. */
export function series({ names, rows }, x, y, axes, labelOf) {
  const found = new Map(), others = axes.filter(axis => axis !== x);
  for (const row of rows) {
    const key = others.map(axis => `${labelOf(names[axis])}: ${row[axis]}`).join(', ');
    if (!found.has(key)) found.set(key, []);
    if (!Number.isNaN(number(row[y]))) found.get(key).push([number(row[x]), number(row[y]), row[x], row[y]]);
  }
  return found;
}

function element(name, attributes, text) {
  const made = document.createElementNS('http://www.w3.org/2000/svg', name);
  for (const [key, value] of Object.entries(attributes)) made.setAttribute(key, value);
  if (text !== undefined) made.textContent = text;
  return made;
}

/** A picture of these lines; those of `before` are dashed. */
export function plot(now, before, labels) {
  const points = [...now.values(), ...before.values()].flat();
  const svg = element('svg', { viewBox: `0 0 ${WIDTH} ${HEIGHT}`, role: 'img', 'aria-label': `${labels.y} over ${labels.x}` });
  if (!points.length) return svg;
  const [left, right] = edges(points.map(it => it[0])), [low, high] = edges([0, ...points.map(it => it[1])]);
  const x = value => LEFT + ((value - left) / (right - left)) * (WIDTH - LEFT - RIGHT);
  const y = value => HEIGHT - BOTTOM - ((value - low) / (high - low)) * (HEIGHT - BOTTOM - TOP);
  for (const it of ticks(low, high)) {
    svg.append(element('path', { d: `M${LEFT} ${y(it)}H${WIDTH - RIGHT}`, class: 'grid' }), element('text', { x: LEFT - 6, y: y(it) + 4, 'text-anchor': 'end' }, it));
  }
  for (const it of ticks(left, right)) svg.append(element('text', { x: x(it), y: HEIGHT - BOTTOM + 16, 'text-anchor': 'middle' }, it));
  svg.append(element('text', { x: (LEFT + WIDTH) / 2, y: HEIGHT - 6, 'text-anchor': 'middle' }, labels.x));
  const line = (many, i, style) => svg.append(element('polyline', { points: many.map(it => `${x(it[0]).toFixed(1)},${y(it[1]).toFixed(1)}`).join(' '), class: `hue${i % HUES} ${style}` }));
  [...before.values()].forEach((many, i) => line(many, i, 'before'));
  [...now.values()].forEach((many, i) => line(many, i, 'now'));
  return svg;
}

/** The names of the lines of a plot, in their colours, as a list; nothing where there is one line. */
export function legend(now, before) {
  const list = made('ul', { className: 'legend' });
  const item = (textContent, className) => list.append(made('li', { className, textContent }));
  if (now.size > 1) [...now.keys()].forEach((key, i) => item(key, `hue${i % HUES}`));
  if (before.size) item('dashes: before', '');
  return list;
}

/** The points of a plot as a table, for those who do not see it; made when it is opened. */
export function points(now, before, names, title) {
  const details = made('details', { className: 'points' }, made('summary', { textContent: title }));
  details.ontoggle = () => { if (details.open && details.children.length === 1) details.append(tableOf(now, before, names)); };
  return details;
}

function tableOf(now, before, names) {
  const row = (kind, texts) => made('tr', {}, ...texts.map(textContent => made(kind, { textContent })));
  const body = [];
  for (const [key, all] of now) {
    const old = new Map((before.get(key) ?? []).map(it => [it[2], it[3]]));
    for (const [, , x, y] of all) body.push(row('td', [...(key ? [key] : []), shown(x), shown(y), ...(before.size ? [shown(old.get(x) ?? '')] : [])]));
  }
  const head = row('th', [...([...now.keys()][0] ? [''] : []), names.x, names.y, ...(before.size ? ['before'] : [])]);
  return made('table', {}, head, ...body);
}

function edges(numbers) {
  let low = Infinity, high = -Infinity;
  for (const it of numbers) { low = Math.min(low, it); high = Math.max(high, it); }
  return low === high ? [low, low + 1] : [low, high];
}
