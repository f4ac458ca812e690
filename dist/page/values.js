// The values of a file of columns, with the variables' labels; those of the rules before beside them; and how one of them came about.
import { $, button, made, told } from './elements.js';
import { explanation } from './authors.js';
import { shown, values } from './lines.js';
import { edited, known, state } from './state.js';
import { columns } from './situation.js';

const keyOf = ({ variable, member, period }) => [variable, member, period].join();

/** Draws the values; `before` are those of the rules before, and nothing where none were kept. */
export function drawValues(text, calc, before) {
  if (!calc) return $('values').replaceChildren(made('p', { textContent: 'No file of columns is here.' }));
  const words = columns(text), all = values(calc.out), first = new Map(values(before?.out ?? '').map(it => [keyOf(it), it.value]));
  const rows = all.map((it, i) => row(it, words[i], before && [first.get(keyOf(it))]));
  // a column that has no value is explained up to its fault
  if (calc.status === 4 && words[all.length]) rows.push(made('tr', {}, made('th', { scope: 'row' }, leading(words[all.length], words[all.length])), made('td', { colSpan: before ? 4 : 3, className: 'bad', textContent: 'no value' })));
  const names = ['', 'of', 'in', before ? 'now' : 'value', ...(before ? ['before'] : [])];
  const head = made('tr', {}, ...names.map(it => made('th', { scope: 'col', textContent: it })));
  $('values').replaceChildren(...(rows.length ? [made('table', {}, head, ...rows)] : []), ...told(calc));
}

// a row of a value, with what it was before
function row(it, word, before) {
  const isChanged = before && before[0] !== it.value;
  const cells = [it.member, it.period].map(text => made('td', { textContent: text }));
  cells.push(made('td', { className: `value${isChanged ? ' changed' : ''}`, textContent: shown(it.value) }));
  if (before) cells.push(made('td', { className: 'value', textContent: shown(before[0] ?? '') }));
  return made('tr', {}, made('th', { scope: 'row' }, leading(known.variables.get(it.variable)?.label ?? it.variable, word)), ...cells);
}

// a name that leads to the explanation of a column
function leading(text, word) {
  const is = word && word === state.why;
  return button(text, () => { state.why = is ? '' : word ?? ''; edited(); }, is ? 'plain chosen' : 'plain');
}

/** Draws how the column that was chosen came about, under the rules now and before. */
export function drawWhy(now, before) {
  $('why').hidden = !now;
  if (!now) return $('why').replaceChildren();
  const close = button('Hide', () => { state.why = ''; edited(); });
  const old = before ? [made('h3', { textContent: 'Before' }), ...explanation(before, $('why'))] : [];
  $('why').replaceChildren(made('h3', { textContent: `How ${state.why} comes about` }), close, ...explanation(now, $('why')), ...old);
}
