// How a value came about, as a tree that opens: the lines of `fisca explain`, each below the one that needed it.
import { button, made } from './elements.js';
import { lines } from './lines.js';

/** The steps of an explanation, each with those below it. A value stays the text that it is, since numbers of JavaScript are not exact. */
export function steps(out) {
  const top = [], open = [];
  for (const line of lines(out)) {
    const step = { ...JSON.parse(line.replace(/"value":([^",]+),/, '"value":"$1",')), below: [] };
    open.length = step.depth;
    (open.at(-1)?.below ?? top).push(step);
    open.push(step);
  }
  return top;
}

const nameOf = ({ name, member, period }) => [name, member, period].join('\t');

/** Which steps of a tree are open, so that the next one is opened as far. */
export const openNames = element => new Set([...element.querySelectorAll('details[data-name][open]')].map(it => it.dataset.name));

/**
 * The tree of these steps, with those open that are at the top or have these names. `says` has what is told of each: `value`, `about` (whom and when) and
 * `source`, and where it may be gone to its `place` and how to `go` there. A value that was explained further up leads there.
 */
export function tree(all, says, names) {
  const labels = new Map(), places = new Map();
  const item = (step, way) => {
    if (step.label) labels.set(nameOf(step), step.label);
    const head = headOf(step, step.label || labels.get(nameOf(step)) || step.name, says), source = made('p', { className: 'source' }, ...sourceOf(step, says, places));
    const name = `${way}/${nameOf(step)}`, below = step.below.map(it => item(it, name));
    const inner = below.length ? made('details', { open: !way || names.has(name) }, made('summary', {}, ...head), source, made('ul', {}, ...below)) : made('div', { tabIndex: -1 }, made('p', {}, ...head), source);
    inner.dataset.name = name;
    return made('li', { className: step.kind }, inner);
  };
  const list = made('ul', { className: 'tree' }, ...all.map(it => item(it, '')));
  // the first of a name is the one that explains it: those below stand behind it
  for (const it of list.querySelectorAll('[data-name]')) {
    const name = it.dataset.name.slice(it.dataset.name.lastIndexOf('/') + 1);
    if (!places.has(name)) places.set(name, it);
  }
  return list;
}

function headOf(step, label, says) {
  const about = says.about(step);
  return [made('span', { textContent: label }), ' ', made('b', { textContent: step.fault || says.value(step) }), ...(about ? [' ', made('small', { textContent: about })] : [])];
}

// where a value comes from: in words, by its place in the files, by its reference
function sourceOf(step, says, places) {
  const found = [says.source(step)];
  if (step.source === 'above') return [button(found[0], () => reveal(places.get(nameOf(step))), 'plain')];
  const place = says.place?.(step);
  if (place) found.push(', ', button(place, () => says.go(step), 'plain'));
  if (/^https?:\/\//.test(step.reference)) found.push(', ', made('a', { href: step.reference, target: '_blank', rel: 'noopener noreferrer', textContent: says.law ?? step.reference }));
  else if (step.reference) found.push(`, ${step.reference}`);
  return found;
}

// opens all that a step stands in, and goes to it
function reveal(element) {
  for (let it = element; it; it = it.parentElement) if (it.tagName === 'DETAILS') it.open = true;
  const target = element?.querySelector('summary') ?? element;
  target?.focus();
  target?.scrollIntoView({ block: 'nearest' });
}

/** A button that opens all of a tree, or closes it up to its first steps. */
export function opener(list) {
  const all = [...list.querySelectorAll('details')], inner = all.filter(it => it.parentElement.parentElement !== list);
  if (!inner.length) return [];
  const toggle = button('Open all', () => {
    const isOpen = inner.every(it => it.open);
    for (const it of all) it.open = !isOpen || !inner.includes(it);
    toggle.textContent = isOpen ? 'Open all' : 'Close all';
  });
  return [toggle];
}
