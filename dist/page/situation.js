// The situation of a file of columns: what it says of whom, changed value by value, and the run over one of its inputs.
import { scalars } from './yaml.js';

const PERIOD = /^(\d{4}|(day|month|year|week):)/;

/** The inputs of a file, each with its variable, member and period, and where it stands. `variables` are those of `fisca list`. */
export function inputs(text, variables) {
  const all = scalars(text), members = new Map();
  for (const { path } of all) {
    if (path[0] === 'input' && path.length > 2) {
      if (!members.has(path[1])) members.set(path[1], []);
      if (!members.get(path[1]).includes(path[2])) members.get(path[1]).push(path[2]);
    }
  }
  return all.flatMap(leaf => {
    const at = leaf.path.findIndex((word, i) => i > 0 && variables.has(word));
    if (leaf.path[0] !== 'input' || leaf.isEmpty || at < 0 || at < leaf.path.length - 2) return [];
    const member = at > 1 ? leaf.path[at - 1] : '', last = leaf.path.at(-1);
    const period = at < leaf.path.length - 1 && PERIOD.test(last) ? last : null;
    const index = at > 2 ? members.get(leaf.path[1]).indexOf(member) : 0;
    return [{ ...leaf, variable: leaf.path[at], member, period, index }];
  });
}

/** The text with another value in the place of an input. */
export const changed = (text, input, value) => text.slice(0, input.from) + value + text.slice(input.to);

/** The columns that a file asks for, as it names them. */
export const columns = text => scalars(text).filter(({ path }) => path[0] === 'columns').map(({ text }) => text);

/** The file of a run over one input, from a value to another, with these columns. */
export function runOver(text, input, asked, [min, max, count]) {
  const tree = {};
  for (const leaf of scalars(text)) {
    if (['columns', 'axes', 'filter'].includes(leaf.path[0]) || leaf.from === input.from) continue;
    put(tree, leaf.path, raw(text.slice(leaf.from, leaf.to)));
  }
  const axis = { name: input.variable, count, min, max, ...(input.index ? { index: input.index } : {}), ...(input.period ? { period: `"${input.period}"` } : {}) };
  return written({ ...tree, axes: [[axis]], columns: asked.map(raw) });
}

function put(tree, path, value) {
  path.forEach((key, i) => {
    if (i === path.length - 1) tree[key] = value;
    else tree = tree[key] ??= typeof path[i + 1] === 'number' ? [] : {};
  });
}

// a scalar as it may stand between brackets
const raw = text => (/^["'{[]/.test(text) || !/[,{}[\]#:]/.test(text) ? text : JSON.stringify(text));

function written(tree) {
  if (Array.isArray(tree)) return `[${tree.map(written).join(', ')}]`;
  if (typeof tree === 'object') return `{${Object.entries(tree).map(([key, value]) => `${JSON.stringify(key)}: ${written(value)}`).join(', ')}}`;
  return String(tree);
}

/** The members of an Enum with their texts, as the modules declare it. */
export function choices(texts, name) {
  for (const [path, text] of texts) {
    const body = path.endsWith('.py') && text.match(new RegExp(`^class ${name}\\(Enum\\):\\n((?:[ \\t].*\\n|\\s*\\n)*)`, 'm'))?.[1];
    if (body) return [...body.matchAll(/^\s+([A-Za-z]\w*)\s*=\s*(["'])(.*?)\2/gm)].map(found => [found[1], found[3]]);
  }
  return [];
}
