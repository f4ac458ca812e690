// What an author is told of each step of an explanation: keys, places in the files, and the words of the language.
import { told } from './elements.js';
import { openNames, opener, steps, tree } from './explanation.js';
import { shown } from './lines.js';
import { show } from './editor.js';
import { own, state } from './state.js';

const SOURCES = {
  given: () => 'input', shared: it => `input of ${it.since}`, beside: () => 'default beside inputs of others', default: () => 'default', neutralised: () => 'neutralised',
  formula: it => (it.since === '0001-01-01' ? 'formula' : `formula since ${it.since}`), above: () => 'explained further up', parameter: it => `in force since ${it.since}`,
  scale: it => `by its brackets, of ${it.base}`, unfit: () => 'no value at this period',
};
// the line of an input is one of the file of columns
const fileOf = step => step.file || own('calc');
const SAYS = {
  value: ({ value, unit }) => `${shown(value)}${unit ? ` ${unit}` : ''}`,
  about: ({ kind, name, member, period }) => (kind === 'key' ? `${name} ${member} ${period}` : `${kind} ${name} on ${period}`),
  source: step => SOURCES[step.source]?.(step) ?? step.source,
  place: step => (step.line && state.texts.has(fileOf(step)) ? `${fileOf(step)}:${step.line}` : null),
  go: step => show(fileOf(step), +step.line),
};

/** The tree of an explanation, opened as far as the one that stands there, with what was told of it. */
export function explanation(answer, shownBefore) {
  const list = tree(steps(answer.out), SAYS, openNames(shownBefore));
  return [...opener(list), list, ...told(answer)];
}
