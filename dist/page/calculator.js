// The calculator: its questions, its result in words, why it is so, and the texts of the office around them.
import { $, made } from './elements.js';
import { openNames, opener, steps, tree } from './explanation.js';
import { values } from './lines.js';
import { inWords, sentence } from './office.js';
import { ask } from './questions.js';
import { changed, choices, columns, inputs } from './situation.js';
import { edited, known, office, own, state, textOf } from './state.js';

const isAnswer = column => office().results[column.match(/^\w+/)[0]];

/** The columns that are answers: those that the office has a text for, or the first one. */
export function answers() {
  const all = columns(textOf('calc')), some = all.filter(isAnswer);
  return some.length ? some : all.slice(0, 1);
}

/** Draws the questions, unless one is just answered. */
export function drawQuestions() {
  const texts = office();
  document.documentElement.lang = texts.language;
  if (texts.title) $('title').textContent = document.title = texts.title;
  $('values-title').textContent = texts.result;
  $('questions-title').textContent = texts.asked;
  $('plot-title').textContent = texts.plot;
  $('reasons').firstElementChild.textContent = texts.why;
  $('state').textContent = texts.introduction;
  $('footer').textContent = texts.footer;
  if ($('questions').contains(document.activeElement)) return;
  ask($('questions'), textOf('calc'), state.texts, known.variables, texts, (input, value) => {
    const here = inputs(textOf('calc'), known.variables).find(it => String(it.path) === String(input.path));
    state.texts.set(own('calc'), changed(textOf('calc'), here, value));
    edited();
  });
}

/** Draws the result in words, or what is wrong with the answers. */
export function drawResult(calc) {
  const texts = office(), all = values(calc?.out ?? ''), names = columns(textOf('calc'));
  const found = all.filter((it, i) => answers().includes(names[i]));
  $('values').replaceChildren(...found.map(it => made('p', { className: 'sentence', textContent: sentence(it, known.variables, texts) })), ...fault(calc, texts));
}

// a refusal as one who answers needs it: by the questions on its line
function fault(calc, texts) {
  if (!calc?.status) return [];
  const here = known.refusal, text = textOf('calc'), lineOf = at => text.slice(0, at).split('\n').length;
  const asked = here?.path === own('calc') ? inputs(text, known.variables).filter(it => lineOf(it.from) === here.line) : [];
  const names = asked.map(it => texts.questions[it.variable] ?? known.variables.get(it.variable).label);
  const said = names.length ? texts.words.check.replace('{questions}', names.join(', ')) : texts.words.none;
  return [made('p', { className: 'told', textContent: said }), made('p', {}, made('small', { textContent: calc.told }))];
}

/** Draws how the result comes about, in the words of the office. */
export function drawReasons(answer) {
  const texts = office(), details = $('reasons');
  const says = {
    value: step => (step.source === 'unfit' ? '' : inWords(memberText(step), known.variables.get(step.name) ?? step, texts)),
    about: ({ kind, member }) => (kind === 'key' ? texts.members[member] ?? member : ''),
    source: ({ source, since, base }) => (texts.words[source] ?? source).replace('{since}', since).replace('{base}', base),
    law: texts.words.law,
  };
  const list = tree(steps(answer?.out ?? '').map(it => named(it, texts)), says, openNames(details));
  details.replaceChildren(details.firstElementChild, ...opener(list), list);
}

// a step with the office's words for what it tells of
const named = (step, texts) => ({ ...step, label: (step.label && texts.questions[step.name]) || step.label, below: step.below.map(it => named(it, texts)) });

// the text of an Enum's member is found by its variable's type
function memberText({ name, value }) {
  const type = known.variables.get(name)?.type;
  return choices(state.texts, type).find(([member]) => member === value)?.[1] ?? value;
}
