// The questions of a calculator, made from the inputs of a situation.
import { made } from './elements.js';
import { choices, inputs } from './situation.js';

/** Fills a form with a question for each input; `answer` is called with the input and its new value. */
export function ask(form, text, texts, variables, office, answer) {
  const groups = new Map();
  for (const input of inputs(text, variables)) {
    if (!groups.has(input.member)) groups.set(input.member, []);
    groups.get(input.member).push(input);
  }
  form.replaceChildren(...[...groups].map(([member, all]) => made('fieldset', {}, made('legend', { textContent: office.members[member] ?? member }), ...all.map((input, i) => question(input, `${member}-${i}`, all, texts, variables.get(input.variable), office, answer)))));
}

function question(input, id, all, texts, variable, office, answer) {
  const isAlone = all.filter(it => it.variable === input.variable).length === 1;
  const unit = variable.unit ? office.units[variable.unit] ?? variable.unit : '';
  const label = [office.questions[input.variable] ?? variable.label, isAlone ? '' : input.period, unit && `(${unit})`].filter(it => it).join(' ');
  const field = control(input, variable, texts, office, answer);
  field.id = `question-${id}`;
  return made('div', { className: 'question' }, made('label', { htmlFor: field.id, textContent: label }), field);
}

function control(input, variable, texts, office, answer) {
  const options = choices(texts, variable.type);
  if (options.length) {
    const select = made('select', {}, ...options.map(([name, said]) => made('option', { value: name, textContent: said, selected: name === input.text })));
    select.onchange = () => answer(input, select.value);
    return select;
  }
  if (variable.type === 'bool') {
    const box = made('input', { type: 'checkbox', checked: /^(true|1)$/i.test(input.text) });
    box.onchange = () => answer(input, box.checked ? 'true' : 'false');
    return box;
  }
  const kind = { int: 'number', float: 'number', date: 'date' }[variable.type] ?? 'text';
  const field = made('input', { type: kind, value: input.text, step: variable.type === 'int' ? 1 : 'any', required: true });
  // what is no answer is told when the field is left, and the result stays that of the answer before
  field.onchange = () => field.reportValidity();
  field.oninput = () => {
    field.setCustomValidity('');
    field.setAttribute('aria-invalid', String(!field.validity.valid));
    if (!field.validity.valid) return field.setCustomValidity(office.words.invalid);
    answer(input, kind === 'text' ? JSON.stringify(field.value) : field.value);
  };
  return field;
}
