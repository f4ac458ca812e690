// The texts of an office, by its file `calculator.yaml`, and what stands where it writes none.
import { number, shown } from './lines.js';
import { scalars } from './yaml.js';

const WORDS = {
  yes: 'yes', no: 'no', of: 'of', over: 'over', table: 'The plot as a table', law: 'Where this stands',
  given: 'as you answered', shared: 'a part of what you answered for {since}', beside: 'not asked', default: 'not asked', neutralised: 'left out by the reform',
  formula: 'worked out from what stands below', above: 'explained further up', parameter: 'in force since {since}', scale: 'by the steps of a scale, for {base}', unfit: 'no value',
  check: 'This answer cannot be used: {questions}.', none: 'Nothing can be worked out from these answers.', invalid: 'This is no answer to the question.',
};
const TEXTS = { language: 'en', title: '', introduction: '', footer: '', asked: 'Questions', result: 'Result', why: 'Why?', plot: 'How the result changes' };

/** All texts: single ones, and by names those of questions, results, members, units and words. */
export function officeTexts(text) {
  const found = { ...TEXTS, questions: {}, results: {}, members: {}, units: {}, words: { ...WORDS } };
  for (const { path, text: said } of scalars(text ?? '')) {
    if (path.length === 1) found[path[0]] = said;
    else if (typeof found[path[0]] === 'object') found[path[0]][path[1]] = said;
  }
  return found;
}

/** A value in words: of a truth value yes or no, of a share (unit `/1`) a percentage, of another number as the language writes it, with its unit. */
export function inWords(value, variable, office) {
  if (value === 'true' || value === 'false') return value === 'true' ? office.words.yes : office.words.no;
  if (variable?.unit === '/1' && !Number.isNaN(number(value))) return percent(number(value), office.language);
  const unit = variable?.unit ? ` ${office.units[variable.unit] ?? variable.unit}` : '';
  return `${numeral(value, office.language)}${unit}`;
}

// a decimal is written as it is, a fraction by two places behind the point
function numeral(value, language) {
  const text = value.includes('/') ? number(value).toFixed(2) : value;
  if (!/^-?\d+(\.\d+)?$/.test(text)) return shown(value);
  try {
    return new Intl.NumberFormat(language, { minimumFractionDigits: value.includes('/') ? 2 : 0, maximumFractionDigits: 20 }).format(text);
  } catch {
    return text;
  }
}

// a share of one
function percent(share, language) {
  try {
    return new Intl.NumberFormat(language, { style: 'percent', maximumFractionDigits: 4 }).format(share);
  } catch {
    return `${100 * share} %`;
  }
}

/** A result in words. */
export function sentence({ variable, value }, variables, office) {
  const about = variables.get(variable), said = inWords(value, about, office), form = office.results[variable];
  return form ? form.replaceAll('{value}', said) : `${about?.label ?? variable}: ${said}`;
}
