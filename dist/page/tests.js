// The tests of a file, as they pass and fail.
import { $, made, told } from './elements.js';
import { refusal, tests } from './lines.js';
import { own } from './state.js';

export function drawTests(answer) {
  const all = tests(answer?.out ?? ''), passed = all.filter(it => it.passed).length;
  $('verdict').textContent = all.length ? `${passed} of ${all.length} pass` : '';
  const items = all.map(it => made('li', { className: it.passed ? 'ok' : 'failed' }, it.name, ...it.why.map(line => made('small', { textContent: line }))));
  const isOfTests = answer?.told && refusal(answer.told)?.path === own('test');
  $('tests').replaceChildren(...items, ...(isOfTests ? told(answer) : []));
}
