// The editor of one file, with the refusal marked at its line and explained below.
import { $, button, made } from './elements.js';
import { explanations } from './words.js';
import { drawFiles } from './files.js';
import { isRule, kindOf } from './folder.js';
import { edited, known, state } from './state.js';

// the height of a line, and what stands above the first one
const ROW = 20, ABOVE = 6;

/** Opens a file, at a line. */
export function show(path, line) {
  state.open = path;
  const text = $('text');
  text.value = state.texts.get(path) ?? '';
  $('open-file').textContent = path;
  text.scrollTop = line ? Math.max(0, line - 6) * ROW : 0;
  if (line) {
    const at = text.value.split('\n').slice(0, line - 1).join('\n').length + (line > 1 ? 1 : 0);
    text.focus();
    text.setSelectionRange(at, at);
  }
  drawFiles();
  mark();
}

/** Numbers the lines, and marks the one of the refusal. */
export function mark() {
  const text = $('text'), count = text.value.split('\n').length, here = known.refusal?.path === state.open && known.refusal;
  const numbers = Array.from({ length: count }, (_, i) => i + 1).join('\n');
  if ($('lines').textContent !== numbers) $('lines').textContent = numbers;
  $('lines').style.transform = `translateY(${-text.scrollTop}px)`;
  $('place').hidden = !here;
  if (here) $('place').style.top = `${ABOVE + (here.line - 1) * ROW - text.scrollTop}px`;
  text.setAttribute('aria-invalid', here ? 'true' : 'false');
}

// the lists that may have the word of a refusal, the likeliest first: of a rule file, of another file, or of no file
function listsOf(path) {
  if (!path) return ['values', 'runs', 'explain', 'rules', 'axes'];
  if (isRule(path)) return path.endsWith('.py') ? ['rules'] : ['yaml', 'rules'];
  return [{ calc: 'calc', test: 'tests', run: 'runs' }[kindOf(state.texts.get(path) ?? '')], 'situations', 'yaml', 'rules'];
}

// what the word means and what to do, as `fisca help WORD` tells it
function explanationsOf({ path, word }) {
  const all = explanations[word] ?? {}, list = listsOf(path).find(it => all[it]);
  return list ? all[list] : Object.values(all).flat();
}

/** Explains the word of the refusal, if there is one. */
export function explain() {
  const here = known.refusal;
  if (!here) return $('word').replaceChildren();
  const title = here.path ? `${here.path}, line ${here.line}: ${here.word} ${here.rest}` : `${here.word} ${here.rest}`;
  const leads = here.path && state.texts.has(here.path) ? [' ', button('Go to the line', () => show(here.path, here.line))] : [];
  $('word').replaceChildren(made('strong', { textContent: title }), ...leads, ...explanationsOf(here).map(it => made('p', { textContent: it })));
}

/** Begins to take what is typed. */
export function startEditor() {
  $('text').oninput = () => { state.texts.set(state.open, $('text').value); edited(); };
  $('text').onscroll = mark;
}
