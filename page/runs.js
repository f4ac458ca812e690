// Runs, part by part: how far one is, and its plot; for a calculator and where no run is there, one over an input of the file of columns.
import { $, made, told } from './elements.js';
import { isRule, ruleFiles } from './folder.js';
import { goesOn, table } from './lines.js';
import { legend, plot, points, series } from './plot.js';
import { columns, inputs, runOver } from './situation.js';
import { known, labelOf, office, own, state, textOf } from './state.js';

// how many positions of a run are worked out at a time, and how many lines are drawn at most
const PART = 20000, MOST_LINES = 5000;

/** Works a run out part by part, up to so many lines, and tells how far it is; nothing where another edit came. */
async function run(path, text, files, count) {
  const found = { names: [], rows: [], told: '' }, round = known.round;
  const size = +(await known.rules.task(['size', '.', path], text, files)).out || 0;
  for (let from = 0; from !== null && found.rows.length < count;) {
    const words = ['run', '.', path, '--header', '--from', String(from), '--to', String(Math.min(size, from + PART)), '--rows', String(count - found.rows.length)];
    const part = await known.rules.task(words, text, files);
    if (round !== known.round) return null;
    const { names, rows } = table(part.out), next = part.status ? null : goesOn(part.told);
    found.names = names.length ? names : found.names;
    for (const row of rows) found.rows.push(row);
    if (part.status) found.told = part.told;
    from = next === null || next >= size ? null : next;
    progress(size > PART && from !== null, from, size);
  }
  progress(false);
  return found;
}

/** Tells how far a run is, or nothing of it. */
export function progress(isRunning, value = 0, max = 1) {
  $('progress').hidden = $('stop').hidden = !isRunning;
  Object.assign($('progress'), { max, value });
  $('progress').setAttribute('aria-valuetext', `${Math.floor((100 * value) / max)} %`);
}

// the run that is drawn: its text, and the inputs that it may go over, if it is made from the file of columns
function asked(isCalculator) {
  const calc = textOf('calc'), isMade = isCalculator || !own('run');
  const all = isMade ? inputs(calc, known.variables).filter(it => /^(int|float)$/.test(known.variables.get(it.variable).type)) : [];
  if (!all.length) return own('run') ? { path: own('run'), text: textOf('run'), all } : null;
  const input = all.find(it => String(it.path) === state.over) ?? all.find(it => known.variables.get(it.variable).type === 'float') ?? all[0];
  state.over = String(input.path);
  const names = columns(calc), wanted = names.filter(it => office().results[it.match(/^\w+/)[0]]);
  const top = 2 * Math.max(1, Math.abs(+input.text) || 1000), isWhole = known.variables.get(input.variable).type === 'int';
  return { path: own('calc'), text: runOver(calc, input, wanted.length ? wanted : names.slice(0, 1), [0, top, isWhole ? Math.min(top + 1, 201) : 201]), all };
}

/** Works the run out anew and draws it, with that of the rules before beside it. */
export async function drawRun(isCalculator) {
  known.round++;
  const wanted = asked(isCalculator);
  if (!wanted || (known.refusal?.path && isRule(known.refusal.path))) return clear();
  const now = await run(wanted.path, wanted.text, ruleFiles(state.texts), MOST_LINES);
  const before = now && state.before ? await run(wanted.path, wanted.text, state.before, MOST_LINES) : null;
  if (now) drawPlot(now, before, wanted, () => drawRun(isCalculator));
}

function clear() {
  $('plot').replaceChildren();
  $('choice').replaceChildren();
}

// a choice among these, [value, text] each
function choice(options, chosen, title, change) {
  const all = options.map(([value, said]) => made('option', { value, textContent: said, selected: String(value) === String(chosen) }));
  return made('select', { 'aria-label': title, onchange: event => change(event.target.value) }, ...all);
}

// what an input that a run goes over is called
function inputName(input, texts) {
  const member = texts.members[input.member] ?? input.member;
  return [member && `${member}:`, texts.questions[input.variable] ?? labelOf(input.variable), input.period].filter(it => it).join(' ');
}

function drawPlot(now, before, wanted, again) {
  const { text, all } = wanted, texts = office(), count = all.length ? 1 : (text.match(/\bname:/g) ?? []).length;
  const axes = now.names.slice(1, 1 + count).map((_, i) => i + 1), ys = now.names.slice(1 + count);
  state.column = Math.min(state.column, Math.max(0, ys.length - 1));
  state.axis = Math.min(state.axis, Math.max(0, axes.length - 1));
  const redraw = () => drawPlot(now, before, wanted, again);
  const drawn = choice(ys.map((name, i) => [i, labelOf(name)]), state.column, 'What is drawn', value => { state.column = +value; redraw(); });
  const over = all.length ? choice(all.map(it => [String(it.path), inputName(it, texts)]), state.over, 'Over which input', value => { state.over = value; again(); })
    : choice(axes.map((axis, i) => [i, labelOf(now.names[axis])]), state.axis, 'Over which axis', value => { state.axis = +value; redraw(); });
  const chosen = [...$('choice').children].indexOf(document.activeElement);
  $('choice').replaceChildren(drawn, made('span', { textContent: texts.words.over }), over);
  $('choice').children[chosen]?.focus();
  const x = axes[state.axis], y = 1 + count + state.column;
  if (x === undefined || !ys.length) return $('plot').replaceChildren(...told(now));
  const lines = series(now, x, y, axes, labelOf), old = before ? series(before, x, y, axes, labelOf) : new Map();
  const names = { x: labelOf(now.names[x]), y: labelOf(now.names[y]) };
  $('plot').replaceChildren(plot(lines, old, names), legend(lines, old), points(lines, old, names, texts.words.table), ...told(now));
}
