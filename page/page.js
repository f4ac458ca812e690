// The page: what is asked of the rules after each edit, and the buttons.
import { RuleWorker } from './rules.js';
import { answers, drawQuestions, drawReasons, drawResult } from './calculator.js';
import { $ } from './elements.js';
import { explain, mark, show, startEditor } from './editor.js';
import { example } from './example.js';
import { drawFiles, startFiles } from './files.js';
import { ruleFiles } from './folder.js';
import { refusal, variables } from './lines.js';
import { packed, unpacked } from './link.js';
import { drawRun, progress } from './runs.js';
import { startShelf } from './shelf.js';
import { edited, held, hold, known, own, state, textOf } from './state.js';
import { drawTests } from './tests.js';
import { drawValues, drawWhy } from './values.js';

const asks = new URLSearchParams(location.search);
const isCalculator = asks.has('calculator');
// whether an answer is on its way, and whether another edit came meanwhile
let isBusy = false, isAgain = false;

// ---- what is asked after each edit

async function work() {
  if (isBusy) { isAgain = true; return; }
  isBusy = true;
  do { isAgain = false; await answer(); } while (isAgain);
  isBusy = false;
}

/** What is asked: of each a promise of its answer, or nothing where it is not wanted. */
function questions() {
  const rules = known.rules, files = ruleFiles(state.texts), calc = own('calc'), text = textOf('calc');
  const why = isCalculator ? $('reasons').open && answers() : state.why && [state.why];
  const explained = of => calc && why && rules.task(['explain', '.', calc, ...why, '--format', 'jsonl'], text, of);
  return [
    rules.task(['check', '.'], '', files), rules.task(['list', '.'], '', files), calc && rules.task(['calc', '.', calc], text, files),
    calc && state.before && rules.task(['calc', '.', calc], text, state.before), own('test') && !isCalculator && rules.task(['test', '.', own('test')], '', files, [[own('test'), textOf('test')]]),
    explained(files), state.before && explained(state.before),
    // a run is read whole, and none of its positions is worked out
    own('run') && !isCalculator && rules.task(['run', '.', own('run'), '--to', '0'], textOf('run'), files),
  ];
}

async function answer() {
  const start = performance.now(), slow = setTimeout(() => { $('stop').hidden = false; }, 500);
  const [check, list, calc, before, test, why, whyBefore, run] = await Promise.all(questions());
  clearTimeout(slow);
  $('stop').hidden = true;
  if (!list.status) known.variables = variables(list.out);
  known.refusal = [check, calc, test, run].map(it => (it && it.status > 1 ? refusal(it.told) : null)).find(it => it) ?? null;
  if (isCalculator) {
    drawQuestions();
    drawResult(calc);
    drawReasons(why);
  } else {
    $('state').className = check.status ? 'bad' : '';
    $('state').textContent = check.status ? check.told : check.out.trim();
    drawFiles();
    mark();
    explain();
    drawValues(textOf('calc'), calc, before);
    drawWhy(why, whyBefore);
    drawTests(test);
  }
  const time = performance.now() - start;
  $('time').textContent = isCalculator ? '' : `${time.toFixed(0)} ms`;
  document.body.dataset.answered = String(time);
  drawRun(isCalculator);
}

// ---- the start

/** Shows what is held: the file that is open, or that of the columns. */
function begin() {
  show(state.open || own('calc') || [...state.texts.keys()].sort()[0] || '');
  edited();
}

function stop() {
  known.round++;
  known.rules.stop();
  progress(false);
}

async function link() {
  history.replaceState(null, '', `#${await packed(held())}`);
  await navigator.clipboard?.writeText(location.href).catch(() => {});
  $('state').textContent = `The link has ${location.href.length} characters, and stands in the address.`;
}

async function start() {
  known.rules = new RuleWorker(await WebAssembly.compileStreaming(fetch('fisca.wasm')));
  document.body.classList.toggle('calculator', isCalculator);
  // the result is told to a screen reader as it changes; to an author too much would change
  if (isCalculator) $('values').setAttribute('aria-live', 'polite');
  addEventListener('edited', work);
  startEditor();
  startFiles();
  startShelf(begin);
  $('stop').onclick = stop;
  $('link').onclick = link;
  $('reasons').ontoggle = () => { if ($('reasons').open) edited(); };
  const linked = location.hash.length > 1 ? await unpacked(location.hash.slice(1)) : null, named = asks.get('calculator');
  hold(linked ?? { texts: Object.entries(named ? await (await fetch(named)).json() : example) });
  begin();
  document.body.dataset.ready = performance.now().toFixed(0);
}

// for those who try the page by hand
window.fisca = { state, known, show, work };
start().catch(fault => { $('state').className = 'bad'; $('state').textContent = `The page cannot start: ${fault.message}`; });
