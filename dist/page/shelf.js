// What is opened and saved: folders, reforms and the file of a calculator; and the rules that are kept as before.
import { $ } from './elements.js';
import { archive, dropped, opened, ruleFiles, save } from './folder.js';
import { differences, laidOver } from './reform.js';
import { edited, hold, state } from './state.js';

const ARCHIVE = 'application/zip';

/** Begins to open and save; `begin` shows what was opened. */
export function startShelf(begin) {
  const take = texts => { if (texts.size) { hold({ texts }); drawKept(); begin(); } };
  const lay = texts => { if (texts.size) { keep(true); state.texts = laidOver(state.texts, texts); begin(); } };
  fill('open', 'folder', take);
  fill('lay', 'reform', lay);
  document.ondragover = event => event.preventDefault();
  document.ondrop = async event => { event.preventDefault(); take(await dropped(event.dataTransfer.items)); };
  $('save').onclick = () => save('rules.zip', archive([...state.texts].sort(([a], [b]) => (a < b ? -1 : 1))), ARCHIVE);
  $('save-reform').onclick = () => save('reform.zip', archive(differences(state.before, state.texts)), ARCHIVE);
  $('bundle').onclick = () => save('rules.json', [JSON.stringify(Object.fromEntries(state.texts))], 'application/json');
  $('keep').onclick = () => { keep(!state.before); edited(); };
  addEventListener('edited', drawKept);
}

// a button that asks for a folder
function fill(button, input, take) {
  $(button).onclick = () => $(input).click();
  $(input).onchange = async () => { take(await opened($(input))); $(input).value = ''; };
}

function keep(is) {
  state.before = is ? state.before ?? ruleFiles(state.texts) : null;
  drawKept();
}

function drawKept() {
  $('keep').textContent = state.before ? 'Forget before' : 'Keep as before';
  $('save-reform').hidden = !state.before;
}
