// The list of files: each opens in the editor, new ones are made, and the one that is open is taken away.
import { $, button, made } from './elements.js';
import { show } from './editor.js';
import { isRule, isText } from './folder.js';
import { edited, known, state } from './state.js';

// the files beside the rules first, then the rules
const sorted = () => [...state.texts.keys()].sort((a, b) => isRule(a) - isRule(b) || (a < b ? -1 : 1));

export function drawFiles() {
  $('files').replaceChildren(...sorted().map(path => {
    const item = button('', () => { show(path); edited(); }, known.refusal?.path === path ? 'bad' : '');
    // a path breaks behind its folders
    item.append(...path.split(/(?<=\/)/).flatMap(part => [part, made('wbr')]));
    if (path === state.open) item.setAttribute('aria-current', 'true');
    return made('li', {}, item);
  }));
}

/** Begins to make files and to take them away. */
export function startFiles() {
  $('new').onsubmit = event => {
    event.preventDefault();
    const path = $('new-path').value.trim();
    if (!isText(path)) return $('new-path').setCustomValidity('A path such as variables/name.py or name.yaml'), $('new-path').reportValidity();
    if (!state.texts.has(path)) state.texts.set(path, '');
    $('new-path').value = '';
    show(path, 1);
    edited();
  };
  $('new-path').oninput = () => $('new-path').setCustomValidity('');
  $('remove').onclick = () => {
    state.texts.delete(state.open);
    show(sorted()[0] ?? '');
    edited();
  };
}
