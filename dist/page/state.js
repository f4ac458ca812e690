// What is open on the page, what is chosen, and what is known of it. All that a link holds is in `state`.
import { isRule, kindOf } from './folder.js';
import { officeTexts } from './office.js';

export const OFFICE = 'calculator.yaml';

/** `before` has the rule files that were kept; `calc`, `test` and `run` say which file of each kind is used, `why` which column is explained. */
export const state = { texts: new Map(), before: null, open: '', calc: null, test: null, run: null, why: '', column: 0, axis: 0, over: '' };
/** What the last answers said; `rules` is the worker, `round` the number of the run that is drawn. */
export const known = { rules: null, variables: new Map(), refusal: null, round: 0 };

/** Tells the page that something is to be worked out anew. */
export const edited = () => dispatchEvent(new Event('edited'));

/** The file of a kind that is in use: the one that is open, or else the one that was, or the first. */
export function own(kind) {
  const fits = path => state.texts.has(path) && !isRule(path) && path !== OFFICE && /\.ya?ml$/.test(path) && kindOf(state.texts.get(path)) === kind;
  if (fits(state.open)) state[kind] = state.open;
  if (!fits(state[kind])) state[kind] = [...state.texts.keys()].sort().find(fits) ?? null;
  return state[kind];
}

/** The text of the file of a kind. */
export const textOf = kind => state.texts.get(own(kind)) ?? '';

/** The texts of the office. */
export const office = () => officeTexts(state.texts.get(OFFICE));

/** What a variable is called, of which a column begins with the name. */
export const labelOf = column => known.variables.get(column.match(/^\w+/)?.[0])?.label ?? column;

/** What a link holds. */
export const held = () => ({ ...state, texts: [...state.texts] });

/** Takes what a link holds, or other texts alone. */
export function hold(other) {
  Object.assign(state, { before: null, open: '', calc: null, test: null, run: null, why: '', column: 0, axis: 0, over: '', ...other });
  state.texts = new Map(state.texts);
}
