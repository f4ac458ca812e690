// What the commands write and tell, read.

/** A number as JavaScript has it: of a decimal, a fraction, or a truth value. */
export function number(text) {
  const [above, below] = text.split('/');
  if (below) return above / below;
  return text === 'true' ? 1 : text === 'false' ? 0 : +text;
}

/** A value as a reader wants it: a fraction with its decimal beside it. */
export const shown = text => (/^-?\d+\/\d+$/.test(text) ? `${text} ≈ ${number(text).toFixed(2)}` : text);

/** The lines of a text, without an empty last one. */
export const lines = text => text.split('\n').filter(line => line);

/** The place and the word of a refusal, `fisca: PATH:LINE: WORD`, or of a value, `fisca: WORD KEY`, or nothing. */
export function refusal(told) {
  const place = told.match(/^fisca: (.+?):(\d+): (\w+)(.*)$/);
  if (place) return { path: place[1], line: +place[2], word: place[3], rest: place[4].trim() };
  const value = told.match(/^fisca: (?:position \d+: )?([A-Z]\w+)(.*)$/);
  return value ? { path: null, line: 0, word: value[1], rest: value[2].trim() } : null;
}

/** The values of `fisca calc`. */
export const values = out => lines(out).map(line => {
  const [variable, member, period, value = ''] = line.split('\t');
  return { variable, member, period, value };
});

/** The variables of `fisca list`, by their names. */
export function variables(out) {
  const found = new Map();
  for (const line of lines(out)) {
    const [name, entity, type, period, formulas, unit, label, declared] = line.split('\t');
    found.set(name, { name, entity, type, period, isInput: formulas === 'input', unit, label: label || name, declared });
  }
  return found;
}

/** The tests of `fisca test`: each with its name, whether it passed, and what was not as expected. */
export function tests(out) {
  const found = [];
  for (const line of lines(out)) {
    const verdict = line.match(/^(ok|failed) (.*)$/);
    if (verdict) found.push({ name: verdict[2], passed: verdict[1] === 'ok', why: [] });
    else if (line.startsWith('  ')) found.at(-1)?.why.push(line.trim());
  }
  return found;
}

/** The table of `fisca run --header`: the names of its cells and its rows. */
export function table(out) {
  const [names = [], ...rows] = lines(out).map(line => line.split('\t'));
  return { names, rows };
}

/** Where a run goes on, by the line that it told at its end, or nothing where it is over. */
export function goesOn(told) {
  const more = told.match(/^more (\d+)$/);
  return more ? +more[1] : null;
}
