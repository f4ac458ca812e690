// The scalars of a YAML text, each with the keys that lead to it and where it stands, so that a form can change one and leave the rest as it is. It
// reads what the commands accept: block maps and lists, flow maps and lists on a line, plain and quoted scalars, comments.

/** The scalars of a text: `path` has the keys and the places in lists, `from` and `to` say where it stands, `text` what it says. */
export function scalars(text) {
  const found = [], open = [];
  let at = 0;
  for (const line of text.split('\n')) {
    blockLine(line, at, open, found);
    at += line.length + 1;
  }
  return found;
}

// leaves what ends at an entry at this column, and enters that: an item where it has no key
function enter(open, column, key) {
  const isItem = key === null;
  while (open.length && (open.at(-1).column > column || (!isItem && open.at(-1).column === column))) open.pop();
  const last = open.at(-1);
  if (isItem && last?.isItem && last.column === column) last.key += 1;
  else open.push({ column, key: key ?? 0, isItem });
}

const pathOf = open => open.map(it => it.key);

// the entries that a line begins, and what stands behind the last of them
function blockLine(line, at, open, found) {
  const cut = line.slice(0, end(line));
  let column = cut.search(/\S/);
  if (column < 0) return;
  for (;;) {
    const rest = cut.slice(column), dash = rest.match(/^- +|^-$/), key = dash ? null : rest.match(/^("[^"]*"|'[^']*'|[^\s#[\]{},"'][^#[\]{}]*?): +|^("[^"]*"|'[^']*'|[^\s#[\]{},"'][^#[\]{}]*?):$/);
    if (!dash && !key) break;
    enter(open, column, dash ? null : plain(key[1] ?? key[2]));
    column += (dash ?? key)[0].length;
    if (column >= cut.length) return;
  }
  flow(cut, column, at, pathOf(open), found);
}

// where a comment begins, or the blanks at the end
function end(line) {
  let quote = '';
  for (let i = 0; i < line.length; i++) {
    const c = line[i];
    if (quote) { if (c === quote) quote = ''; }
    else if ((c === '"' || c === "'") && /^$|[\s[{,:]$/.test(line.slice(0, i).slice(-1))) quote = c;
    else if (c === '#' && (i === 0 || /\s/.test(line[i - 1]))) return line.slice(0, i).trimEnd().length;
  }
  return line.trimEnd().length;
}

// what stands at a place of a line: a flow map, a flow list or a scalar; answers where it ends
function flow(line, from, at, path, found) {
  const closes = { '{': '}', '[': ']' }[line[from]];
  if (!closes) return scalar(line, from, at, path, found);
  let i = from + 1;
  for (let n = 0; i < line.length; n++) {
    while (/[\s,]/.test(line[i] ?? '')) i++;
    if (line[i] === closes || i >= line.length) {
      if (!n) found.push({ path, from: at + from, to: at + i + 1, text: line.slice(from, i + 1), isEmpty: true });
      return i + 1;
    }
    const key = closes === '}' ? line.slice(i).match(/^("[^"]*"|'[^']*'|[^,{}[\]"']+?):(?: +|$)/) : null;
    const before = i;
    i = flow(line, key ? i + key[0].length : i, at, [...path, key ? plain(key[1]) : n], found);
    if (i <= before) return line.length;
  }
  return i;
}

function scalar(line, from, at, path, found) {
  const isInFlow = /[{[]/.test(line.slice(0, from));
  const text = line.slice(from).match(/^"[^"]*"|^'[^']*'/)?.[0] ?? line.slice(from).match(isInFlow ? /^[^,{}[\]]*/ : /^.*/)[0].trimEnd();
  if (text) found.push({ path, from: at + from, to: at + from + text.length, text: plain(text) });
  return from + text.length;
}

const plain = text => (/^(".*"|'.*')$/.test(text) ? text.slice(1, -1) : text.trim());
