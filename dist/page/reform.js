// Reforms: files laid over those of a rule set, as the commands lay them by `--reform`, and what of the rules differs from those before.
import { isRule } from './folder.js';

/** The texts with those of a reform laid over: a file takes the place of that of its path, and an empty rule file takes it away. */
export function laidOver(texts, reform) {
  const found = new Map(texts);
  for (const [path, text] of reform) {
    if (isRule(path) && !text) found.delete(path);
    else found.set(path, text);
  }
  return found;
}

/** The files of a reform that makes these rules of those before, [path, text] each: what differs, and an empty file for each that is gone. */
export function differences(before, texts) {
  const old = new Map(before), now = [...texts].filter(([path]) => isRule(path));
  const gone = [...old.keys()].filter(path => !texts.has(path)).map(path => [path, '']);
  return [...now.filter(([path, text]) => old.get(path) !== text), ...gone].sort(([a], [b]) => (a < b ? -1 : 1));
}
