// page.mjs MODULE RULES FILE OUT: writes the lines of a run file by the module of the page, part by part as the page does, and prints the seconds that
// the calls took, without reading files and compiling the module.
import { readFileSync, readdirSync, writeFileSync } from 'node:fs';
import { join } from 'node:path';
import { Rules } from '../../page/worker.js';

const [module, folder, file, out] = process.argv.slice(2);
const PART = 20000;

/** The rule files of a folder, [path, text] each. */
function filesOf(path) {
  return readdirSync(join(folder, path), { withFileTypes: true }).flatMap(it => {
    const inner = path ? `${path}/${it.name}` : it.name;
    return it.isDirectory() ? filesOf(inner) : [[inner, readFileSync(join(folder, inner), 'utf8')]];
  });
}

const rules = new Rules(new WebAssembly.Module(readFileSync(module))), files = filesOf(''), text = readFileSync(file, 'utf8'), lines = [];
const start = performance.now();
for (let from = 0; from !== null;) {
  const answer = rules.task(['fisca', 'run', folder, file, '--from', String(from), '--rows', String(PART)], text, files);
  if (answer.status) throw new Error(answer.told);
  const end = answer.out.lastIndexOf('\n', answer.out.length - 2) + 1, last = answer.out.slice(end).trim();
  lines.push(answer.out.slice(0, end));
  from = last === 'end' ? null : Number(last.slice('more '.length));
}
const seconds = (performance.now() - start) / 1000;
writeFileSync(out, lines.join(''));
console.log(seconds);
