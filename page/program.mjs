#!/usr/bin/env node
// The commands of the module as a program, to try it by what is tried of the native one: it reads the files that the words name, and writes what the
// module answers. What a page has not stays out: standard input, devices, limits on files and on their number, terminals.
import { readFileSync, readdirSync, statSync, writeSync } from 'node:fs';
import { fileURLToPath } from 'node:url';
import { dirname, join } from 'node:path';
import { Rules } from './worker.js';
import { isRule } from './folder.js';
import { laidOver } from './reform.js';

const MODULE = join(dirname(fileURLToPath(import.meta.url)), '..', 'dist', 'page', 'fisca.wasm');
const module_ = new WebAssembly.Module(readFileSync(process.env.FISCA_WASM ?? MODULE));
// the options that take a word
const TAKE = new Set(['--from', '--to', '--part', '--rows', '--decimals', '--format', '--keep', '--reform', '--depth', '--name']);

/** What the words name: the folder, the file and the reforms. */
function named(words) {
  const found = { operands: [], reforms: [] };
  for (let i = 1; i < words.length; i++) {
    if (words[i] === '--reform') found.reforms.push(words[i + 1]);
    else if (words[i].startsWith('--reform=')) found.reforms.push(words[i].slice(9));
    if (TAKE.has(words[i])) i += 1;
    else if (words[i] === '-' || !words[i].startsWith('-')) found.operands.push(words[i]);
  }
  return found;
}

/** The rule files of a folder, [path, bytes] each. */
function filesOf(folder) {
  const found = [];
  const walk = path => {
    for (const name of readdirSync(join(folder, path))) {
      if (name.startsWith('.')) continue;
      const inner = path ? `${path}/${name}` : name;
      if (statSync(join(folder, inner)).isDirectory()) walk(inner);
      else if (isRule(inner)) found.push([inner, readFileSync(join(folder, inner))]);
    }
  };
  walk('');
  return found;
}

/** The files of folders, each laid over those before it, and where the path of each is told. */
function laid(folders) {
  let files = new Map();
  const places = new Map();
  for (const folder of folders) {
    const layer = filesOf(folder);
    files = folders[0] === folder ? new Map(layer) : laidOver(files, layer.map(([path, bytes]) => [path, bytes.length ? bytes : '']));
    for (const [path] of layer) places.set(path, `${folder.replace(/\/$/, '')}/${path}`);
  }
  return { files: [...files], places: folders.length > 1 ? places : new Map() };
}

/** A line with the path of a rule file as the program tells it. */
const placed = (told, places) => told.replace(/^fisca: (.+?)(:\d+: )/, (all, path, rest) => (places.has(path) ? `fisca: ${places.get(path)}${rest}` : all));

/** The files of tests at a path: of a folder those below it, in order of the bytes of their paths. */
function testsAt(path, depth = 8) {
  if (!statSync(path, { throwIfNoEntry: false })?.isDirectory()) return [path];
  const inner = readdirSync(path, { withFileTypes: true }).map(it => [it, `${path.replace(/\/$/, '')}/${it.name}`]);
  const folders = depth > 1 ? inner.filter(([it]) => it.isDirectory()).flatMap(([, at]) => testsAt(at, depth - 1)) : [];
  const files = inner.filter(([it]) => !it.isDirectory() && /\.ya?ml$/.test(it.name)).map(([, at]) => at);
  return [...folders, ...files].sort((a, b) => Buffer.compare(Buffer.from(a), Buffer.from(b)));
}

/** Takes the text of a command's own file, or the files of tests. */
function readOwn(words, paths, found) {
  let at = paths[0];
  try {
    if (words[0] === 'test') for (at of paths.flatMap(path => testsAt(path))) found.tests.push([at, readFileSync(at)]);
    else if (at) found.text = readFileSync(at);
  } catch {
    found.told = `fisca: ${at}: cannot read`;
  }
}

/** What the files of the words are, or why they cannot be read. */
function read(words) {
  const { operands: [folder, ...paths], reforms } = named(words);
  const found = { files: [], tests: [], places: new Map(), text: '', told: null };
  if (words[0] === 'axes' || !folder) return found;
  for (const it of [folder, ...reforms]) {
    try { readdirSync(it); } catch { return { ...found, told: `fisca: cannot list ${it}` }; }
  }
  Object.assign(found, laid([folder, ...reforms]));
  readOwn(words, paths, found);
  return found;
}

function write(stream, text) {
  const bytes = Buffer.from(text);
  for (let at = 0; at < bytes.length;) at += writeSync(stream, bytes, at);
}

const words = process.argv.slice(2), { files, tests, places, text, told } = read(words);
// words that are refused are so before a file is read
const first = new Rules(module_).task(['fisca', ...words], text, told ? [] : files, tests);
const answer = told && first.status !== 2 && first.told ? { status: 5, out: '', told } : first;
write(1, answer.out);
if (answer.told) write(2, `${placed(answer.told.replace(/\n$/, ''), places)}\n`);
process.exitCode = answer.status;
