// The folder of a rule set: texts by their paths, opened, dropped in and saved.

const LONGEST = 1 << 20;
export const isText = path => /\.(py|ya?ml)$/.test(path) && !/(^|\/)\./.test(path);

/** Which files the commands read of a folder, in the order of their paths. */
export const ruleFiles = texts => [...texts].filter(([path]) => isRule(path)).sort(([a], [b]) => (a < b ? -1 : 1));
export const isRule = path => path === 'entities.py' || /^variables\/.*\.py$/.test(path) || /^parameters\/.*\.ya?ml$/.test(path);

/** What a file that is no rule file is for: a run, tests or columns. */
export function kindOf(text) {
  if (/^axes:/m.test(text)) return 'run';
  if (/^[- ] *output:/m.test(text)) return 'test';
  return 'calc';
}

/** The texts of files, each with a path; what stands above `entities.py` is left out of the paths, or above the rule files of a reform. */
async function texts(files) {
  const kept = files.filter(([path, file]) => isText(path) && file.size <= LONGEST);
  const above = form => kept.map(([path]) => path.match(form)).filter(found => found).map(found => found[1] ?? '').sort((a, b) => a.length - b.length)[0];
  const top = above(/^(.*\/)?entities\.py$/) ?? above(/^(.*?\/)??(?:variables|parameters)\//) ?? '';
  const found = new Map();
  for (const [path, file] of kept) if (path.startsWith(top)) found.set(path.slice(top.length), await file.text());
  return found;
}

/** The files of an input for folders. */
export const opened = input => texts([...input.files].map(file => [file.webkitRelativePath || file.name, file]));

/** The files that were dropped in. */
export async function dropped(items) {
  const entries = [...items].map(item => item.webkitGetAsEntry?.()).filter(entry => entry);
  return texts((await Promise.all(entries.map(filesBelow))).flat());
}

async function filesBelow(entry) {
  if (entry.isFile) return [[entry.fullPath.slice(1), await new Promise((done, failed) => entry.file(done, failed))]];
  const reader = entry.createReader(), found = [];
  for (;;) {
    const some = await new Promise((done, failed) => reader.readEntries(done, failed));
    if (!some.length) return (await Promise.all(found.map(filesBelow))).flat();
    found.push(...some);
  }
}

/** Hands a file to the reader of the page. */
export function save(name, parts, type) {
  const link = document.createElement('a');
  link.href = URL.createObjectURL(new Blob(parts, { type }));
  link.download = name;
  link.click();
  setTimeout(() => URL.revokeObjectURL(link.href), 1000);
}

/** The texts as an archive (ZIP, nothing compressed), which each system opens as a folder. */
export function archive(files) {
  const encoder = new TextEncoder(), parts = [], index = [];
  let at = 0;
  for (const [path, text] of files) {
    const name = encoder.encode(path), bytes = encoder.encode(text), sum = checksum(bytes);
    const said = [20, 0x800, 0, 0, 0x21, sum, bytes.length, bytes.length, name.length, 0];
    parts.push(packed(0x04034b50, said), name, bytes);
    index.push(packed(0x02014b50, [20, ...said, 0, 0, 0, [0], [at]]), name);
    at += 30 + name.length + bytes.length;
  }
  const size = index.reduce((sum, part) => sum + part.length, 0), count = index.length / 2;
  return [...parts, ...index, packed(0x06054b50, [0, 0, count, count, [size], [at], 0])];
}

// fields of two bytes, and of four where they stand in a list or are the sum or the sizes of a file
function packed(mark, fields) {
  const wide = mark === 0x06054b50 ? [] : fields.length === 10 ? [5, 6, 7] : [6, 7, 8];
  const bytes = [];
  const put = (value, count) => { for (let i = 0; i < count; i++) bytes.push((value >>> (8 * i)) & 255); };
  put(mark, 4);
  fields.forEach((field, i) => (Array.isArray(field) ? put(field[0], 4) : put(field, wide.includes(i) ? 4 : 2)));
  return Uint8Array.from(bytes);
}

function checksum(bytes) {
  let sum = -1;
  for (const byte of bytes) {
    sum ^= byte;
    for (let i = 0; i < 8; i++) sum = (sum >>> 1) ^ (sum & 1 ? 0xedb88320 : 0);
  }
  return (sum ^ -1) >>> 0;
}
