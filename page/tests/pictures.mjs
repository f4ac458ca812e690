// Pictures of the page, looked at: how bright one is, and how much of it is drawn on.
import { inflateSync } from 'node:zlib';

/** The rows of a picture (PNG, 8 bits a channel, not interlaced), and how many bytes a point has. */
function rowsOf(png) {
  const parts = [], width = png.readUInt32BE(16), height = png.readUInt32BE(20), size = png[25] === 6 ? 4 : 3;
  for (let at = 8; at < png.length; at += 12 + png.readUInt32BE(at)) {
    if (png.toString('latin1', at + 4, at + 8) === 'IDAT') parts.push(png.subarray(at + 8, at + 8 + png.readUInt32BE(at)));
  }
  const data = inflateSync(Buffer.concat(parts)), rows = [];
  let above = new Uint8Array(width * size);
  for (let y = 0, at = 0; y < height; y++, at += width * size + 1) {
    above = unfiltered(data[at], data.subarray(at + 1, at + 1 + width * size), above, size);
    rows.push(above);
  }
  return { rows, size };
}

// each byte as it was, before what stands left of it and above it was taken off
function unfiltered(kind, row, above, size) {
  const out = new Uint8Array(row.length);
  for (let i = 0; i < row.length; i++) {
    const left = i < size ? 0 : out[i - size], up = above[i], corner = i < size ? 0 : above[i - size];
    out[i] = row[i] + [0, left, up, (left + up) >> 1, nearest(left, up, corner)][kind];
  }
  return out;
}

function nearest(left, up, corner) {
  const [a, b, c] = [left, up, corner].map(it => Math.abs(left + up - corner - it));
  if (a <= b && a <= c) return left;
  return b <= c ? up : corner;
}

/** How bright a picture is, from 0 to 1, and which share of its points has not one of its three commonest colours. */
export function look(png) {
  const { rows, size } = rowsOf(png), counts = new Map();
  let light = 0, all = 0;
  for (const row of rows) {
    for (let i = 0; i < row.length; i += size, all++) {
      const colour = (row[i] << 16) | (row[i + 1] << 8) | row[i + 2];
      counts.set(colour, (counts.get(colour) ?? 0) + 1);
      light += row[i] + row[i + 1] + row[i + 2];
    }
  }
  const common = [...counts.values()].sort((a, b) => b - a).slice(0, 3).reduce((a, b) => a + b);
  return { light: light / (765 * all), drawn: 1 - common / all };
}
