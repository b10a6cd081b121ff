'use strict';
// Writes a PNG anew, in a third of its bytes: with a palette of 256 colours. Each other one, mostly a shade at the edge
// of a letter, becomes the nearest of these. Follows the PNG specification (W3C), sections
// "Filtering" and "PLTE Palette".

const zlib = require('zlib');

const MOST = 256;
const SIGNATURE = Buffer.from([137, 80, 78, 71, 13, 10, 26, 10]);

function chunks(png) {
  const found = [];
  for (let at = 8; at < png.length; at += 12 + png.readUInt32BE(at)) {
    const length = png.readUInt32BE(at);
    found.push({ type: png.toString('latin1', at + 4, at + 8), data: png.subarray(at + 8, at + 8 + length) });
  }
  return found;
}

function paeth(left, up, corner) {
  const guess = left + up - corner;
  const [a, b, c] = [Math.abs(guess - left), Math.abs(guess - up), Math.abs(guess - corner)];
  return a <= b && a <= c ? left : b <= c ? up : corner;
}

// Takes the filters off: the bytes of the pixels, a row behind the other.
function unfiltered(data, height, stride, size) {
  const pixels = Buffer.alloc(height * stride);
  for (let y = 0; y < height; y++) {
    const filter = data[y * (stride + 1)];
    const from = y * (stride + 1) + 1;
    const to = y * stride;
    for (let x = 0; x < stride; x++) {
      const left = x >= size ? pixels[to + x - size] : 0;
      const up = y > 0 ? pixels[to + x - stride] : 0;
      const corner = x >= size && y > 0 ? pixels[to + x - stride - size] : 0;
      const guess = [0, left, up, (left + up) >> 1, paeth(left, up, corner)][filter];
      pixels[to + x] = (data[from + x] + guess) & 255;
    }
  }
  return pixels;
}

function read(png) {
  const parts = chunks(png);
  const head = parts.find(({ type }) => type === 'IHDR').data;
  const [width, height, depth, colour] = [head.readUInt32BE(0), head.readUInt32BE(4), head[8], head[9]];
  if (depth !== 8 || (colour !== 2 && colour !== 6) || head[12] !== 0) throw new Error('a PNG of another form');
  const size = colour === 6 ? 4 : 3;
  const data = zlib.inflateSync(Buffer.concat(parts.filter(({ type }) => type === 'IDAT').map((part) => part.data)));
  return { width, height, size, pixels: unfiltered(data, height, width * size, size) };
}

// How many pixels have each colour.
function countsOf({ pixels, size }) {
  const counts = new Map();
  for (let at = 0; at < pixels.length; at += size) {
    const colour = pixels.readUIntBE(at, 3);
    counts.set(colour, (counts.get(colour) ?? 0) + 1);
  }
  return counts;
}

function distance(one, other) {
  const red = (one >> 16) - (other >> 16);
  const green = ((one >> 8) & 255) - ((other >> 8) & 255);
  const blue = (one & 255) - (other & 255);
  return red * red + green * green + blue * blue;
}

// The colours that are kept, and for each colour the number of the nearest one of them. The next one that is kept is that
// which costs most where it is not: its pixels times its distance.
function palette(counts) {
  const colours = [...counts].map(([colour, count]) => ({ colour, count, best: 0, far: Infinity }));
  const kept = [];
  const keep = (colour) => {
    const at = kept.push(colour) - 1;
    for (const one of colours) {
      const far = distance(one.colour, colour);
      if (far < one.far) [one.best, one.far] = [at, far];
    }
  };
  keep(colours.reduce((most, one) => one.count > most.count ? one : most).colour);
  while (kept.length < Math.min(MOST, colours.length)) {
    keep(colours.reduce((most, one) => one.count * one.far > most.count * most.far ? one : most).colour);
  }
  return { kept, index: new Map(colours.map(({ colour, best }) => [colour, best])) };
}

function chunk(type, data) {
  const out = Buffer.alloc(12 + data.length);
  out.writeUInt32BE(data.length, 0);
  out.write(type, 4, 'latin1');
  data.copy(out, 8);
  out.writeUInt32BE(crc(out.subarray(4, 8 + data.length)), 8 + data.length);
  return out;
}

function crc(bytes) {
  let sum = 0xffffffff;
  for (const byte of bytes) {
    sum ^= byte;
    for (let bit = 0; bit < 8; bit++) sum = sum & 1 ? (sum >>> 1) ^ 0xedb88320 : sum >>> 1;
  }
  return (sum ^ 0xffffffff) >>> 0;
}

// The same picture with a palette of 256 colours at most.
function smaller(png) {
  const picture = read(png);
  const { width, height, pixels, size } = picture;
  const { kept, index } = palette(countsOf(picture));
  const lines = Buffer.alloc(height * (width + 1));
  for (let y = 0; y < height; y++) {
    for (let x = 0; x < width; x++) {
      lines[y * (width + 1) + 1 + x] = index.get(pixels.readUIntBE((y * width + x) * size, 3));
    }
  }
  const head = Buffer.alloc(13);
  head.writeUInt32BE(width, 0);
  head.writeUInt32BE(height, 4);
  head.set([8, 3, 0, 0, 0], 8);
  const colours = Buffer.alloc(kept.length * 3);
  kept.forEach((colour, at) => colours.writeUIntBE(colour, at * 3, 3));
  return Buffer.concat([SIGNATURE, chunk('IHDR', head), chunk('PLTE', colours),
    chunk('IDAT', zlib.deflateSync(lines, { level: 9, memLevel: 9 })), chunk('IEND', Buffer.alloc(0))]);
}

module.exports = { smaller };
