// A QR code (ISO/IEC 18004) of a short text: bytes, correction level M, versions 1 to 6.

// Of each version, its number being the place: how many code words correct each block, and how many each block has of data.
const BLOCKS = [null, [10, 16], [16, 28], [26, 44], [18, 32, 32], [24, 43, 43], [16, 27, 27, 27, 27]];
const LEVEL_M = 0;
const MASKS = [
  (row, column) => (row + column) % 2, (row) => row % 2, (_, column) => column % 3, (row, column) => (row + column) % 3,
  (row, column) => (Math.floor(row / 2) + Math.floor(column / 3)) % 2,
  (row, column) => row * column % 2 + row * column % 3, (row, column) => (row * column % 2 + row * column % 3) % 2,
  (row, column) => ((row + column) % 2 + row * column % 3) % 2,
];

/** The product in the field of 256 elements. */
function times(a, b) {
  let product = 0;
  for (let bit = 7; bit >= 0; bit -= 1) {
    product = product << 1 ^ (product >> 7) * 0x11d;
    if (b >> bit & 1) product ^= a;
  }
  return product;
}

/** The code words of Reed and Solomon behind these. */
function corrections(data, count) {
  const divisor = [...Array(count - 1).fill(0), 1];
  for (let at = 0, root = 1; at < count; at += 1, root = times(root, 2)) {
    for (let place = 0; place < count; place += 1) {
      divisor[place] = times(divisor[place], root) ^ (divisor[place + 1] || 0);
    }
  }
  const rest = Array(count).fill(0);
  for (const word of data) {
    const factor = word ^ rest.shift();
    rest.push(0);
    divisor.forEach((one, place) => { rest[place] ^= times(one, factor); });
  }
  return rest;
}

function roomOf(sizes) {
  return sizes.reduce((sum, size) => sum + size);
}

/** All code words of the bytes, in the order in which they are drawn. */
function codeWords(bytes, blocksOf) {
  const [count, ...sizes] = blocksOf;
  const room = roomOf(sizes), bits = [0x4, 4, bytes.length, 8, ...bytes.flatMap((byte) => [byte, 8])];
  let text = '';
  for (let at = 0; at < bits.length; at += 2) text += bits[at].toString(2).padStart(bits[at + 1], '0');
  text = text.padEnd(Math.min(8 * room, text.length + 4), '0');
  const words = (text.padEnd(Math.ceil(text.length / 8) * 8, '0').match(/.{8}/g) || []).map((bit) => parseInt(bit, 2));
  for (let pad = 0xec; words.length < room; pad ^= 0xec ^ 0x11) words.push(pad);
  const blocks = sizes.map((size) => words.splice(0, size)), ends = blocks.map((block) => corrections(block, count));
  return [blocks, ends].flatMap((parts) => parts[0].flatMap((_, at) => parts.map((part) => part[at])));
}

/** A square of cells, of which `set` gives the dark ones and marks them as no place for code words. */
function emptyCode(size) {
  const [dark, fixed] = [0, 1].map(() => Array.from({ length: size }, () => Array(size).fill(false)));
  const set = (row, column, isDark) => {
    if (row < 0 || column < 0 || row >= size || column >= size) return;
    dark[row][column] = isDark;
    fixed[row][column] = true;
  };
  return { size, dark, fixed, set };
}

function drawPatterns({ size, set }, version) {
  for (let at = 0; at < size; at += 1) {
    set(6, at, at % 2 === 0);
    set(at, 6, at % 2 === 0);
  }
  const around = (middle, column, far, isDark) => {
    for (let down = -far; down <= far; down += 1) {
      for (let right = -far; right <= far; right += 1) {
        set(middle + down, column + right, isDark(Math.max(Math.abs(down), Math.abs(right))));
      }
    }
  };
  for (const [row, column] of [[3, 3], [3, size - 4], [size - 4, 3]]) {
    around(row, column, 4, (distance) => distance !== 2 && distance !== 4);
  }
  if (version > 1) around(size - 7, size - 7, 2, (distance) => distance !== 1);
}

function drawFormat({ size, set }, mask) {
  const data = LEVEL_M << 3 | mask;
  let rest = data;
  for (let at = 0; at < 10; at += 1) rest = rest << 1 ^ (rest >> 9) * 0x537;
  const bits = (data << 10 | rest) ^ 0x5412, bit = (at) => (bits >> at & 1) === 1;
  for (let at = 0; at < 15; at += 1) {
    const place = at < 6 ? at : at < 8 ? at + 1 : 0;
    if (at < 8) set(place, 8, bit(at));
    else set(8, at === 8 ? 7 : 14 - at, bit(at));
    if (at < 8) set(8, size - 1 - at, bit(at));
    else set(size - 15 + at, 8, bit(at));
  }
  set(size - 8, 8, true);
}

function drawWords({ size, dark, fixed }, words) {
  let at = 0;
  for (let right = size - 1; right >= 1; right -= 2) {
    if (right === 6) right = 5;
    for (let step = 0; step < size; step += 1) {
      for (const column of [right, right - 1]) {
        const row = (right + 1 & 2) === 0 ? size - 1 - step : step;
        if (fixed[row][column]) continue;
        dark[row][column] = at < 8 * words.length && (words[at >> 3] >> 7 - (at & 7) & 1) === 1;
        at += 1;
      }
    }
  }
}

/** How badly a code can be read: runs, squares of four, what looks like a corner, and too much of one colour. */
function penalty(dark) {
  const size = dark.length, lines = [...dark, ...dark.map((_, column) => dark.map((row) => row[column]))]
    .map((line) => line.map((one) => (one ? '1' : '0')).join(''));
  let sum = 0, count = 0;
  for (const line of lines) {
    for (const run of line.match(/0{5,}|1{5,}/g) || []) sum += run.length - 2;
    for (let at = 0; at + 11 <= size; at += 1) {
      if (/^(10111010000|00001011101)/.test(line.slice(at, at + 11))) sum += 40;
    }
  }
  dark.forEach((row, down) => row.forEach((one, right) => {
    count += one ? 1 : 0;
    const square = down && right && [dark[down - 1][right], dark[down][right - 1], dark[down - 1][right - 1]];
    if (square && square.every((other) => other === one)) sum += 3;
  }));
  return sum + 10 * Math.floor(Math.abs(count * 20 / size / size - 10));
}

/** The cells of a text's code, row by row: true for a dark one; null where the text is too long. */
export function qrCode(text) {
  const bytes = [...new TextEncoder().encode(text)];
  const version = BLOCKS.findIndex((blocks) => blocks && bytes.length + 2 <= roomOf(blocks.slice(1)));
  if (version < 0) return null;
  const words = codeWords(bytes, BLOCKS[version]);
  const codes = MASKS.map((isTurned, mask) => {
    const code = emptyCode(4 * version + 17);
    drawPatterns(code, version);
    drawFormat(code, mask);
    drawWords(code, words);
    return code.dark.map((row, down) => row.map((one, right) => (code.fixed[down][right] || isTurned(down, right) !== 0
      ? one : !one)));
  });
  const worth = codes.map(penalty);
  return codes[worth.indexOf(Math.min(...worth))];
}
