// What a side has taken, by the men that stood at the start and stand now, and who has more.

import { t } from './language.js';
import { placementOf } from './lines.js';
import { make } from './make.js';
import { pictureOf } from './pieces.js';
import { kindWords } from './words.js';

const WORTH = { q: 9, r: 5, b: 3, n: 3, p: 1, k: 0 };

function count(fen) {
  const counts = new Map();
  for (const letter of placementOf(fen).values()) counts.set(letter, (counts.get(letter) || 0) + 1);
  return counts;
}

function worth(counts, isWhite) {
  return [...counts].filter(([letter]) => (letter === letter.toUpperCase()) === isWhite)
    .reduce((sum, [letter, number]) => sum + number * WORTH[letter.toLowerCase()], 0);
}

/** {letters, ahead}: the opponent's men that are gone, each as often as it was taken, and by how much this side has
 * more. A pawn that has become another man is not taken. */
export function takenBy(side, startFen, fen) {
  const before = count(startFen), now = count(fen), isWhite = side === 'w', letters = [];
  let become = 0;
  for (const kind of 'qrbnp') {
    const letter = isWhite ? kind : kind.toUpperCase(), gone = (before.get(letter) || 0) - (now.get(letter) || 0);
    if (gone < 0) become -= gone;
    const taken = kind === 'p' ? gone - become : gone;
    for (let place = 0; place < taken; place += 1) letters.push(letter);
  }
  return { letters, ahead: worth(now, isWhite) - worth(now, !isWhite) };
}

/** Whether a side's men can mate in any position with men like the opponent's, by any legal moves: where not, they never
 * can. */
export function mayMate(side, fen) {
  const own = [], others = [];
  for (const [square, letter] of placementOf(fen)) {
    const kind = letter.toLowerCase(), isOwn = (letter === kind) === (side === 'b');
    if (kind !== 'k') (isOwn ? own : others).push(kind === 'b' ? `b${(square.charCodeAt(0) + Number(square[1])) % 2}` : kind);
  }
  const kinds = new Set(own), [first] = kinds;
  if (own.length === 0) return false;
  if (kinds.size > 1 || !['n', 'b0', 'b1'].includes(first)) return true;
  // (a knight alone mates a king shut in by a man that is no queen; bishops on squares of one colour by one of these, a
  // pawn that may become one, or a bishop on the other squares)
  return first === 'n' ? own.length > 1 || others.some((kind) => kind !== 'q')
    : others.some((kind) => kind === 'n' || kind === 'p' || kind[0] === 'b' && kind !== first);
}

/** Draws what a side has taken into its place, and says it as the place's name. */
export function drawTaken(place, side, startFen, fen) {
  const { letters, ahead } = takenBy(side, startFen, fen), key = letters.join('') + (ahead > 0 ? ` +${ahead}` : '');
  if (place.dataset.key === key) return;
  place.dataset.key = key;
  place.replaceChildren(...letters.map((letter, at) => make('img', { class: letter === letters[at - 1] ? 'same' : '',
    alt: '', src: pictureOf(letter), 'data-letter': letter })),
  ahead > 0 ? make('span', { class: 'ahead' }, `+${ahead}`) : '');
  const words = [...new Set(letters)].map((letter) => {
    const number = letters.filter((other) => other === letter).length;
    return kindWords(letter, number);
  });
  for (const name of ['role', 'aria-label']) place.removeAttribute(name);
  if (words.length === 0) return;
  place.setAttribute('role', 'img');
  const taken = words.join(', ');
  place.setAttribute('aria-label', ahead > 0 ? t`Taken: ${taken}; ${ahead} more` : t`Taken: ${taken}`);
}
