// The sets of men and the boards that may be chosen.

import { read, write } from './make.js';

export const SETS = ['club', 'bold', 'plain'];
export const BOARDS = ['wood', 'green', 'blue'];
const KINDS = { p: 'pawn', n: 'knight', b: 'bishop', r: 'rook', q: 'queen', k: 'king' };
const local = () => localStorage;

export function chosenSet() {
  const kept = read(local, 'pieces');
  return SETS.includes(kept) ? kept : SETS[0];
}

export function chosenBoard() {
  const kept = read(local, 'board');
  return BOARDS.includes(kept) ? kept : BOARDS[0];
}

export function pictureOf(letter, set = chosenSet()) {
  const name = `${letter === letter.toUpperCase() ? 'white' : 'black'}-${KINDS[letter.toLowerCase()]}.svg`;
  return new URL(set === SETS[0] ? name : `${set}-${name}`, import.meta.url).pathname;
}

/** Every man that is drawn already is drawn by this set. */
export function chooseSet(set) {
  write(local, 'pieces', set === SETS[0] ? null : set);
  for (const image of document.querySelectorAll('img[data-letter]')) {
    image.setAttribute('src', pictureOf(image.getAttribute('data-letter')));
  }
}

export function chooseBoard(board) {
  write(local, 'board', board === BOARDS[0] ? null : board);
  if (board === BOARDS[0]) delete document.documentElement.dataset.board;
  else document.documentElement.dataset.board = board;
}
