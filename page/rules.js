// How men move, for the board on which a game is looked at again (again.js). Of a game that is played the lobby tells the
// legal moves, and here is asked no more than whether two positions are the same. There it tells them too, but to who has
// signed in alone; and a PGN is read, and a move written, by the moves of many positions at once. A position is {men, side,
// rights, passing, half, full}, with `men` from squares to the letters of a FEN; a move is its two squares, and the letter
// of what a pawn becomes.

import { placementOf } from './lines.js';

export const START = 'rnbqkbnr/pppppppp/8/8/8/8/PPPPPPPP/RNBQKBNR w KQkq - 0 1';
const FILES = 'abcdefgh';
const STRAIGHT = [[1, 0], [-1, 0], [0, 1], [0, -1]], DIAGONAL = [[1, 1], [1, -1], [-1, 1], [-1, -1]];
const JUMPS = [[1, 2], [2, 1], [2, -1], [1, -2], [-1, -2], [-2, -1], [-2, 1], [-1, 2]];
const WAYS = { n: JUMPS, b: DIAGONAL, r: STRAIGHT, q: [...STRAIGHT, ...DIAGONAL], k: [...STRAIGHT, ...DIAGONAL] };
const SLIDES = 'brq';
/** Of each right to castle: the king's way, and the rook's. */
const CASTLES = {
  K: ['e1', 'f1', 'g1', 'h1'], Q: ['e1', 'd1', 'c1', 'a1'], k: ['e8', 'f8', 'g8', 'h8'], q: ['e8', 'd8', 'c8', 'a8'],
};

const sideOfMan = (letter) => (letter === letter.toUpperCase() ? 'w' : 'b');
const other = (side) => (side === 'w' ? 'b' : 'w');
const ofSide = (letter, side) => (side === 'w' ? letter.toUpperCase() : letter);

/** The square so many files and ranks from another; '' beside the board. */
function step(square, way) {
  const [right, up] = way;
  const file = FILES.indexOf(square[0]) + right, rank = Number(square[1]) + up;
  return file >= 0 && file < 8 && rank >= 1 && rank <= 8 ? FILES[file] + rank : '';
}

/** A FEN's position, null where it is none that a game may have: one king each, no pawn at an edge, and who has moved is
 * not in check. */
export function readFen(text) {
  const [ranks, side, rights = '-', passing = '-', half = '0', full = '1'] = text.trim().split(/\s+/);
  const rows = (ranks || '').split('/');
  const isWhole = (row) => /^[1-8pnbrqkPNBRQK]+$/.test(row)
    && [...row].reduce((sum, sign) => sum + (Number(sign) || 1), 0) === 8;
  if (rows.length !== 8 || !rows.every(isWhole) || !/^[wb]$/.test(side || '') || !/^(-|[KQkq]{1,4})$/.test(rights)
    || !/^(-|[a-h][36])$/.test(passing) || !/^\d+$/.test(half) || !/^[1-9]\d*$/.test(full)) return null;
  const count = (letter) => ranks.split(letter).length - 1;
  if (count('K') !== 1 || count('k') !== 1 || /p/i.test(rows[0] + rows[7])) return null;
  const men = placementOf(ranks);
  const stands = (right) => {
    const way = CASTLES[right], own = right === right.toUpperCase() ? 'w' : 'b';
    return men.get(way[0]) === ofSide('k', own) && men.get(way[3]) === ofSide('r', own);
  };
  const position = { men, side, rights: [...rights].filter((right) => right !== '-' && stands(right)).join(''),
    passing: passing === '-' ? '' : passing, half: Number(half), full: Number(full) };
  return isInCheck({ ...position, side: other(side) }) ? null : position;
}

export function fenOf({ men, side, rights, passing, half, full }) {
  const rows = [8, 7, 6, 5, 4, 3, 2, 1].map((rank) => [...FILES].map((file) => men.get(file + rank) || '1').join('')
    .replace(/1+/g, (gap) => String(gap.length)));
  return `${rows.join('/')} ${side} ${rights || '-'} ${passing || '-'} ${half} ${full}`;
}

/** Whether the positions of two FENs are the same for a draw (9.2): by their men, who is to move, the rights to castle,
 * and what may be taken en passant. */
export function isSame(fen, other) {
  const [one, two] = [fen, other].map((text) => text.split(' ').slice(0, 3).join(' '));
  return one === two && passingOf(fen) === passingOf(other);
}

/** Of a FEN's position the square on which a pawn may be taken en passant; '' where none may. */
function passingOf(fen) {
  const position = readFen(fen);
  if (!position || !position.passing) return '';
  const { men, passing } = position, isPawn = (square) => men.get(square).toLowerCase() === 'p';
  const isTaking = (move) => move.slice(2, 4) === passing && isPawn(move.slice(0, 2));
  return legalMoves(position).some(isTaking) ? passing : '';
}

/** Whether a side's men attack a square. */
function isAttacked(men, square, by) {
  const stands = (at, kinds) => {
    const man = men.get(at);
    return Boolean(man) && sideOfMan(man) === by && kinds.includes(man.toLowerCase());
  };
  const up = by === 'w' ? -1 : 1;
  if ([-1, 1].some((right) => stands(step(square, [right, up]), 'p'))) return true;
  if (JUMPS.some((way) => stands(step(square, way), 'n'))) return true;
  return WAYS.k.some((way) => {
    let at = step(square, way);
    if (stands(at, 'k')) return true;
    while (at && !men.has(at)) at = step(at, way);
    return stands(at, DIAGONAL.includes(way) ? 'bq' : 'rq');
  });
}

export function isInCheck({ men, side }) {
  const king = [...men].find(([, man]) => man === ofSide('k', side));
  return Boolean(king) && isAttacked(men, king[0], other(side));
}

function pawnMoves({ men, side, passing }, from) {
  const up = side === 'w' ? 1 : -1, home = side === 'w' ? '2' : '7', edge = side === 'w' ? '8' : '1', found = [];
  const once = step(from, [0, up]), twice = from[1] === home ? step(once, [0, up]) : '';
  if (once && !men.has(once)) found.push(once);
  if (twice && !men.has(once) && !men.has(twice)) found.push(twice);
  for (const right of [-1, 1]) {
    const to = step(from, [right, up]), man = men.get(to);
    if (to && (man ? sideOfMan(man) !== side : to === passing)) found.push(to);
  }
  return found.flatMap((to) => (to[1] === edge ? [...'qrbn'] : ['']).map((kind) => from + to + kind));
}

function castlings({ men, side, rights }) {
  return [...rights].filter((right) => (right === right.toUpperCase() ? 'w' : 'b') === side).filter((right) => {
    const [king, over, to] = CASTLES[right];
    const between = [over, to, ...right.toLowerCase() === 'q' ? [`b${king[1]}`] : []];
    return between.every((square) => !men.has(square))
      && [king, over, to].every((square) => !isAttacked(men, square, other(side)));
  }).map((right) => CASTLES[right][0] + CASTLES[right][2]);
}

/** All moves of a man but castling, of which those may leave the king in check. */
function movesOf(position, from, kind) {
  const { men, side } = position, found = [];
  if (kind === 'p') return pawnMoves(position, from);
  for (const way of WAYS[kind]) {
    let to = step(from, way);
    while (to && !men.has(to) && SLIDES.includes(kind)) {
      found.push(from + to);
      to = step(to, way);
    }
    if (to && !(men.has(to) && sideOfMan(men.get(to)) === side)) found.push(from + to);
  }
  return found;
}

/** The legal moves of who is to move. */
export function legalMoves(position) {
  const own = [...position.men].filter(([, man]) => sideOfMan(man) === position.side);
  return [...own.flatMap(([from, man]) => movesOf(position, from, man.toLowerCase())), ...castlings(position)]
    .filter((move) => !isInCheck({ ...made(position, move), side: position.side }));
}

/** The position behind a move. */
export function made(position, move) {
  const from = move.slice(0, 2), to = move.slice(2, 4), men = new Map(position.men), man = men.get(from);
  const isPawn = man.toLowerCase() === 'p', takes = men.has(to);
  men.delete(from);
  men.set(to, move[4] ? ofSide(move[4], position.side) : man);
  if (isPawn && to === position.passing && !takes) men.delete(to[0] + from[1]);
  const castle = man.toLowerCase() === 'k' && Object.values(CASTLES).find((way) => way[0] === from && way[2] === to);
  if (castle && Math.abs(from.charCodeAt(0) - to.charCodeAt(0)) === 2) {
    men.set(castle[1], men.get(castle[3]));
    men.delete(castle[3]);
  }
  const rights = [...position.rights].filter((right) => ![CASTLES[right][0], CASTLES[right][3]]
    .some((square) => square === from || square === to)).join('');
  const isTwice = isPawn && Math.abs(Number(from[1]) - Number(to[1])) === 2;
  return { men, side: other(position.side), rights, passing: isTwice ? from[0] + (from[1] === '2' ? '3' : '6') : '',
    half: isPawn || takes ? 0 : position.half + 1, full: position.full + (position.side === 'b' ? 1 : 0) };
}

/** A legal move as SAN, with its sign of check or mate. */
export function sanOf(position, move) {
  const from = move.slice(0, 2), to = move.slice(2, 4), man = position.men.get(from).toUpperCase();
  const takes = position.men.has(to) || man === 'P' && from[0] !== to[0], next = made(position, move);
  const end = isInCheck(next) ? legalMoves(next).length ? '+' : '#' : '';
  if (man === 'K' && Math.abs(from.charCodeAt(0) - to.charCodeAt(0)) === 2) {
    return (to[0] === 'g' ? 'O-O' : 'O-O-O') + end;
  }
  if (man === 'P') {
    return `${takes ? `${from[0]}x` : ''}${to}${move[4] ? `=${move[4].toUpperCase()}` : ''}${end}`;
  }
  const alike = legalMoves(position).filter((one) => one.slice(2, 4) === to && one.slice(0, 2) !== from
    && position.men.get(one.slice(0, 2)) === position.men.get(from)).map((one) => one.slice(0, 2));
  const [byFile, byRank] = [0, 1].map((at) => alike.every((square) => square[at] !== from[at]));
  const which = !alike.length ? '' : byFile ? from[0] : byRank ? from[1] : from;
  return `${man}${which}${takes ? 'x' : ''}${to}${end}`;
}

/** The one legal move that is written so, as SAN or as squares; '' where there is none, or several. */
export function moveOfSan(position, text) {
  const bare = text.replace(/e\.?p\.?$/, '').replace(/[+#!?]+$/, '').replace(/[0o]/g, 'O'), moves = legalMoves(position);
  if (moves.includes(text)) return text;
  if (/^O-O(-O)?$/.test(bare)) {
    return moves.find((move) => sanOf(position, move).replace(/[+#]$/, '') === bare) || '';
  }
  const found = /^([KQRBNP]?)([a-h]?)([1-8]?)[x:×-]?([a-h][1-8])[=/]?([QRBN]?)$/.exec(bare);
  if (!found) return '';
  const [, kind, file, rank, to, becomes] = found;
  const meant = moves.filter((move) => position.men.get(move.slice(0, 2)).toUpperCase() === (kind || 'P')
    && move.slice(2, 4) === to && move[0].includes(file) && move[1].includes(rank)
    && (move[4] || '').toUpperCase() === becomes);
  return meant.length === 1 ? meant[0] : '';
}
