// A game with its variations: positions that follow each other, from a PGN and to one.

import { START, fenOf, made, moveOfSan, readFen, sanOf } from './rules.js';

const TAG = /\[\s*(\w+)\s+"((?:[^"\\]|\\.)*)"\s*\]/g;
const SPOILT_TAG = /^\s*\[(\w+)\s+"?(.*?)"?\s*\]\s*$/;          // as with a quote in its value
const SIGNS = /\{[^}]*\}?|;[^\n]*|[()]|\$\d+|[^\s(){};$]+/g;
const RESULT = /^(\*|1-0|0-1|1\/2|1\/2-1\/2|½|½-½)$/;
const NUMBER = /^(\d*[.…]+|\d+$)/, EN_PASSANT = /^e\.?p\.?$/;
const MEN = /[\u2654-\u265f]\ufe0e?/g, MEN_LETTERS = ['K', 'Q', 'R', 'B', 'N', ''];
const DASHES = /[\u2010-\u2015\u2212]/g;
const ROSTER = { Event: '?', Site: '?', Date: '????.??.??', Round: '?', White: '?', Black: '?', Result: '*' };
const WIDTH = 79;
/** What stands behind a move by PGN's numbers, and how else it is written. */
const SIGN_OF_MARK = {
  1: '!', 2: '?', 3: '!!', 4: '??', 5: '!?', 6: '?!', 7: '□', 10: '=', 13: '∞', 14: '+=', 15: '=+', 16: '±', 17: '∓',
  18: '+-', 19: '-+', 36: '↑', 40: '→', 44: '=∞', 132: '⇆', 138: '⊕', 140: '∆', 146: 'N',
};
const OTHER_SIGNS = { 14: ['⩲', '+/='], 15: ['⩱', '=/+'], 16: ['+/-'], 17: ['-/+'] };
const MARK_OF_SIGN = new Map(Object.entries(SIGN_OF_MARK).flatMap(([mark, sign]) => [sign, ...OTHER_SIGNS[mark] || []]
  .map((one) => [one, Number(mark)])));

/** A position of the tree: by which move of its `parent` it came, and what follows it, the main line first. */
function place(position, parent, text, san) {
  return { position, parent, text, san, comment: '', marks: [], next: [] };
}

/** The start of a game; null where the FEN is none. */
export function begin(fen = START) {
  const position = readFen(fen);
  return position && place(position, null, '', '');
}

/** The position behind a legal move, which may stand there already. */
export function play(at, text, san = '') {
  const known = at.next.find((one) => one.text === text);
  if (known) return known;
  const played = place(made(at.position, text), at, text, san || sanOf(at.position, text));
  at.next.push(played);
  return played;
}

/** Takes a position out, and all that follows it; the one before it. */
export function takeOut(at) {
  const { parent } = at;
  parent.next.splice(parent.next.indexOf(at), 1);
  return parent;
}

/** Makes the line that leads to a position the first everywhere. */
export function makeMain(at) {
  for (let one = at; one.parent; one = one.parent) {
    const { next } = one.parent;
    next.splice(next.indexOf(one), 1);
    next.unshift(one);
  }
}

/** Whether the line that leads to a position is the first everywhere. */
export function isMain(at) {
  let one = at;
  while (one.parent && one.parent.next[0] === one) one = one.parent;
  return !one.parent;
}

/** The last position of the line that goes on from one. */
export function endOf(at) {
  let one = at;
  while (one.next.length) [one] = one.next;
  return one;
}

/** Adds what another tree has. */
export function graft(into, from) {
  into.comment = into.comment || from.comment;
  if (!into.marks.length) into.marks = from.marks;
  for (const one of from.next) graft(play(into, one.text, one.san), one);
}

/** The signs behind a move, as `!?`; those that are known by their numbers alone are left out. */
export function signsOf({ marks }) {
  return marks.map((mark) => SIGN_OF_MARK[mark] || '').join('');
}

/** What a comment says, without what it has for programs, as `[%clk 0:05:00]`. */
export function saidIn({ comment }) {
  return comment.replace(/\[(%[^\]]*|#)\]/g, ' ').replace(/\s+/g, ' ').trim();
}

// ---- reading

/** The first game of a PGN, or a FEN: {tags, start, wrong}, `wrong` being what of it could not be read, null where all
 * could: {move, at, line, isMain}, the first move that cannot be played, behind which position and in which line of the
 * text, and whether it stands in the main line, so that the reading stops there; of a comment that has no end `move` is
 * `{`. Null where it is neither. A move may be written in other ways too, which `spellings` tells. */
export function readGame(text, spellings = () => []) {
  const alone = begin(text.trim());
  if (alone) return { tags: {}, start: alone, wrong: null };
  const { tags, moves } = partsOf(text), start = begin(tags.FEN || START);
  const reader = new Reader(start, spellings), wrong = start && reader.read(moves);
  if (reader.result && !tags.Result) tags.Result = reader.result;
  const isGame = start && (start.next.length || Object.keys(tags).length || wrong && /[a-h][1-8]/.test(wrong.move));
  return isGame ? { tags, start, wrong } : null;
}

/** The tags of a PGN's first game, and its moves in the lines in which they stand. */
function partsOf(text) {
  const tags = {}, lines = [];
  let isBegun = false, isComment = false;
  for (const line of text.split(/\r\n?|\n/)) {
    const found = isComment || !/^\s*\[/.test(line) ? [] : [...line.matchAll(TAG)];
    const spoilt = isComment || isBegun || found.length ? null : SPOILT_TAG.exec(line);
    if (found.length && isBegun) break;
    for (const [, name, value] of spoilt ? [spoilt] : found) tags[name] = value.replace(/\\(.)/g, '$1');
    const isLeftOut = spoilt || !isComment && line.startsWith('%');
    const rest = isLeftOut ? '' : found.length ? line.replace(TAG, '') : line;
    isBegun = isBegun || Boolean(rest.trim());
    isComment = staysComment(rest, isComment);
    lines.push(rest);
  }
  return { tags, moves: lines.join('\n') };
}

/** Whether a comment goes on behind a line. */
function staysComment(line, isComment) {
  let isWithin = isComment;
  for (const sign of line) {
    if (sign === (isWithin ? '}' : '{')) isWithin = !isWithin;
    else if (!isWithin && sign === ';') break;
  }
  return isWithin;
}

/** Plays what is written, as far as it can be played: a variation with a move that cannot is left out from there on, and
 * the main line ends there. */
class Reader {
  constructor(start, spellings) {
    this.spellings = spellings;
    this.at = start;                   // null behind a move that cannot be played
    this.left = [];                    // where the lines stand that were left for the variation that is read
    this.before = '';                  // what is said before the first move of a variation
    this.isFresh = false;              // whether none of its moves was read so far
    this.result = '';                  // as PGN has it
    this.wrong = null;
  }

  /** What could not be read, null where all could. */
  read(text) {
    for (const { 0: sign, index } of text.matchAll(SIGNS)) {
      const before = this.wrong, goesOn = this.take(sign);
      if (this.wrong && !before) this.wrong.line = text.slice(0, index).split('\n').length;
      if (!goesOn) break;
    }
    return this.wrong;
  }

  /** Reads what stands between two blanks; whether the reading goes on. */
  take(sign) {
    if (/^[{;]/.test(sign)) this.say(sign);
    else if (sign === '(') this.enter();
    else if (sign === ')') this.leave();
    else if (this.at) return this.step(sign);
    return true;
  }

  enter() {
    this.left.push(this.at);
    this.at = this.at && (this.at.parent || this.at);
    this.isFresh = true;
  }

  leave() {
    if (this.left.length) this.at = this.left.pop();
    [this.before, this.isFresh] = ['', false];
  }

  say(sign) {
    const said = sign.slice(1).replace(/[{}\s]+/g, ' ').trim();
    if (/^\{[^}]*$/.test(sign)) this.fails('{');
    if (this.isFresh) this.before = joined(this.before, said);
    else if (this.at) this.at.comment = joined(this.at.comment, said);
  }

  step(sign) {
    const { move, marks } = readSign(sign), isMain = !this.left.length;
    if (RESULT.test(move)) {
      if (isMain) this.result = /^[1½](\/2)?(-1\/2|-½)?$/.test(move) ? '1/2-1/2' : move;
      return !isMain;
    }
    if (move) {
      const ways = [move, ...this.spellings(move)].map((one) => moveOfSan(this.at.position, one)), played = ways.find(Boolean);
      if (!played) this.fails(move);
      if (!played && isMain) return false;
      this.at = played ? play(this.at, played) : null;
      if (this.at) this.at.comment = joined(this.before, this.at.comment);
      [this.before, this.isFresh] = ['', false];
    }
    if (this.at && !this.isFresh) this.at.marks.push(...marks.filter((mark) => !this.at.marks.includes(mark)));
    return true;
  }

  fails(move) {
    this.wrong = this.wrong || { move, at: this.at, line: 0, isMain: !this.left.length };
  }
}

function joined(one, other) {
  return `${one} ${other}`.trim();
}

/** What stands between two blanks as {move, marks}: the move, empty where it is none, and what is said of it. */
function readSign(sign) {
  const mark = /^\$(\d+)$/.exec(sign), known = MARK_OF_SIGN.get(sign.replace(DASHES, '-'));
  if (mark || known) return { move: '', marks: [known || Number(mark[1])] };
  const written = sign.replace(NUMBER, '').replace(DASHES, '-').replace(MEN, (man) => MEN_LETTERS[(man.charCodeAt(0)
    - 0x2654) % 6]);
  const [, move, praise] = /^(.*?)([!?]*)$/.exec(written), isSaid = !RESULT.test(move) && !/[\p{L}\p{N}-]/u.test(move);
  return { move: isSaid || EN_PASSANT.test(move) ? '' : move,
    marks: MARK_OF_SIGN.has(praise) ? [MARK_OF_SIGN.get(praise)] : [] };
}

// ---- writing

export function pgnOf({ tags, start }) {
  const fen = fenOf(start.position), known = { ...ROSTER, ...tags };
  if (fen !== START) Object.assign(known, { SetUp: '1', FEN: fen });
  const rows = Object.entries(known).map(([name, text]) => `[${name} "${String(text).replace(/[\\"]/g, '\\$&')}"]`);
  const words = [...comment(start), ...movesBehind(start, true), known.Result].join(' ').replace(/\( /g, '(')
    .replace(/ \)/g, ')').split(' ');
  const lines = [''];
  for (const word of words) {
    const last = lines[lines.length - 1];
    // (a line that begins with % is no part of a PGN)
    if (last && last.length + 1 + word.length > WIDTH && !word.startsWith('%')) lines.push(word);
    else lines[lines.length - 1] = last ? `${last} ${word}` : word;
  }
  return `${rows.join('\n')}\n\n${lines.join('\n')}\n`;
}

function comment(at) {
  return at.comment ? [`{${at.comment.replace(/[{}]/g, '')}}`] : [];
}

/** What stands behind a move. */
function behind(at) {
  return [...at.marks.map((mark) => `$${mark}`), ...comment(at)];
}

/** A move with its number, where that has to stand. */
function numbered({ parent: { position: { side, full } }, san }, isFirst) {
  return side === 'w' ? `${full}. ${san}` : isFirst ? `${full}... ${san}` : san;
}

function movesBehind(from, isFirst) {
  const words = [];
  let fresh = isFirst, at = from;
  while (at.next.length) {
    const [main, ...others] = at.next;
    words.push(numbered(main, fresh), ...behind(main));
    for (const one of others) {
      words.push('(', numbered(one, true), ...behind(one), ...movesBehind(one, Boolean(one.comment)), ')');
    }
    fresh = others.length > 0 || Boolean(main.comment);
    at = main;
  }
  return words;
}
