// The games that the club has kept, as the lobby serves them in one file: the one that was kept last stands first.

import { endOf, readGame } from './study.js';
import { fenOf, isInCheck } from './rules.js';
import { readPgn, resultBy, squaresOf } from './lines.js';
import { SIDES } from './words.js';

const FILE = 'kept.pgn';
const BETWEEN = /\n\n(?=\[)/;        // a game ends with an empty line, and the next begins with a tag
const TAG = /^\[(\w+) "((?:[^"\\]|\\.)*)"\]$/gm;
const PLAYER = /^(White|Black)$/, NO_DAY = /^Date [?]/;
const DECIDED = /^\n\{(?:(.+) )?decided ([-+/\dDLW]+)(?: \(([^)]*)\))?(?:: ([^}]*))?\}\s+\S+\s*$/;
const CLOCK = /\[%clk (\d+):(\d\d):(\d\d)(?:\.\d+)?\]/;

/** What was read whole, by the tag of the file that it was. */
let whole = { tag: '', games: [] };

/** A game by its PGN: its number, the values of its tags, and the text. */
function gameOf(text) {
  const tags = {};
  for (const [, name, value] of text.split('\n\n', 1)[0].matchAll(TAG)) tags[name] = value.replace(/\\(.)/g, '$1');
  return { number: Number(tags.GameId), tags, text: `${text.trimEnd()}\n\n` };
}

/** Hands the games of the file to `take`, some at a time, until it says that it has enough, or it is stopped; whether
 * there is such a file, and whether it was read whole: 'whole', 'part', 'none' or 'failed'. */
export async function readKept(take, stopped = new AbortController()) {
  try {
    const answer = await fetch(FILE, { cache: 'no-cache', signal: stopped.signal });
    if (!answer.ok) return answer.status === 404 ? 'none' : 'failed';
    const tag = answer.headers.get('etag') || '';
    if (tag && tag === whole.tag) {
      take(whole.games);
      stopped.abort();
      return 'whole';
    }
    return await readOn(answer.body.pipeThrough(new TextDecoderStream()).getReader(), tag, take, stopped);
  } catch (refused) {
    return stopped.signal.aborted ? 'part' : 'failed';
  }
}

async function readOn(reader, tag, take, stopped) {
  const games = [];
  for (let rest = '', done = false; !done;) {
    const read = await reader.read(), pieces = (rest + (read.value || '')).split(BETWEEN);
    ({ done } = read);
    rest = done ? '' : pieces.pop();
    const more = pieces.filter((text) => text.trim()).map(gameOf);
    games.push(...more);
    if (take(more) && !done) {
      stopped.abort();
      return 'part';
    }
  }
  whole = { tag, games };
  return 'whole';
}

/** Whether both sides have moved in a game. */
export function bothMoved({ text }) {
  const moves = text.replace(/^\[.*$/gm, '').replace(/\{[^}]*\}/g, ' ');
  return (moves.match(/(?<![\w-])[KQRBNOa-h][\w=-]+/g) || []).length > 1;
}

/** What an arbiter has decided about a kept game, as the comment before its end tells it: {result, why}, with who has and
 * the article as far as they are told; null where there is none. */
export function decisionIn({ text }) {
  const found = DECIDED.exec(text.slice(text.lastIndexOf('\n{')));
  if (!found) return null;
  const [, who, verdict, article, reason] = found, why = [article, reason].filter(Boolean).join(', ');
  return { result: resultBy(verdict), why: [who, why].filter(Boolean).join(': ') };
}

/** The game of this number, or null. */
export async function findKept(number) {
  let found = null;
  await readKept((games) => {
    found = found || games.find((game) => game.number === number) || null;
    return Boolean(found);
  });
  return found;
}

/** A game's PGN to take along: of one that is over as it was kept; else as the server has it, with the full names and
 * the day, which the server does not know. '' where it is not told. */
export async function pgnOf(app, number, isOver) {
  const kept = isOver && await findKept(number);
  if (kept) return kept.text;
  const answer = await app.wire.say(`pgn ${number}`);
  if (!answer[0].startsWith('ok pgn ')) return '';
  const valueOf = (tag, value) => (NO_DAY.test(`${tag} ${value}`) ? dayOf(new Date())
    : PLAYER.test(tag) ? app.nameWords(value).replace(/[\\"]/g, '\\$&') : value);
  return readPgn(answer.slice(1)).text.replace(TAG, (_, tag, value) => `[${tag} "${valueOf(tag, value)}"]`);
}

function dayOf(date) {
  const two = (number) => String(number).padStart(2, '0');
  return `${date.getFullYear()}.${two(date.getMonth() + 1)}.${two(date.getDate())}`;
}

/** What a side's clock showed behind a position, in milliseconds, by its last move that has a clock. */
function leftAt(at, side, initial) {
  for (let one = at; one.parent; one = one.parent) {
    const found = one.parent.position.side === side && CLOCK.exec(one.comment);
    if (found) return ((Number(found[1]) * 60 + Number(found[2])) * 60 + Number(found[3])) * 1000;
  }
  return initial;
}

/** What both clocks showed at a position, in milliseconds; null of a side of which that is not known. */
export function clocksAt(at, tags) {
  const initial = initialOf(tags), [w, b] = SIDES.map((side) => leftAt(at, side, null));
  return w === null && b === null ? { w, b } : { w: w ?? initial, b: b ?? initial };
}

/** The time with which both begin, null where it is not told. */
function initialOf({ TimeControl }) {
  const found = /(?:\/|^)(\d+)(?=[+:]|$)/.exec(TimeControl || '');
  return found ? Number(found[1]) * 1000 : null;
}

/** A game as the lobby would tell it were it on the table: {standing, line}; null where its moves cannot be read. Who
 * played is told by `nameOf` of what the tags have. */
export function toldOf({ number, tags, text }, nameOf) {
  const game = readGame(text);
  if (!game || game.wrong) return null;
  const line = [{ san: '', text: '-', ...squaresOf('-'), fen: fenOf(game.start.position) }], last = endOf(game.start);
  for (let [at] = game.start.next; at; [at] = at.next) {
    line.push({ san: at.san, text: at.text, ...squaresOf(at.text), fen: fenOf(at.position) });
  }
  const initial = initialOf(tags) || 0, left = { w: leftAt(last, 'w', initial), b: leftAt(last, 'b', initial) };
  if (tags.Article === '6.9') left[last.position.side] = 0;        // (the flag that has fallen)
  const standing = { number, white: nameOf(tags.White), black: nameOf(tags.Black), ply: line.length - 1,
    side: last.position.side, left, offer: '', result: tags.Result, article: tags.Article || '?',
    fen: fenOf(last.position), check: isInCheck(last.position), moves: [] };
  return { standing, line };
}

/** A tag's date in the browser's way, `2026.11.27`; the text itself where a part of it is not known. */
export function dateWords(date, language) {
  const found = /^(\d{4})\.(\d\d)\.(\d\d)$/.exec(date || '');
  if (!found) return !date || date.startsWith('????') ? '' : date;
  const [year, month, day] = found.slice(1).map(Number);
  return new Date(year, month - 1, day).toLocaleDateString(language,
    { day: 'numeric', month: 'short', year: 'numeric' });
}
