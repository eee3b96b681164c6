// The words in which the page tells what the lobby's short answers mean.

import { t } from './language.js';

const REFUSALS = {
  1: t`The lobby could not read that line.`,
  2: t`You have not signed in.`,
  3: t`There is no game of this number.`,
  4: t`You do not play in this game.`,
  5: t`The game has not begun: a seat is empty.`,
  6: t`The game is over.`,
  7: t`Another move was made meanwhile. Look at the position again.`,
  8: t`It is not your turn.`,
  9: t`That is no legal move in this position.`,
  10: t`An offer of a draw stands already.`,
  11: t`No offer of your opponent stands.`,
  12: t`A draw can be agreed on once both sides have made a move.`,
  13: t`You have claimed in this turn already.`,
  14: t`The flag has not fallen.`,
  15: t`Both seats of this game are taken.`,
  16: t`You cannot play against yourself.`,
  17: t`That is no FEN of a valid position.`,
  18: t`These times are out of range: 1 second to 24 hours a period, 0 to 60 seconds a move, 1 to 255 moves before the
    second period.`,
  19: t`The server has no room for another game.`,
  20: t`This game has as many moves as the server keeps for one.`,
  21: t`The game goes on, so it stays on the table.`,
  22: t`The server was short of memory. Nothing has changed; try again.`,
  23: t`The server’s clock is out of range. Tell your arbiter.`,
  24: t`From that position the game would be over at once.`,
  31: t`You are watching. To play, open your personal link.`,
  32: t`This personal link is not known here, at least not now. Ask your arbiter for a new one.`,
  33: t`Only an arbiter may do that, and nobody while the disk has no room for the lobby’s log.`,
  34: t`That was too much within a second. Nothing was sent; try again.`,
  35: t`As many of your games as may wait for an opponent already. Wait until one is joined, or ask an arbiter to take
    one off.`,
  36: t`The lobby has no connection to the game server at the moment. Nothing was done; try again soon.`,
  37: t`This page watches sixteen games already.`,
  38: t`No player of this name is known here.`,
  39: t`New games are stopped for the moment, by an arbiter or for want of room on the disk. Games that were begun
    go on.`,
  40: t`The lobby could not change the file of the players, or another writes it at the moment. Try again; if that
    does not
    help, tell who runs the lobby.`,
  41: t`This game does not wait for a second player, so it is not taken off from here. One that is over goes by
    itself once it
    is kept.`,
  42: t`This game waits for nobody, or for another player. Look at the table again.`,
  43: t`You play in as many games as a player may. End one first, or ask an arbiter.`,
  44: t`The table is nearly full, and its last places are for arbiters. Wait until a game is taken off, or ask one.`,
  45: t`Too many of your games that are over are still on the table. They go once they are kept; try again then, or ask
    an arbiter.`,
  46: t`The arbiter has stopped all clocks. Nothing is played until they run again.`,
  47: t`This lobby can stop no clocks: whoever runs it has not named the server’s file.`,
  48: t`The decision could not be put down: look whether round and board are right; else tell who runs the lobby.`,
  49: t`That is no short name: it has 1 to 16 of the letters A to Z and a to z, the digits, and _.`,
  50: t`Another player has this name.`,
  51: t`That is no full name: it has at most 100 letters, and single spaces between words.`,
};

const OF_ANOTHER = {
  4: t`This player does not play in this game.`,
  8: t`It is not this player’s turn.`,
  11: t`No offer of a draw stands: it was declined, or a move was made.`,
  35: t`As many games of this player as may wait for an opponent already: one of them has to be joined or taken off
    first.`,
};

/** What a refused line means to who sent it. */
export function refusalWords(refusal) {
  return REFUSALS[refusal.number] || t`The server refused it: ${refusal.name} (number ${refusal.number}).`;
}

/** The same to an arbiter, who entered it for another. */
export function arbiterWords(refusal) {
  return OF_ANOTHER[refusal.number] || refusalWords(refusal);
}

/** `no 14 FlagUp` and the like: told to nobody, since they only say that a clock is a little ahead. */
export const FLAG_UP = 14, OVER = 6, WRONG_PLY = 7;
export const CLOCKS_STOPPED = 46;
export const BAD_LINE = 1, NO_GAME = 3, NOT_YOUR_MOVE = 8, BAD_FEN = 17, BAD_TOKEN = 32;
export const AGREED = 2;             // both sides have moved then: a draw can be agreed on
export const NO_FEN = t`A FEN has letters, digits and the signs / and - alone.`;

const WINS = { '1-0': t`White wins`, '0-1': t`Black wins`, '1/2-1/2': t`Draw` };

const BY_ARTICLE = {
  '5.1.1': t`by checkmate`,
  '5.1.2': t`by resignation`,
  '5.2.1': t`by stalemate`,
  '5.2.2': t`since neither side can give mate`,
  '5.2.3': t`by agreement`,
  '6.9': t`on time`,
  '9.2': t`by claim: the position stood for the third time`,
  '9.3': t`by claim: fifty moves without a capture or a pawn’s move`,
  '9.6.1': t`since the position stood for the fifth time`,
  '9.6.2': t`since 75 moves were made without a capture or a pawn’s move`,
};

/** A title and a rating, as far as they are known: `WIM 1987`. */
export function rankWords(title, rating) {
  return [title, rating].filter(Boolean).join(' ');
}

/** A result with its reason behind it, which may begin with a comma. */
export function withReason(result, reason) {
  return reason.startsWith(',') ? result + reason : `${result} ${reason}`;
}

/** A result and its article: {result, score, reason, article}. */
export function resultWords(result, article) {
  let reason = BY_ARTICLE[article] || '';
  if (article === '6.9' && result === '1/2-1/2') reason = t`since a flag fell, and the opponent has the king alone`;
  return {
    result: WINS[result] || '', score: result.replace('1/2-1/2', '½–½').replace('-', '–'), reason,
    article: article ? t`Article ${article} of the FIDE Laws` : '',
  };
}

/** By whom a result was decided, behind what it is where one side has won or it is a draw. */
export function decidedWords(result) {
  return withReason(WINS[result] || '', t`by the arbiter’s decision`).trim();
}

const ENTERED = {
  open: t`the opening of this game`, join: t`the joining of this game`, move: t`a move`, offer: t`an offer of a draw`,
  accept: t`the agreement to a draw`, decline: t`the refusal of a draw`,
  resign: t`the resignation`, claim: t`a claim of a draw`, flag: t`the call of the flag`,
};

/** What an arbiter has entered, by the first word of the line. */
export function enteredWords(word) {
  return ENTERED[word] || t`an act`;
}

/** An act that was accepted, in a few words: `Nf3 by Ann Lee`. Where the flag was found fallen, whose it is stands first. */
export function actWords({ by, sent, arbiter }, answer, nameWords, standing) {
  const word = sent.split(' ')[0], moved = /^ok (?:move \d+|claim \d+ wrong) \d+ (\S+)/.exec(answer);
  const what = moved ? sanShown(moved[1]) : { join: t`joining`, claim: t`a claim of a draw` }[word] || enteredWords(word);
  if (answer.startsWith('fallen')) {
    const flag = t`${colourWord(standing.side)}’s flag had fallen`, who = nameWords(arbiter || by);
    const whose = nameWords(by);
    if (word === 'flag') return arbiter ? t`${flag}: called by ${who} for ${whose}` : t`${flag}: called by ${who}`;
    return arbiter ? t`${flag} before ${what}, which ${who} entered for ${whose}` : t`${flag} before ${what} by ${who}`;
  }
  return arbiter ? t`${what} by ${nameWords(by)}, entered by ${nameWords(arbiter)}` : t`${what} by ${nameWords(by)}`;
}

const MEN = { p: t`pawn`, n: t`knight`, b: t`bishop`, r: t`rook`, q: t`queen`, k: t`king` };

const MANY = { p: (n) => t`${n} pawns`, n: (n) => t`${n} knights`, b: (n) => t`${n} bishops`, r: (n) => t`${n} rooks`,
  q: (n) => t`${n} queens`, k: (n) => t`${n} kings` };
const COLOURED = {
  P: t`white pawn`, N: t`white knight`, B: t`white bishop`, R: t`white rook`, Q: t`white queen`, K: t`white king`,
  p: t`black pawn`, n: t`black knight`, b: t`black bishop`, r: t`black rook`, q: t`black queen`, k: t`black king`,
};

export function kindWord(letter) {
  return MEN[letter.toLowerCase()];
}

/** So many men of a kind: `knight`, `2 knights`. */
export function kindWords(letter, number) {
  return number === 1 ? kindWord(letter) : MANY[letter.toLowerCase()](number);
}

export function manWords(letter) {
  return COLOURED[letter];
}

const ENGLISH = 'KQRBN', LETTERS = t`KQRBN`;

/** SAN with the language's letters, as it is read on the page: `Nf3` is `Sf3` in German. */
export function sanShown(san) {
  return san.replace(/[KQRBN]/g, (letter) => LETTERS[ENGLISH.indexOf(letter)]);
}

/** What a move that was typed may mean, with English letters: those of the language are taken, and the English ones too.
 * There are two where the language has the rook's R for the king. */
export function movesTyped(text) {
  const meant = text.replace(/[A-Z]/g, (letter, place) => {
    const english = ENGLISH[LETTERS.indexOf(letter)];
    return english && (english !== 'K' || place === 0) ? english : letter;      // (nothing becomes a king)
  });
  return text.startsWith('R') && meant.startsWith('K') ? [meant, `R${meant.slice(1)}`] : [meant];
}

/** SAN as it is said aloud: `Nxf3+` is `knight takes f3, check`. */
export function sanWords(san) {
  const end = san.endsWith('#') ? t`, checkmate` : san.endsWith('+') ? t`, check` : '';
  const bare = san.replace(/[+#]$/, '');
  if (bare === 'O-O') return t`castles kingside` + end;
  if (bare === 'O-O-O') return t`castles queenside` + end;
  const found = /^([KQRBN]?)([a-h]?[1-8]?)(x?)([a-h][1-8])(?:=([QRBN]))?$/.exec(bare);
  if (!found) return san;
  const words = [found[1] ? kindWord(found[1]) : ''];
  if (found[2]) words.push(found[2]);
  if (found[3]) words.push(t`takes`);
  words.push(found[4]);
  if (found[5]) words.push(t`becomes a ${kindWord(found[5])}`);
  return words.filter(Boolean).join(' ') + end;
}

export const SIDES = ['w', 'b'];
export const OTHER = { w: 'b', b: 'w' };

export function colourWord(side) {
  return side === 'w' ? t`White` : t`Black`;
}

/** Seconds as a player writes them: 300 is `5`, 90 is `1:30`, 45 is `45 s`. */
function minutes(seconds) {
  if (seconds < 60) return `${seconds} s`;
  if (seconds % 60 === 0) return String(seconds / 60);
  return `${Math.floor(seconds / 60)}:${String(seconds % 60).padStart(2, '0')}`;
}

/** `5+2`, or with a second period `40/90+30, 30`. */
export function timesWords(times) {
  if (!times) return '';
  if (!times.moves) return `${minutes(times.initial)}+${times.increment}`;
  return `${times.moves}/${minutes(times.initial)}+${times.increment}, ${minutes(times.second)}`;
}

function spoken(seconds) {
  const hours = Math.floor(seconds / 3600), minute = Math.floor(seconds / 60) % 60, rest = seconds % 60;
  return [hours && (hours === 1 ? t`1 hour` : t`${hours} hours`),
    minute && (minute === 1 ? t`1 minute` : t`${minute} minutes`),
    rest && (rest === 1 ? t`1 second` : t`${rest} seconds`)].filter(Boolean).join(' ');
}

/** The times in full, for a tooltip and for who listens. */
export function timesInFull(times) {
  if (!times) return '';
  const more = times.increment === 1 ? t`, 1 second more a move`
    : times.increment ? t`, ${times.increment} seconds more a move` : '';
  if (!times.moves) return t`${spoken(times.initial)} a side${more}`;
  return t`${spoken(times.initial)} for ${times.moves} moves, then ${spoken(times.second)}${more}`;
}

/** Milliseconds as a clock shows them, with tenths below ten seconds. */
export function clockText(ms) {
  const left = Math.max(0, ms);
  const seconds = Math.floor(left / 1000);
  const two = (number) => String(number).padStart(2, '0');
  const below = `${two(Math.floor(seconds / 60) % 60)}:${two(seconds % 60)}`;
  if (seconds >= 3600) return `${Math.floor(seconds / 3600)}:${below}`;
  if (left < 10000) return `0:${two(seconds)}.${Math.floor(left / 100) % 10}`;
  return `${Math.floor(seconds / 60)}:${two(seconds % 60)}`;
}

export function clockWords(ms) {
  return ms < 1000 ? t`no time` : spoken(Math.floor(ms / 1000));
}

/** What was found out of what the Laws ask of a game, as a round's file tells it. */
export function lawWords({ article, side, found, line }) {
  if (!side) return t`By the Laws a draw (5.2.2): neither side can mate by any legal moves`;
  const words = colourWord(side[0]);
  if (found === 'cannot') return t`By the Laws a draw (${article}): ${words} cannot mate by any legal moves`;
  return found === 'mates' ? t`${words} can still mate (${article}), as by ${line.split(' ').map(sanShown).join(' ')}`
    : t`Whether ${words} could still mate by any legal moves (${article}) was not found out`;
}

/** Why a side cannot mate; empty where it can, or that was not found out. */
export function whyWords({ why }) {
  return { king: t`It has its king alone.`, men: t`No such men ever mate.`,
    positions: t`Each position that can still come was looked at.` }[why] || '';
}
