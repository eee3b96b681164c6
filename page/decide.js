// An arbiter's decision about a board of a round, which the lobby puts to those of its round and tells everybody.

import { MINUTE, isAbsent } from './absent.js';
import { findKept, toldOf } from './kept.js';
import { t } from './language.js';
import { AS_PLAYED, BYES, readRefusal, readShow } from './lines.js';
import { byId, make, setText } from './make.js';
import { mayMate } from './material.js';
import { plain, toldWords, untold } from './plain.js';
import { resultText } from './round.js';
import {
  AGREED, OTHER, colourWord, decidedWords, kindWords, lawWords, refusalWords, resultWords, whyWords, withReason,
} from './words.js';

const LONGEST = 255;                   // so many bytes a line has that the lobby takes
/** By which a game ended that is a draw where the winner cannot mate. */
const LOST_BY = ['6.9', '5.1.2'];
/** What is filled in of a decision. */
const FILLED = ['result', 'article', 'reason'], NOTHING = { result: '', article: '', reason: '' };
const NO_NUMBER = -1;                 // in the place of a game's number, of a board without one
const FORFEIT = { w: '-/+', b: '+/-', wb: '-/-' }; // of who did not come
const LOST = { w: '0-1', b: '1-0', wb: '0-0' }; // and of a game that goes on from a position, which was played

export class Decision {
  /** desk: {app, question, openings, absences}. */
  constructor(desk) {
    this.desk = desk;
    this.app = desk.app;
    this.about = 0;                    // the number of the game that is asked about
    this.standing = null;              // how it stood then
    this.isKnown = false;              // whether its board was told
    this.likely = this.filled = NOTHING; // what is likely of it, and what of that or another result was filled in
    this.boards = '';                  // the boards without a game that are listed
    this.dialog = byId('decide-dialog');
    this.form = byId('decide-form');
    this.form.addEventListener('input', ({ target }) => {
      if (target.name === 'result') this.follow(target.value);
      this.render();
    });
    this.form.addEventListener('submit', (event) => {
      event.preventDefault();
      this.decide();
    });
    this.dialog.addEventListener('close', () => { this.about = 0; });
    byId('decide-leave').addEventListener('click', () => this.close());
    byId('decide-find').addEventListener('submit', (event) => {
      event.preventDefault();
      this.lookUp(Number(event.target.elements.number.value));
    });
    byId('decide-board-find').addEventListener('submit', (event) => {
      event.preventDefault();
      const { round, board } = event.target.elements;
      this.lookUpBoard(Number(round.value), Number(board.value));
    });
  }

  close() {
    this.dialog.close();
  }

  // ---- asking

  /** Asks about a game by its number, from the table or from the games that were kept. */
  async lookUp(number) {
    const { wire } = this.app, told = byId('decide-found');
    setText(told, t`Looking among the games that were kept …`);
    const [shown, fen] = await Promise.all(['show', 'fen'].map((word) => wire.say(`${word} ${number}`)));
    const show = readShow(shown[0]), position = /^ok fen \d+ (.+)$/.exec(fen[0]);
    const standing = show && position ? { ...show, fen: position[1] } : await this.kept(number);
    setText(told, !standing ? t`There is no game of this number.`
      : !standing.article && !isAbsent(standing) ? t`Game ${number} goes on: first its result is entered.` : '');
    if (standing && !told.textContent) this.ask(standing);
    else byId('decide-a-result').open = true;
  }

  /** Asks about a board by its round, also where it has no game on the server, as one that was played elsewhere, or a
   * bye. */
  async lookUpBoard(round, board) {
    await this.app.round.look();
    const found = this.app.round.boardAt(round, board);
    setText(byId('decide-found'), found ? '' : t`No such board was told of this round.`);
    if (!found) byId('decide-a-result').open = true;
    else if (found.game) await this.lookUp(found.game);
    else this.askBoard(found);
  }

  /** How a game stands that has left the table; null where there is none. */
  async kept(number) {
    const kept = await findKept(number), told = kept && toldOf(kept, (full) => this.app.nameOf(full));
    return told && told.standing;
  }

  /** Asks what the board of a game shall have that stood so at the moment `at`; what is likely is filled in. */
  ask(standing, at = performance.now()) {
    const { number } = standing, fields = this.form.elements;
    const [white, black] = [standing.white, standing.black].map((name) => this.nameOf(name));
    Object.assign(this, { about: number, standing });
    this.offer(false);
    this.put(NOTHING);
    this.fill(standing);
    fields.board.value = '';
    fields.round.value = String(this.app.round.newest() || 1);
    setText(byId('decide-title'), t`Decide the result of game ${number}: ${white} – ${black}`);
    this.tell(standing, at);
    this.fillPlace();
    const goesOn = (told) => () => this.about === number && told();
    this.app.round.look().then(goesOn(() => {
      this.fill(standing);
      this.tell(standing, at);
      this.fillPlace();
    }));
    if (isAbsent(standing)) this.desk.absences.ask(number).then(goesOn(() => this.tell(standing, at)));
    this.dialog.showModal();
  }

  /** Asks what a board shall have that has no game. */
  askBoard({ round, board, white, black, names, bye, result }) {
    const fields = this.form.elements;
    Object.assign(this, { about: NO_NUMBER, standing: { number: NO_NUMBER, white, black, ply: AGREED }, isKnown: true });
    this.likely = NOTHING;
    this.offer(Boolean(bye));
    this.put(NOTHING);
    Object.assign(fields.round, { value: String(round) });
    Object.assign(fields.board, { value: String(board) });
    setText(byId('decide-title'), t`Decide the result of board ${board} of round ${round}: ${names}`);
    setText(byId('decide-stands'), bye ? `${t`bye`} ${resultText(result)}` : t`No game is known of this board.`);
    setText(byId('decide-law'), '');
    this.render();
    this.dialog.showModal();
  }

  /** Of a bye what it may be worth is to be chosen from, else the results of a game. */
  offer(isBye) {
    const list = this.form.elements.result, last = list.lastElementChild;
    for (const one of list.querySelectorAll('.bye')) one.remove();
    for (const one of list.options) one.hidden = one.disabled = isBye && Boolean(one.value) && one !== last;
    if (isBye) last.before(...Object.entries(BYES).map(([sign, worth]) => make('option', { value: sign, class: 'bye' },
      `${sign}: ${t`bye`} ${resultText(worth)}`)));
  }

  nameOf(name) {
    return this.app.nameWords(name);
  }

  /** What is told where the board that is filled in is known to be of other players than those that were asked about. */
  otherWords() {
    const { round, board } = this.form.elements, { white, black } = this.standing || {};
    const place = { round: Number(round.value), board: Number(board.value) };
    const found = this.app.round.boardAt(place.round, place.board);
    if (!found || !white || found.white === white && found.black === black) return '';
    const names = { white: this.nameOf(found.white), black: this.nameOf(found.black) };
    return found.bye ? t`Board ${place.board} of round ${place.round} is the bye of ${names.white}.`
      : t`Board ${place.board} of round ${place.round} is of ${names.white} and ${names.black}, and not of these two.`;
  }

  /** Fills in what is likely of a game about which nobody has decided, where the hand has written nothing. */
  fill(standing) {
    const { round } = this.app, isDecided = round.decided(standing.number, standing.result);
    if (!this.isUntouched(FILLED)) return;
    this.likely = isDecided ? NOTHING
      : likely(standing, this.desk.absences.absent(standing), round.lawOf(standing.number));
    this.put(this.likely);
  }

  put(filled) {
    this.filled = filled;
    for (const name of FILLED) this.form.elements[name].value = filled[name];
  }

  /** Whether these fields have what was filled in. */
  isUntouched(names) {
    return names.every((name) => this.form.elements[name].value === this.filled[name]);
  }

  /** Another result is chosen: what was filled in for the one before goes with it. */
  follow(result) {
    if (!this.isUntouched(['article', 'reason'])) return;
    const isElsewhere = this.about === NO_NUMBER && result !== AS_PLAYED && !(result in BYES);
    const reason = absentWords(result) || (isElsewhere ? t`played elsewhere` : '');
    this.put(result === this.likely.result ? this.likely : { result, article: '', reason });
  }

  /** Which board of which round it is, where that was told and nothing was written meanwhile. */
  fillPlace() {
    const fields = this.form.elements, place = this.app.round.placeOf(this.about);
    const opened = this.desk.openings.boardOf(this.about), board = place ? place.board : opened;
    if (place && !fields.board.value) fields.round.value = String(place.round);
    if (board && !fields.board.value) fields.board.value = String(board);
    this.isKnown = Boolean(board);
    this.render();
  }

  // ---- what is told

  /** The boards without a game and a result, each with the way to decide it. */
  renderBoards() {
    const boards = this.app.round.unplayed(), key = JSON.stringify(boards);
    if (key === this.boards) return;
    this.boards = key;
    setText(byId('decide-count'), boards.length ? String(boards.length) : '');
    byId('decide-unplayed').hidden = !boards.length;
    byId('decide-boards').replaceChildren(...boards.map((one) => {
      const place = t`Round ${one.round}, board ${one.board}`;
      return make('li', {}, make('span', {}, `${place}: ${one.names}`), ' ', make('button', { type: 'button',
        onclick: () => this.askBoard(one) }, t`Decide the result`, make('span', { class: 'unseen' }, `, ${place}`)));
    }));
  }

  /** What the server says of a game that stood so at the moment `at`, and what the Laws say of it. */
  tell(standing, at) {
    const { result, article, side } = standing, words = resultWords(result, article);
    const ran = article ? null : this.desk.absences.ran(standing, at);
    const found = this.app.round.decided(standing.number, result), why = found && found.why ? `: ${found.why}` : '';
    const decided = found ? `${resultText(found.result)} ${decidedWords(found.result)}${why}. ` : '';
    setText(byId('decide-stands'), article
      ? decided + t`The server says ${words.score}: ${withReason(words.result, words.reason).trim()}.`
      : ran === null ? t`${colourWord(side)} has not made a move.`
      : t`${colourWord(side)} has not made a move; the clocks have run for ${Math.floor(ran / MINUTE)} min.`);
    setText(byId('decide-law'), saidByLaws(standing, this.app.round.lawOf(standing.number)));
  }

  /** What is said to the lobby: `decide ROUND BOARD RESULT ARTICLE REASON`; empty where something is not filled in. */
  line() {
    const { round, board, result, article, reason } = this.form.elements, why = plain(reason.value.trim());
    if (!this.form.checkValidity() || !why || untold(article.value + reason.value)) return '';
    const words = [round.value, board.value, result.value, plain(article.value).replaceAll(' ', '') || '-', why];
    return `decide ${words.join(' ')}`.slice(0, LONGEST);
  }

  /** Whether a decision ends its game, in which who is to move has not made a move. */
  ends() {
    return isAbsent(this.standing) && this.form.elements.result.value !== AS_PLAYED;
  }

  render() {
    setText(byId('decide-it'), this.ends() ? t`Decide it, and end the game` : t`Decide it`);
    const { article, reason } = this.form.elements, lost = untold(article.value + reason.value);
    setText(byId('decide-told'), lost ? toldWords(lost) : this.line() ? toldWords(reason.value.trim())
      : t`Fill in the board, the result and the reason.`);
    setText(byId('decide-board'), this.otherWords() || (this.isKnown ? '' : t`This page does not know which board of which
      round it is: look at the pairings.`));
  }

  /** Says it; where it is put down, every page is told, and a game in which who is to move has not made a move ends. */
  async decide(isAgreed = false) {
    const others = this.otherWords();
    if (others && !isAgreed) {
      this.desk.question.ask({ title: t`Decide about that board all the same?`, words: others, yes: t`Decide it` },
        () => this.decide(true));
      return;
    }
    const line = this.line(), { about, standing } = this, loser = LOSERS[this.form.elements.result.value];
    const ends = this.ends();
    if (!line) return;
    if (ends && !await this.isAbsentStill(about)) {
      setText(byId('decide-told'), t`Both have moved meanwhile. Nothing was entered.`);
      return;
    }
    const [answer] = await this.app.wire.say(line), refusal = readRefusal(answer);
    if (this.about !== about) return;
    if (answer.startsWith('ok ')) {
      this.close();
      if (ends) this.end(standing, loser || standing.side);
      return;
    }
    setText(byId('decide-told'), refusal ? refusalWords(refusal)
      : t`The connection broke before the answer came. Do it again.`);
  }

  async isAbsentStill(number) {
    return isAbsent(readShow((await this.app.wire.say(`show ${number}`))[0]));
  }

  /** Enters the resignation of a side in a game about whose board it was decided. */
  async end({ number, white, black }, side) {
    const [answer] = await this.app.wire.say(`as ${side === 'w' ? white : black} resign ${number}`);
    if (/^(ok|fallen) /.test(answer)) return;
    this.desk.note(t`It is decided, but game ${number} was not ended. Look how it stands.`, 'refused');
  }
}

/** Who has lost by a decision, where one alone has. */
const LOSERS = { '1-0': 'b', '+/-': 'b', 'W/L': 'b', '0-1': 'w', '-/+': 'w', 'L/W': 'w' };

/** Who has lost a game that is over; '' where nobody has. */
function loserOf({ result }) {
  return { '1-0': 'b', '0-1': 'w' }[result] || '';
}

/** Who did not come, by a forfeit; '' by another result. */
function absentWords(result) {
  const [sides] = Object.entries(FORFEIT).find(([, forfeit]) => forfeit === result) || [''];
  return !sides ? '' : sides.length > 1 ? t`neither player came in time` : t`${colourWord(sides)} did not come in time`;
}

/** What is likely to be decided of a game, as the form has it, where these sides have not come and this is what the Laws
 * ask of it. */
function likely({ ply, article, result, fen }, absent, law) {
  const loser = loserOf({ result }), isAnew = isFromStart({ ply, fen });
  const sides = ply < AGREED ? absent.join('') || isAnew && loser : '';
  if (sides) return { result: (isAnew ? FORFEIT : LOST)[sides], article: '6.7', reason: absentWords(FORFEIT[sides]) };
  if (loser && LOST_BY.includes(article) && (isFound(law) ? law.found === 'cannot' : !mayMate(OTHER[loser], fen))) {
    return { result: '1/2-1/2', article, reason: t`${colourWord(OTHER[loser])} cannot mate by any legal moves` };
  }
  return NOTHING;
}

/** Whether a game began from the initial position: where one that was adjourned goes on, its FEN counts more moves than
 * were made in it. */
function isFromStart({ ply, fen }) {
  const [, side, , , , number] = fen.split(' ');
  return ply === 2 * Number(number) - (side === 'w' ? 2 : 1);
}

/** Whether the round's file tells of a game whether its winner can mate. */
function isFound(law) {
  return Boolean(law) && law.found !== 'unknown';
}

/** What the Laws say of it, where the round's file tells that; else by the men alone. */
function saidByLaws(standing, law) {
  const { article, ply, fen } = standing, loser = loserOf(standing);
  if (law && (isFound(law) || !loser || mayMate(OTHER[loser], fen))) return `${lawWords(law)}. ${whyWords(law)}`.trim();

  if (isAbsent(standing)) {
    return t`By 6.7 who comes after the default time loses, unless the arbiter decides otherwise. The decision ends the
      game: a resignation is entered for who has not come.`;
  }
  if (!loser || !LOST_BY.includes(article) || ply < AGREED && isFromStart(standing)) return '';
  const winner = OTHER[loser], words = colourWord(winner), men = menWords(fen, winner);
  if (!mayMate(winner, fen)) {
    return t`By ${article} it is a draw: ${words} cannot mate by any legal moves. ${words} has: ${men};
      ${colourWord(loser)} has: ${menWords(fen, loser)}.`;
  }
  return t`By ${article} it is a draw where ${words} cannot mate by any legal moves. ${words} has: ${men}. Whether that is
    so depends on the position: the note of “chess-club results” says what the Laws say.`;
}

/** A side's men: `king, 2 knights`. */
function menWords(fen, side) {
  const men = fen.split(' ')[0], own = (kind) => (side === 'w' ? kind.toUpperCase() : kind);
  return [...'kqrbnp'].map((kind) => [kind, men.split(own(kind)).length - 1]).filter(([, count]) => count)
    .map(([kind, count]) => kindWords(String(kind), Number(count))).join(', ');
}
