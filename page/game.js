// One game: what the lobby told of it, how it is shown, and what is done in it.

import { adjournedBy, keepAdjourned } from './adjourn.js';
import { Board } from './board.js';
import { Clock } from './clock.js';
import { dateWords, decisionIn, findKept, pgnOf, toldOf } from './kept.js';
import { language, t } from './language.js';
import { placementOf, readLine, readPgn, readRefusal, readStanding, readTimes, sideOf, squaresOf } from './lines.js';
import { byId, copy, focused, make, save, say, setText } from './make.js';
import { Room } from './room.js';
import { isSame } from './rules.js';
import { drawActions, drawFacts, drawMoves, drawOutcome, drawPlayers } from './sheet.js';
import { asksFirst } from './settings.js';
import { sound } from './sound.js';
import { stopped } from './stopped.js';
import {
  AGREED, CLOCKS_STOPPED, FLAG_UP, NOT_YOUR_MOVE, NO_GAME, OTHER, OVER, SIDES, WRONG_PLY, clockWords, colourWord, enteredWords, kindWord,
  movesTyped, refusalWords, resultWords, sanWords, withReason,
} from './words.js';

const WHAT = {
  move: t`move`, join: t`joining`, offer: t`offer`, accept: t`acceptance`, decline: t`answer`, resign: t`resignation`,
  flag: t`call`, drop: t`order`, claim: t`claim`,
};

/** Whether a game that stands as `now` shows an act whose answer was lost (docs/client/PROTOCOL.md, "After a broken
 * connection"), null where that cannot be told; `act` has what was sent, and the ply and the opponent's time of then. */
const SHOWS = {
  move: (now, act, game) => game.wasMade(act),
  join: (now, act, game) => game.seat() !== '',
  offer: (now, act) => now.offer.includes(act.side),
  accept: (now) => now.article === '5.2.3',
  decline: (now, act) => !now.offer.includes(OTHER[act.side]),
  resign: (now, act) => now.article === '5.1.2' && now.result === (act.side === 'w' ? '0-1' : '1-0'),
  flag: (now) => now.article === '6.9',
  drop: () => false,                 // (the game would not be there)
  claim: (now, act, game) => {
    if (now.ply > act.ply) return act.move ? game.wasMade(act) : null;
    return now.article === '9.2' || now.article === '9.3' || now.left[OTHER[act.side]] >= act.left + PENALTY;
  },
};
const ASKS_AGAIN = 5000;             // for a game that was not told
const LOOKING = t`Looking among the games that were kept …`;
const TAKEN_OFF = t`This game was taken off the table.`;
const PENALTY = 120000;              // milliseconds that a wrong claim gives to the opponent
const LOOKS_SLOW = 1000, SAID_SLOW = 4000;        // after so long without an answer

/** A move that was typed: its castling may have zeros or small letters, and a man's letter be small that is no file's. */
function withCapitals(text) {
  return text.replace(/^[0o]-[0o](-[0o])?/i, (castling) => castling.toUpperCase().replaceAll('0', 'O'))
    .replace(/^[i-z](?=[a-h1-8x])/, (letter) => letter.toUpperCase());
}

export class GameView {
  /** app: {wire, me(), nameWords(name), go(route)}. */
  constructor(app) {
    this.app = app;
    this.root = byId('game-view');
    this.number = 0;
    this.pending = null;               // the ply of a move that was made on the board and is not answered
    this.lostJoin = 0;                 // the game of a join at the table whose answer was lost
    this.plan = null;                  // a move for the next turn, {from, to}
    this.proposed = '';                // a move that stands on the board, and is sent once it is agreed to
    this.isSlow = false;               // whether what was sent is not answered soon
    this.room = new Room(this);
    this.board = new Board({ chosen: (move) => this.moveOnBoard(move), planned: (plan) => this.planned(plan),
      says: say });
    byId('board').append(this.board.root);
    this.players = { far: byId('far'), near: byId('near') };
    this.clocks = {};
    for (const place of ['far', 'near']) {
      this.clocks[place] = new Clock(this.players[place].querySelector('.clock'), () => this.flagFell(place),
        () => this.seat() === this.sideAt(place) && this.isLow());
    }
    this.listen();
  }

  listen() {
    const on = (id, act) => byId(id).addEventListener('click', act);
    on('first-move', () => this.goTo(0));
    on('previous-move', () => this.goTo(this.shown() - 1));
    on('next-move', () => this.goTo(this.shown() + 1));
    on('last-move', () => this.goTo(this.last()));
    on('turn-board', () => this.turn());
    on('offer', () => this.askOffer());
    on('accept', () => this.act('accept'));
    on('decline', () => this.act('decline'));
    on('resign', () => this.askResign());
    on('claim', () => this.askClaim());
    on('play-it', () => this.playProposed());
    on('take-it-back', () => this.takeBack());
    byId('proposed').addEventListener('keydown', (event) => event.key === 'Escape' && this.takeBack());
    on('join', () => this.act('join'));
    on('drop', () => this.askDrop());
    on('again', () => this.rematch());
    on('copy-invitation', () => this.invitationCopied());
    on('copy-fen', () => this.share('FEN', async () => this.fenShown()));
    on('copy-pgn', () => this.share('PGN', () => this.pgnText()));
    on('save-fen', async () => save(`game-${this.number}.fen`, 'text/plain', this.fenShown() + '\n'));
    on('save-pgn', async () => {
      const text = await this.pgnText();
      if (text) save(`game-${this.number}.pgn`, 'application/x-chess-pgn', text);
    });
    on('copy-link', () => this.share('link', async () => this.link()));
    byId('move-form').addEventListener('submit', (event) => {
      event.preventDefault();
      this.typed();
    });
    byId('moves').addEventListener('keydown', (event) => this.walkMoves(event));
    addEventListener('resize', () => this.render());
    addEventListener('clocks', () => {
      if (!stopped && this.noteKind === 'stopped') this.note('');
      this.render();
    });
    const agreed = (id, act) => byId(id).addEventListener('close', (event) => {
      if (event.target.returnValue === 'yes') act();
    });
    agreed('offer-dialog', () => this.act('offer'));
    agreed('resign-dialog', () => this.act('resign'));
    agreed('claim-dialog', () => this.claim());
    agreed('drop-dialog', () => this.act('drop'));
  }

  // ---- coming and going

  open(number) {
    if (number !== this.number) {
      this.close();
      Object.assign(this, { number, standing: null, line: [], tags: {}, gone: false });
      Object.assign(this, { back: null, turned: null, unsure: null, pending: null, wasTaken: false, wasAway: false });
      Object.assign(this, { plan: null, proposed: '', offeredBy: '', adjournedBy: '', kept: null, isSought: false });
      Object.assign(this, { noted: null, notedFor: '' });
      this.note('');
      this.suggest(null);
      byId('move-text').value = byId('where').textContent = '';
      this.room.clear();
      if (number === this.lostJoin) this.lost({ word: 'join' });
      this.lostJoin = 0;
    }
    this.root.hidden = false;
    this.refresh();
    this.render();
  }

  close() {
    this.number = 0;
    this.root.hidden = true;
    document.body.classList.remove('plays', 'at-board');
    Object.values(this.clocks).forEach((clock) => clock.stop());
    for (const what of ['offer', 'claim', 'resign', 'drop']) byId(`${what}-dialog`).close();
  }

  /** The games that this view has to be told of. */
  needs() {
    return [this.number];
  }

  /** What an arbiter has decided about this game, which is over: {result, why}; null where that is not known. */
  decision() {
    const { standing, number, kept } = this, noted = kept ? decisionIn(kept) : this.noted;
    if (!standing || !standing.article) return null;
    const decided = this.app.round.decided(number, standing.result) || kept && noted;
    if (decided && !kept && this.notedFor !== decided.result) this.seekDecision(decided.result);
    return decided && noted && noted.result === decided.result ? noted : decided;
  }

  /** Who has decided it, and why, stands in the games that were kept. */
  async seekDecision(result) {
    const { number } = this;
    this.notedFor = result;
    const kept = await findKept(number);
    if (this.number !== number || !kept) return;
    this.noted = decisionIn(kept);
    this.render();
  }

  /** Asks for the whole truth: how the game stands, its moves, its tags. */
  async refresh() {
    const number = this.number;
    if (!number || !this.app.reachable()) return;
    const ours = (answer) => (this.number === number && answer[0].startsWith('ok ') ? answer : null);
    // (A move that is said meanwhile waits for no line that stands in front of it, but for all else.)
    const wire = this.app.wire, asked = [this.app.watch(number), wire.say(`pgn ${number}`), wire.say(`line ${number}`)];
    const watched = await asked[0];
    const refusal = readRefusal(watched[0]);
    if (this.number !== number) return;
    if (refusal) {
      this.notTold(refusal);
      return;
    }
    const standing = ours(watched) && readStanding(watched.slice(1));
    if (standing && this.stand(standing)) this.over();
    const pgn = ours(await asked[1]);
    if (pgn) this.tags = readPgn(pgn.slice(1)).tags;
    const line = ours(await asked[2]);
    if (line) this.line = readLine(line.slice(1));
    if (this.number !== number) return;
    if (standing && line) this.isThere();
    else this.refreshLater();
    this.render();
  }

  /** The lobby does not tell of the game. One that is not on the table is looked for among those that were kept. */
  notTold(refusal) {
    if (refusal.number === NO_GAME && this.kept) return;
    this.gone = refusal.number === NO_GAME;
    this.wasAway = !this.gone;
    this.wasTaken = this.gone && (this.wasTaken || Boolean(this.standing));      // (no number is given twice)
    this.note(this.gone ? '' : refusalWords(refusal));
    if (this.gone) {
      this.settleUnsure(null);
      this.seek();
    } else {
      this.refreshLater();
    }
    this.render();
  }

  async seek() {
    const { number } = this, nameOf = (full) => this.app.nameOf(full);
    if (this.isSought) return;
    this.isSought = true;
    const kept = await findKept(number), told = kept && toldOf(kept, nameOf);
    if (this.number !== number) return;
    this.isSought = false;
    if (told) {
      this.stand(told.standing);
      Object.assign(this, { kept, line: told.line, tags: kept.tags, wasTaken: false });
      this.note('');
    }
    this.render();
  }

  isThere() {
    this.kept = null;
    if (this.wasAway) this.note('');
    this.wasAway = false;
    this.settleUnsure(this.standing);
    this.room.ask();
  }

  /** Once more in a while: of a game that was not told, nobody says when it can be. */
  refreshLater() {
    clearTimeout(this.asksLater);
    const number = this.number;
    this.asksLater = setTimeout(() => this.number === number && this.refresh(), ASKS_AGAIN);
  }

  async askLine() {
    const number = this.number, answer = await this.app.wire.say(`line ${number}`);
    if (this.number !== number || !answer[0].startsWith('ok line')) return;
    this.line = readLine(answer.slice(1));
    this.render();
  }

  /** Takes how the game stands now; whether it has ended by that. */
  stand(standing) {
    const before = this.standing, ended = Boolean(standing && before && before.article !== standing.article);
    if (!standing || standing.article || standing.ply !== this.pending) {
      Object.assign(this, { pending: null, proposed: '' });
    }
    if (!standing || standing.article) this.plan = null;
    this.standing = standing && { ...standing, at: performance.now() };
    if (standing && standing.article) this.adjournedBy = adjournedBy(standing) || this.adjournedBy;
    if (standing) this.app.learnNames([standing.white, standing.black]);
    this.gone = !standing;
    if (ended) this.note('');
    if (!standing || standing.article || standing.ply !== this.claimAt) byId('claim-dialog').close();
    if (!standing || standing.article) byId('resign-dialog').close();
    if (!standing || standing.article || standing.offer) byId('offer-dialog').close();
    return ended;
  }

  /** A notice of this game: an act was accepted. */
  notice({ by, sent, arbiter }, answer, standing) {
    if (this.gone && standing) {       // (who watches is told of a game once it has begun)
      this.refresh();
      return;
    }
    const wasOver = Boolean(this.standing && this.standing.article), wasPlaying = this.isPlaying();
    const ended = this.stand(standing);
    if (!standing) {
      this.wasTaken = true;
      say(TAKEN_OFF);
      if (wasOver) this.seek();
      this.render();
      return;
    }
    this.follow(sent, answer);
    if (!arbiter) this.room.acted(by);
    if (answer.startsWith('ok ')) this.watchAdjourning(by, sent, arbiter);
    this.tell(by, sent, answer, arbiter);
    if (ended) this.over();            // (a mate is said behind its move)
    if (!wasPlaying && this.isPlaying() && focused() === byId('game-title')) this.board.focus();
    this.render();
  }

  /** Adds the move of a notice to the line; asks for the line where that does not do. */
  follow(sent, answer) {
    const found = /^ok (?:move \d+|claim \d+ wrong) (\d+) (\S+)/.exec(answer);
    const { from, to } = squaresOf(sent.split(' ').pop());
    const { ply, fen } = this.standing;
    if (found && Number(found[1]) === ply && this.line.length === ply && from) {
      this.line.push({ san: found[2], text: sent.split(' ').pop(), from, to, fen });
    } else if (this.line.length !== ply + 1) {
      this.askLine();
    }
    if (found && this.back === null) this.suggest(null);
  }

  /** An arbiter who adjourns a game enters an offer for Black, and accepts it for White. */
  watchAdjourning(by, sent, arbiter) {
    const { white, black } = this.standing, [word] = sent.split(' ');
    if (arbiter && word === 'accept' && by === white && this.offeredBy === arbiter) {
      this.adjournedBy = arbiter;
      keepAdjourned(this.standing, arbiter);
    }
    this.offeredBy = word === 'offer' && by === black ? arbiter : '';
  }

  // ---- what is said

  tell(by, sent, answer, arbiter) {
    const word = sent.split(' ')[0], name = this.app.nameWords(by), own = by === this.app.me();
    const moved = /^ok (?:move \d+|claim \d+ wrong) \d+ (\S+)/.exec(answer);
    const side = this.standing.white === by ? 'w' : 'b';
    if (moved) {
      say(`${colourWord(side)}: ${sanWords(moved[1])}`);
      sound(/[+#]$/.test(moved[1]) ? 'check' : moved[1].includes('x') ? 'take' : 'move');
    }
    if (this.standing.offer && !own && (word === 'offer' || word === 'claim') && this.seat()) sound('offer');
    if (answer.startsWith('fallen')) say(t`The flag has fallen.`);
    else if (this.adjournedBy) say(`${t`Adjourned`}. ${this.adjournedWords()}`);
    else if (arbiter && this.isUncounted()) {
      this.news(t`The arbiter, ${this.app.nameWords(arbiter)}, has ended the game. It does not count.`);
    } else if (arbiter) this.news(t`The arbiter, ${this.app.nameWords(arbiter)}, has entered ${enteredWords(word)} for ${
      own ? t`you` : name}.`);
    else if (word === 'join') this.news(own ? t`The game has begun.` : t`${name} has joined. The game has begun.`);
    else if (word === 'offer' && !own && this.seat()) say(t`${name} offers a draw.`);
    else if (word === 'offer') this.news(own ? t`You have offered a draw.` : t`${name} offers a draw.`);
    else if (word === 'decline') this.news(own ? t`You have declined the draw.` : t`${name} declines the draw.`);
    else if (/^ok claim \d+ wrong/.test(answer)) {
      this.news(own ? t`Your claim was wrong: your opponent has two minutes more, and your offer of a draw stands.`
        : t`${name} has claimed a draw wrongly: it stands as an offer, and ${this.seat() ? t`you have` : t`the
          opponent has`}
          two minutes more.`);
    } else if (moved && this.noteKind === 'news') this.note('');
  }

  adjournedWords() {
    return t`By the arbiter, ${this.app.nameWords(this.adjournedBy)}: it goes on later as another game. In the record this
      one is a draw.`;
  }

  over() {
    const words = resultWords(this.standing.result, this.standing.article);
    if (words.result && !this.adjournedBy) say(`${withReason(words.result, words.reason)}.`);
    sound('end');
  }

  /** One's own clock has come to be low. */
  isLow() {
    say(t`20 seconds left.`);
    sound('low');
  }

  note(text, kind = 'refused') {
    this.noteKind = kind;
    const note = byId('note');
    note.className = text ? `note ${kind}` : 'note';
    setText(note, text);
    clearTimeout(this.fading);
    if (text && kind === 'news') this.fading = setTimeout(() => this.note(''), 15000);
  }

  /** What is shown and, once, said. */
  news(text) {
    this.note(text, 'news');
  }

  // ---- acting

  seat() {
    const me = this.app.me(), standing = this.standing;
    if (!me || !standing) return '';
    return standing.white === me ? 'w' : standing.black === me ? 'b' : '';
  }

  started() {
    return Boolean(this.standing && this.standing.white && this.standing.black);
  }

  running() {
    return this.started() && !this.standing.article;
  }

  /** Whether an offer of the opponent's stands. */
  isOffered() {
    const seat = this.seat();
    return this.running() && seat !== '' && this.standing.offer.includes(OTHER[seat]);
  }

  /** What came of it: what the server says, unless an arbiter has decided it. */
  counted() {
    const decision = this.decision();
    return decision ? decision.result : this.standing.result;
  }

  /** Whether it ended before both had moved: no score counts it then, unless it is a round's board or was decided. */
  isUncounted() {
    const { standing, number, app: { round } } = this, isEarly = standing && standing.article && standing.ply < AGREED;
    return Boolean(isEarly && !this.decision() && !round.placeOf(number) && !round.decidesUnseen());
  }

  /** Whether one's own game goes on here. */
  isPlaying() {
    return this.running() && this.seat() !== '';
  }

  myTurn() {
    return this.running() && this.seat() === this.standing.side;
  }

  /** Whether it is one's turn, and what is played now is taken. */
  mayMove() {
    return this.myTurn() && !stopped;
  }

  moveOnBoard(move) {
    this.pending = this.busy ? null : this.standing.ply;
    if (!asksFirst() || this.busy) {
      this.move(move);
      return;
    }
    this.proposed = move;
    this.render();
    byId('play-it').focus();
  }

  playProposed() {
    const move = this.proposed;
    this.proposed = '';
    if (move) this.move(move);
  }

  takeBack() {
    Object.assign(this, { proposed: '', pending: null });
    this.render();
  }

  /** A move for the next turn or, while all clocks are stopped, for when they run; or none any more. */
  planned(plan) {
    this.plan = plan;
    say(plan ? t`Your next move: ${plan.from} to ${plan.to}.` : t`Your next move is taken back.`);
    this.render();
  }

  /** It is one's turn, and the clocks run: the move that was planned is sent where it is among those that were told. */
  playPlan() {
    const move = this.board.moveOf(this.plan), { from, to } = this.plan;
    this.plan = null;
    if (!move) {
      this.news(t`Your move from ${from} to ${to} cannot be made now.`);
      this.renderBoard();
      return;
    }
    this.board.place(move);
    this.pending = this.standing.ply;
    this.move(move);
  }

  move(move) {
    this.send(`move ${this.number} ${this.standing.ply} ${move}`, { word: 'move', move });
  }

  typed() {
    const field = byId('move-text'), text = withCapitals(field.value.trim());
    if (!text || !this.standing) return;
    if (!/^[\x21-\x7e]{1,16}$/.test(text)) {
      this.note(t`A move is one word, such as e4, Nf3, exd5, O-O or e2e4.`);
      return;
    }
    if (!this.myTurn()) {
      this.note(refusalWords({ number: NOT_YOUR_MOVE }));
      field.select();
      return;
    }
    if (stopped) {
      this.note(refusalWords({ number: CLOCKS_STOPPED }), 'stopped');
      field.select();
      return;
    }
    const meant = movesTyped(text), legal = meant.filter((san) => this.hasMove(san));
    if (legal.length > 1) {
      this.note(t`${text} may be a move of the king or of the rook. Type its squares, as e1e2.`);
      field.select();
      return;
    }
    field.value = '';
    this.goTo(this.last());
    this.move(legal[0] || meant[0]);
  }

  /** Whether one of the moves that were told may be what is written so, with the letter of a man. */
  hasMove(san) {
    const found = /^([KQRBN])([a-h]?)([1-8]?)x?([a-h][1-8])/.exec(san), men = placementOf(this.standing.fen);
    if (!found) return false;
    const [, letter, file, rank, to] = found, isOf = (square) => (men.get(square) || '').toUpperCase() === letter;
    return this.standing.moves.some((move) => move.slice(2, 4) === to && isOf(move.slice(0, 2))
      && move[0].includes(file) && move[1].includes(rank));
  }

  act(word) {
    this.send(`${word} ${this.number}`, { word });
  }

  /** Sends an act, one at a time. What is refused is told in words; what was lost is asked for. */
  async send(line, asked) {
    if (this.busy) return;
    const number = this.number, side = this.seat(), { ply, left } = this.standing;
    const act = { ...asked, side, ply, left: side && left[OTHER[side]] };
    this.note('');
    this.busy = true;
    this.render();
    const slow = [LOOKS_SLOW, SAID_SLOW].map((after) => setTimeout(() => this.slows(act, after), after));
    const answer = await this.app.wire.say(line);
    slow.forEach(clearTimeout);
    this.busy = this.isSlow = false;
    if (this.number !== number) return;
    if (this.noteKind === 'slow') this.note('');
    const refusal = readRefusal(answer[0]);
    this.answered(answer[0].startsWith('ok '));
    if (refusal) {
      if (asked.word === 'flag' && (refusal.number === FLAG_UP || refusal.number === OVER)) this.note('');
      else this.note(refusalWords(refusal), refusal.number === CLOCKS_STOPPED ? 'stopped' : 'refused');
      if (refusal.number === WRONG_PLY || asked.word === 'flag') this.refresh();
    } else if (answer[0] === 'lost') {
      this.lost(act);
      this.refresh();
    } else if (answer[0] === 'unsent') {
      this.note(t`There is no connection. Nothing was sent.`);
    }
    this.render();
  }

  /** What was sent is not answered soon. */
  slows(act, after) {
    this.isSlow = true;
    if (after === SAID_SLOW) {
      this.note(t`Your ${WHAT[act.word]} has not been answered for ${after / 1000} seconds: it may not have arrived. The
        clock runs on.`, 'slow');
    }
    this.render();
  }

  /** A move on the board is answered: the notice behind the answer brings the position, else it is asked for. */
  answered(accepted) {
    if (!accepted) this.pending = null;
    const pending = this.pending;
    if (pending === null) return;
    setTimeout(() => {
      if (this.pending !== pending) return;
      this.pending = null;
      this.refresh();
    }, 2000);
  }

  /** The answer to an act was lost: the game is to be asked how it stands. */
  lost(act) {
    this.unsure = act;
    this.note(t`The connection broke before the answer came. Asking how the game stands …`);
  }

  /** After an answer that was lost: what the game, as it stands now, shows of that act. */
  settleUnsure(now) {
    const unsure = this.unsure;
    if (!unsure) return;
    this.unsure = null;
    const what = WHAT[unsure.word], taken = now ? SHOWS[unsure.word](now, unsure, this) : unsure.word === 'drop';
    if (taken) {
      this.news(t`The connection broke, but your ${what} was taken.`);
    } else if (!now) {
      this.note(refusalWords({ number: NO_GAME }));
    } else if (now.article && unsure.word !== 'drop' || unsure.word === 'flag') {
      this.note('');
    } else if (taken === null) {
      this.note(t`The connection broke before the answer to your ${what} came, and the game has gone on.`);
    } else if (unsure.word === 'offer') {
      this.note(t`The connection broke, and no offer of yours stands: it was not taken so far, or it was answered.`);
    } else {
      this.note(t`The connection broke, and your ${what} has not been taken so far. Look, and do it again.`);
    }
  }

  /** Whether the move of an act is the one that was made at its ply. */
  wasMade(act) {
    const made = this.line[act.ply + 1], bare = (san) => san.replace(/[+#]$/, '');
    return Boolean(made && act.move) && (made.text === act.move || bare(made.san) === bare(act.move));
  }

  askOffer() {
    byId('offer-dialog').returnValue = '';
    byId('offer-dialog').showModal();
  }

  askResign() {
    byId('resign-dialog').returnValue = '';
    byId('resign-dialog').showModal();
  }

  askDrop() {
    byId('drop-dialog').returnValue = '';
    byId('drop-dialog').showModal();
  }

  askClaim() {
    const dialog = byId('claim-dialog'), men = placementOf(this.standing.fen);
    this.claimAt = this.standing.ply;
    const groups = new Map();
    for (const move of [...this.standing.moves].sort()) {
      const from = move.slice(0, 2), man = `${kindWord(men.get(from) || 'p')} ${from}`;
      groups.set(man, [...groups.get(man) || [], move]);
    }
    byId('claim-move').replaceChildren(
      make('option', { value: '' }, t`none: for the position on the board`),
      ...[...groups].map(([man, moves]) => make('optgroup', { label: man }, ...moves.map((move) => make('option',
        { value: move }, `${man} – ${move.slice(2, 4)}${move[4] ? t`, becomes a ${kindWord(move[4])}` : ''}`)))));
    setText(byId('claim-stood'), this.stoodWords() || t`The position on the board stands for the first time.`);
    setText(byId('claim-clock'), this.standing.fen.split(' ')[4]);
    dialog.returnValue = '';
    dialog.showModal();
  }

  /** How often the position on the board has stood, where that is more than once. */
  stoodWords() {
    const now = this.line[this.last()], count = now ? this.line.filter(({ fen }) => isSame(fen, now.fen)).length : 0;
    return count > 1 ? t`The position on the board has stood ${count} times.` : '';
  }

  claim() {
    const form = byId('claim-form').elements, move = form.move.value;
    const line = `claim ${this.number} ${this.claimAt} ${form.kind.value}`;
    this.send(move ? `${line} ${move}` : line, { word: 'claim', move });
  }

  /** The flag of a side fell on this page's clock: who plays calls it, and the server decides. */
  flagFell(place) {
    const side = this.sideAt(place), seat = this.seat(), number = this.number;
    if (!seat || !this.running()) {
      drawOutcome(this);
      return;
    }
    // (once the server can be reached again, and has told of a call that was lost, the clock is set, and falls anew)
    const call = () => {
      if (this.number !== number || !this.running() || this.standing.side !== side) return;
      if (this.unsure || !this.app.reachable()) return;
      if (this.busy) this.calling = setTimeout(call, 300);
      else this.act('flag');
    };
    clearTimeout(this.calling);
    this.calling = setTimeout(call, seat === side ? 1500 : 100);
    drawOutcome(this);
  }

  /** A new game of the same times, with the colours changed: offered to the opponent, or taken where he offers it. An
   * arbiter, whose word would pair the two at once, opens it. */
  async rematch() {
    const rest = this.sameTimes(), note = (text) => this.note(text), { app } = this;
    if (!rest) return;
    if (app.isArbiter()) app.openGame(`open ${this.seat() === 'w' ? 'black' : 'white'} ${rest}`, note);
    else if (await app.challenges.say(this.rematchLine(), note)) this.news(t`It is offered.`);
  }

  /** The game's times and start, as one is opened by them; '' where they are not told. */
  sameTimes() {
    const times = readTimes(this.tags.TimeControl || '');
    if (!times) return '';
    const period = times.moves ? `${times.moves}/${times.initial}:${times.second}` : times.initial;
    return `${period} ${times.increment}${this.tags.FEN ? ` ${this.tags.FEN}` : ''}`;
  }

  rematchLine() {
    return `${this.standing.black} ${this.standing.white} ${this.sameTimes()}`;
  }

  /** Offers a way to another game: the opponent has opened one. */
  suggest(invitation) {
    const place = byId('invitation');
    place.hidden = !invitation;
    place.replaceChildren();
    if (!invitation) return;
    place.append(t`${this.app.nameWords(invitation.by)} opens another game. `,
      make('a', { class: 'button', href: `#/game/${invitation.number}` }, t`Look at game ${invitation.number}`));
  }

  isOpponent(name) {
    const standing = this.standing;
    return Boolean(standing && standing.article && this.seat() && name !== this.app.me()
      && (standing.white === name || standing.black === name));
  }

  // ---- going through the moves

  last() {
    return Math.max(0, this.line.length - 1);
  }

  shown() {
    return this.back === null ? this.last() : Math.min(this.back, this.last());
  }

  goTo(ply) {
    if (this.proposed) {
      focused().blur();                // (the keys go on through the moves)
      this.takeBack();
    }
    const place = Math.max(0, Math.min(ply, this.last()));
    this.back = place === this.last() ? null : place;
    this.render();
    const { san } = this.line[place] || {};
    setText(byId('where'), t`Move ${place} of ${this.last()}${san ? ': ' + sanWords(san) : t`, the start`}`);
  }

  /** The keys at the list of moves: ← and → a move, ↑ and ↓ a move of each side, Home and End the first and last. */
  walkMoves(event) {
    if (event.altKey || event.ctrlKey || event.metaKey) return;
    const step = { ArrowLeft: -1, ArrowRight: 1, ArrowUp: -2, ArrowDown: 2, Home: -Infinity, End: Infinity }[event.key];
    if (!step) return;
    event.preventDefault();
    event.stopPropagation();
    this.goTo(Math.max(1, Math.min(this.shown() + step, this.last())));
    const current = byId('moves').querySelector('[aria-current]');
    if (current) current.focus({ preventScroll: true });
  }

  turn() {
    this.turned = !this.isTurned();
    this.render();
  }

  isTurned() {
    return this.turned === null ? this.seat() === 'b' : this.turned;
  }

  sideAt(place) {
    return (place === 'near') === this.isTurned() ? 'b' : 'w';
  }

  fenShown() {
    const shown = this.line[this.shown()];
    if (this.back === null && this.standing) return this.standing.fen;
    return shown ? shown.fen : '';
  }

  async pgnText() {
    return this.kept ? this.kept.text : pgnOf(this.app, this.number, Boolean(this.standing.article));
  }

  /** Where and when a game that was kept was played. */
  keptWords() {
    if (!this.kept) return '';
    const { Event, Date: date } = this.kept.tags;
    return [Event, dateWords(date, language)].filter((one) => one && one !== '?').join(' · ');
  }

  link() {
    return `${location.href.split('#')[0]}#/game/${this.number}`;
  }

  async invitationCopied() {
    const done = await copy(this.link());
    this.note(done ? t`The link is copied.` : t`The game’s address is ${this.link()}`, 'news');
  }

  async share(what, text) {
    const found = await text(), done = found && await copy(found), isLink = what === 'link';
    setText(byId('shared'), done ? isLink ? t`The link is copied.` : t`${what} is copied.`
      : isLink ? t`The game’s address is ${found}` : t`The ${what} could not be copied. Save it instead.`);
  }

  // ---- drawing

  render() {
    if (this.root.hidden) return;
    const standing = this.standing, focused = this.root.contains(document.activeElement) && document.activeElement;
    this.root.classList.toggle('empty', !standing || this.gone);
    byId('no-game').hidden = !this.gone && (Boolean(standing) || !this.wasAway);
    setText(byId('no-game-words'), this.isSought ? LOOKING : this.wasTaken ? TAKEN_OFF
      : this.wasAway ? byId('note').textContent : this.app.me() ? refusalWords({ number: NO_GAME })
        : t`Game ${this.number} is not being played. It is shown here as soon as it begins.`);
    document.body.classList.toggle('plays', !this.gone && this.isPlaying());
    document.body.classList.toggle('at-board', !this.gone && this.started() && this.seat() !== '');
    if (!standing || this.gone) return;
    if (this.plan && this.mayMove()) this.back = null;
    drawPlayers(this);
    this.renderBoard();
    drawActions(this);
    drawOutcome(this);
    drawFacts(this);
    drawMoves(this);                   // last: how much of them is in sight is settled by what stands around them
    if (document.activeElement === byId('main')) this.app.toHeading();
    if (focused && !focused.getClientRects().length) this.keepFocus();
    this.app.titled(this.title());
    this.app.turns.offer(!this.started() && this.seat() !== '');
    this.app.turned(this.myTurn() ? `${this.number} ${standing.ply}` : '', this.turnWords());
  }

  /** What had the keys is not there any more. */
  keepFocus() {
    if (document.body.classList.contains('hall')) byId('main').focus();
    else this.board.focus();
  }

  title() {
    const { white, black } = this.standing;
    const names = `${white || '…'} – ${black || '…'}`;
    if (this.isOffered()) return t`Draw offered: ${names}`;
    if (this.myTurn()) return t`Your turn: ${names}`;
    if (this.adjournedBy) return t`Adjourned: ${names}`;
    return this.running() ? names : `${names}, ${this.standing.article ? this.counted() : t`waiting`}`;
  }

  turnWords() {
    const { white, black } = this.standing, other = this.seat() === 'w' ? black : white;
    return t`Game ${this.number} against ${this.app.nameWords(other)}: your turn.`;
  }

  renderBoard() {
    const shown = this.shown(), move = this.line[shown] || {}, now = this.back === null;
    this.board.root.classList.toggle('sending', this.isSlow);
    if (now && this.pending === this.standing.ply) return;       // the man stands where it was put, until the answer
    const free = now && this.running() && !this.busy && this.app.reachable(), live = free && this.mayMove();
    this.board.show({
      fen: this.fenShown(), last: move, check: now ? this.standing.check : /[+#]$/.test(move.san || ''),
      moves: live ? this.standing.moves : [], ahead: free && !live ? this.seat() : '', plan: now && this.plan,
      turned: this.isTurned(),
    });
    if (live && this.plan) this.playPlan();
  }

  startSide() {
    return this.line.length ? sideOf(this.line[0].fen) : 'w';
  }

  clockOf(side) {
    return this.clocks[this.sideAt('near') === side ? 'near' : 'far'];
  }

  clocksInWords() {
    if (!this.standing) return '';
    return SIDES.map((side) => t`${colourWord(side)} has ${clockWords(this.clockOf(side).now())}`).join(', ');
  }

  /** The position in words, for who asks for it. */
  inWords() {
    const men = { w: [], b: [] };
    for (const [name, man] of this.board.men) {
      men[man.letter === man.letter.toUpperCase() ? 'w' : 'b'].push(`${kindWord(man.letter)} ${name}`);
    }
    return SIDES.map((side) => `${colourWord(side)}: ${men[side].join(', ')}.`).join(' ');
  }
}
