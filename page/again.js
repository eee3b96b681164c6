// The board on which a game is looked at again: both sides are moved, for oneself alone, and what was tried is kept in
// the browser. A game comes from the lobby, or from a PGN or a FEN that is pasted.

import { Board } from './board.js';
import { clocksAt, findKept } from './kept.js';
import { t } from './language.js';
import { readLine, readMoves, readPgn, readRefusal, squaresOf } from './lines.js';
import { byId, copy, make, read, save, say, setText, write } from './make.js';
import { fenOf, isInCheck, legalMoves } from './rules.js';
import { keepInSight } from './sheet.js';
import { begin, endOf, graft, isMain, makeMain, pgnOf, play, readGame, saidIn, signsOf, takeOut } from './study.js';
import {
  BAD_FEN, BAD_LINE, NO_GAME, clockText, movesTyped, refusalWords, sanShown, sanWords,
} from './words.js';

const ASKS_MOVES = 200;              // milliseconds that a position stands before the lobby is asked for its moves
const local = () => localStorage;

export class AgainView {
  constructor(app) {
    this.app = app;
    this.root = byId('again-view');
    this.hash = '#/again';
    this.board = new Board({ chosen: (move) => this.chosen(move), planned: () => {}, says: say });
    byId('again-board').append(this.board.root);
    this.buttons = new Map();          // position -> its button
    this.told = new Map();             // FEN -> {check, moves} as the lobby has told them, null where it is no FEN
    this.turned = false;
    this.number = -1;
    this.coming = null;                // at which of a game's positions it is to be opened: {number, ply, turned}
    this.tags = {};
    this.start = this.at = begin();
    this.listen();
  }

  listen() {
    const on = (id, act) => byId(id).addEventListener('click', act);
    on('again-first', () => this.goTo(this.start));
    on('again-previous', () => this.goTo(this.at.parent));
    on('again-next', () => this.goTo(this.at.next[0]));
    on('again-last', () => this.goTo(endOf(this.at)));
    on('again-turn', () => this.turn());
    on('again-main', () => this.change(() => makeMain(this.at)));
    on('again-cut', () => this.change(() => { this.at = takeOut(this.at); }));
    on('again-anew', () => this.anew());
    on('again-copy-fen', () => this.share('FEN', fenOf(this.at.position)));
    on('again-copy-pgn', () => this.share('PGN', pgnOf(this)));
    on('again-save-pgn', () => save(`game-${this.number || 'again'}.pgn`, 'application/x-chess-pgn', pgnOf(this)));
    byId('again-form').addEventListener('submit', (event) => {
      event.preventDefault();
      this.paste(byId('again-text').value);
    });
  }

  // ---- coming and going

  /** A game is opened next at this ply, and from this side. */
  come(number, ply, turned) {
    this.coming = { number, ply, turned };
  }

  open(number) {
    const { coming } = this;
    this.root.hidden = false;
    if (number !== this.number) {
      this.number = number;
      this.turned = false;
      this.note('');
      this.set(number ? { tags: {}, start: begin() } : this.kept() || { tags: {}, start: begin() });
    }
    if (coming && coming.number === number) this.turned = coming.turned;
    else this.coming = null;
    if (number) this.load();
    this.render();
  }

  close() {
    this.root.hidden = true;
  }

  /** The games that this view has to be told of. */
  needs() {
    return [];
  }

  key() {
    return this.number ? `again-${this.number}` : 'again';
  }

  /** What this browser keeps of this game. */
  kept() {
    return readGame(read(local, this.key()) || '');
  }

  /** The game as the lobby tells it, and behind that what was tried before. */
  async load() {
    const { number } = this, wire = this.app.wire;
    const [line, pgn] = await Promise.all([wire.say(`line ${number}`), wire.say(`pgn ${number}`)]);
    const refusal = readRefusal(line[0]), rows = line[0].startsWith('ok ') ? readLine(line.slice(1)) : [];
    const archived = refusal && refusal.number === NO_GAME ? await findKept(number) : null;
    if (number !== this.number) return;
    const game = archived && readGame(archived.text);
    if (game) {
      this.loaded(game);
      return;
    }
    if (refusal) this.note(refusalWords(refusal));
    const start = rows.length ? begin(rows[0].fen) : null;
    if (!start || !pgn[0].startsWith('ok ')) return;
    rows.slice(1).reduce((at, { text, san }) => play(at, text, san), start);
    this.loaded({ tags: readPgn(pgn.slice(1)).tags, start });
  }

  /** A game as it was played, and behind that what was tried before. */
  loaded({ tags, start }) {
    // (the archive has full names where the server has short ones)
    const kept = this.kept(), isOwn = this.plays(tags), who = (name) => this.app.nameOf(name || '');
    const isOfIt = kept && who(kept.tags.White) === who(tags.White) && who(kept.tags.Black) === who(tags.Black)
      && fenOf(kept.start.position) === fenOf(start.position);
    if (isOfIt && !isOwn) graft(start, kept.start);
    const path = pathOf(this.at);
    this.set({ tags, start }, isOwn ? [] : path);
    if (this.coming) this.goTo(inMain(start, this.coming.ply));
    this.coming = null;
    if (isOwn) this.note(t`You play in this game: look at it again once it is over.`);
  }

  /** Whether one's own game goes on. */
  plays(tags) {
    const me = this.app.me();
    return Boolean(me) && tags.Result === '*' && (tags.White === me || tags.Black === me);
  }

  /** Another tree, at the position to which these moves lead as far as it has them. */
  set({ tags, start }, path = []) {
    Object.assign(this, { tags, start, at: start });
    for (const text of path) this.at = this.at.next.find((one) => one.text === text) || this.at;
    this.drawMoves();
    this.render();
  }

  paste(text) {
    const game = readGame(text, movesTyped);
    if (!game) {
      this.note(/\[FEN /.test(text) ? refusalWords({ number: BAD_FEN }) : t`That is neither a FEN nor a PGN.`);
      return;
    }
    byId('again-text').value = '';
    byId('again-paste').open = false;
    this.number = 0;
    history.replaceState(null, '', '#/again');
    this.set(game);
    this.keep();
    this.note(game.wrong ? wrongWords(game.wrong) : '');
    this.board.focus();
  }

  /** What was tried goes, and the game as it was told stands again. */
  anew() {
    write(local, this.key(), null);
    this.set({ tags: {}, start: begin() });
    if (this.number) this.load();
  }

  keep() {
    if (!write(local, this.key(), pgnOf(this))) this.note(t`This browser keeps nothing: copy the PGN.`);
  }

  // ---- moving

  chosen(move) {
    this.at = play(this.at, move);
    this.drawMoves();
    this.keep();
    this.shown();
  }

  change(act) {
    act();
    this.drawMoves();
    this.keep();
    this.render();
    if (document.activeElement === document.body) this.board.focus();
  }

  goTo(at) {
    if (!at) return;
    this.at = at;
    this.shown();
  }

  shown() {
    this.render();
    say(this.at.san ? sanWords(this.at.san) : t`the start`);
  }

  turn() {
    this.turned = !this.turned;
    this.render();
  }

  /** What a key does here. */
  keys() {
    return {
      ArrowLeft: () => this.goTo(this.at.parent), ArrowRight: () => this.goTo(this.at.next[0]),
      Home: () => this.goTo(this.start), End: () => this.goTo(endOf(this.at)),
      f: () => this.turn(), b: () => this.board.focus(),
    };
  }

  async share(what, text) {
    const done = await copy(text);
    if (done) this.note(t`${what} is copied.`, 'news');
    else this.note(t`The ${what} could not be copied. Save it instead.`);
  }

  /** The moves of the position that is shown, which the lobby tells to who has signed in. */
  askMoves() {
    clearTimeout(this.asksMoves);
    const { app } = this, fen = fenOf(this.at.position);
    if (!app.me() || this.told.has(fen)) return;
    this.asksMoves = setTimeout(async () => {
      const [answer] = await app.wire.say(`moves ${fen}`, true);
      const told = readMoves(answer), refusal = readRefusal(answer);
      const isBad = refusal && refusal.number === BAD_LINE;
      if (told || isBad) this.told.set(fen, told);
      if (fen !== fenOf(this.at.position)) return;
      if (isBad) this.note(refusalWords({ number: BAD_FEN }));
      if (told) this.renderBoard();
    }, ASKS_MOVES);
  }

  note(text, kind = 'refused') {
    byId('again-note').className = text ? `note ${kind}` : 'note';
    setText(byId('again-note'), text);
  }

  // ---- drawing

  render() {
    if (this.root.hidden) return;
    const { parent, next } = this.at, { White, Black, Result } = this.tags;
    this.renderBoard();
    this.askMoves();
    setText(byId('again-title'), this.number ? t`Game ${this.number}` : t`Look at a game again`);
    setText(byId('again-who'), White ? `${this.nameOf(White)} – ${this.nameOf(Black)}  ${Result || ''}` : '');
    setText(byId('again-clocks'), this.clockWords());
    byId('again-back').hidden = !this.number;
    byId('again-back').href = `#/game/${this.number}`;
    byId('again-first').disabled = byId('again-previous').disabled = !parent;
    byId('again-next').disabled = byId('again-last').disabled = !next.length;
    byId('again-main').disabled = isMain(this.at);
    byId('again-cut').disabled = !parent;
    for (const [at, button] of this.buttons) {
      if (at === this.at) button.setAttribute('aria-current', 'true');
      else button.removeAttribute('aria-current');
    }
    const current = this.buttons.get(this.at);
    if (current) keepInSight(byId('again-moves'), current);
    this.app.titled(byId('again-title').textContent);
  }

  /** With the moves that the lobby has told, and else by the page's own rules. */
  renderBoard() {
    const { position, text } = this.at, fen = fenOf(position);
    const { check, moves } = this.told.get(fen) || { check: isInCheck(position), moves: legalMoves(position) };
    this.board.show({ fen, last: squaresOf(text), check, moves, turned: this.turned });
  }

  /** Of a game of the club's its players' full names; of another one, those of its PGN. */
  nameOf(name) {
    return name && this.number ? this.app.nameWords(name) : name || '';
  }

  /** What both clocks showed, where the PGN has them. */
  clockWords() {
    const { w, b } = clocksAt(this.at, this.tags);
    return w === null || b === null ? '' : t`Clocks: ${clockText(w)} – ${clockText(b)}`;
  }

  drawMoves() {
    this.buttons.clear();
    byId('again-moves').replaceChildren(...said(this.start), ...this.movesBehind(this.start, true));
  }

  /** The moves behind a position, each a button, with the variations behind the move beside which they stand. */
  movesBehind(from, isFirst) {
    const parts = [];
    let fresh = isFirst, at = from;
    while (at.next.length) {
      const [main, ...others] = at.next;
      parts.push(...this.move(main, fresh));
      for (const one of others) {
        parts.push(make('span', { class: 'variation' }, '(', ...this.move(one, true), ...this.movesBehind(one, false),
          ')'));
      }
      fresh = others.length > 0;
      at = main;
    }
    return parts;
  }

  move(at, fresh) {
    const { side, full } = at.parent.position, number = side === 'w' ? `${full}.` : fresh ? `${full}…` : '';
    const signs = signsOf(at);
    const button = make('button', { type: 'button', class: 'ply', 'aria-label':
      `${full}${side === 'b' ? t`, Black` : ''}: ${sanWords(at.san)}${signs}`, onclick: () => this.goTo(at) },
    sanShown(at.san) + signs);
    this.buttons.set(at, button);
    return [number && make('span', { class: 'number', 'aria-hidden': 'true' }, number), button,
      ...said(at)].filter(Boolean);
  }
}

/** What a comment says behind a move, or before the first. */
function said(at) {
  const words = saidIn(at);
  return words ? [make('span', { class: 'small' }, words)] : [];
}

/** What of a PGN could not be read, with its place. */
function wrongWords({ move, at, line, isMain }) {
  if (move === '{') return t`Line ${line}: the comment that begins here has no end, and the rest was taken for it.`;
  const { side, full } = at.position, placed = `${full}${side === 'w' ? '.' : '…'} ${move}`;
  return isMain ? t`Line ${line}: ${placed} cannot be played there. What stands before it is on the board.`
    : t`Line ${line}: ${placed} cannot be played there. The rest of this variation is left out.`;
}

/** The position of the main line behind so many moves, or its last. */
function inMain(start, ply) {
  let at = start;
  for (let count = 0; count < ply && at.next.length; count += 1) [at] = at.next;
  return at;
}

/** The moves that lead to a position. */
function pathOf(at) {
  const path = [];
  for (let one = at; one.parent; one = one.parent) path.unshift(one.text);
  return path;
}
