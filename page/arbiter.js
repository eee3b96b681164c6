// The arbiter's desk: all running games at a glance, and what is entered for their players.

import { Absences, isAbsent } from './absent.js';
import { Adjournments, choicesToGoOn, timesToGoOn, wordsToGoOn } from './adjourn.js';
import { announced } from './announced.js';
import { Picture } from './board.js';
import { Clock } from './clock.js';
import { Decision } from './decide.js';
import { pgnOf } from './kept.js';
import { language, t } from './language.js';
import { isNoGame, placementOf, readLine, readRefusal, readShow, readStanding, readWho, squaresOf } from './lines.js';
import { Links } from './links.js';
import { arrange, byId, focused, make, save, setText } from './make.js';
import { Openings } from './openings.js';
import { Pairing } from './pairing.js';
import { folded, plain, toldWords, untold } from './plain.js';
import { Question } from './question.js';
import { resultText } from './round.js';
import { stopped } from './stopped.js';
import { Waits } from './waits.js';
import {
  AGREED, NO_GAME, OTHER, SIDES, actWords, arbiterWords, colourWord, decidedWords, lawWords, refusalWords, resultWords,
  sanShown, withReason,
} from './words.js';

const MOST = 12;                     // games on a page: each that runs is watched
const OWN_HOSTS = ['localhost', '127.0.0.1', '[::1]']; // of which nothing leaves the machine
const ASKS_WHO = 10000;
const LOOKS_AT_ROUND = 15000;
const ASKS_TABLE = 4000;             // nobody tells of games that were opened or taken off past the lobby
const RUNS = 0, WAITS = 1, OVER = 2; // the kinds of games, as they stand behind each other
const ASKS_AGAIN = 4000;             // for a game that was not told
const STAYS = 8000;                  // so long a game that has ended keeps its place,
const STAYS_BEFORE_OTHERS = 2000;    // or so long where a running game has none on the page for it,
const UNTOUCHED = 3000;              // and longer until no hand was at the boards for so long,
const STAYS_AT_MOST = 60000;         // but no longer than this
const MOST_ANNOUNCED = 200;          // bytes, as the lobby takes them

export class ArbiterView {
  /** rows(): the table's rows by number. */
  constructor(app, rows) {
    this.app = app;
    this.rows = rows;
    this.root = byId('arbiter-view');
    this.hash = '#/arbiter';
    this.list = byId('arbiter-games');
    this.cards = new Map();
    this.places = new Map();           // number -> {kind, turn, endedAt}: what orders the games
    this.turn = 0;
    this.shown = [];                   // the numbers of the cards, as they stand
    this.touchedAt = -Infinity;
    this.first = 0;
    this.here = null;                  // the names of who is connected, once that was told
    this.arePaused = null;             // whether new games are stopped, once that was told
    this.question = new Question();
    this.absences = new Absences(app, (name) => this.isHere(name), () => this.waits.render());
    this.waits = new Waits(this);
    this.pairing = new Pairing(this, (key, number, line) => this.adjourned.goesOn(key, number, line));
    this.adjourned = new Adjournments(this, (note) => this.pairing.fill({ ...note, times: timesToGoOn(note) },
      wordsToGoOn(note), choicesToGoOn(note)));
    this.openings = new Openings(this);
    this.links = new Links(this);
    this.decision = new Decision(this);
    byId('arbiter-find').addEventListener('input', () => this.turnTo(0));
    for (const kind of ['pointermove', 'pointerdown', 'keydown']) {
      this.list.addEventListener(kind, () => { this.touchedAt = performance.now(); }, { passive: true });
    }
    byId('arbiter-back').addEventListener('click', () => this.page(-1));
    byId('arbiter-on').addEventListener('click', () => this.page(1));
    byId('unencrypted').hidden = location.protocol === 'https:' || OWN_HOSTS.includes(location.hostname);
    byId('entries').addEventListener('click', () => (this.arePaused ? this.entries('resume') : this.askStop()));
    byId('clocks').addEventListener('submit', (event) => {
      event.preventDefault();
      this.clocks();
    });
    addEventListener('clocks', () => this.renderClocks());
    byId('announcing').addEventListener('submit', (event) => {
      event.preventDefault();
      this.tellAll('announce', byId('announcement'));
    });
    byId('unannounce').addEventListener('click', () => this.tellAll('announce', byId('announcement'), ''));
    addEventListener('announced', () => this.renderAnnounced());
    for (const id of ['pair-by-hand', 'open-a-round', 'players-and-links']) {
      byId(id).addEventListener('toggle', (event) => event.target.open && this.app.askPlayers());
    }
  }

  open() {
    this.root.hidden = false;
    this.stopAsking();
    this.asking = setInterval(() => this.askWho(), ASKS_WHO);
    this.askingTable = setInterval(() => this.askTable(), ASKS_TABLE);
    this.looking = setInterval(() => this.lookAtRound(), LOOKS_AT_ROUND);
    this.askWho();
    this.lookAtRound();
    this.render();
    this.waits.open();
    this.lookAgain();
  }

  close() {
    this.root.hidden = true;
    this.stopAsking();
    for (const part of [this.question, this.waits, this.adjourned, this.links, this.decision]) part.close();
    for (const number of [...this.cards.keys()]) this.remove(number);
    this.places.clear();
    this.shown = [];
    this.note('');
  }

  stopAsking() {
    for (const timer of [this.asking, this.askingTable, this.looking]) clearInterval(timer);
  }

  /** The games that this view has to be told of. */
  needs() {
    return [...this.cards].filter(([, card]) => !card.isOver).map(([number]) => number);
  }

  /** After a new connection: what is shown is asked for again. */
  again() {
    for (const number of this.cards.keys()) this.ask(number);
    this.askWho();
    this.fill();
    this.lookAgain();
  }

  /** What was begun here and not ended. */
  lookAgain() {
    this.pairing.again();
    this.adjourned.again();
  }

  /** The players of the club were told. */
  playersTold() {
    if (this.root.hidden) return;
    this.pairing.fillPlayers();
    this.links.render();
  }

  render() {
    if (this.root.hidden) return;
    const may = this.app.isArbiter();
    byId('arbiter-only').hidden = may;
    byId('arbiter-desk').hidden = !may;
    this.renderEntries();
    this.renderAnnounced();
    for (const card of this.cards.values()) this.renderActs(card);
    for (const part of [this.pairing, this.openings, this.adjourned, this.links]) part.render();
    this.fill();
  }

  // ---- which games

  running() {
    return [...this.rows().values()].filter((row) => kindOf(row) === RUNS);
  }

  /** All games of the table in their order, or those of a player that is looked for: running ones, then those that wait,
   * then those that are over, the newest first. One that runs stands behind those that ran before it. */
  found() {
    const rows = [...this.rows().values()].sort((a, b) => a.number - b.number);
    for (const row of rows) this.place(row);
    for (const number of this.places.keys()) {
      if (!this.rows().has(number)) this.places.delete(number);
    }
    const text = folded(byId('arbiter-find').value);
    const has = (name) => name && folded(`${name} ${this.app.nameWords(name)}`).includes(text);
    return rows.filter((row) => !text || has(row.white) || has(row.black)).sort((a, b) => {
      const one = this.places.get(a.number), other = this.places.get(b.number);
      return one.kind - other.kind || (one.kind === OVER ? other.turn - one.turn : one.turn - other.turn);
    });
  }

  /** A game that ends on the desk stands for a while where it stood. */
  place(row) {
    const { number } = row, kind = kindOf(row), place = this.places.get(number);
    if (place && place.kind === kind) return;
    if (place && kind === OVER && this.cards.has(number)) {
      place.endedAt = place.endedAt || performance.now();
      if (!this.mayMove(place.endedAt)) return;
    }
    this.turn += 1;
    this.places.set(number, { kind, turn: this.turn, endedAt: 0 });
  }

  mayMove(endedAt) {
    const stood = performance.now() - endedAt;
    if (document.querySelector('dialog[open]')) return false;
    return stood > STAYS_AT_MOST || !this.isTouched() && stood > (this.lacksPlace ? STAYS_BEFORE_OTHERS : STAYS);
  }

  /** Whether a hand was at the boards a moment ago. */
  isTouched() {
    return performance.now() - this.touchedAt <= UNTOUCHED;
  }

  /** Whether the desk is told of a game. */
  has(number) {
    return this.cards.has(number);
  }

  isHere(name) {
    return !this.here || this.here.has(name);
  }

  /** Turns to the games behind these, or before them. */
  page(step) {
    const count = this.found().length, last = Math.floor((count - 1) / MOST) * MOST;
    if (count <= MOST) return;
    if (step > 0) this.turnTo(this.first + MOST < count ? this.first + MOST : 0);
    else this.turnTo(this.first > 0 ? Math.max(0, this.first - MOST) : last);
  }

  turnTo(first) {
    this.first = first;
    for (const place of this.places.values()) if (place.endedAt) place.endedAt = -Infinity;
    this.shown = [];
    this.fill();
  }

  /** Turns to the page that has a game, which has the keys then. */
  showGame(number) {
    const placeOf = () => this.found().findIndex((row) => row.number === number);
    if (placeOf() < 0) byId('arbiter-find').value = '';
    const place = placeOf();
    if (place < 0) return;
    if (!this.cards.has(number)) this.turnTo(place - place % MOST);
    const card = this.cards.get(number);
    card.root.scrollIntoView({ block: 'center' });
    card.title.focus({ preventScroll: true });
  }

  /** The games of this page. On another page than the first those that stand there stay, also where games before them come
   * or go. A game that an arbiter is asked about stays where it is. */
  fill() {
    if (this.root.hidden || !this.app.isArbiter()) return;
    const found = this.found(), stands = new Set(this.shown), held = this.question.about || this.adjourned.about()
      || this.decision.about;
    if (this.first > 0) {
      const place = found.findIndex((row) => stands.has(row.number));
      if (place >= 0) this.first = place;
      if (this.first >= found.length) this.first = Math.max(0, Math.floor((found.length - 1) / MOST) * MOST);
    }
    const shown = found.slice(this.first, this.first + MOST).map((row) => row.number);
    const last = this.first + shown.length, wanted = new Set(shown);
    this.lacksPlace = found.slice(last).some((row) => kindOf(row) === RUNS);
    if (held && this.cards.has(held) && !wanted.has(held)) {
      shown.splice(Math.min(shown.length, Math.max(0, this.shown.indexOf(held))), 0, held);
      wanted.add(held);
    }
    for (const number of [...this.cards.keys()]) {
      if (!wanted.has(number)) this.remove(number);
    }
    for (const number of shown) {
      const card = this.cards.get(number), row = this.rows().get(number);
      const isTold = card && card.standing && (!row || kindOf(row) === kindOf(card.standing));
      if (!card) this.add(number);
      else if (!isTold && card.askedAt < performance.now() - ASKS_AGAIN) this.ask(number);
    }
    this.shown = shown;
    this.stand(shown.map((number) => this.cards.get(number).root));
    const count = found.filter((row) => kindOf(row) === RUNS).length;
    byId('arbiter-none').hidden = this.cards.size > 0;
    byId('arbiter-pages').hidden = found.length <= MOST;
    setText(byId('arbiter-place'), t`${this.first + 1} to ${last} of ${found.length}, ${count} of them running`);
    this.waits.render();
  }

  /** Who has the keys of a card keeps them where it moves. */
  stand(roots) {
    const had = focused();
    arrange(this.list, roots);
    if (had !== document.activeElement && this.list.contains(had)) had.focus({ preventScroll: true });
  }

  /** Nobody tells of what is opened or taken off past the lobby. */
  async askTable() {
    if (this.root.hidden || document.hidden || !this.app.isArbiter()) return;
    await this.app.askTable();
    this.fill();
  }

  // ---- a game

  add(number) {
    const card = { number, board: new Picture(t`Game ${number}`), clocks: {}, names: {}, away: {}, seats: {}, acts: {},
      standing: null };
    const player = (side) => {
      const clock = make('span', { class: 'clock', role: 'timer' });
      card.clocks[side] = new Clock(clock, () => card.standing && setText(card.state, this.stateWords(card)));
      card.names[side] = make('span', { class: 'name' });
      card.away[side] = make('span', { class: 'away', hidden: true }, t`not connected`);
      card.seats[side] = make('div', { class: `desk-player ${side === 'w' ? 'white' : 'black'}` },
        make('span', { class: 'disc', 'aria-hidden': 'true' }), make('span', { class: 'who-plays' },
          make('span', { class: 'unseen' }, `${colourWord(side)}: `), card.names[side]), clock, card.away[side]);
      return card.seats[side];
    };
    const act = (kind, words) => {
      card.acts[kind] = make('button', { type: 'button', class: SIDES.includes(kind) ? 'wide' : '',
        'data-key': `${kind}-${number}`, onclick: () => this.askAbout(card, kind) }, words,
      make('span', { class: 'unseen' }, t`, game ${number}`));
      return card.acts[kind];
    };
    card.more = make('details', { class: 'desk-more', hidden: true },
      make('summary', { 'data-key': `more-${number}` }, t`More`,
        make('span', { class: 'unseen' }, t`, game ${number}`)),
      act('drop', t`Take off`));
    card.title = make('a', { href: `#/game/${number}`, 'data-key': `game-${number}` }, t`Game ${number}`);
    card.place = make('span', { class: 'desk-place small' });
    card.state = make('p', { class: 'desk-state' });
    card.last = make('p', { class: 'desk-last small' });
    card.law = make('p', { class: 'desk-law small' });
    card.note = make('p', { class: 'note', role: 'status' });
    card.root = make('article', { class: 'desk-card', 'aria-label': t`Game ${number}` }, card.board.root,
      make('h2', {}, card.title, ' ', card.place), player('b'), card.state, card.last, card.law, player('w'),
      make('div', { class: 'desk-acts', role: 'group', 'aria-label': t`Decide game ${number}` },
        act('w', t`White resigns`), act('b', t`Black resigns`), act('draw', t`Draw`), act('mistake', t`By mistake`),
        act('flag', t`Flag`), act('adjourn', t`Adjourn`), act('pgn', t`Save PGN`),
        act('decide', t`Decide the result`), card.more), card.note);
    card.acts.mistake.title = t`The game was begun by mistake`;
    this.cards.set(number, card);
    this.renderActs(card);
    this.ask(number);
  }

  remove(number) {
    const card = this.cards.get(number);
    Object.values(card.clocks).forEach((clock) => clock.stop());
    card.root.remove();
    this.cards.delete(number);
    this.app.wire.takeBack(`line ${number}`);
    this.app.leaveLater();
  }

  /** Asks how a game stands, and for its last move. */
  async ask(number) {
    const row = this.rows().get(number);
    this.cards.get(number).askedAt = performance.now();
    if (row && row.result !== '*') {
      this.look(number);
      return;
    }
    const answer = await this.app.watch(number), standing = answer[0].startsWith('ok ') && readStanding(answer.slice(1));
    if (!this.cards.has(number)) return;
    if (!standing) {
      if (isNoGame(answer[0])) this.gone(number);
      return;
    }
    this.draw(number, standing);
    const line = await this.lineOf(number), card = this.cards.get(number), last = line[line.length - 1];
    if (!last || !card || !card.standing || card.standing.fen !== last.fen) return;
    this.lastMove(card, last);
    this.draw(number, card.standing, card.at);
  }

  async lineOf(number) {
    const told = await this.app.wire.say(`line ${number}`, true);
    return told[0].startsWith('ok ') ? readLine(told.slice(1)) : [];
  }

  lastMove(card, last) {
    card.move = last;
    if (!card.act && last.san) card.act = sanShown(last.san);
  }

  /** How a game stands that is over, which is not watched: it may leave the table. */
  async look(number) {
    const [shown, line] = await Promise.all([this.app.wire.say(`show ${number}`), this.lineOf(number)]);
    const card = this.cards.get(number), show = readShow(shown[0]), last = line[line.length - 1];
    if (!card) return;
    if (isNoGame(shown[0])) this.gone(number);
    if (!show || !last) return;
    this.lastMove(card, last);
    this.draw(number, { ...show, fen: last.fen, check: /[+#]$/.test(last.san), moves: [] });
  }

  /** A game is on the table no more, maybe while an arbiter is asked about it. */
  gone(number) {
    const had = this.cards.get(number).root.contains(document.activeElement);
    if (this.question.about === number || this.adjourned.about() === number) {
      (this.question.about === number ? this.question : this.adjourned).close();
      this.note(t`Game ${number} is not on the table any more. Nothing was entered.`, 'refused');
    }
    this.remove(number);
    this.fill();
    if (had) byId('arbiter-title').focus();
  }

  notice(number, act, answer, standing) {
    if (this.root.hidden) return;
    const card = this.cards.get(number);
    if (card && !standing) this.gone(number);
    else if (card) {
      const moved = /^ok (?:move \d+|claim \d+ wrong) \d+ (\S+)/.exec(answer);
      if (moved) card.move = squaresOf(act.sent.split(' ').pop());
      card.act = actWords(act, answer, (name) => this.app.nameWords(name), standing);
      this.draw(number, standing);
    }
    this.fill();
  }

  draw(number, standing, at = performance.now()) {
    const card = this.cards.get(number), kind = kindOf(standing), runs = kind === RUNS;
    if (kind === OVER && !card.isOver) this.app.leaveLater();
    Object.assign(card, { standing, at, runs, isOver: kind === OVER });
    this.waits.told(number, runs ? standing : null, at);
    this.adjourned.follow(number, standing, at);
    card.board.show({ fen: standing.fen, last: card.move, check: standing.check });
    card.board.root.setAttribute('aria-label', t`Game ${number}, ${placementOf(standing.fen).size} men on the board`);
    for (const side of SIDES) {
      setText(card.names[side], this.nameOf(card, side));
      card.clocks[side].label = colourWord(side);
      card.clocks[side].set({ left: standing.left[side], at, running: runs && standing.side === side });
      card.seats[side].classList.toggle('turn', runs && standing.side === side);
    }
    setText(card.last, card.act ? t`Last: ${card.act}` : '');
    this.renderResult(card);
    card.root.classList.toggle('done', card.isOver);
    this.renderActs(card);
    this.renderAway(card);
  }

  nameOf(card, side) {
    return this.app.nameWords(side === 'w' ? card.standing.white : card.standing.black);
  }

  stateWords({ number, standing, clocks }) {
    const { white, black, side, offer, result, article } = standing;
    if (article) {
      const words = resultWords(result, article), decided = this.app.round.decided(number, result);
      if (decided) return `${resultText(decided.result)} ${decidedWords(decided.result)}`;
      if (this.adjourned.has(standing)) return t`Adjourned`;
      return `${words.score} ${withReason(words.result, words.reason)}`;
    }
    if (!white || !black) return t`Waiting for ${colourWord(white ? 'b' : 'w')}`;
    const offers = [...offer].map((one) => t`${colourWord(one)} offers a draw`);
    const fallen = clocks[side].now() <= 0 ? t`${colourWord(side)}’s flag has fallen` : t`${colourWord(side)} to move`;
    return [fallen, ...offers].join(' · ');
  }

  /** What came of it, and what the Laws ask of its result, where a round's file tells that. */
  renderResult(card) {
    const law = card.standing && this.app.round.lawOf(card.number);
    if (card.standing) setText(card.state, this.stateWords(card));
    setText(card.law, law ? `${lawWords(law)}.` : '');
    setText(card.place, this.app.round.boardWords(card.number));
    card.acts.decide.classList.toggle('strong', Boolean(law && law.side && law.found === 'cannot'));
  }

  /** Of a round's file the desk shows what the Laws ask of its games, and how far the log goes. */
  async lookAtRound() {
    if (this.root.hidden || document.hidden || !this.app.isArbiter()) return;
    await this.app.round.look();
    if (this.root.hidden) return;
    this.renderRound();
  }

  renderRound() {
    for (const card of this.cards.values()) this.renderResult(card);
    this.renderLog();
    this.decision.renderBoards();
    this.waits.render();
  }

  renderLog() {
    const log = this.app.round.log(), wrong = this.app.round.wrong().join('; ');
    setText(byId('round-wrong'), wrong && t`The club’s machine says of the round’s files: ${wrong}`);
    byId('desk-log').hidden = !log;
    if (!log) return;
    const { lines, sum, at, broken } = log;
    setText(byId('log-lines'), at ? t`Lines of the log: ${lines}; the last was put at ${timeWords(at)}. Its sum, to be written
      down as a round ends:` : t`The log is empty.`);
    setText(byId('log-sum'), at ? sum.match(/.{1,4}/g).join(' ') : '');
    setText(byId('log-broken'), broken ? t`Line ${broken} of the log does not fit behind the line before it.` : '');
  }

  renderActs(card) {
    const { standing, acts, busy, runs } = card;
    const had = document.activeElement;
    const isEarly = Boolean(standing) && standing.ply < AGREED;
    for (const [kind, button] of Object.entries(acts)) {
      button.hidden = kind === 'pgn' ? !card.isOver : kind !== 'drop' && Boolean(standing) && !runs;
      button.disabled = !standing || busy || !this.app.reachable() || kind === 'draw' && isEarly;
    }
    // (one stands in the other's place)
    acts.draw.hidden = acts.draw.hidden || isEarly;
    acts.mistake.hidden = acts.mistake.hidden || !isEarly;
    acts.decide.hidden = !standing || !card.isOver && !isAbsent(standing);
    card.more.hidden = !standing || runs || card.isOver;
    if (card.root.contains(had) && !had.getClientRects().length) card.title.focus();
  }

  // ---- who is there

  async askWho() {
    if (this.root.hidden || document.hidden || !this.app.isArbiter() || !this.app.wire.state.open) return;
    const answer = await this.app.wire.say('who', true);
    if (!answer[0].startsWith('ok who')) return;
    const { arePaused, names } = readWho(answer);
    this.here = names;
    this.arePaused = arePaused;
    this.renderEntries();
    for (const card of this.cards.values()) this.renderAway(card);
    this.pairing.renderHints();
    this.links.areHere(names);
  }

  renderAway(card) {
    if (!card.standing) return;
    for (const side of SIDES) {
      const name = side === 'w' ? card.standing.white : card.standing.black;
      card.away[side].hidden = !name || this.isHere(name) || card.isOver;
    }
  }

  // ---- entering

  /** What is entered, as it is asked about: a title, what follows, and the lines. */
  asked(card, kind) {
    const { number, standing } = card, { white, black, side, offer } = standing;
    const seat = { w: white, b: black }, name = { w: this.nameOf(card, 'w'), b: this.nameOf(card, 'b') };
    if (kind === 'w' || kind === 'b') {
      return { title: t`Enter the resignation of ${name[kind]} in game ${number}?`,
        words: t`${name[OTHER[kind]]} wins with ${colourWord(OTHER[kind])}. It cannot be taken back.`,
        lines: [`as ${seat[kind]} resign ${number}`] };
    }
    if (kind === 'draw') {
      const offered = offer.includes('w') ? 'w' : offer.includes('b') ? 'b' : '', by = offered || 'w';
      const accept = `as ${seat[OTHER[by]]} accept ${number}`;
      return { title: t`Enter a draw between ${name.w} and ${name.b} in game ${number}?`,
        words: t`${offered ? t`The offer of ${name[by]} stands` : t`An offer is entered for ${name[by]}`}, and its
          acceptance is entered for ${name[OTHER[by]]}. It cannot be taken back.`,
        lines: offered ? [accept] : [`as ${seat.w} offer ${number}`, accept] };
    }
    if (kind === 'flag') {
      return { title: t`Call the flag of ${name[side]} in game ${number}?`,
        words: t`It is called for ${name[OTHER[side]]}, against ${name[side]}, who is to move. The server’s clock
          decides.`,
        lines: [`as ${seat[OTHER[side]]} flag ${number}`] };
    }
    if (kind === 'mistake') {
      return { title: t`Was game ${number} of ${name.w} and ${name.b} begun by mistake?`, yes: t`End it`,
        words: t`Before both have moved only a resignation ends a game. It is entered for ${name[side]}, who is to move:
          in the record ${name[OTHER[side]]} has won without a game. In a league “Decide the result” puts down another.
          It cannot be taken back.`,
        lines: [`as ${seat[side]} resign ${number}`] };
    }
    const title = t`Take game ${number} of ${[name.w, name.b].filter(Boolean).join(t` and `)} off the table?`;
    return { title, words: t`It waits for a second player. No move has been made.`, yes: t`Take it off`,
      lines: [`drop ${number}`] };
  }

  async askAbout(card, kind) {
    const { number } = card, button = card.acts[kind];
    if (kind === 'pgn') {
      this.savePgn(number);
      return;
    }
    if (kind === 'decide') {
      this.decision.ask(card.standing, card.at);
      return;
    }
    if (kind === 'adjourn') {
      const isTold = await this.adjourned.ask(number);
      this.tellCard(number, isTold ? '' : t`The lobby did not tell how the game stands. Try again.`);
      return;
    }
    const asked = this.asked(card, kind);
    this.question.ask({ ...asked, about: number }, () => {
      if (kind !== 'mistake' || card.standing.ply < AGREED) this.enter({ number, lines: asked.lines, button });
      else this.tellCard(number, t`Both have moved meanwhile. Nothing was entered.`);
    });
  }

  async savePgn(number) {
    const text = await pgnOf(this.app, number, true);
    if (text) save(`game-${number}.pgn`, 'application/x-chess-pgn', text);
    this.tellCard(number, text ? '' : t`The lobby did not tell the PGN. Try again.`);
  }

  /** Sends what was agreed to, line by line as long as each is taken; what is refused is told in words. */
  async enter({ number, lines, button }) {
    const card = this.cards.get(number);
    if (!card) return;
    const tell = (text, kind) => this.tellCard(number, text, kind);
    tell('');
    card.busy = true;
    this.renderActs(card);
    for (const line of lines) {
      const answer = await this.app.wire.say(line), refusal = readRefusal(answer[0]);
      if (!answer[0].startsWith('ok ')) {
        const isGone = refusal && refusal.number === NO_GAME;
        if (isGone) this.note(t`Game ${number} is not on the table any more.`, 'refused');
        else if (refusal) tell(arbiterWords(refusal));
        else if (answer[0].startsWith('fallen')) tell(t`The flag had fallen: the game is over by that.`, 'news');
        else if (answer[0] === 'unsent') tell(t`There is no connection. Nothing was sent.`);
        else tell(t`The connection broke before the answer came. Look how the game stands before you enter it again.`);
        if (answer[0] !== 'unsent' && this.cards.has(number)) this.ask(number);
        break;
      }
    }
    card.busy = false;
    if (!this.cards.has(number)) return;
    this.renderActs(card);
    const at = document.activeElement;
    if (!at || at === document.body || at === button) (button.hidden || button.disabled ? card.title : button).focus();
  }

  tellCard(number, text, kind = 'refused') {
    const card = this.cards.get(number);
    if (!card) return;
    setText(card.note, text);
    for (const one of ['refused', 'news']) card.note.classList.toggle(one, Boolean(text) && one === kind);
  }

  /** Games that wait for a second player, but the pairing that is under way here. */
  waiting() {
    const begun = this.pairing.begun;
    return [...this.rows().values()].filter((row) => kindOf(row) === WAITS && !(begun && begun.number === row.number));
  }

  askStop() {
    this.question.ask({ title: t`Stop new games?`, yes: t`Stop them`,
      words: t`Players open no game then: who tries is told so. Games that wait, ${this.waiting().length} now, are taken
        off the table, so that nobody joins them, and who waits in one is told so. Games that go on are left alone, and
        arbiters pair on.` }, () => this.entries('pause'));
  }

  /** Stops new games, also those that wait, and allows them. */
  async entries(word) {
    const answer = await this.app.wire.say(`${word} entries`), refusal = readRefusal(answer[0]);
    if (answer[0].startsWith('ok ')) {
      this.arePaused = word === 'pause';
      this.note('');
      this.renderEntries();
      if (this.arePaused) await this.takeOffWaiting();
    } else {
      const lost = t`The connection broke before the answer came. Do it again.`;
      this.note(refusal ? refusalWords(refusal) : lost, 'refused');
    }
  }

  async takeOffWaiting() {
    await this.app.askTable();
    let off = 0, left = 0;
    for (const { number } of this.waiting()) {
      const [answer] = await this.app.wire.say(`drop ${number}`);
      if (answer.startsWith('ok drop ')) off += 1;
      else if (!/^no (3|41) /.test(answer)) left += 1;           // (it is off the table, or somebody has joined)
    }
    if (off) this.note(t`Games that waited, now off the table: ${off}.`);
    if (left) this.note(t`Not all games that wait were taken off. Look, and do it again.`, 'refused');
  }

  /** Whether new games are stopped, as the lobby tells it: the button shows that. */
  renderEntries() {
    const isOpen = this.app.wire.state.open;
    if (!isOpen) this.arePaused = null;
    byId('entries').disabled = !isOpen || this.arePaused === null;
    byId('entries').classList.toggle('stopped', this.arePaused === true);
    setText(byId('entries'), this.arePaused ? t`New games: stopped` : t`New games: allowed`);
  }

  /** Stops all clocks, for the reason that is written, if any, or has them run again. */
  clocks() {
    const field = byId('stop-reason'), why = field.value.trim() || plain(t`please wait`);
    if (stopped) this.tellAll('start clocks', field, '');
    else this.tellAll('stop clocks', field, why);
  }

  /** Says to the lobby what it tells every page, as it stands in the field, which is empty then. Of what is beyond ASCII it
   * is told how it reads without, or that it cannot be sent. */
  async tellAll(word, field, text = field.value.trim()) {
    if (untold(text)) {
      this.note(toldWords(text), 'refused');
      return;
    }
    const line = `${word} ${plain(text).slice(0, MOST_ANNOUNCED)}`.trim();
    const [answer] = await this.app.wire.say(line), refusal = readRefusal(answer);
    const lost = t`The connection broke before the answer came. Do it again.`;
    if (answer.startsWith('ok ')) {
      field.value = '';
      this.note(toldWords(text));
    } else this.note(refusal ? refusalWords(refusal) : lost, 'refused');
  }

  renderClocks() {
    byId('stop-reason').hidden = byId('stop-label').hidden = Boolean(stopped);
    setText(byId('stop-clocks'), stopped ? t`Start the clocks` : t`Stop the clocks`);
  }

  /** Where something is announced it can be taken away. */
  renderAnnounced() {
    const had = focused() === byId('unannounce');
    byId('unannounce').hidden = !announced;
    if (had && !announced) byId('announcement').focus();
  }

  note(text, kind = 'news') {
    const note = byId('arbiter-note');
    note.className = text ? `note ${kind}` : 'note';
    setText(note, text);
  }
}

/** The day and the time of a moment, by this machine's clock. */
function timeWords(at) {
  return new Date(at).toLocaleString(language === 'en' ? 'en-GB' : language, { dateStyle: 'short', timeStyle: 'medium' });
}

/** Of a row of the table, or of how a game stands. */
function kindOf({ white, black, result }) {
  return result !== '*' ? OVER : white && black ? RUNS : WAITS;
}
