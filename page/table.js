// The table: games that wait for an opponent, that run and that are over, also of those that have left it the last, and
// the form that opens one.

import { countedOf, keptItem } from './finished.js';
import { readKept } from './kept.js';
import { t } from './language.js';
import { readPgn, readRefusal, readRoom, readStanding, readTimes, timesOfOpen } from './lines.js';
import { arrange, byId, make, setText } from './make.js';
import { folded } from './plain.js';
import { resultText } from './round.js';
import { TimesField } from './times.js';
import { NO_FEN, refusalWords, timesInFull, timesWords } from './words.js';

const FIRST_SHOWN = { open: 40, running: 40, over: 10 };
const MOST_OWN = 10, MOST_ROOMS = 10;
const KEPT_AFTER = 4000;             // milliseconds: so long after a game has left the table it is among the kept ones

export class TableView {
  /** app: {wire, me(), nameWords(name), openGame(line, note), others(), tellAgain()}. */
  constructor(app) {
    this.app = app;
    this.root = byId('table-view');
    this.rows = new Map();
    this.all = new Set();
    this.last = [];                    // of the games that were kept the newest
    this.isStale = false;              // newer ones were kept while the tab was hidden
    this.items = new Map();            // what an element shows -> the element
    this.times = new TimesField(byId('open-form'), byId('open-times'));
    byId('open-form').addEventListener('submit', (event) => {
      event.preventDefault();
      this.submit();
    });
    byId('find').addEventListener('input', () => this.render());
    document.addEventListener('visibilitychange', () => document.hidden || this.isStale && this.readNow());
  }

  open() {
    this.root.hidden = false;
    this.watchOwn();
    this.readLast();
    this.render();
  }

  close() {
    this.root.hidden = true;
  }

  /** The games that this view has to be told of. */
  needs() {
    return this.groups().own.slice(0, MOST_OWN).map((row) => row.number);
  }

  /** The whole table, as it was told. */
  load(rows) {
    const before = this.rows;
    this.rows = new Map(rows.map((row) => [row.number, { ...before.get(row.number), ...row }]));
    if ([...before.values()].some((row) => wasPlayed(row) && !this.rows.has(row.number))) this.readLater();
    this.watchOwn();
    this.render();
    this.askTimes();
    this.askRooms();
  }

  /** Whether those are connected who wait: a browser that was killed, or has lost its network, takes no game back. */
  async askRooms() {
    if (this.asksRooms || this.root.hidden || !this.app.me() || !this.app.reachable()) return;
    this.asksRooms = true;
    for (const row of this.groups().open.slice(0, MOST_ROOMS)) {
      const room = readRoom(await this.app.wire.say(`room ${row.number}`, true)), now = this.rows.get(row.number);
      if (room && now) now.isAway = room.away.has(now.white || now.black);
    }
    this.asksRooms = false;
    this.render();
  }

  notice(number, sent, standing) {
    if (!standing) {
      if (wasPlayed(this.rows.get(number))) this.readLater();
      this.rows.delete(number);
    } else {
      const { white, black, ply, result, side } = standing, before = this.rows.get(number) || {};
      const times = sent.startsWith('open ') ? readTimes(timesOfOpen(sent)) : before.times;
      const own = sent.startsWith('open ') && sent.split(' ').length > 4;
      this.rows.set(number, { ...before, number, white, black, ply, result, side, times, own: own || before.own });
      if (!times) this.askTimes();
    }
    this.watchOwn();
    this.render();
  }

  /** The games that were kept last: as many as are shown, beside those that are on the table too. */
  async readLast() {
    if (this.readsLast) return;
    this.readsLast = true;
    let found = [];
    const state = await readKept((games) => {
      found = found.concat(games);
      return this.apart(found).length >= FIRST_SHOWN.over;
    });
    this.readsLast = false;
    if (state !== 'failed') this.last = found.slice(0, FIRST_SHOWN.over + this.rows.size);
    this.render();
  }

  readLater() {
    clearTimeout(this.reads);
    this.reads = setTimeout(() => this.readNow(), KEPT_AFTER);
  }

  /** Nobody reads them for who looks elsewhere, who has them as soon as they look. */
  readNow() {
    this.isStale = document.hidden;
    if (!this.isStale && !this.root.hidden) this.readLast();
  }

  /** Of these games those that are not on the table. */
  apart(games) {
    return games.filter(({ number }) => !this.rows.has(number));
  }

  /** A row has no times: they stand in the game's PGN, and never change. */
  async askTimes() {
    if (this.asking) return;
    this.asking = true;
    for (let row = this.untimed(); row && this.app.reachable() && !this.root.hidden; row = this.untimed()) {
      const answer = await this.app.wire.say(`pgn ${row.number}`, true);
      if (!answer[0].startsWith('ok ')) {
        if (!answer[0].startsWith('no ')) break;
        row.times = null;
        continue;
      }
      const { tags } = readPgn(answer.slice(1));
      row.times = readTimes(tags.TimeControl || '');
      row.own = Boolean(tags.FEN);
      this.renderSoon();
    }
    this.asking = false;
  }

  untimed() {
    const groups = this.groups();
    return [...groups.own, ...groups.open, ...groups.running.slice(0, 40), ...groups.over.slice(0, 15)]
      .find((row) => row.times === undefined);
  }

  /** At the table one's own games are watched, so that it shows whose turn it is, and at a board the others that go on. */
  async watchOwn() {
    const rows = this.root.hidden ? this.app.others() : this.groups().own;
    if (!this.app.me() || !this.app.reachable()) return;
    for (const row of rows.slice(0, MOST_OWN)) {
      // (one that was left for the table a moment ago is still watched, and its row knows no side yet)
      if (this.app.watched.has(row.number) && row.side) continue;
      const answer = await this.app.watch(row.number);
      const standing = answer[0].startsWith('ok ') && readStanding(answer.slice(1));
      const now = this.rows.get(row.number);
      if (standing && now) Object.assign(now, { side: standing.side, ply: standing.ply });
      if (this.root.hidden) this.app.tellAgain();
      this.renderSoon();
    }
  }

  renderSoon() {
    clearTimeout(this.soon);
    this.soon = setTimeout(() => this.render(), 60);
  }

  groups() {
    const me = this.app.me(), text = folded(byId('find').value);
    const has = (name) => name && folded(`${name} ${this.app.nameWords(name)}`).includes(text);
    const groups = { own: [], open: [], running: [], over: [] };
    for (const row of this.rows.values()) {
      const mine = me && (row.white === me || row.black === me), waits = !row.white || !row.black;
      if (mine && row.result === '*') groups.own.push(row);
      else if (text && !has(row.white) && !has(row.black)) continue;
      else if (row.result !== '*') groups.over.unshift(row);
      else (waits ? groups.open : groups.running).push(row);
    }
    return groups;
  }

  render() {
    this.app.retitle();
    if (this.root.hidden) return;
    const groups = this.groups(), me = this.app.me();
    byId('own-games').hidden = groups.own.length === 0;
    byId('open-form').hidden = !me;
    byId('only-watching').hidden = Boolean(me);
    byId('waiting-games').hidden = !me;          // (nobody else is told of them)
    byId('own-finished').hidden = !me;
    byId('own-finished').href = `#/player/${me || ''}`;
    byId('open-game').disabled = !this.app.reachable();
    this.used = new Set();
    for (const kind of ['own', 'open', 'running']) this.renderGroup(kind, groups[kind]);
    this.renderGroup('over', groups.over, this.lastItems(FIRST_SHOWN.over - groups.over.length));
    for (const key of this.items.keys()) {
      if (!this.used.has(key)) this.items.delete(key);
    }
    const turns = groups.own.filter((row) => this.mayMove(row)), yours = turns.length;
    this.app.turns.offer(Boolean(me));
    this.app.turned(turns.map(({ number, ply }) => `${number} ${ply}`).join(), t`It is your turn.`);
    this.app.titled(yours === 0 ? t`Games` : yours === 1 ? t`Your turn in 1 game` : t`Your turn in ${yours} games`);
  }

  /** So many of the games that were kept, of those that are looked for. */
  lastItems(most) {
    const text = byId('find').value.trim().toLowerCase();
    const has = ({ tags }) => `${tags.White}\n${tags.Black}`.toLowerCase().includes(text);
    const found = this.apart(this.last).filter(has);
    return found.slice(0, Math.max(0, most)).map((game) => {
      const result = countedOf(this.app.round, game);
      return this.kept(`kept ${game.number} ${result}`, () => keptItem(game, result));
    });
  }

  /** The rows of the table, and behind them other items. */
  renderGroup(kind, rows, behind = []) {
    const most = this.all.has(kind) ? Infinity : FIRST_SHOWN[kind] || Infinity;
    const shown = rows.slice(0, most).map((row) => this.itemOf(row, kind));
    if (rows.length > most) {
      shown.push(this.kept(`more ${kind} ${rows.length}`, () => make('li', { class: 'more' },
        make('button', { type: 'button', onclick: () => this.showAll(kind) }, t`Show all ${rows.length}`))));
    }
    shown.push(...behind);
    if (shown.length === 0) shown.push(this.kept(`none ${kind}`, () => make('li', { class: 'none' }, NOTHING[kind])));
    arrange(byId(`${kind}-list`), shown);
    setText(byId(`${kind}-count`), rows.length && !behind.length ? String(rows.length) : '');
  }

  /** The row's element, the same as long as it shows the same. */
  itemOf(row, kind) {
    const names = [row.white, row.black].map((name) => this.app.nameWords(name));
    const ranks = [row.white, row.black].map((name) => this.app.rankOf(name));
    const shows = [kind, row.number, names, ranks, timesWords(row.times), row.own, this.stateWords(row), row.isAway,
      this.app.me(), this.app.reachable()];
    return this.kept(JSON.stringify(shows), () => this.item(row, kind));
  }

  kept(key, build) {
    if (!this.items.has(key)) this.items.set(key, build());
    this.used.add(key);
    return this.items.get(key);
  }

  showAll(kind) {
    this.all.add(kind);
    this.render();
  }

  mayMove(row) {
    const me = this.app.me();
    return Boolean(row.result === '*' && row.white && row.black && row.side
      && (row.side === 'w' ? row.white : row.black) === me);
  }

  item(row, kind) {
    const sideWords = { white: t`white: `, black: t`black: ` };
    const seat = (name, side) => make('span', { class: `seat ${side}` },
      make('span', { class: 'unseen' }, sideWords[side]),
      name ? make('span', { class: 'name' }, this.app.nameWords(name)) : make('span', { class: 'free' }, t`free`),
      make('span', { class: 'rank' }, this.app.rankOf(name)));
    const link = make('a', { href: `#/game/${row.number}`, class: 'pairing', 'data-key': `look-${row.number}` },
      make('span', { class: 'number' }, make('span', { class: 'unseen' }, t`Game `), String(row.number)),
      make('span', { class: 'pair' }, seat(row.white, 'white'), seat(row.black, 'black')),
      make('span', { class: 'times', title: timesInFull(row.times) }, timesWords(row.times),
        row.own ? make('span', { class: 'own-start' }, t`from a position`) : ''),
      make('span', { class: 'state' }, this.stateWords(row)));
    const item = make('li', { class: this.mayMove(row) ? 'game-row yours' : 'game-row' }, link);
    if (kind === 'open' && row.isAway) item.append(make('span', { class: 'away' }, t`not connected`));
    else if (kind === 'open' && this.app.me()) {
      item.append(make('button', { type: 'button', class: 'strong', 'data-key': `join-${row.number}`,
        'aria-label': t`Join game ${row.number}`, disabled: !this.app.reachable(),
        onclick: () => this.join(row.number) }, t`Join`));
    }
    return item;
  }

  stateWords(row) {
    if (row.result !== '*') return resultText(this.counted(row));
    if (!row.white || !row.black) return '';
    if (this.mayMove(row)) return t`your turn`;
    const me = this.app.me();
    if (row.white !== me && row.black !== me) return t`watch`;
    return row.side ? t`their turn` : '';
  }

  /** What came of a game that is over: what the server says, unless an arbiter has decided it. */
  counted({ number, result }) {
    const kept = this.last.find((game) => game.number === number);
    return kept ? countedOf(this.app.round, kept) : (this.app.round.decided(number, result) || { result }).result;
  }

  // ---- acting

  note(text) {
    setText(byId('table-note'), text);
    byId('table-note').classList.toggle('refused', Boolean(text));
  }

  async join(number) {
    this.note('');
    const answer = await this.app.wire.say(`join ${number}`), refusal = readRefusal(answer[0]);
    if (refusal) this.note(refusalWords(refusal));
    else if (answer[0] === 'unsent') this.note(t`There is no connection. Nothing was sent.`);
    else {
      if (answer[0] === 'lost') this.app.game.lostJoin = number;
      this.app.go(`/game/${number}`);
    }
  }

  /** A position and an opponent are for one game: the next begins from the usual one, and is anybody's. */
  opened() {
    byId('open-form').elements.fen.value = byId('against').value = '';
    byId('open-form').querySelector('.from-position').open = false;
  }

  async submit() {
    const form = byId('open-form').elements;
    const colour = form.colour.value || (crypto.getRandomValues(new Uint8Array(1))[0] % 2 ? 'white' : 'black');
    const fen = form.fen.value.trim();
    if (/[^\x20-\x7e]/.test(fen)) {
      this.note(NO_FEN);
      return;
    }
    this.note('');
    const rest = `${this.times.line()}${fen ? ' ' + fen : ''}`, note = (text) => this.note(text), me = this.app.me();
    const other = form.against.value, pair = colour === 'white' ? `${me} ${other}` : `${other} ${me}`;
    if (other && await this.app.challenges.say(`${pair} ${rest}`, note)) this.opened();
    else if (!other) this.app.openGame(`open ${colour} ${rest}`, note);
  }
}

/** Whether a row is of a game that both had joined: where it leaves the table it is kept. */
function wasPlayed(row) {
  return Boolean(row && row.white && row.black);
}

const NOTHING = {
  own: '', open: t`Nobody waits for an opponent.`, running: t`No game is being played.`, over: t`No finished games yet.`,
};
