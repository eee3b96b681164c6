// The games as the club shows them to everybody, for a page without a link that holds: the files /games.json and
// /games/G.json are read again and again, and told to the views in the lobby's lines, as wire.js tells them. Nobody
// connects for it.

import { sideOf } from './lines.js';
import { begin, pgnOf, play } from './study.js';
import { LOST, UNSENT } from './wire.js';
import { OTHER, SIDES, rankWords } from './words.js';

const GAMES = 'games.json';
const LOOKS = { all: 2000, one: 1000 };           // milliseconds between two looks at all games, or at one
const LOOKS_FOR = 5000;                           // for a game that is not there, or files that nobody has made
const PAUSES = [1000, 2000, 5000];                // where nobody answers
const ANSWER_WITHIN = 8000;
const FRESH = 900;                                // what was read so short a time ago is not asked for again
const QUIETLY = 150;                              // between two files for which nobody waits
const NONE = '-', GONE = ['no 3 NoGame'];
const OFFERED_BY = { white: 'w', black: 'b', both: 'wb', [NONE]: NONE };
const ENDED_BY = { '5.1.2': 'resign', '5.2.3': 'accept', '6.9': 'flag' };

/** The time of who makes the files, in milliseconds since 1970, whatever this machine's clock shows: each answer that
 * has a Date tells between which two moments it is. */
class Host {
  constructor() {
    this.least = -Infinity;
    this.most = Infinity;
  }

  /** An answer that went out at `sent` and is here at `came`, of performance.now(), has this Date, in whole seconds. */
  heard(date, sent, came) {
    const at = Date.parse(date || '');
    if (!at) return;
    const least = at - came, most = at + 1000 - sent, isSame = least <= this.most && most >= this.least;
    this.least = isSame ? Math.max(least, this.least) : least;
    this.most = isSame ? Math.min(most, this.most) : most;
  }

  now() {
    return Number.isFinite(this.least) ? performance.now() + (this.least + this.most) / 2 : Date.now();
  }
}

/** What is answered in the place of a file, and after how many milliseconds one is to ask again, where that is told. */
class Refusal extends Error {
  constructor({ status, headers }) {
    super(String(status));
    this.pause = 1000 * Number(headers.get('retry-after')) || 0;
  }
}

/** A file that is asked for again by its tag: `told` is what it has, null where it is not there. */
class File {
  constructor(name, host) {
    this.address = new URL(name, import.meta.url);
    this.host = host;
    this.told = null;
    this.tag = '';
    this.readAt = -Infinity;
  }

  /** What it has now. It throws where nobody answers, or something else than such a file. */
  read() {
    this.reading = this.reading || this.ask().finally(() => { this.reading = null; });
    return this.reading;
  }

  /** The same, unless it was read just now. */
  async fresh() {
    return this.age() < FRESH ? this.told : this.read();
  }

  age() {
    return performance.now() - this.readAt;
  }

  async ask() {
    const late = new AbortController(), timer = setTimeout(() => late.abort(), ANSWER_WITHIN), sent = performance.now();
    try {
      const answer = await fetch(this.address, { cache: 'no-store', signal: late.signal,
        headers: this.tag ? { 'if-none-match': this.tag } : {} });
      this.host.heard(answer.headers.get('date'), sent, performance.now());
      if (answer.status === 404) Object.assign(this, { told: null, tag: '' });
      else if (answer.ok) Object.assign(this, { told: await answer.json(), tag: answer.headers.get('etag') || '' });
      else if (answer.status !== 304) throw new Refusal(answer);
    } finally {
      clearTimeout(timer);
    }
    this.readAt = performance.now();
    return this.told;
  }
}

export class Broadcast {
  /** told: {opened, notice(lines), clocks(reason), announced(text), changed, served(isServed)}, as of Wire; served()
   * says whether the files are there. */
  constructor(told) {
    this.told = told;
    this.state = { open: false, server: '', retryAt: 0, ever: false };
    this.host = new Host();
    this.games = new File(GAMES, this.host);
    this.files = new Map();            // number -> the game's file
    this.names = new Map();            // who plays -> the full name
    this.ranks = new Map();            // and the title with the rating, where one of them is known
    this.said = { stopped: null, announced: null };     // what an arbiter has everybody told, as it was told last
    this.failures = 0;                 // one behind the other
    this.rowsOf = null;
    this.all = new Map();
    this.leaves = 0;                   // how often the table was left
    this.leftAt = 0;                   // and when, by performance.now()
    this.forget();
    this.left = new AbortController();
    const again = () => this.retry(), { signal } = this.left;
    addEventListener('online', again, { signal });
    document.addEventListener('visibilitychange', again, { signal });
    this.retry();
  }

  /** Nothing is watched any more, and nobody is told of the table. */
  forget() {
    this.leaveTable();
    this.watched = new Set();
    this.known = new Map();            // number -> how the game stood when that was told last, null where it was not
  }

  leaveTable() {
    this.isAtTable = false;
    this.leaves += 1;
    this.leftAt = performance.now();
  }

  /** Looks now. */
  retry() {
    clearTimeout(this.timer);
    this.look();
  }

  renew() {
    this.retry();
  }

  /** Reads nothing any more. */
  close() {
    clearTimeout(this.timer);
    this.left.abort();
    this.told.served(true);
    this.change({ open: false, server: '', retryAt: 0 });
  }

  /** Whether the game of a line `watch G` is watched: a page leaves also one that was not there. */
  takeBack(line) {
    return this.watched.has(Number(/^watch (\d+)$/.exec(line)?.[1]));
  }

  // ---- looking

  /** Reads what is shown, tells what is other, and comes again. A page that is hidden reads nothing. */
  async look() {
    if (this.isLooking || this.left.signal.aborted || document.hidden) return;
    this.isLooking = true;
    const fault = await this.readShown().then(() => null, (error) => error);
    this.isLooking = false;
    if (this.left.signal.aborted) return;
    this.failures = fault ? this.failures + 1 : 0;
    const pause = fault ? this.pauseBehind(fault) : !this.games.told ? LOOKS_FOR : this.isAtTable ? LOOKS.all : LOOKS.one;
    this.timer = setTimeout(() => this.look(), pause);
    if (fault) this.failed(pause);
    else this.came();
  }

  /** Of those who fail at the same time not all come again at the same time. */
  pauseBehind(fault) {
    const least = Math.max(fault.pause || 0, PAUSES[Math.min(this.failures, PAUSES.length) - 1]);
    return least * (1 + Math.random() / 2);
  }

  /** What an arbiter has everybody told stands in each file: all games are read for it where no other is. */
  async readShown() {
    const shown = this.isAtTable ? [] : this.watchedFiles(), isDue = (file) => file.told || file.age() >= LOOKS_FOR;
    const isUntold = !shown.some((file) => file.told) && this.games.age() >= LOOKS_FOR;
    if (!this.state.open || this.isAtTable || !this.games.told || isUntold) await this.games.read();
    await Promise.all(shown.filter(isDue).map((file) => file.read()));
  }

  came() {
    this.tellSaid();
    this.told.served(Boolean(this.games.told));
    if (!this.state.open) {
      this.change({ open: true, server: 'here', retryAt: 0 });
      this.told.opened('here');
    } else {
      this.tell();
    }
  }

  failed(pause) {
    this.forget();
    this.change({ open: false, server: '', retryAt: Date.now() + pause });
  }

  change(what) {
    Object.assign(this.state, what);
    this.told.changed();
  }

  watchedFiles() {
    return [...this.watched].map((number) => this.fileOf(number));
  }

  fileOf(number) {
    if (!this.files.has(number)) this.files.set(number, new File(`games/${number}.json`, this.host));
    return this.files.get(number);
  }

  /** How a game stands by what was read last, null where it is not there: by its row while the table is told. */
  now(number) {
    if (this.isAtTable) return this.rows().get(number) || null;
    const { told } = this.fileOf(number);
    return isPlayed(told) ? this.standing(told, lastOf(told)) : null;
  }

  /** All games as they were read last, by number. */
  rows() {
    const { told } = this.games;
    if (this.rowsOf !== told) {
      this.rowsOf = told;
      this.all = new Map((told ? told.games : []).filter(isPlayed).map((row) => [row.game, this.standing({ ...row,
        at: told.at }, { ply: row.plies, san: row.last, text: row.lastMove, fen: row.fen })]));
    }
    return this.all;
  }

  standing({ game, white, black, names, titles = [], ratings = [], clocks, running, at, check, offer, result, article, times,
    start }, last) {
    [white, black].forEach((name, place) => {
      this.names.set(name, names[place]);
      this.ranks.set(name, rankWords(titles[place], ratings[place]));
    });
    return { number: game, white, black, ...last, side: sideOf(last.fen), clocks, running: running[0], at, check, times,
      start, offer: OFFERED_BY[offer], result, article: article === NONE && result !== '*' ? '?' : article };
  }

  /** Tells what was done since it was told last: of a game that is watched all of it, and to the table what begins,
   * ends and goes. */
  tell() {
    const numbers = this.isAtTable ? [...this.rows().keys(), ...this.known.keys()] : this.watched;
    for (const number of new Set(numbers)) {
      if (this.watched.has(number) && !this.known.has(number)) continue;        // (its answer is still to come)
      if (!this.isAtTable && this.fileOf(number).readAt < this.leftAt) continue;      // (it stood as its row until then)
      const before = this.known.get(number) || null, now = this.now(number);
      this.known.set(number, now);
      const isForTable = !before || !now || now.article !== before.article;
      if (!before && !now || !this.watched.has(number) && !isForTable) continue;
      for (const [by, line, answer] of actsBetween(before, now)) {
        const stands = now ? this.standsAs(now) : [...GONE, ...GONE];
        this.told.notice([`told ${number}`, `by ${by} ${line}`, answer, ...stands]);
      }
    }
  }

  /** What an arbiter has everybody told, by the file that was read last: why all clocks are stopped, and what is
   * announced. */
  tellSaid() {
    const files = [this.games, ...this.isAtTable ? [] : this.watchedFiles()].filter(({ told }) => told);
    const [newest] = files.sort((a, b) => b.readAt - a.readAt), { stopped = '', announced = '' } = newest?.told || {};
    const { said } = this;
    this.said = { stopped, announced };
    if (stopped !== said.stopped) this.told.clocks(stopped);
    if (announced !== said.announced) this.told.announced(announced);
  }

  /** The three lines of how a game stands, its clocks as they are now. */
  standsAs(game) {
    const { number, white, black, ply, side, offer, result, article } = game;
    const gone = Math.max(0, this.host.now() - game.at);
    const [left, right] = SIDES.map((one, place) => Math.max(0, Math.round(game.clocks[place]
      - (game.running === one ? gone : 0))));
    return [`ok show ${[number, white, black, ply, side, left, right, offer, result, article].join(' ')}`,
      `ok fen ${number} ${game.fen}`, `moves ${game.check ? '+' : NONE}`];
  }

  // ---- what is asked

  /** The answer to a line, as far as the files have it. While the table is told, what is asked quietly of a game is
   * answered by its row: its times, and its last move. */
  async say(line, quietly = false) {
    if (!this.state.open) return UNSENT;
    const [word, given] = line.split(' '), number = Number(given);
    try {
      if (word === 'lobby') return await this.table();
      if (word === 'leave') return this.leave(given, number);
      if (word === 'players') return this.players();
      if (word === 'watch') return await this.watch(number);
      if (word === 'line' || word === 'pgn') return await this.movesOf(word, number, quietly);
    } catch (failed) {
      return LOST;
    }
    return ['no 31 NoToken'];
  }

  async table() {
    const { leaves } = this;
    await this.games.fresh();
    this.isAtTable = leaves === this.leaves;      // (it may have been left meanwhile)
    const rows = [...this.rows().values()];
    for (const row of rows) if (!this.watched.has(row.number)) this.known.set(row.number, row);
    return ['ok lobby', `ok list ${rows.length}`,
      ...rows.map(({ number, white, black, ply, result }) => [number, white, black, ply, result].join(' '))];
  }

  leave(given, number) {
    if (given === 'lobby') {
      this.leaveTable();
      this.retry();                    // (games that are watched stood as their rows, which are read less often)
    } else {
      this.watched.delete(number);
    }
    return [`ok leave ${given}`];
  }

  /** The title and the rating of who plays, as far as they are known. */
  rankOf(name) {
    return this.ranks.get(name) || '';
  }

  players() {
    const rows = [...this.names].map(([name, full]) => [name, 'player', full].join(' '));
    return [`ok players ${rows.length}`, ...rows];
  }

  async watch(number) {
    this.watched.add(number);
    if (!this.isAtTable) await this.fileOf(number).fresh();
    const now = this.now(number);
    if (this.watched.has(number)) this.known.set(number, now);
    return now ? [`ok watch ${number}`, ...this.standsAs(now)] : GONE;
  }

  async movesOf(word, number, quietly) {
    const row = quietly && this.isAtTable ? this.now(number) : null;
    if (row && word === 'line') return [`ok line ${number} ${row.ply}`, lineOf(row, row.ply)];
    if (row && row.times) return [`ok pgn ${number} 1`, ...tagsOf({ TimeControl: row.times, FEN: row.start })];
    if (quietly) await new Promise((goOn) => setTimeout(goOn, QUIETLY));
    const told = await this.fileOf(number).fresh();
    if (!isPlayed(told)) return GONE;
    const lines = word === 'line' ? stepsOf(told).map(lineOf) : pgnLines(told);
    return [`ok ${word} ${number} ${word === 'line' ? lines.length - 1 : lines.length}`, ...lines];
  }
}

/** What was done between two looks at a game, as who did it, the line and its answer. Of several moves the last. */
function actsBetween(before, now) {
  const game = now || before, { number } = game, nameOf = (side) => (side === 'w' ? game.white : game.black);
  const act = (side, word, answer = `ok ${word} ${number}`) => [nameOf(side), `${word} ${number}`, answer];
  if (!now) return [act('w', 'drop')];
  if (!before) return [act('b', 'join')];
  const acts = [], isMoved = now.ply > before.ply, isOver = now.article !== NONE, { side, ply } = now;
  if (isMoved) {
    acts.push([nameOf(OTHER[side]), `move ${number} ${ply - 1} ${now.text}`, `ok move ${number} ${ply} ${now.san}`]);
  } else if (isOver && before.article === NONE) {
    const word = ENDED_BY[now.article] || 'claim', loser = now.result === '1-0' ? 'b' : 'w';
    acts.push(word === 'flag' ? act(OTHER[loser], word, `fallen ${number} ${now.result} ${now.article}`)
      : act(word === 'accept' ? OTHER[before.offer[0]] || side : loser, word));
  } else if (now.offer === NONE && before.offer !== NONE) {
    acts.push(act(OTHER[before.offer[0]], 'decline'));
  }
  const offers = isOver ? [] : SIDES.filter((one) => now.offer.includes(one) && !before.offer.includes(one));
  return [...acts, ...offers.map((one) => act(one, 'offer'))];
}

/** Whether a file or a row is of a game of the table: of one that left it before the files were begun the PGN alone is
 * known, and it is among those that were kept. */
function isPlayed(told) {
  return Boolean(told) && told.white !== NONE;
}

/** The positions of a game, the start first, each with the move by which it came. */
function stepsOf({ start, moves }) {
  return [[NONE, NONE, start], ...moves].map(([san, text, fen]) => ({ san, text, fen }));
}

function lastOf(told) {
  return { ply: told.moves.length, ...stepsOf(told)[told.moves.length] };
}

function lineOf({ san, text, fen }, ply) {
  return `${ply} ${san} ${text} ${fen}`;
}

function tagsOf(tags) {
  return Object.entries(tags).filter(([, value]) => value).map(([name, value]) => `[${name} "${value}"]`);
}

/** The PGN, with what the mover's clock showed behind each move. */
function pgnLines({ white, black, tags, times, start, moves, result }) {
  const first = begin(start);
  moves.reduce((at, [san, text, , left]) => {
    const next = play(at, text, san);
    if (left !== null) next.comment = `[%clk ${clockOf(Math.floor(left / 1000))}]`;
    return next;
  }, first);
  const all = { ...Object.fromEntries(tags), White: white, Black: black, Result: result, TimeControl: times };
  return pgnOf({ tags: all, start: first }).trimEnd().split('\n');
}

function clockOf(seconds) {
  const two = (number) => String(number).padStart(2, '0');
  return `${Math.floor(seconds / 3600)}:${two(Math.floor(seconds / 60) % 60)}:${two(seconds % 60)}`;
}
