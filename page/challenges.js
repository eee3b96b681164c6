// Games that players offer each other, by the lobby's word `pair`: what one offers stands for ten minutes, and the game is
// there once the other has said the very same. Nothing waits at the table meanwhile, and nobody else can join.

import { t } from './language.js';
import { readRefusal, readTimes, readWho, timesOfOpen } from './lines.js';
import { arrange, byId, make, say } from './make.js';
import { sound } from './sound.js';
import { colourWord, refusalWords, timesWords } from './words.js';

const LOOKS = 20000;                 // milliseconds: nobody tells of one that has run out
const KNOWS_FOR = 5000;              // so long after the players were told they are not asked for anew
const BEGINS_WITHIN = 1500;          // so long after an offer that was accepted its game may be told
const QUIET = 10000;                 // so long after a player's offer was said another one of the same is only shown

export class Challenges {
  /** app: {wire, me(), isArbiter(), nameWords(name), players, askPlayers(), learnNames(names), reachable(), go(route),
   * ownRunning(), retitle(), turns}. */
  constructor(app) {
    this.app = app;
    this.items = new Map();            // of each offer that is shown, by its row, the element
    this.said = new Set();             // the rows of those that were said
    this.saidAt = new Map();           // of each player of whom one was said, when
    this.asked = new Set();            // the rows of those that were to be accepted while another game goes on
    this.isLooking = this.isStale = false;
    this.filled = '';                  // the opponents who may be chosen
    this.filledAt = -Infinity;
    this.here = null;                  // the names of who is connected, once that was told
    byId('against').addEventListener('focus', () => this.lookForPlayers());
    setInterval(() => this.items.size && this.look(), LOOKS);
  }

  /** Which stand: asked for one question at a time, and once more where something was told meanwhile. */
  async look() {
    this.isStale = this.isLooking;
    if (this.isLooking) return;
    this.isLooking = true;
    try {
      do {
        this.isStale = false;
        await this.ask();
      } while (this.isStale);
    } finally {
      this.isLooking = false;
    }
  }

  /** Shows them as the lobby tells them. */
  async ask() {
    const { app } = this, me = app.me();
    if (!me || !app.wire.state.open) return this.show([]);
    const [head, ...rows] = await app.wire.say('offers', true);
    if (!head.startsWith('ok offers ') || app.me() !== me) return null;
    await app.learnNames(rows.map((row) => this.read(row).other));
    const gone = [...this.items.keys()].filter((row) => this.isOwn(row) && !rows.includes(row));
    if (gone.length) setTimeout(() => gone.forEach((row) => this.ended(row)), BEGINS_WITHIN);
    return this.show(rows);
  }

  /** One's own offer stands no more, and one has not taken it back: it was not accepted, unless the game is there. */
  ended(row) {
    const { other, name } = this.read(row), pair = [this.app.me(), other];
    const isThere = [...this.app.table.rows.values()].some((one) => one.result === '*' && pair.includes(one.white)
      && pair.includes(one.black));
    if (isThere || this.parted === other) return;
    const words = t`${name} has not accepted your game.`;
    byId('taken-back').hidden = false;
    byId('taken-back').textContent = words;
    say(words);
  }

  show(rows) {
    for (const row of this.items.keys()) {
      if (!rows.includes(row)) this.items.delete(row);
    }
    for (const row of rows) if (!this.items.has(row)) this.items.set(row, this.item(row));
    arrange(byId('challenges'), rows.map((row) => this.items.get(row)));
    if (this.app.view === this.app.game) this.app.game.render();
    this.app.retitle();
    this.app.turns.asked(this.offered() !== '');
    this.said = new Set(rows.filter((row) => this.said.has(row)));
    for (const row of rows) if (!this.said.has(row) && !this.isOwn(row)) this.tell(row);
  }

  /** Says an offer; but who offers again and again is not heard all the time. */
  tell(row) {
    const { other } = this.read(row), now = Date.now(), words = this.words(row);
    if (now - (this.saidAt.get(other) || 0) < QUIET) return;
    this.said.add(row);
    this.saidAt.set(other, now);
    say(words);
    sound('offer');
    this.app.turns.tell(words);
  }

  /** Whether a player offers this game, `WHITE BLACK TIMES`. */
  stands(by, line) {
    return this.items.has(`${by} ${line}`);
  }

  /** What one is offered, in words, the first of it; '' where that is nothing. */
  offered() {
    const row = [...this.items.keys()].find((one) => !this.isOwn(one));
    return row ? this.words(row) : '';
  }

  isOwn(row) {
    return row.startsWith(`${this.app.me()} `);
  }

  /** Of a row `BY WHITE BLACK TIMES`: the other player, and what is offered in words. */
  read(row) {
    const [, white, black, ...times] = row.split(' '), isWhite = white === this.app.me();
    return { other: isWhite ? black : white, name: this.app.nameWords(isWhite ? black : white),
      times: timesWords(readTimes(timesOfOpen(`open white ${times.join(' ')}`)))
        + (times.length > 2 ? `, ${t`from a position`}` : ''),
      colour: colourWord(isWhite ? 'w' : 'b'), line: row.slice(row.indexOf(' ') + 1) };
  }

  words(row) {
    const { name, times, colour } = this.read(row);
    return this.isOwn(row) ? t`You offer ${name} a game, ${times}: you are ${colour}.`
      : t`${name} offers you a game, ${times}: you are ${colour}.`;
  }

  item(row) {
    const { other, line } = this.read(row), part = () => this.part(other);
    const button = (words, act, strong) => make('button', { type: 'button', class: strong ? 'strong' : '', onclick: act },
      words);
    return make('div', { class: 'banner good' }, make('p', {}, this.words(row)),
      ...this.isOwn(row) ? [button(t`Take it back`, part, false)]
        : [button(t`Accept`, () => this.accept(row, line), true),
          button(t`Decline`, part, false)]);
  }

  /** The game begins at once, clocks and all: who plays another one is asked once more. */
  accept(row, line) {
    const isAsked = this.asked.has(row) || !this.app.ownRunning().length;
    this.asked.add(row);
    if (isAsked) this.say(line, (words) => this.refused(row, words));
    else this.refused(row, t`Another game of yours goes on: press “Accept” again to play both at once.`);
  }

  refused(row, words) {
    const item = this.items.get(row);
    if (item) item.querySelector('p').textContent = `${this.words(row)} ${words}`;
  }

  async part(other) {
    this.parted = other;
    await this.app.wire.say(`unpair ${other}`);
    this.look();
  }

  /** Offers a game, or takes one that is offered in the same words, `WHITE BLACK TIMES`; whether it is offered now. */
  async say(line, note) {
    this.parted = '';
    byId('taken-back').hidden = true;
    const [answer] = await this.app.wire.say(`pair ${line}`), refusal = readRefusal(answer);
    if (answer.startsWith('ok pair ')) this.app.go(`/game/${answer.split(' ')[2]}`);
    if (refusal) note(refusalWords(refusal));
    else if (answer === 'unsent') note(t`There is no connection. Nothing was sent.`);
    else this.look();
    return answer === 'ok offered';
  }

  /** Nobody tells of a player who has walked in, nor who is connected: who looks for an opponent asks. */
  async lookForPlayers() {
    if (performance.now() - this.filledAt < KNOWS_FOR) return;
    this.filledAt = performance.now();
    const answer = await this.app.wire.say('who', true);
    this.here = answer[0].startsWith('ok who ') ? readWho(answer).names : null;
    this.app.askPlayers();
  }

  /** The opponents who may be chosen: anybody, or one player, by the full name, those who are connected first. */
  fillPlayers() {
    this.filledAt = performance.now();
    const list = byId('against'), chosen = list.value, me = this.app.me();
    const isAway = (name) => Boolean(this.here) && !this.here.has(name);
    const rows = [...this.app.players].filter(([name]) => name !== me)
      .map(([name, { full }]) => ({ name, text: isAway(name) ? `${full}, ${t`not connected`}` : full }))
      .sort((a, b) => Number(isAway(a.name)) - Number(isAway(b.name)) || a.text.localeCompare(b.text));
    const filled = JSON.stringify(rows);
    if (filled !== this.filled) {      // (a list that is open is left alone)
      this.filled = filled;
      list.replaceChildren(make('option', { value: '' }, t`Anybody`),
        ...rows.map(({ name, text }) => make('option', { value: name }, text)));
      list.value = rows.some(({ name }) => name === chosen) ? chosen : '';
    }
    byId('against-field').hidden = !me || this.app.isArbiter() || rows.length === 0;
  }
}
