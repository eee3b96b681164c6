// A page for a screen that nobody touches: `/board/G` shows one game as large as the screen allows, `/boards` all that run.

import { announcedTold } from './announced.js';
import { Broadcast } from './broadcast.js';
import { HallView } from './hall.js';
import { t } from './language.js';
import { readAct, readLine, readRows, readStanding, sideOf } from './lines.js';
import { byId, make, setText } from './make.js';
import { RoundFile } from './round.js';
import { clocksTold } from './stopped.js';
import { sanShown } from './words.js';

const MOST_SHOWN = 6;                // so many of the last moves, of both sides together
const LOOKS = 15000;                 // milliseconds between two looks whether an arbiter's decisions are others

/** All running games, in pages that turn by themselves. */
class Wall extends HallView {
  linkOf(number) {
    return `/board/${number}`;
  }
}

/** One game, and nothing else. Where it is not there it is asked for again. */
class OneBoard extends HallView {
  constructor(app, number) {
    super(app, () => new Map());
    this.number = number;
    this.root.classList.add('one-board');
    byId('hall-many').closest('label').hidden = true;
  }

  linkOf() {
    return '/boards';
  }

  fill() {
    const card = this.cards.get(this.number);
    if (!card) this.add(this.number);
    else if (!card.standing) this.ask(this.number);
  }

  add(number) {
    super.add(number);
    const card = this.cards.get(number);
    card.moves = make('ol', { class: 'screen-moves', 'aria-label': t`The last moves` });
    card.outcome = make('p', { class: 'screen-outcome' });
    card.last.after(card.moves, card.outcome);
    this.list.dataset.count = '1';
  }

  /** Taken off the table: the next game of this number may come. */
  remove(number) {
    super.remove(number);
    this.told(t`Game ${number} is not on the table.`);
  }

  told(words) {
    byId('hall-none').hidden = !words;
    setText(byId('hall-none'), words);
  }

  refused(number) {
    this.told(t`Game ${number} is not on the table.`);
  }

  draw(number, standing, sent, answer, at = performance.now()) {
    super.draw(number, standing, sent, answer, at);
    const card = this.cards.get(number);
    this.told('');
    const known = card.line && card.line.length === standing.ply + 1 && card.move && card.move.from;
    if (sent && standing.ply && !known) this.recall(number);
    setText(card.outcome, standing.article ? this.app.round.outcomeWords(standing) : '');
    this.drawMoves(card);
    this.app.titled(`${this.app.nameWords(standing.white) || '…'} – ${this.app.nameWords(standing.black) || '…'}`);
  }

  /** The moves are asked for again, where one was missed, or was told by its name alone. */
  async recall(number) {
    const line = await this.app.wire.say(`line ${number}`, true), card = this.cards.get(number);
    if (!card || !line[0].startsWith('ok ')) return;
    const steps = readLine(line.slice(1)), last = steps[steps.length - 1];
    if (last.fen !== card.standing.fen) return;
    Object.assign(card, { line: steps, move: last, san: last.san });
    this.draw(number, card.standing, '', '', card.at);
  }

  drawMoves(card) {
    if (!card.line || !card.line[0]) return;
    const shift = sideOf(card.line[0].fen) === 'b' ? 1 : 0, first = Number(card.line[0].fen.split(' ')[5] || 1);
    const rows = new Map();
    card.line.slice(1).forEach(({ san }, ply) => {
      const place = ply + shift, number = first + Math.floor(place / 2);
      if (!rows.has(number)) rows.set(number, ['', '']);
      rows.get(number)[place % 2] = sanShown(san);
    });
    const shown = [...rows].slice(-MOST_SHOWN / 2);
    card.moves.replaceChildren(...shown.map(([number, sans]) => make('li', {},
      make('span', { class: 'number' }, `${number}.`), make('span', {}, sans[0] || '…'), make('span', {}, sans[1]))));
  }
}

class Screen {
  constructor() {
    this.rows = new Map();
    this.watched = new Set();          // games of which this screen is told
    const found = /^\/board\/(\d{1,10})$/.exec(location.pathname);
    this.view = found ? new OneBoard(this, Number(found[1])) : new Wall(this, () => this.rows);
    this.wire = new Broadcast({
      opened: () => this.opened(), notice: (lines) => this.notice(lines), clocks: clocksTold,
      announced: announcedTold, changed: () => this.changed(), served: (isServed) => { byId('no-broadcast').hidden = isServed; },
    });
    this.round = new RoundFile((isOther) => isOther && this.view.render());
    this.view.open();
    this.round.look();
    setInterval(() => document.hidden || this.round.look(), LOOKS);
  }

  // ---- what the view asks for

  nameWords(name) {
    return this.wire.names.get(name) || name;
  }

  rankOf(name) {
    return this.wire.rankOf(name);
  }

  titled(text) {
    document.title = t`${text} · Chess club`;
  }

  watch(number) {
    this.watched.add(number);
    return this.wire.say(`watch ${number}`);
  }

  /** What is shown no more is left. */
  leaveLater() {
    for (const number of this.watched) {
      if (this.view.cards.has(number)) continue;
      this.watched.delete(number);
      this.wire.say(`leave ${number}`);
    }
  }

  // ---- what the files tell

  /** They are there: what is shown, once more. */
  async opened() {
    if (!(this.view instanceof OneBoard)) {
      const answer = await this.wire.say('lobby');
      if (answer[0] === 'ok lobby') this.rows = new Map(readRows(answer.slice(2)).map((row) => [row.number, row]));
    }
    this.view.again();
  }

  notice(lines) {
    const number = Number(lines[0].split(' ')[1]), { sent } = readAct(lines[1]), standing = readStanding(lines.slice(3));
    if (standing) this.rows.set(number, standing);
    else this.rows.delete(number);
    this.view.notice(number, sent, lines[2], standing);
  }

  changed() {
    if (!this.wire) return;
    const { open, retryAt } = this.wire.state;
    byId('lost').hidden = open || !retryAt;
  }
}

new Screen();
