// The hall: several running games at once, large, to be looked at from afar.

import { Picture } from './board.js';
import { Clock } from './clock.js';
import { t } from './language.js';
import { isNoGame, placementOf, readLine, readStanding, squaresOf } from './lines.js';
import { arrange, byId, make, read, setText, write } from './make.js';
import { resultText } from './round.js';
import { colourWord, sanShown } from './words.js';

const STAYS = 45000;                  // how long a game that is over is told of, in a place that no running game wants
const MOST_OVER = 3;                  // so many games that have just ended and have no place are named
const TURNS = 20000;
const ASKS_AGAIN = 4000;              // for a game that was not told

export class HallView {
  constructor(app, rows) {
    this.app = app;
    this.rows = rows;
    this.root = byId('hall-view');
    this.hash = '#/hall';
    this.list = byId('hall-boards');
    this.cards = new Map();
    this.order = [];                   // the numbers of the cards, as they stand beside each other
    this.ended = new Map();            // number -> {names, result, at}, of games that have just ended
    this.first = 0;
    byId('hall-back').addEventListener('click', () => this.page(-1));
    byId('hall-on').addEventListener('click', () => this.page(1));
    byId('hall-many').checked = read(() => localStorage, 'hall') === 'many';
    byId('hall-many').addEventListener('change', (event) => {
      write(() => localStorage, 'hall', event.target.checked ? 'many' : null);
      this.first = 0;
      this.show();
    });
    byId('hall-screen').addEventListener('click', () => wholeScreen());
  }

  open() {
    this.root.hidden = false;
    clearInterval(this.timer);
    clearInterval(this.turning);
    this.timer = setInterval(() => this.fill(), 5000);
    this.turning = setInterval(() => byId('hall-turns').checked && this.page(1), TURNS);
    this.fill();
    this.app.titled(t`Hall`);
  }

  close() {
    this.root.hidden = true;
    clearInterval(this.timer);
    clearInterval(this.turning);
    this.clear();
    this.ended.clear();
  }

  clear() {
    for (const number of [...this.cards.keys()]) this.remove(number);
  }

  /** How many boards stand beside each other. */
  most() {
    return byId('hall-many').checked ? 8 : 4;
  }

  /** After a new connection: what is shown is asked for again. */
  again() {
    for (const number of this.cards.keys()) this.ask(number);
    this.fill();
  }

  running() {
    return [...this.rows().values()].filter((row) => row.white && row.black && row.result === '*')
      .sort((a, b) => a.number - b.number);
  }

  /** Turns to the games behind these, or before them. */
  page(step) {
    const most = this.most(), count = this.running().length, last = Math.floor((count - 1) / most) * most;
    if (count <= most) return;
    if (step > 0) this.first = this.first + most < count ? this.first + most : 0;
    else this.first = this.first > 0 ? Math.max(0, this.first - most) : last;
    this.show();
  }

  /** What an arbiter has decided is told anew. */
  render() {
    for (const [number, { standing, at }] of this.cards) if (standing) this.draw(number, standing, '', '', at);
    this.fill();
  }

  /** The running games that stand here stay, also where games before them have begun or ended. */
  fill() {
    if (this.root.hidden) return;
    const running = this.running(), place = running.findIndex((row) => this.cards.has(row.number));
    if (place >= 0) this.first = place;
    if (this.first >= running.length || running.length <= this.most()) this.first = 0;
    this.show();
  }

  /** The running games of this page. Where they leave a place, one stays there that has ended a short while ago. */
  show() {
    const now = performance.now(), running = this.running(), most = this.most();
    const wanted = running.slice(this.first, this.first + most).map((row) => row.number);
    const runs = new Set(running.map((row) => row.number));
    const over = [...this.cards].filter(([number]) => !runs.has(number));
    for (const [number, card] of this.cards) card.overAt = runs.has(number) ? 0 : card.overAt || now;
    const stay = over.filter(([, card]) => now - card.overAt <= STAYS).sort(([, a], [, b]) => b.overAt - a.overAt)
      .slice(0, most - wanted.length).map(([number]) => number);
    const kept = new Set([...wanted, ...stay]), come = wanted.filter((number) => !this.cards.has(number));
    const order = this.order.map((number) => (kept.has(number) ? number : come.shift())).filter(Boolean);
    order.push(...come);
    for (const [number, card] of [...this.cards]) {
      if (!kept.has(number)) this.remove(number);
      else if (!card.standing && card.askedAt < now - ASKS_AGAIN) this.ask(number);
    }
    for (const number of order) {
      if (!this.cards.has(number)) this.add(number);
    }
    this.order = order;
    arrange(this.list, order.map((number) => this.cards.get(number).root));
    byId('hall-none').hidden = this.cards.size > 0;
    byId('hall-pages').hidden = running.length <= most;
    setText(byId('hall-place'), t`${this.first + 1} to ${this.first + wanted.length} of ${running.length}`);
    setText(byId('hall-over'), this.overWords(now));
    this.list.classList.toggle('many', most > 4);
    this.list.dataset.count = String(this.cards.size);
  }

  /** The games that have just ended and stand here no more, in words. */
  overWords(now) {
    for (const [number, { at }] of this.ended) {
      if (now - at > STAYS) this.ended.delete(number);
    }
    const over = [...this.ended].filter(([number]) => !this.cards.has(number)).slice(-MOST_OVER);
    return over.map(([number, { names, result }]) => {
      const decided = this.app.round.decided(number, result);
      return `${names} ${resultText(decided ? decided.result : result)}`;
    }).join(' · ');
  }

  /** Where a board leads. */
  linkOf(number) {
    return `#/hall/${number}`;
  }

  add(number) {
    const board = new Picture(t`Game ${number}`), card = { board, clocks: {}, names: {} };
    const player = (side) => {
      const clock = make('span', { class: 'clock', role: 'timer' });
      card.names[side] = make('span', { class: 'name' }, make('span', {}), make('span', { class: 'rank' }));
      card.clocks[side] = new Clock(clock);
      return make('div', { class: `card-player ${side === 'w' ? 'white' : 'black'}` },
        make('span', { class: 'disc', 'aria-hidden': 'true' }), card.names[side], clock);
    };
    card.last = make('p', { class: 'card-last' });
    card.root = make('a', { class: 'card', href: this.linkOf(number) }, board.root, player('b'), card.last, player('w'));
    this.cards.set(number, card);
    this.list.append(card.root);
    this.ask(number);
  }

  remove(number) {
    const card = this.cards.get(number);
    Object.values(card.clocks).forEach((clock) => clock.stop());
    card.root.remove();
    this.cards.delete(number);
    this.order = this.order.filter((other) => other !== number);
    this.app.wire.takeBack(`line ${number}`);
    this.app.leaveLater();
  }

  /** The games that this view has to be told of. */
  needs() {
    return [...this.cards.keys()];
  }

  async ask(number) {
    this.cards.get(number).askedAt = performance.now();
    const answer = await this.app.watch(number);
    const standing = answer[0].startsWith('ok ') && readStanding(answer.slice(1));
    if (!standing) {
      if (isNoGame(answer[0])) this.refused(number);
      return;
    }
    this.draw(number, standing, '', '');
    const told = await this.app.wire.say(`line ${number}`, true), card = this.cards.get(number);
    const line = told[0].startsWith('ok ') ? readLine(told.slice(1)) : [], last = line[line.length - 1];
    if (!last || !card || !card.standing || card.standing.fen !== last.fen) return;
    Object.assign(card, { line, move: last, san: last.san });
    this.draw(number, card.standing, '', '', card.at);
  }

  /** There is no such game. */
  refused(_number) {}

  notice(number, sent, answer, standing) {
    if (this.root.hidden) return;
    if (standing && standing.article && !this.ended.has(number)) {
      const names = [standing.white, standing.black].map((name) => this.app.nameWords(name)).join(' – ');
      this.ended.set(number, { names, result: standing.result, at: performance.now() });
    }
    if (this.cards.has(number)) {
      if (standing) this.draw(number, standing, sent, answer);
      else this.remove(number);
    }
    this.fill();
  }

  draw(number, standing, sent, answer, at = performance.now()) {
    const card = this.cards.get(number);
    if (!card) return;
    Object.assign(card, { standing, at });
    const runs = !standing.article, moved = /^ok (?:move \d+|claim \d+ wrong) \d+ (\S+)/.exec(answer);
    const row = this.rows().get(number);
    if (row && !runs) row.result = standing.result;
    if (moved) Object.assign(card, { move: squaresOf(sent.split(' ').pop()), san: moved[1] });
    if (moved && card.line) card.line.push({ san: moved[1] });
    card.board.show({ fen: standing.fen, last: card.move, check: standing.check });
    for (const side of ['w', 'b']) {
      const name = side === 'w' ? standing.white : standing.black, rank = this.app.rankOf(name);
      setText(card.names[side].firstChild, this.app.nameWords(name));
      setText(card.names[side].lastChild, rank && ` ${rank}`);
      card.clocks[side].label = colourWord(side);
      card.clocks[side].set({ left: standing.left[side], at, running: runs && standing.side === side });
      card.names[side].parentElement.classList.toggle('turn', runs && standing.side === side);
    }
    card.root.classList.toggle('done', !runs);
    setText(card.last, runs ? sanShown(card.san || '') : this.app.round.outcomeWords(standing));
    card.board.root.setAttribute('aria-label', t`Game ${number}, ${placementOf(standing.fen).size} men on the board`);
  }
}

/** The whole screen, and back. */
export function wholeScreen() {
  if (document.fullscreenElement) document.exitFullscreen();
  else if (document.documentElement.requestFullscreen) document.documentElement.requestFullscreen().catch(() => {});
}
