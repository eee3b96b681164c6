// What waits for an arbiter: in any running game an offer of a draw, a clock that has run out without a word, and a player
// who has not moved within the default time; and a board of a round whose game is, or may be, a draw by the Laws.

import { t } from './language.js';
import { readShow } from './lines.js';
import { arrange, byId, make, say, setText } from './make.js';
import { SIDES, colourWord, lawWords } from './words.js';

const STEP = 250;                    // a game is asked how it stands four times a second at most,
const ANEW = 10000;                  // and the same game every ten seconds at most
const MOST_SHOWN = 50;

export class Waits {
  /** desk: {app, root, list, absences, running(), has(number), showGame(number), isTouched()}; running() gives all rows of
   * running games, has(number) whether the desk is told of a game, isTouched() whether a hand is at its boards. */
  constructor(desk) {
    this.desk = desk;
    this.seen = new Map();             // number -> {standing, at, askedAt}
    this.items = new Map();            // what is shown, by game and kind
  }

  open() {
    clearInterval(this.timer);
    this.timer = setInterval(() => this.step(), STEP);
    this.render();
  }

  close() {
    clearInterval(this.timer);
    this.seen.clear();
    this.items.clear();
  }

  /** How a running game stands was told at the moment `at`, or, by null, nothing of it. */
  told(number, standing, at) {
    this.seen.set(number, { standing, at, askedAt: at });
    this.render();
  }

  forget(number) {
    this.seen.delete(number);
  }

  // ---- asking

  /** Asks the next game, unless an answer is still to come. */
  async step() {
    const app = this.desk.app;
    if (this.busy || document.hidden || !app.isArbiter() || !app.reachable()) return;
    const number = this.next();
    if (number === undefined) {
      await this.askTimes();
      return;
    }
    this.busy = true;
    const answer = await app.wire.say(`show ${number}`, true), standing = readShow(answer[0]), at = performance.now();
    this.busy = false;
    this.told(number, standing && !standing.article ? standing : null, at);
  }

  /** Asks for the times of a game of which they matter. */
  async askTimes() {
    const { absences } = this.desk, standingOf = (number) => (this.seen.get(number) || {}).standing;
    const number = absences.untimed(this.desk.running(), standingOf);
    this.busy = true;
    if (number !== undefined) await absences.ask(number);
    this.busy = false;
    this.render();
  }

  /** Of all running games first one whose clock, as it was told last, has run out by now; then, of those that the desk
   * is not told of, the one that was asked the longest ago. */
  next() {
    const now = performance.now(), numbers = this.desk.running().map((row) => row.number);
    const hasRunOut = numbers.find((number) => this.isDue(this.seen.get(number), now));
    if (hasRunOut !== undefined) return hasRunOut;
    const askedAt = (number) => (this.seen.get(number) || { askedAt: -Infinity }).askedAt;
    const others = numbers.filter((number) => !this.desk.has(number) && now - askedAt(number) >= ANEW);
    return others.reduce((least, number) => (least === undefined || askedAt(number) < askedAt(least) ? number : least),
      undefined);
  }

  isDue(seen, now) {
    if (!seen || !seen.standing) return false;
    const left = seen.standing.left[seen.standing.side];
    return left > 0 && now - seen.at >= left;
  }

  // ---- showing

  /** [{kind, words, row}]: a clock that the server tells as run out, each offer, who has not come, and what is a draw by
   * the Laws, or may be one. */
  found() {
    const found = this.drawn();
    for (const row of this.desk.running()) {
      const { standing, at } = this.seen.get(row.number) || {};
      if (!standing) continue;
      if (standing.left[standing.side] === 0) {
        found.push({ row, kind: 'flag', words: t`${colourWord(standing.side)}’s flag has fallen, and nobody has
          called it` });
      }
      const absent = this.desk.absences.words(standing, at);
      if (absent) found.push({ row, kind: 'late', words: absent });
      const offers = SIDES.filter((side) => standing.offer.includes(side)).map(colourWord);
      if (offers.length) {
        const words = offers.length > 1 ? t`White and Black offer a draw` : t`${offers[0]} offers a draw`;
        found.push({ row, kind: 'offer', words });
      }
    }
    return found.sort((a, b) => a.kind.localeCompare(b.kind) || a.row.number - b.row.number);
  }

  /** The boards of rounds about which an arbiter has to decide, as their file was told last: also where it was not
   * found out whether the winner can mate. */
  drawn() {
    return this.desk.app.round.asked().filter(({ law }) => law.found !== 'mates').map(({ game, white, black, law }) => ({
      kind: 'law', words: lawWords(law), names: [white, black], goesOn: !law.side, row: { number: game } }));
  }

  render() {
    if (this.desk.root.hidden) return;
    const found = this.found(), had = document.activeElement || document.body;
    const keys = found.map(({ row, kind, words }) => `${row.number} ${kind} ${words}`);
    this.tell(found.filter((one, place) => !this.items.has(keys[place])));
    for (const key of this.items.keys()) {
      if (!keys.includes(key)) this.items.delete(key);
    }
    found.forEach((one, place) => this.items.has(keys[place]) || this.items.set(keys[place], this.item(one)));
    this.shrink(found.length === 0);
    arrange(byId('waits-list'), keys.slice(0, MOST_SHOWN).map((key) => this.items.get(key)));
    found.forEach(({ row }, place) => setText(this.items.get(keys[place]).querySelector('.wait-place'),
      this.desk.app.round.boardWords(row.number)));
    setText(byId('waits-count'), String(found.length));
    setText(byId('waits-more'), found.length > MOST_SHOWN ? t`${MOST_SHOWN} of ${found.length} are shown.` : '');
    if (!had.isConnected) (byId('waits-list').querySelector('button') || byId('arbiter-title')).focus();
    this.desk.app.titled(found.length === 0 ? t`Arbiter` : found.length === 1 ? t`Arbiter: 1 waits`
      : t`Arbiter: ${found.length} wait`);
  }

  /** Where nothing waits there is the heading alone. What stands below stays where it is on the screen, under a hand and
   * where the page was scrolled. */
  shrink(isNothing) {
    const { classList } = byId('arbiter-waits'), { desk } = this, top = () => desk.list.getBoundingClientRect().top;
    if (classList.contains('nothing') === isNothing) return;
    const stood = top(), stays = desk.isTouched() || scrollY > 0;
    classList.toggle('nothing', isNothing);
    if (stays) scrollBy(0, top() - stood);
  }

  /** What is new is said once. */
  tell(found) {
    if (found.length === 1) say(t`Game ${found[0].row.number}: ${found[0].words}.`);
    else if (found.length > 1) say(t`${found.length} more things wait for an arbiter.`);
  }

  item({ row, kind, words, names: told, goesOn }) {
    const names = (told || [row.white, row.black].map((name) => this.desk.app.nameWords(name))).join(' – ');
    const { desk } = this, isDecided = kind === 'late' || kind === 'law' && !goesOn;
    return make('li', { class: `wait ${kind}` }, make('span', { class: 'wait-words' }, words),
      make('span', { class: 'wait-game' }, t`Game ${row.number}: ${names}`, ' ',
      make('span', { class: 'wait-place small' })),
      make('button', { type: 'button', 'data-key': `show-${row.number}-${kind}`,
        onclick: () => (isDecided ? desk.decision.lookUp(row.number) : desk.showGame(row.number)) },
      isDecided ? t`Decide the result` : t`Show it`, make('span', { class: 'unseen' }, t`, game ${row.number}`)));
  }
}
