// Games that are over and were kept: all of them, by player, day and result, or those of one player with the score.

import { bothMoved, dateWords, decisionIn, readKept } from './kept.js';
import { language, t } from './language.js';
import { arrange, byId, make, save, setText } from './make.js';
import { folded } from './plain.js';
import { resultText, sideText } from './round.js';
import { decidedWords, resultWords } from './words.js';

const FIRST_SHOWN = 50, MOST_NAMED = 6;
const DRAWS_AFTER = 150;             // milliseconds: the file comes in pieces
const TOLD = {
  none: t`No games are kept here.`, failed: t`The games that were kept cannot be read now.`, part: t`Reading …`,
};

export class FinishedView {
  constructor(app) {
    this.app = app;
    this.root = byId('finished-view');
    this.number = '';                  // the player whose games are shown, '' for those of all
    this.games = [];
    this.items = new Map();            // game -> {result, item}: its element, which stays while more games come
    this.state = 'part';
    this.most = FIRST_SHOWN;
    this.form = byId('finished-form').elements;
    byId('finished-form').addEventListener('submit', (event) => event.preventDefault());
    byId('finished-form').addEventListener('input', () => this.found());
    byId('finished-save').addEventListener('click', () => this.save());
  }

  // ---- coming and going

  open(player) {
    const name = String(player || '');
    this.root.hidden = false;
    if (name !== this.number) byId('finished-form').reset();
    Object.assign(this, { number: name, most: FIRST_SHOWN });
    if (!this.reading) this.read();
    this.app.round.look().then(() => this.render());
    this.render();
  }

  close() {
    this.root.hidden = true;
    if (this.reading) this.reading.abort();
    this.reading = null;
  }

  /** The games that this view has to be told of. */
  needs() {
    return [];
  }

  async read() {
    const reading = new AbortController();
    Object.assign(this, { reading, games: [], items: new Map(), state: 'part' });
    const state = await readKept((games) => {
      if (this.reading === reading) this.games = this.games.concat(games);
      this.renderSoon();
      return this.reading !== reading;
    }, reading);
    if (this.reading !== reading) return;
    Object.assign(this, { reading: null, state });
    this.render();
  }

  // ---- which games

  /** Whether a game has a player by one of these names. */
  static has({ tags }, names) {
    return names.includes(tags.White) || names.includes(tags.Black);
  }

  /** The names under which the player of this page may stand in the archive, also those of a tournament's particulars:
   * where full names are hidden, initials. */
  names() {
    const { app, number } = this, full = app.nameWords(number);
    const names = [number, full, ...app.round.players().filter(({ name }) => name === number).map((one) => one.full)];
    return this.games.some((game) => FinishedView.has(game, names)) ? names : [initialsOf(full)];
  }

  /** The games that are looked for, the newest first. */
  wanted() {
    const { player, day, result } = this.form, text = folded(player.value);
    const date = day.value.replaceAll('-', '.'), names = this.number ? this.names() : [];
    return this.games.filter((game) => {
      const { White, Black, Date: played } = game.tags;
      return (!this.number || FinishedView.has(game, names)) && (!date || played === date)
        && (!result.value || countedOf(this.app.round, game) === result.value)
        && (!text || [White, Black].some((name) => folded(name).includes(text)));
    });
  }

  found() {
    this.most = FIRST_SHOWN;
    this.render();
  }

  save() {
    const name = this.number ? `games-${this.number.replace(/[^\w-]+/g, '-')}` : 'games';
    save(`${name}.pgn`, 'application/x-chess-pgn', this.wanted().map(({ text }) => text).join(''));
  }

  // ---- drawing

  renderSoon() {
    clearTimeout(this.soon);
    this.soon = setTimeout(() => this.render(), DRAWS_AFTER);
  }

  render() {
    if (this.root.hidden) return;
    const games = this.wanted(), name = this.number && this.app.nameWords(this.number);
    const title = name ? t`Games of ${name}` : t`Finished games`;
    setText(byId('finished-title'), title);
    this.app.titled(title);
    byId('finished-all').hidden = byId('finished-score').hidden = !name;
    byId('finished-player').hidden = Boolean(name);
    setText(byId('finished-score'), name ? this.scoreWords(games) : '');
    setText(byId('finished-count'), TOLD[this.state] || t`Games found: ${games.length}`);
    byId('finished-save').disabled = this.state !== 'whole' || !games.length;
    this.renderNames(games);
    const items = games.slice(0, this.most).map((game) => this.itemOf(game));
    if (games.length > this.most) {
      items.push(make('li', { class: 'more' }, make('button', { type: 'button', onclick: () => this.showMore() },
        t`Show ${Math.min(2 * FIRST_SHOWN, games.length - this.most)} more`)));
    }
    arrange(byId('finished-list'), items);
  }

  /** The pages of players whose name is looked for. */
  renderNames(games) {
    const text = folded(this.form.player.value), names = new Set();
    for (const { tags } of text ? games : []) {
      for (const name of [tags.White, tags.Black]) if (folded(name).includes(text)) names.add(name);
    }
    byId('finished-names').hidden = !names.size || names.size > MOST_NAMED;
    byId('finished-names').replaceChildren(t`All games and the score of: `, ...[...names].flatMap((name, place) => [
      place ? ', ' : '', make('a', { href: `#/player/${encodeURIComponent(name)}` }, name)]));
  }

  /** A player's points: `7½ of 12: 6 won, 3 drawn, 3 lost`, by the games in which both have moved: one that was begun by
   * mistake, and one whose opponent did not come, is ended before. One that was played on as another is that one. */
  scoreWords(all) {
    const names = this.names(), continued = new Set(all.map(({ tags }) => tags.Continues));
    const games = all.filter(({ number }) => !continued.has(String(number)));
    const count = { won: 0, drawn: 0, lost: 0 }, counted = games.filter(bothMoved);
    for (const game of counted) {
      const points = sideText(countedOf(this.app.round, game), names.includes(game.tags.White) ? 'w' : 'b');
      count[points === '½' ? 'drawn' : ['1', '+'].includes(points) ? 'won' : 'lost'] += 1;
    }
    const whole = count.won + Math.floor(count.drawn / 2), half = count.drawn % 2 ? '½' : '';
    const points = half && !whole ? half : `${whole}${half}`;
    const words = t`Score: ${points} of ${counted.length} (${count.won} won, ${count.drawn} drawn, ${count.lost} lost)`;
    const rest = games.length - counted.length;
    return rest ? t`${words}. Not counted, since not both had moved: ${rest}` : words;
  }

  showMore() {
    const place = this.most;
    this.most += 2 * FIRST_SHOWN;
    this.render();
    byId('finished-list').querySelectorAll('a')[place].focus();
  }

  itemOf(game) {
    const result = countedOf(this.app.round, game), known = this.items.get(game);
    if (!known || known.result !== result) this.items.set(game, { result, item: keptItem(game, result) });
    return this.items.get(game).item;
  }
}

/** What came of a kept game: what the server says, unless an arbiter has decided it, by the round's file or its own. */
export function countedOf(round, game) {
  const { number, tags: { Result: result } } = game;
  return (round.decided(number, result) || decisionIn(game) || { result }).result;
}

/** A kept game in a list, and the way to it. */
export function keptItem(game, result) {
  const { number, tags } = game;
  const seat = (name, side) => make('span', { class: `seat ${side}` },
    make('span', { class: 'unseen' }, side === 'white' ? t`white: ` : t`black: `),
    make('span', { class: 'name' }, name));
  const score = resultText(result);
  const why = result === tags.Result ? resultWords(result, tags.Article || '').reason : decidedWords(result);
  const reason = bothMoved(game) ? why : t`It does not count: not both have moved`;
  return make('li', { class: 'game-row' }, make('a', { href: `#/game/${number}`, class: 'pairing' },
    make('span', { class: 'number' }, make('span', { class: 'unseen' }, t`Game `), String(number)),
    make('span', { class: 'pair' }, seat(tags.White, 'white'), seat(tags.Black, 'black')),
    make('span', { class: 'times' }, dateWords(tags.Date, language)),
    make('span', { class: 'state', title: reason }, bothMoved(game) ? score : `(${score})`)));
}

/** `A. L.` of `Ann Lee`. */
function initialsOf(full) {
  return full.split(' ').map((word) => (word ? `${[...word][0]}.` : '')).join(' ');
}
