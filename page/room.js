// Who is there while a game waits or goes on: whether its players are connected, and by how many connections it is
// watched.

import { t } from './language.js';
import { readRoom } from './lines.js';
import { say } from './make.js';
import { OTHER } from './words.js';

const ASKS_ROOM = 15000;
const MINUTE = 60000;

export class Room {
  /** game: {app, number, standing, running(), seat(), render()}. */
  constructor(game) {
    this.game = game;
    this.clear();
    setInterval(() => document.hidden || this.ask(), ASKS_ROOM);
  }

  /** Another game is shown, of which nothing is known so far. */
  clear() {
    this.since = new Map();            // of each player who is away, since when, null where that is not known
    this.watching = 0;
  }

  /** Whether it is asked about: the game waits, or goes on. */
  isAsked() {
    const { standing } = this.game;
    return Boolean(standing) && !standing.article;
  }

  /** Asks the lobby, which tells it to who has a link. */
  async ask() {
    const { game } = this, { app, number } = game;
    if (!app.me()) this.clear();
    if (!app.me() || !number || !this.isAsked()) return;
    const room = readRoom(await app.wire.say(`room ${number}`, true)), now = Date.now();
    if (!room || game.number !== number) return;
    const before = this.since;
    const since = (seconds) => (seconds === null ? null : now - 1000 * seconds);
    this.since = new Map([...room.away].map(([name, seconds]) => [name, since(seconds)]));
    // (a player who is here watches too; who watches by files has no connection, and nobody counts them)
    this.watching = Math.max(0, room.watching - room.here.size);
    this.tell(before);
    game.render();
  }

  /** Who has done something is here. */
  acted(name) {
    this.since.delete(name);
  }

  /** Who plays hears that the opponent goes, and comes again. */
  tell(before) {
    const { app, standing } = this.game, other = OTHER[this.game.seat()];
    if (!other) return;
    const name = other === 'w' ? standing.white : standing.black, isAway = this.since.has(name);
    if (isAway === before.has(name)) return;
    say(isAway ? t`${app.nameWords(name)} is not connected.` : t`${app.nameWords(name)} is connected again.`);
  }

  /** Who waits alone and is not connected: nobody shall join, since the clocks would run. '' where that is not so. */
  absent() {
    const { standing } = this.game, name = standing && !this.game.started() ? standing.white || standing.black : '';
    return this.since.has(name) ? name : '';
  }

  /** What stands beside a player's name. */
  awayWords(name) {
    if (!this.isAsked() || !this.since.has(name)) return '';
    const since = this.since.get(name), minutes = since === null ? 0 : Math.floor((Date.now() - since) / MINUTE);
    return minutes ? t`not connected for ${minutes} min` : t`not connected`;
  }

  watchedWords() {
    return this.watching && this.game.running() ? t`Spectators connected: ${this.watching}` : '';
  }
}
