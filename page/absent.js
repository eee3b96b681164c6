// Who has not come when the default time is over (6.7), which an arbiter writes down at the desk: then that waits. Who is
// connected is there.

import { t } from './language.js';
import { readPgn, readTimes } from './lines.js';
import { byId, read, write } from './make.js';
import { stopped } from './stopped.js';
import { AGREED, SIDES, colourWord } from './words.js';

const KEY = 'default-time';            // minutes
export const MINUTE = 60000;
const SECOND = 1000;
const local = () => localStorage;

export class Absences {
  /** changed() is called where another time is written; isHere(name) tells whether a player is connected. */
  constructor(app, isHere, changed) {
    this.app = app;
    this.isHere = isHere;
    this.late = new Set();             // the game's number and the side of who was not here when the time was over
    this.times = new Map();            // number -> the game's times, null where they are not told
    this.fallen = new Map();           // number -> the moment at which a flag was first seen fallen, and the clock stands
    this.field = byId('default-time');
    this.field.value = read(local, KEY) || '';
    this.field.addEventListener('input', () => {
      write(local, KEY, this.minutes() ? String(this.minutes()) : null);
      changed();
    });
  }

  /** The default time, 0 where there is none. */
  minutes() {
    return this.field.checkValidity() ? Number(this.field.value) : 0;
  }

  /** The next game of which it matters that its times are not known; undefined where there is none. */
  untimed(rows, standingOf) {
    if (!this.minutes()) return undefined;
    return rows.map(({ number }) => number).find((number) => !this.times.has(number) && isAbsent(standingOf(number)));
  }

  /** Asks for a game's times, which its PGN has. */
  async ask(number) {
    const answer = await this.app.wire.say(`pgn ${number}`, true);
    if (answer[0].startsWith('ok ')) this.times.set(number, readTimes(readPgn(answer.slice(1)).tags.TimeControl || ''));
    else if (answer[0].startsWith('no ')) this.times.set(number, null);
  }

  /** For how many milliseconds both clocks have run in a game that stood so at the moment `at`, before both have moved;
   * null where its times are not known. */
  ran({ number, ply, side: mover, left }, at) {
    const times = this.times.get(number);
    if (!times) return null;
    if (left[mover] === 0 && !this.fallen.has(number)) this.fallen.set(number, at);
    const from = left[mover] === 0 ? this.fallen.get(number) : at, since = stopped ? 0 : performance.now() - from;
    const gone = (side) => SECOND * times.initial - left[side];
    return Math.max(0, since + (ply === 0 ? gone('w') : gone('w') + SECOND * times.increment + gone('b')));
  }

  /** Of a game's sides that have not made a move, those whose player is not here. */
  away(standing) {
    const { ply, side, white, black } = standing, name = { w: white, b: black };
    return isAbsent(standing) ? SIDES.filter((one) => (ply === 0 || one === side) && !this.isHere(name[one])) : [];
  }

  /** The sides whose player is not here, or was not when the default time was over. */
  absent(standing) {
    const away = this.away(standing);
    return SIDES.filter((side) => away.includes(side) || this.late.has(`${standing.number} ${side}`));
  }

  /** What waits of a game that stood so at the moment `at`; '' where nothing does. */
  words(standing, at) {
    const minutes = this.minutes(), ran = minutes && isAbsent(standing) ? this.ran(standing, at) : null;
    if (ran === null || ran < MINUTE * minutes) return '';
    const away = this.away(standing);
    for (const side of away) this.late.add(`${standing.number} ${side}`);
    const late = this.absent(standing).filter((side) => standing.ply === 0 || side === standing.side);
    if (late.length > 1) return t`Neither player has come within the default time, ${minutes} min`;
    return late.length === 0 ? ''
      : away.length ? t`${colourWord(late[0])} has not come within the default time, ${minutes} min`
      : t`${colourWord(late[0])} has come after the default time, ${minutes} min`;
  }
}

/** Whether who is to move in a game that runs has not made a move so far. */
export function isAbsent(standing) {
  return Boolean(standing && standing.white && standing.black && !standing.article && standing.ply < AGREED);
}
