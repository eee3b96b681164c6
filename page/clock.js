// A clock that runs on by itself from the milliseconds that were told.

import { setText } from './make.js';
import { clockText, clockWords } from './words.js';

const LOW = 20000;

// When all clocks stood still, {from, to} by performance.now(); they do so still where the last has no end.
const halts = [];

/** A moment of performance.now() as clocks count it, which stands still while they do. */
function moment(at = performance.now()) {
  return at - halts.reduce((stood, { from, to }) => stood + Math.max(0, Math.min(at, to) - from), 0);
}

/** All clocks stand still from now on, or run again. */
export function halt(isHalted) {
  const last = halts[halts.length - 1], areHalted = Boolean(last) && last.to === Infinity;
  if (isHalted === areHalted) return;
  if (isHalted) halts.push({ from: performance.now(), to: Infinity });
  else last.to = performance.now();
}

export class Clock {
  /** Of each time that is set: `fallen()` is called once, when it is over, and `lowered()` when it comes to be low. */
  constructor(root, fallen = () => {}, lowered = () => {}) {
    this.root = root;
    this.fallen = fallen;
    this.lowered = lowered;
    this.label = '';
    this.left = this.at = 0;
    this.called = false;
    this.told = { left: 0, at: 0, running: false };
    this.set(this.told);
  }

  /** The time left at the moment `at` of performance.now(), and whether it runs. (One that is set again as it was is the
   * one that was: it falls once.) */
  set(told) {
    clearTimeout(this.timer);
    const { at, left, running } = this.told;
    const isSame = at === told.at && left === told.left && running === told.running;
    Object.assign(this, told, { told, at: moment(told.at), called: isSame && this.called });
    this.isAbove = this.now() >= LOW;
    this.tick();
  }

  now() {
    return this.running ? Math.max(0, this.left - (moment() - this.at)) : this.left;
  }

  tick() {
    const left = this.now();
    setText(this.root, clockText(left));
    this.root.classList.toggle('running', this.running);
    this.root.classList.toggle('low', this.running && left < LOW);
    this.root.classList.toggle('over', this.running && left <= 0);
    const words = `${this.label}: ${clockWords(left)}`;
    if (!this.running || left % 5000 < 1000) this.root.setAttribute('aria-label', words);
    if (!this.running) return;
    if (this.isAbove && left < LOW) {
      this.isAbove = false;
      this.lowered();
    }
    if (left <= 0) {
      if (!this.called) {
        this.called = true;
        this.fallen();
      }
      return;
    }
    // the next moment at which another text is due, and a little more
    const step = left < 10100 ? 100 : 1000;
    this.timer = setTimeout(() => this.tick(), Math.min(left, left % step) + 4);
  }

  stop() {
    clearTimeout(this.timer);
    this.running = false;
  }
}
