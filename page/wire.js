// The connection to the lobby, for who has a personal link: one WebSocket, answers in the order of what was sent, and
// notices between them. Where it breaks it comes back by itself, with growing pauses.

import { announcedIn, isFullIn, linesOf, stoppedIn } from './lines.js';

const PAUSES = [400, 1000, 2000, 3600];      // (a quarter more or less: who waits is back within five seconds)
const MOST_A_SECOND = 15;            // the lobby takes 20
const MOST_QUIETLY = 6;              // of these for what nobody waits for
const MOST_WAITING = 24;             // the lobby takes the next once it has answered one
const ANSWER_WITHIN = 12000;
const SILENCE = 25000;
const PROBE = 'leave 0';             // answered by the lobby alone: shows that the line still stands
const NAMELESS = /^no 31 /;
const STOOD = 5000;                  // a connection that stood so long begins the pauses anew

/** What `say` answers where no answer came: `lost` where the line had gone out, `unsent` where it had not. */
export const LOST = Object.freeze(['lost']);
export const UNSENT = Object.freeze(['unsent']);

/** The lobby's answer to one line, by a connection of its own; `lost` where none came. */
export function askOnce(line) {
  return new Promise((answered) => {
    const socket = new WebSocket(socketAddress()), timer = setTimeout(() => socket.close(), ANSWER_WITHIN);
    socket.onmessage = (event) => {
      const [first] = linesOf(String(event.data));
      if (first.startsWith('server ')) socket.send(line);
      if (!/^(ok|no) /.test(first)) return;
      answered(first);
      socket.close();
    };
    socket.onclose = () => {
      clearTimeout(timer);
      answered(LOST[0]);
    };
  });
}

/** The lobby's socket, beside the page. */
function socketAddress() {
  const address = new URL('ws', location.href.split('#')[0]);
  address.protocol = address.protocol === 'https:' ? 'wss:' : 'ws:';
  address.search = '';
  return address.href;
}

export class Wire {
  /** told: {opened, notice(lines), clocks(reason), announced(text), log(isFull), decided(line), offers, changed, unnamed};
   * changed() is called whenever `state` is another, clocks() where all clocks are stopped, with why, or run again,
   * announced() where the arbiter announces something, or nothing any more, log() with whether there is no room for the
   * lobby's log, and unnamed() where an answer says that the connection acts for nobody. */
  constructor(told) {
    this.told = told;
    this.state = { open: false, server: '', retryAt: 0, ever: false };
    this.tries = 0;
    this.waiting = [];
    this.queue = [];
    this.sentAt = [];
    this.heardAt = 0;
    this.pump = this.pump.bind(this);
    this.watching = setInterval(() => this.watchdog(), 2000);
    addEventListener('online', () => this.retry());
    addEventListener('offline', () => this.say(PROBE, true));
    document.addEventListener('visibilitychange', () => document.hidden || this.retry());
    // (a browser that keeps a page which was left, to come back to it, keeps its socket too: who left would seem to be here)
    addEventListener('pagehide', () => this.socket && this.ended());
    addEventListener('pageshow', (event) => event.persisted && this.retry());
    this.connect();
  }

  /** Sends a line and gives its answer's lines. A quiet line gives way to the others. */
  say(line, quietly = false) {
    if (!this.state.open) return Promise.resolve(UNSENT);
    return new Promise((answered) => {
      this.queue.push({ line, quietly, answered });
      this.pump();
    });
  }

  /** Takes a line back where it has not gone out; whether it has, and its answer is still to come. */
  takeBack(line) {
    const unsent = this.queue.filter((one) => one.line === line);
    this.queue = this.queue.filter((one) => one.line !== line);
    unsent.forEach((one) => one.answered(UNSENT));
    return this.waiting.some((one) => one.line === line);
  }

  /** Tries again now, where it was waiting to. */
  retry() {
    if (this.socket || !this.timer) return;
    this.connect();
  }

  /** Leaves the connection and makes a new one: nothing of the old one's name is left. */
  renew() {
    this.tries = 0;
    if (this.socket) this.ended();
    this.retry();
  }

  /** Leaves the connection for good. */
  close() {
    if (this.socket) this.ended();
    clearInterval(this.watching);
    clearTimeout(this.timer);
    this.timer = 0;
  }

  connect() {
    clearTimeout(this.timer);
    this.timer = 0;
    const socket = new WebSocket(socketAddress());
    this.socket = socket;
    this.heardAt = performance.now();
    const ours = (act) => (event) => this.socket === socket && act(event);
    socket.onmessage = ours((event) => this.heard(linesOf(String(event.data))));
    socket.onclose = ours(() => this.ended());
    this.change({ retryAt: 0 });
  }

  heard(lines) {
    this.heardAt = performance.now();
    const word = (lines[0] || '').split(' ', 1)[0];
    if (word === 'server') {
      if (!this.state.open) {
        this.told.clocks(stoppedIn(lines));
        this.told.announced(announcedIn(lines));
        this.told.log(isFullIn(lines));
      }
      this.serverTold(lines[0].split(' ')[1]);
    } else if (word === 'clocks') {
      this.told.clocks(stoppedIn(lines));
    } else if (word === 'announced') {
      this.told.announced(announcedIn(lines));
    } else if (word === 'log') {
      this.told.log(isFullIn(lines));
    } else if (word === 'decided') {
      this.told.decided(lines[0]);
    } else if (word === 'told') {
      this.told.notice(lines);
    } else if (word === 'offers') {
      this.told.offers();
    } else {
      const waited = this.waiting.shift();
      if (waited) waited.answered(lines);
      if (NAMELESS.test(lines[0])) this.told.unnamed();
      this.pump();
    }
  }

  serverTold(server) {
    const first = !this.state.open;
    if (first) this.openedAt = performance.now();
    this.change({ open: true, server, ever: true });
    if (first || server === 'here') this.told.opened(server);
  }

  ended() {
    const socket = this.socket;
    this.socket = null;
    socket.onmessage = socket.onclose = null;
    socket.close();
    const waiting = this.waiting, queue = this.queue;
    this.waiting = [];
    this.queue = [];
    this.sentAt = [];
    if (this.state.open && performance.now() - this.openedAt > STOOD) this.tries = 0;
    const pause = PAUSES[Math.min(this.tries, PAUSES.length - 1)] * (0.75 + Math.random() / 2);
    this.tries += 1;
    this.timer = setTimeout(() => this.connect(), pause);
    this.change({ open: false, server: '', retryAt: Date.now() + pause });
    waiting.forEach((one) => one.answered(LOST));
    queue.forEach((one) => one.answered(UNSENT));
  }

  pump() {
    const now = performance.now();
    this.sentAt = this.sentAt.filter((one) => now - one.at < 1050);
    while (this.queue.length && this.waiting.length < MOST_WAITING) {
      const place = this.queue.findIndex((one) => !one.quietly);
      const quietly = place < 0;
      const full = this.sentAt.length >= MOST_A_SECOND
        || quietly && this.sentAt.filter((one) => one.quietly).length >= MOST_QUIETLY;
      if (full) {
        clearTimeout(this.pumping);
        this.pumping = setTimeout(this.pump, 150);
        return;
      }
      const [one] = this.queue.splice(quietly ? 0 : place, 1);
      one.at = now;
      this.sentAt.push(one);
      this.waiting.push(one);
      this.socket.send(one.line);
    }
  }

  watchdog() {
    if (!this.socket) return;
    const now = performance.now();
    const late = this.waiting.length > 0 && now - this.waiting[0].at > ANSWER_WITHIN;
    const unopened = !this.state.open && now - this.heardAt > ANSWER_WITHIN;
    if (late || unopened) {
      this.ended();
    } else if (this.state.open && !document.hidden && this.waiting.length === 0 && now - this.heardAt > SILENCE) {
      this.say(PROBE, true);
    }
  }

  change(what) {
    Object.assign(this.state, what);
    this.told.changed();
  }
}
