// One's own games that wait for an opponent, and when they are taken back: once another game of one's own begins; ten
// minutes after this browser has opened them; and where the last page of one's own in this browser is left, as far as a
// page that goes can still say so. No page is told that it is only loaded anew: the one that comes opens them again.

import { language, t } from './language.js';
import { byId, read, setText, write } from './make.js';

const LASTS = 600000;                // milliseconds
const LOOKS = 5000;
const KEY = 'opened', LEFT = 'left';
const local = () => localStorage, session = () => sessionStorage;

export class Offers {
  /** app: {wire, me(), table, reachable()}. */
  constructor(app) {
    this.app = app;
    this.runs = new Set();             // one's own games that go on, as they were told last
    this.of = '';                      // whose these are
    this.asked = new Set();            // those that are to be taken back
    this.others = new Map();           // pages of this browser: whose each is
    this.id = String(Math.random());
    this.pages = window.BroadcastChannel ? new BroadcastChannel('pages')
      : { postMessage: () => {}, onmessage: null };
    this.pages.onmessage = ({ data: { id, me, asks } }) => {
      this.others.set(id, me);
      if (asks) this.isHere(false);
    };
    addEventListener('pagehide', () => this.leave());
    addEventListener('pageshow', (event) => event.persisted && this.isHere(true));
    setInterval(() => this.look(false), LOOKS);
  }

  /** Tells the other pages whose this one is. */
  isHere(asks) {
    this.pages.postMessage({ id: this.id, me: this.app.me(), asks });
  }

  /** This page's player is another one, or nobody. */
  named() {
    if (this.told === this.app.me()) return;
    this.told = this.app.me();
    this.isHere(true);
  }

  // ---- which games

  /** One's own games that are not over: those that go on, and those that wait. */
  own() {
    const me = this.app.me(), own = [...this.app.table.rows.values()].filter(({ white, black, result }) => me
      && result === '*' && (white === me || black === me));
    const isFull = ({ white, black }) => Boolean(white && black);
    return { goOn: own.filter(isFull), wait: own.filter((row) => !isFull(row)) };
  }

  /** The games that this browser has opened: {number: {line, at}}, the line and the moment. */
  opened() {
    return parsed(read(local, KEY)) || {};
  }

  /** This browser has opened a game. */
  add(number, line, at = Date.now()) {
    write(local, KEY, JSON.stringify({ ...this.opened(), [number]: { line, at } }));
  }

  /** When a game ends that waits, in words; empty where this browser has not opened it. */
  endWords(number) {
    const { [number]: { at } = { at: 0 } } = this.opened();
    if (!at) return '';
    const place = language === 'en' ? 'en-GB' : language;
    const time = new Date(at + LASTS).toLocaleTimeString(place, { timeStyle: 'short' });
    return t`It is taken back at ${time}, when you close this page, or when another game of yours begins.`;
  }

  // ---- taking back

  /** The table was told, or some time has passed since. */
  look(isTold = true) {
    const { app } = this, { goOn, wait } = this.own(), opened = this.opened(), me = app.me();
    const begun = this.of === me && goOn.find(({ number }) => !this.runs.has(number));
    if (!me || !app.reachable() || !isTold && this.of !== me) return;
    if (this.of !== me) this.openAgain(me, wait);
    this.of = me;
    this.runs = new Set(goOn.map(({ number }) => number));
    const late = wait.filter(({ number }) => opened[number] && opened[number].at + LASTS <= Date.now());
    this.forget(opened);
    if (begun) this.takeBack(wait, t`Your other game that waited is taken back, since one has begun.`);
    else this.takeBack(late, t`Nobody has joined your game in ten minutes: it is taken back.`);
  }

  /** Of games that wait no more, whoever in this browser has opened them, nothing is kept. */
  forget(opened) {
    const left = Object.entries(opened).filter(([number, { at }]) => {
      const row = this.app.table.rows.get(Number(number));
      return at > Date.now() - LOOKS || row && !(row.white && row.black);
    });
    if (left.length < Object.keys(opened).length) write(local, KEY, JSON.stringify(Object.fromEntries(left)));
  }

  async takeBack(rows, words) {
    for (const { number } of rows.filter((row) => !this.asked.has(row.number))) {
      this.asked.add(number);
      const [answer] = await this.app.wire.say(`drop ${number}`);
      if (answer.startsWith('ok drop ')) {
        byId('taken-back').hidden = false;
        setText(byId('taken-back'), words);
      } else if (!answer.startsWith('no ')) {
        this.asked.delete(number);
      }
    }
  }

  /** This page is left. */
  leave() {
    const me = this.app.me(), isLast = ![...this.others.values()].includes(me), opened = this.opened();
    this.pages.postMessage({ id: this.id, me: '', asks: false });
    if (!me || !isLast) return;
    const left = this.own().wait.filter(({ number }) => opened[number])
      .map(({ number }) => ({ number, me, ...opened[number] }));
    for (const { number } of left) this.app.wire.say(`drop ${number}`);
    write(session, LEFT, left.length ? JSON.stringify(left) : null);
  }

  /** This page was loaded anew: what the one before it has taken back is opened again. */
  async openAgain(me, wait) {
    const [loading] = performance.getEntriesByType('navigation'), left = parsed(read(session, LEFT)) || [];
    write(session, LEFT, null);
    if (!loading || loading['type'] !== 'reload') return;
    const gone = left.filter((one) => one.me === me && !wait.some((row) => row.number === one.number));
    for (const { number, line, at } of gone) {
      const [answer] = await this.app.wire.say(line);
      if (!answer.startsWith('ok open ')) continue;
      const again = Number(answer.split(' ')[2]);
      this.add(again, line, at);
      if (location.hash === `#/game/${number}`) this.app.go(`/game/${again}`);
    }
  }
}

function parsed(text) {
  try {
    return JSON.parse(text || 'null');
  } catch (damaged) {
    return null;
  }
}
