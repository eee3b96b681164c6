// Pairing by hand: by one word of an arbiter's a game is opened for one player and joined for another. What was begun is kept
// in this browser until both sit, so that after a broken connection or a reload the table is looked at first, and no second
// game is opened.

import { t } from './language.js';
import { readPgn, readRefusal, readRows, readShow, timesOfOpen } from './lines.js';
import { byId, focused, make, read, setText, write } from './make.js';
import { TimesField } from './times.js';
import { NO_FEN, NO_GAME, arbiterWords } from './words.js';

const KEY = 'pairing';
const LONGEST = 255;                 // bytes of a message to the lobby
const SETTLES = 700;                 // milliseconds between two looks at the table
const local = () => localStorage;

export class Pairing {
  /** desk: {app, running(), isHere(name)}; paired(key, number, line) is called once both sit, `key` being that of the
   * adjourned game that is gone on with, or empty, and `line` the one by which the game was opened. */
  constructor(desk, paired) {
    this.desk = desk;
    this.app = desk.app;
    this.paired = paired;
    this.form = byId('pair-form');
    this.times = new TimesField(this.form, byId('pair-times'));
    this.begun = readBegun();
    this.hasSteps = false;
    this.form.addEventListener('submit', (event) => {
      event.preventDefault();
      this.submit();
    });
    this.form.addEventListener('change', () => this.renderHints());
    byId('pair-empty').addEventListener('click', () => this.empty());
    byId('pair-again').addEventListener('click', () => this.run(() => this.goOn()));
    byId('pair-drop').addEventListener('click', () => this.run(() => this.drop()));
    byId('pair-leave').addEventListener('click', () => this.run(() => this.leave()));
  }

  name(name) {
    return this.app.nameWords(name);
  }

  // ---- the form

  /** Who may be chosen: all players, by their full names. */
  fillPlayers() {
    const rows = [...this.app.players].map(([name, { full }]) => ({ name, text: full === name ? name : `${full} (${name})` }))
      .sort((a, b) => a.text.localeCompare(b.text));
    for (const field of ['white', 'black']) {
      const list = this.form.elements[field], chosen = list.value;
      list.replaceChildren(make('option', { value: '' }, t`Choose a player`),
        ...rows.map(({ name, text }) => make('option', { value: name }, text)));
      list.value = rows.some(({ name }) => name === chosen) ? chosen : '';
    }
    this.renderHints();
  }

  /** Fills the form in for an adjourned game: {key, white, black, times, fen}, what is said of it, and the times of which
   * to choose, [{times, words}]. */
  fill(adjourned, words, choices) {
    const fields = this.form.elements, { white, black, times, fen } = adjourned;
    this.adjourned = adjourned;
    [fields.white.value, fields.black.value, fields.fen.value] = [white, black, fen];
    this.times.set(times);
    this.form.querySelector('.from-position').open = true;
    setText(byId('pair-adjourned'), words);
    this.choose(choices);
    this.note('');
    this.renderHints();
    byId('pair-by-hand').open = true;
    byId('pair-by-hand').scrollIntoView({ block: 'start' });
    byId('pair-adjourned').focus({ preventScroll: true });
  }

  /** Of these times one is chosen, the first at first. */
  choose(choices) {
    const field = byId('pair-clocks');
    field.hidden = choices.length < 2;
    field.replaceChildren(field.firstElementChild, ...choices.map(({ times, words }, place) => make('label',
      { class: 'check' }, make('input', { type: 'radio', name: 'clocks', value: String(place), checked: place === 0,
        onchange: () => this.times.set(times) }), make('span', {}, words))));
  }

  /** The players and the position go; the times stay for the next pair, but those of an adjourned game. */
  empty() {
    const fields = this.form.elements;
    [fields.white.value, fields.black.value, fields.fen.value] = ['', '', ''];
    if (this.adjourned) this.times.reset();
    this.adjourned = null;
    this.form.querySelector('.from-position').open = false;
    setText(byId('pair-adjourned'), '');
    this.choose([]);
    this.note('');
    this.renderHints();
  }

  submit() {
    const fields = this.form.elements, white = fields.white.value, black = fields.black.value;
    const fen = fields.fen.value.trim(), line = `open white ${this.times.line()}${fen ? ' ' + fen : ''}`;
    if (this.begun) return;
    if (white === black) this.note(t`Choose two players: nobody plays against himself.`);
    else if (/[^\x20-\x7e]/.test(fen)) this.note(NO_FEN);
    else if (Math.max(line.length, pairLine({ white, black, line }).length) > LONGEST) {
      this.note(t`This FEN is too long.`);
    }
    else {
      const from = this.adjourned, ofIt = from && from.white === white && from.black === black;
      this.note('');
      byId('pair-steps').replaceChildren();
      this.run(() => this.begin({ white, black, line, number: 0, adjourned: ofIt ? from.key : '' }));
    }
  }

  // ---- what is begun

  /** One thing at a time; who has pressed a button that is gone then has the keys at the next. */
  async run(act) {
    if (this.busy) return;
    this.busy = true;
    this.render();
    try {
      await act();
    } finally {
      this.busy = false;
      this.render();
    }
    const at = focused();
    if (at && at !== document.body && !at.disabled && at.getClientRects().length) return;
    const next = ['pair-again', 'pair-leave', 'pair-open'].map(byId);
    const found = next.find((one) => one.getClientRects().length && !one.disabled);
    if (found) found.focus();
  }

  /** Notes which games White has, and then opens the game: it is another one, since no number is given twice. */
  async begin(begun) {
    const answer = await this.app.wire.say('list');
    if (!answer[0].startsWith('ok list')) {
      this.note(this.wordsOf(answer[0]));
      return;
    }
    const known = readRows(answer.slice(1)).filter((row) => row.white === begun.white).map((row) => row.number);
    this.keep({ ...begun, known });
    await this.open();
  }

  /** Here and, until both sit, in the browser. */
  keep(begun) {
    this.begun = begun;
    this.several = false;
    write(local, KEY, begun && JSON.stringify(begun));
  }

  async open() {
    const answer = await this.app.wire.say(pairLine(this.begun)), paired = /^ok pair (\d+)$/.exec(answer[0]);
    if (paired) {
      this.opened(Number(paired[1]));
      this.done();
    } else if (answer[0] === 'lost') {
      this.isUnsure(t`The connection broke before the answer to the pairing came.`);
    } else {
      this.step(t`They were not paired. ${this.wordsOf(answer[0])}`, false);
      // (the server may have opened the game, and refused the join)
      await this.look();
      if (this.begun && !this.begun.number && !this.unsure && !this.several) this.keep(null);
    }
  }

  opened(number) {
    this.keep({ ...this.begun, number });
    this.step(t`Game ${number} is open: ${this.name(this.begun.white)} has White.`);
  }

  /** Joins Black in what was opened and not joined. */
  async join() {
    const { black, number } = this.begun, answer = await this.app.wire.say(`as ${black} join ${number}`);
    if (answer[0].startsWith('ok ')) {
      this.done();
    } else if (answer[0] === 'lost') {
      this.isUnsure(t`The connection broke before the answer to the joining came.`);
    } else {
      this.step(t`${this.name(black)} was not joined. ${this.wordsOf(answer[0])}`, false);
      await this.look();
    }
  }

  done() {
    const { black, number, adjourned, line } = this.begun;
    this.step(t`${this.name(black)} has Black: the clocks run.`, true, number);
    this.keep(null);
    this.empty();
    if (adjourned) this.paired(adjourned, number, line);
  }

  /** From where it stands: the table is looked at first. */
  async goOn() {
    await this.look(true);
    if (!this.begun || this.unsure || this.several) return;
    if (this.begun.number) await this.join();
    else await this.open();
  }

  /** Takes off the table what was opened and nobody has joined. */
  async drop() {
    const { number } = this.begun, answer = await this.app.wire.say(`drop ${number}`);
    if (answer[0].startsWith('ok ')) {
      this.step(t`Game ${number} is off the table.`);
      this.keep(null);
    } else {
      this.step(t`Game ${number} was not taken off. ${this.wordsOf(answer[0])}`, false);
      await this.look();
    }
  }

  /** Lets what was begun be as it stands. */
  leave() {
    const { number } = this.begun;
    this.step(number ? t`Game ${number} is left as it stands.` : t`This pairing is left.`, true, number);
    this.keep(null);
  }

  // ---- looking at the table

  /** The desk is come to, or there is a new connection: how what was begun stands. Nothing is sent but questions. */
  again() {
    this.fillPlayers();
    this.render();
    if (!this.begun || !this.app.isArbiter() || !this.app.reachable() || this.hasSteps && !this.unsure) return;
    byId('pair-by-hand').open = true;
    if (!this.hasSteps) {
      this.step(t`${this.name(this.begun.white)} against ${this.name(this.begun.black)}: begun, and not ended
        here.`, false);
    }
    this.run(() => this.look());
  }

  isUnsure(words) {
    this.unsure = true;
    this.step(t`${words} Once the connection is there again, the table is looked at.`, false);
  }

  /** What stands of it: its number where that was not known, and who has joined. What is open still is not said where it
   * is gone on with. */
  async look(goesOn = false) {
    this.unsure = true;
    if (!this.begun.number) await this.findOpened(goesOn);
    if (!this.begun.number) return;
    const { white, black, number } = this.begun, answer = await this.app.wire.say(`show ${number}`);
    const show = readShow(answer[0]), refusal = readRefusal(answer[0]);
    if (!show && !(refusal && refusal.number === NO_GAME)) return;
    this.unsure = false;
    if (!show) {
      this.step(t`Game ${number} was taken off the table.`, false);
      this.keep(null);
    } else if (show.black === black) {
      this.done();
    } else if (show.black) {
      this.step(t`${this.name(show.black)} has joined ${this.name(white)} in game ${number}. It stays as it is; pair ${
        this.name(black)} anew.`, false, number);
      this.keep(null);
    } else if (!goesOn) {
      this.step(t`Game ${number} stands open: ${this.name(white)} has White, and ${this.name(black)} has not
        joined.`, false);
    }
  }

  /** Looks for the game that was opened: another one of White's, of these times and this position. The table is asked
   * twice, since what an earlier connection sent may be taken behind the first answer. */
  async findOpened(goesOn) {
    const { white, black, line, known } = this.begun, wire = this.app.wire, found = [];
    await wire.say('list');
    await new Promise((over) => setTimeout(over, SETTLES));
    const answer = await wire.say('list');
    if (!answer[0].startsWith('ok list')) return;
    for (const row of readRows(answer.slice(1))) {
      if (known.includes(row.number) || row.white !== white || row.black && row.black !== black) continue;
      const pgn = await wire.say(`pgn ${row.number}`);
      if (!pgn[0].startsWith('ok ')) return;
      if (isOf(readPgn(pgn.slice(1)).tags, line)) found.push(row.number);
    }
    this.unsure = false;
    this.several = found.length > 1;
    const numbers = found.join(', ');
    if (found.length === 1) this.opened(found[0]);
    else if (this.several) this.step(t`It may be any of these games: ${numbers}. Look at them, and leave this
      pairing.`, false);
    else if (!goesOn) this.step(t`No game has been opened so far.`, false);
  }

  // ---- showing

  wordsOf(line) {
    const refusal = readRefusal(line);
    if (refusal) return arbiterWords(refusal);
    return line === 'unsent' ? t`There is no connection. Nothing was sent.` : t`The connection broke before the
      answer came.`;
  }

  /** A step and what came of it, with the way to a game. */
  step(words, isDone = true, number = 0) {
    this.hasSteps = true;
    const item = make('li', { class: isDone ? 'done' : 'open' }, words,
      number > 0 && ' ', number > 0 && make('a', { href: `#/game/${number}` }, t`Look at game ${number}`));
    byId('pair-steps').append(item);
    item.scrollIntoView({ block: 'nearest' });
  }

  note(text) {
    setText(byId('pair-note'), text);
    byId('pair-note').classList.toggle('refused', Boolean(text));
  }

  render() {
    const { begun, several } = this, may = this.app.reachable() && !this.busy;
    byId('pair-open').disabled = !may || Boolean(begun);
    byId('pair-begun').hidden = !begun;
    for (const id of ['pair-again', 'pair-drop', 'pair-leave']) byId(id).disabled = !may;
    if (!begun) return;
    byId('pair-drop').hidden = !begun.number;
    byId('pair-again').hidden = several;
    setText(byId('pair-again'), begun.number ? t`Join ${this.name(begun.black)} again` : t`Open it again`);
    setText(byId('pair-drop'), t`Take game ${begun.number} off`);
  }

  /** Of who is chosen: a game that goes on, and that nobody is connected. */
  renderHints() {
    const hints = [];
    for (const field of ['white', 'black']) {
      const name = this.form.elements[field].value;
      if (!name) continue;
      const games = this.desk.running().filter((row) => row.white === name || row.black === name).map((row) => row.number);
      if (games.length) hints.push(t`${this.name(name)} plays already, in game ${games.join(', ')}.`);
      if (!this.desk.isHere(name)) hints.push(t`${this.name(name)} is not connected.`);
    }
    setText(byId('pair-hints'), hints.join(' '));
  }
}

function readBegun() {
  try {
    const begun = JSON.parse(read(local, KEY) || 'null');
    return begun && begun.white && begun.black && begun.line && begun.known ? begun : null;
  } catch (refused) {
    return null;
  }
}

/** The one word that pairs: what stands behind the colour in the `open` line goes with it. */
function pairLine({ white, black, line }) {
  return `pair ${white} ${black} ${line.slice('open white '.length)}`;
}

/** Whether a game has the times and the men of an `open` line (the server may spell the rest of a FEN in another way). */
export function isOf(tags, line) {
  const start = (fen) => fen.trim().split(/\s+/).slice(0, 2).join(' ');
  return tags.TimeControl === timesOfOpen(line) && start(tags.FEN || '') === start(line.split(' ').slice(4).join(' '));
}
