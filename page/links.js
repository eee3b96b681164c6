// The players and their links: an arbiter makes a new one, which is shown once, or closes the one that a player has.

import { Cards, picture } from './cards.js';
import { t } from './language.js';
import { readRefusal } from './lines.js';
import { arrange, byId, copy, make, setText } from './make.js';
import { NewPlayer } from './new-player.js';
import { folded } from './plain.js';
import { refusalWords } from './words.js';

const MOST_SHOWN = 40;

/** The personal link of who has a token. */
function linkTo(token) {
  return `${location.href.split('#')[0]}#${token}`;
}

export class Links {
  /** desk: {app, question, isHere(name)}. */
  constructor(desk) {
    this.desk = desk;
    this.app = desk.app;
    this.items = new Map();
    this.shownOf = '';                 // whose link is shown
    this.closed = new Set();           // whose link this page has closed: the lobby does not tell whose is
    this.cards = new Cards(this);
    this.newPlayer = new NewPlayer(this);
    byId('links-find').addEventListener('input', () => this.render());
    byId('link-copy').addEventListener('click', async () => {
      const done = await copy(byId('link-made').value);
      setText(byId('link-copied'), done ? t`The link is copied.` : t`It could not be copied. Mark it, and copy it by
        hand.`);
    });
    byId('link-done').addEventListener('click', () => this.hide());
  }

  /** The link that was made is shown no more. */
  hide() {
    const had = byId('link-shown').contains(document.activeElement);
    this.shownOf = '';
    byId('link-made').value = '';
    byId('link-code').replaceChildren();
    byId('link-shown').hidden = true;
    if (had) byId('links-find').focus();
  }

  close() {
    this.hide();
    this.cards.hide();
    this.newPlayer.close();
    this.note('');
  }

  /** Lists those alone who have this in their names. */
  find(text) {
    byId('links-find').value = text;
    this.render();
  }

  // ---- acting

  askNew(name, full) {
    const own = name === this.app.me();
    this.desk.question.ask({ title: t`Make a new link for ${full}?`, yes: t`Make it`,
      words: own ? t`That is your own. The link that you have holds no more; this page goes on with the new one.`
        : t`The link that ${full} has holds no more: a page that is open with it asks for the new one. Clocks run
          on.` },
    () => this.makeNew(name, full));
  }

  async makeNew(name, full) {
    this.hide();
    this.note('');
    const link = await this.makeOne(name);
    if (link) this.show(name, full, link);
  }

  /** Shows a link that was made, and its QR code for a phone. */
  show(name, full, link) {
    this.shownOf = name;
    setText(byId('link-words'), t`The personal link of ${full}, shown this once. Who opens it plays as ${full}.`);
    setText(byId('link-copied'), '');
    byId('link-made').value = link;
    byId('link-code').replaceChildren(picture(link));
    byId('link-shown').hidden = false;
    byId('link-made').focus();
    byId('link-made').select();
  }

  /** A player's new link; '' where none was made, which is told. */
  async makeOne(name) {
    const answer = await this.app.wire.say(`link ${name}`), found = /^ok link (\S+) (\S+)$/.exec(answer[0]);
    if (!found) {
      this.refused(answer[0], t`Make a link once more: it takes the place of one that was made.`);
      return '';
    }
    if (name === this.app.me()) this.app.who.takeNewToken(found[2]);
    this.closed.delete(name);
    this.endsLinkOf(name);
    this.render();
    return linkTo(found[2]);
  }

  /** The link that a player had until now holds no more, and is not shown any longer. */
  endsLinkOf(name) {
    if (name === this.shownOf) this.hide();
    this.cards.leaveOut(name);
  }

  /** The link of a player whom the lobby has added just now, by its answer. */
  added(full, answer) {
    this.app.askPlayers();
    this.show(answer.split(' ')[2], full, linkTo(answer.split(' ').pop()));
  }

  askClose(name, full) {
    this.desk.question.ask({ title: t`Close the link of ${full}?`, yes: t`Close it`,
      words: t`${full} can do nothing here until a new link is made. Games go on, and clocks run on.` },
    () => this.closeLink(name, full));
  }

  async closeLink(name, full) {
    this.note('');
    const answer = await this.app.wire.say(`close ${name}`);
    if (answer[0].startsWith('ok close ')) {
      this.note(t`The link of ${full} is closed.`, 'news');
      this.closed.add(name);
      this.endsLinkOf(name);
      this.render();
    } else this.refused(answer[0], t`Close it once more: that does no harm.`);
  }

  refused(line, again) {
    const refusal = readRefusal(line);
    if (refusal) this.note(refusalWords(refusal), 'refused');
    else if (line === 'unsent') this.note(t`There is no connection. Nothing was sent.`, 'refused');
    else this.note(t`The connection broke before the answer came. ${again}`, 'refused');
  }

  note(text, kind = 'news') {
    byId('links-note').className = text ? `note ${kind}` : 'note';
    setText(byId('links-note'), text);
  }

  // ---- showing

  /** Who is connected has a link. */
  areHere(names) {
    for (const name of names) this.closed.delete(name);
    this.render();
  }

  /** The players by whose name the list looks. */
  listed() {
    const text = folded(byId('links-find').value);
    return [...this.app.players].map(([name, { role, full }]) => ({ name, role, full }))
      .filter(({ name, full }) => folded(`${name} ${full}`).includes(text))
      .sort((a, b) => a.full.localeCompare(b.full));
  }

  render() {
    if (!byId('players-and-links').open) return;
    this.newPlayer.look();
    const rows = this.listed();
    this.cards.render();
    arrange(byId('links-list'), rows.slice(0, MOST_SHOWN).map((row) => this.itemOf(row)));
    setText(byId('links-more'), rows.length > MOST_SHOWN ? t`${MOST_SHOWN} of ${rows.length} are shown: find the
      others by name.`
      : rows.length ? '' : t`No player has such a name.`);
  }

  /** The element of a player, the same as long as the player is. */
  itemOf({ name, role, full }) {
    const key = `${name === this.app.me()} ${name} ${role} ${full}`;
    if (!this.items.has(key)) this.items.set(key, this.item(name, role, full));
    const item = this.items.get(key), may = this.app.wire.state.open;
    item.querySelector('.away').hidden = this.desk.isHere(name);
    item.querySelector('.closed').hidden = !this.closed.has(name);
    for (const button of item.querySelectorAll('button')) button.disabled = !may;
    return item;
  }

  item(name, role, full) {
    const button = (kind, words, act) => make('button', { type: 'button', 'data-key': `${kind}-link-${name}`, onclick: act },
      words, make('span', { class: 'unseen' }, t` for ${full}`));
    return make('li', { class: 'link-row' }, make('span', { class: 'link-name' }, make('span', { class: 'name' }, full),
      full !== name && make('span', { class: 'small' }, name),
      role === 'arbiter' && make('span', { class: 'small' }, t`arbiter`),
      make('span', { class: 'away' }, t`not connected`),
      make('span', { class: 'closed', hidden: true }, t`link closed from here`)),
    button('new', t`New link`, () => this.askNew(name, full)),
    name !== this.app.me() && button('close', t`Close the link`, () => this.askClose(name, full)));
  }
}
