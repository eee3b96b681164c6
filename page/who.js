// Who is here: the personal link by which a page signs in, and what the browser keeps of it.

import { t } from './language.js';
import { readRefusal } from './lines.js';
import { byId, read, setText, write } from './make.js';
import { askOnce } from './wire.js';
import { BAD_TOKEN, refusalWords } from './words.js';

const TOKEN = /^[0-9a-f]{32}$/, CUT = /^[0-9a-f]{1,31}$/i;
const TRIES_LINK = 20000;            // whether a link that is not known is known again
const ASKS_LINK = 5000;              // whether it holds still: nobody tells of one that was closed
const TAKEN_AWAY = t`Your personal link does not hold at the moment: an arbiter has made another one or closed it, or
  the list of players is being changed. You are watching. This page keeps the link, and tries it again. To play on
  with a new one, open it, or ask your arbiter for it.`;
const cutWords = (length) => t`This link is cut short: ${length} of its 32 last letters and digits have come. Copy the
  whole link, and open it again.`;
const session = () => sessionStorage, local = () => localStorage;

export class Who {
  /** app: {wire, renew(), shows(), tell(text)}; shows() is called when another player is here. */
  constructor(app) {
    this.app = app;
    this.player = null;
    this.token = read(session, 'token') || read(local, 'token') || '';
    write(session, 'token', this.token || null);
    this.isUnknown = false;            // whether the lobby has said that it does not know the token
    this.opened = '';                  // the token of a link that was opened while another one is here
    this.asked = '';                   // that of another player, for whom it is asked whether to play
    this.isBroken = false;             // whether a link was opened that is none
    this.fromLink = false;
    this.arrives = false;              // whether one comes by a link, and was not taken to a game since
    this.signed = { token: '', name: '' };      // who has signed in here last, by which token
    setInterval(() => this.tryLink(), TRIES_LINK);
    setInterval(() => this.holds(), ASKS_LINK);
    this.listen();
  }

  listen() {
    const on = (id, act) => byId(id).addEventListener('click', act);
    byId('keep').addEventListener('change', (event) => this.keep(event.target.checked));
    on('keep-it', () => this.keep(true));
    on('keep-not', () => this.keep(false));
    on('sign-out', () => this.signOut());
    on('forget-link', () => this.signOut());
    this.tabs = window.BroadcastChannel ? new BroadcastChannel('signed-out')
      : { postMessage: () => {}, onmessage: null };
    this.tabs.onmessage = (event) => event.data === this.token && this.signOut();
    byId('link-form').addEventListener('submit', (event) => {
      event.preventDefault();
      const field = byId('link-text'), text = field.value.trim().split('#').pop();
      field.value = '';
      byId('who').open = false;
      if (this.open(text)) this.app.renew();
    });
    byId('other-dialog').addEventListener('close', (event) => {
      if (event.target.returnValue === 'yes' && this.asked) this.take(this.asked);
      else if (this.asked) this.app.tell('');
      this.asked = '';
    });
  }

  me() {
    return this.player ? this.player.name : '';
  }

  /** Whether there is a link by which the lobby may be spoken to: it hears nobody else. */
  mayConnect() {
    return Boolean(this.token) && !this.isUnknown;
  }

  // ---- a link is opened

  /** Takes what stands behind the # of a link; whether it may be one. */
  open(text) {
    this.isBroken = !TOKEN.test(text) && !this.token;
    if (!TOKEN.test(text)) {
      this.app.tell(CUT.test(text) ? cutWords(text.length)
        : t`That is no personal link. Copy the whole link, and open it again.`);
      this.render();
      return false;
    }
    if (!this.token || text === this.token) this.hold(text);
    else this.opened = text;
    this.isUnknown = false;
    return true;
  }

  hold(token) {
    this.token = token;
    this.isUnknown = false;
    this.player = null;
    this.fromLink = true;
    this.arrives = true;
    write(session, 'token', token);
  }

  /** From now on one is here by this link. */
  take(token) {
    this.hold(token);
    this.app.renew();
  }

  /** Who has this token: {player}, {refusal}, or neither where no answer came. */
  async ask(token, quietly = false) {
    const [answer] = await this.app.wire.say(`login ${token}`, quietly);
    const found = /^ok login (\S+) (\S+) ?(.*)$/.exec(answer), refusal = readRefusal(answer);
    return { player: found && { name: found[1], role: found[2], full: found[3] || found[1] }, refusal };
  }

  /** A link was opened while there is another one. Of the same player it takes its place, and of another only where
   * that is agreed to: who was here is here until then. What is to be told. */
  async weigh() {
    // (both are sent at once, so that nothing of who is here goes out under the other's name)
    const { opened } = this, [there, here] = await Promise.all([opened, this.token].map((token) => this.ask(token)));
    if (this.opened !== opened || !there.player && !there.refusal || !here.player && !here.refusal) return '';
    this.opened = '';
    if (!there.player) return refusalWords(there.refusal);
    if (here.player && here.player.name !== there.player.name) this.askOther(opened, here.player, there.player);
    else this.hold(opened);
    return '';
  }

  askOther(token, here, there) {
    const dialog = byId('other-dialog');
    this.asked = token;
    setText(byId('other-title'), t`You are ${here.full} here. Play as ${there.full} instead?`);
    setText(byId('other-yes'), t`Play as ${there.full}`);
    setText(byId('other-no'), t`Stay ${here.full}`);
    dialog.returnValue = '';
    if (!dialog.open) dialog.showModal();
  }

  // ---- signing in

  async login() {
    const words = this.opened && await this.weigh();
    if (this.mayConnect()) await this.signIn();
    if (words) this.app.tell(words);
  }

  async signIn() {
    const { token } = this, { player, refusal } = await this.ask(token);
    if (token !== this.token) return;
    if (player) {
      this.player = player;
      this.signed = { token, name: player.name };
      this.isBroken = false;
      this.keepNewer(token);
      byId('linked').hidden = !this.fromLink || read(local, 'token') === token;
      this.fromLink = false;
      this.app.tell('');
    } else if (refusal && refusal.number === BAD_TOKEN) {
      await this.unknown(token, this.signed.token === token ? TAKEN_AWAY : refusalWords(refusal));
      return;
    }
    this.render();
    this.app.shows();
  }

  /** The lobby takes this connection for nobody's, though it had signed in. */
  async unnamed() {
    if (!this.player || this.asksAgain) return;
    this.asksAgain = true;
    await this.login();
    this.asksAgain = false;
  }

  /** Whether the link holds still. */
  async holds() {
    if (!this.player || this.opened || !this.app.wire.state.open) return;
    const { token } = this, { refusal } = await this.ask(token, true);
    if (!this.player || token !== this.token || !refusal || refusal.number !== BAD_TOKEN) return;
    await this.unknown(token, TAKEN_AWAY);
  }

  /** The lobby does not know the token. It says so too while its file of players is not whole: so the token stays, and
   * is tried again, and files are shown meanwhile. But in the place of an older one stands the player's own that is
   * kept. */
  async unknown(token, words) {
    const kept = read(local, 'token-of') === this.signed.name ? read(local, 'token') : '';
    this.player = null;
    this.fromLink = false;
    if (kept && kept !== token) {
      this.token = kept;
      write(session, 'token', kept);
      await this.signIn();
      if (this.player) return;
    }
    this.isUnknown = true;
    this.app.tell(words);
    this.app.renew();
  }

  /** Whether the link is known again. */
  async tryLink() {
    if (!this.isUnknown) return;
    const { token } = this, answer = await askOnce(`login ${token}`);
    if (!this.isUnknown || token !== this.token || !answer.startsWith('ok login ')) return;
    this.isUnknown = false;
    this.app.renew();
  }

  // ---- what is kept

  /** One's own link is another one now: kept where the one before it was. */
  takeNewToken(token) {
    const kept = read(local, 'token') === this.token;
    this.token = token;
    write(session, 'token', token);
    if (kept) write(local, 'token', token);
    this.login();
  }

  /** A player has one link at a time: where another of the same player's was kept, it holds no more, and this one
   * is. */
  keepNewer(token) {
    const kept = read(local, 'token');
    if (kept === token) write(local, 'token-of', this.player.name);
    else if (kept && read(local, 'token-of') === this.player.name) write(local, 'token', token);
  }

  /** Whether this browser keeps the token, too; this tab has it as long as it is open. */
  keep(lasting) {
    byId('linked').hidden = true;
    if (lasting || read(local, 'token') === this.token) this.keepHere(lasting);
    this.render();
  }

  keepHere(lasting) {
    write(local, 'token', lasting ? this.token : null);
    write(local, 'token-of', lasting && this.player ? this.player.name : null);
  }

  forget() {
    write(session, 'token', null);
    if (read(local, 'token') === this.token) this.keepHere(false);
    this.token = '';
    this.isUnknown = false;
    this.player = null;
    byId('linked').hidden = true;
  }

  /** Here, and in every tab that acts for the same player; what was said of the link goes too. */
  signOut() {
    if (this.token) this.tabs.postMessage(this.token);
    this.forget();
    this.app.tell('');
    byId('who').open = false;
    this.app.renew();
    this.render();
  }

  render() {
    const { player } = this;
    setText(byId('who-name'), player ? player.full : this.isBroken ? t`Not signed in` : t`Watching`);
    byId('to-arbiter').hidden = !player || player.role !== 'arbiter';
    byId('signed-in').hidden = !player;
    byId('signed-out').hidden = Boolean(player);
    byId('forget-link').hidden = !this.token;
    byId('keep').checked = Boolean(this.token) && read(local, 'token') === this.token;
    const role = player && player.role === 'arbiter' ? t`arbiter` : t`player`;
    if (player) setText(byId('who-words'), `${player.full} (${player.name}), ${role}`);
  }
}
