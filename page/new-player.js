// A player who is new: the lobby adds one, and the desk shows the link that was made. A message has ASCII alone, so for
// a full name with other letters the desk shows the command that adds the player, and tells once the player is there.

import { t } from './language.js';
import { byId, copy, setText } from './make.js';
import { plain } from './plain.js';

const MOST_NAME = 16;                // letters, digits and _ of a name in the protocol
const LOOKS = 3000, LOOKS_AT_MOST = 900000;

export class NewPlayer {
  /** links: {app, find(text), hide(), note(text), added(full, answer), refused(line, again)}. */
  constructor(links) {
    this.links = links;
    this.app = links.app;
    this.name = '';                    // whose command was copied, and who is not there so far
    this.form = byId('new-player');
    this.form.addEventListener('input', () => this.render());
    this.form.addEventListener('submit', (event) => {
      event.preventDefault();
      if (this.isPlain()) this.add();
      else this.copied();
    });
  }

  full() {
    return this.form.elements.full.value.trim().replace(/\s+/g, ' ');
  }

  /** Whether a message can have the full name. */
  isPlain() {
    return plain(this.full()) === this.full();
  }

  /** The name of the protocol: what was typed, else one that nobody has. */
  chosen() {
    return this.form.elements.name.value.trim() || this.freeName();
  }

  /** A name that nobody has: `ann` for Ann Lee, `annl` where there is an ann, and then `ann2` .. */
  freeName() {
    const words = plain(this.full()).toLowerCase().split(' ').map((word) => word.replace(/[^a-z0-9_]/g, ''));
    const first = words.find(Boolean) || 'player', last = words[words.length - 1];
    const taken = new Set([...this.app.players.keys()].map((name) => name.toLowerCase()));
    const tries = [first, `${first}${last.charAt(0)}`];
    for (let count = 2; count <= this.app.players.size + 2; count += 1) tries.push(`${first.slice(0, 12)}${count}`);
    return tries.map((name) => name.slice(0, MOST_NAME)).find((name) => !taken.has(name)) || '';
  }

  command() {
    const full = this.full().replace(/'/g, "'\\''");
    return full && !this.isPlain()
      ? `./chess-club player ${this.chosen()} --full-name '${full}' --players FOLDER/club.players` : '';
  }

  render() {
    const same = [...this.app.players.values()].some(({ full }) => full.toLowerCase() === this.full().toLowerCase());
    this.form.elements.name.placeholder = this.full() && this.freeName();
    setText(byId('new-player-add'), this.isPlain() ? t`Add the player` : t`Copy the command`);
    setText(byId('new-player-command'), this.command());
    this.say(same ? t`A player of this full name is listed already.` : this.command() && this.how());
  }

  /** What is to be done with the command, and how the player is added without it. */
  how() {
    const spelled = plain(this.full());
    const run = t`Not all letters of the name can be sent: run this on the club’s machine, with the evening’s folder for
      FOLDER.`;
    return spelled.includes('?') ? run : t`${run} Or write the name as ${spelled}: the player is added at once then.`;
  }

  /** The lobby adds the player, and the link is shown. */
  async add() {
    const full = this.full(), name = this.chosen();
    this.links.hide();
    this.links.note('');
    const answer = await this.app.wire.say(`player ${name} ${full}`), taken = /^no 50 \S+ (\S+)/.exec(answer[0]);
    if (answer[0].startsWith('ok player ')) {
      this.clear();
      this.links.added(full, answer[0]);
    } else if (taken) this.say(t`${taken[1]} is the name of another player already: choose one that nobody has.`);
    else this.links.refused(answer[0], t`Look whether the player is listed, and else add the player once more.`);
  }

  async copied() {
    const done = await copy(this.command());
    this.name = this.chosen();
    const copied = done ? t`The command is copied.` : t`It could not be copied. Mark it, and copy it by hand.`;
    this.say(t`${copied} Run it on the club’s machine, with the evening’s folder for FOLDER. A second later the player is
      listed here.`);
    clearInterval(this.looking);
    const end = Date.now() + LOOKS_AT_MOST;
    this.looking = setInterval(() => (this.name && Date.now() < end ? this.app.askPlayers() : this.close()), LOOKS);
  }

  /** The players were told: whether the new one is there. */
  look() {
    const found = this.name && this.app.players.get(this.name);
    if (!found) return;
    this.close();
    this.clear();
    this.say(t`${found.full} is listed now: make a new link, which is shown here once.`);
    this.links.find(found.full);
  }

  clear() {
    this.form.reset();
    this.render();
  }

  /** Nobody waits for the player any more. */
  close() {
    clearInterval(this.looking);
    this.name = '';
  }

  say(text) {
    setText(byId('new-player-words'), text);
  }
}
