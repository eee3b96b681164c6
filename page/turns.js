// It is one's turn, or one is offered a game, and the tab is hidden: its icon shows that, and the browser tells it where
// that was agreed to.

import { t } from './language.js';
import { byId, read, write } from './make.js';

const local = () => localStorage;

export class Turns {
  constructor() {
    this.key = '';                     // of one's turn that is now; empty where it is not
    this.isAsked = false;              // one is offered a game
    this.link = document.querySelector('link[rel=icon]');
    document.addEventListener('visibilitychange', () => this.draw());
    byId('notices-yes').addEventListener('click', () => this.decide('on'));
    byId('notices-no').addEventListener('click', () => this.decide('off'));
  }

  /** It is one's turn; each turn has a key of its own. An empty one says that it is not. */
  set(key, words) {
    const isNew = key !== '' && key !== this.key;
    this.key = key;
    this.draw();
    if (isNew) this.tell(words);
  }

  asked(isAsked) {
    this.isAsked = isAsked;
    this.draw();
  }

  draw() {
    const icon = document.hidden && (this.key || this.isAsked) ? 'icon-turn.svg' : 'icon.svg';
    if (this.link.getAttribute('href') !== icon) this.link.setAttribute('href', icon);
  }

  /** Tells something to who looks elsewhere. */
  tell(words) {
    if (!document.hidden || read(local, 'notices') !== 'on' || !window.Notification) return;
    if (Notification.permission !== 'granted') return;
    try {
      const told = new Notification(t`Chess club`, { body: words, tag: 'turn', icon: 'icon.svg' });
      told.onclick = () => {
        window.focus();
        told.close();
      };
    } catch (refused) {
      // (some browsers of phones let no page do that)
    }
  }

  // ---- whether that is wanted

  /** It is asked once, where nobody is at a board that runs. */
  offer(mayAsk) {
    const may = mayAsk && window.isSecureContext && window.Notification && Notification.permission === 'default';
    byId('notices').hidden = !may || read(local, 'notices') !== null || !byId('linked').hidden;
  }

  async decide(answer) {
    write(local, 'notices', answer);
    byId('notices').hidden = true;
    if (answer === 'on') await Notification.requestPermission();
  }
}
