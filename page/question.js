// The desk's question: nothing is done before an arbiter has agreed to it.

import { t } from './language.js';
import { byId, setText } from './make.js';

export class Question {
  constructor() {
    this.agreed = null;
    this.about = 0;                    // the number of the game that is asked about
    byId('arbiter-dialog').addEventListener('close', (event) => {
      const agreed = this.agreed;
      this.agreed = null;
      this.about = 0;
      if (event.target.returnValue === 'yes' && agreed) agreed();
    });
  }

  /** Asks {title, words, yes}, maybe about a game, and calls `agreed` where the answer is yes. */
  ask({ title, words, yes = t`Enter it`, about = 0 }, agreed) {
    const dialog = byId('arbiter-dialog');
    this.agreed = agreed;
    this.about = about;
    setText(byId('arbiter-question'), title);
    setText(byId('arbiter-words'), words);
    setText(byId('arbiter-yes'), yes);
    dialog.returnValue = '';
    dialog.showModal();
  }

  close() {
    byId('arbiter-dialog').close();
  }
}
