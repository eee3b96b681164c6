// The times of a game as a form asks for them: minutes, seconds a move, and a second period.

import { byId, make, setText } from './make.js';
import { timesInFull } from './words.js';

const PRESETS = ['1+0', '2+1', '3+0', '3+2', '5+0', '5+3', '10+0', '10+5', '15+10', '30+0', '30+20',
  '90+30', '40/90+30, 30'];
const FIRST = '5+3';
const TYPED = ['minutes', 'increment', 'second', 'moves', 'more'];

export class TimesField {
  /** Puts the fields into an element of the form. */
  constructor(form, place) {
    this.form = form;
    place.append(byId('times-fields').content.cloneNode(true));
    this.more = place.querySelector('.second-fields');
    this.words = place.querySelector('.times-words');
    place.querySelector('.presets').append(...PRESETS.map((words) => make('label', { class: 'preset' },
      make('input', { type: 'radio', name: 'preset', value: words, class: 'unseen', checked: words === FIRST }),
      make('span', {}, words))));
    place.addEventListener('input', (event) => this.changed(event.target));
    this.preset(FIRST);
  }

  preset(words) {
    const found = /^(?:(\d+)\/)?([\d.]+)\+(\d+)(?:, ([\d.]+))?$/.exec(words), fields = this.form.elements;
    fields.minutes.value = found[2];
    fields.increment.value = found[3];
    fields.second.checked = Boolean(found[1]);
    if (found[1]) [fields.moves.value, fields.more.value] = [found[1], found[4]];
    this.render();
  }

  /** Times in seconds, {initial, increment, moves, second}, as none of the usual ones. */
  set(times) {
    const fields = this.form.elements, minutes = (seconds) => String(Number((seconds / 60).toFixed(4)));
    fields.minutes.value = minutes(times.initial);
    fields.increment.value = String(times.increment);
    fields.second.checked = times.moves > 0;
    if (times.moves) [fields.moves.value, fields.more.value] = [String(times.moves), minutes(times.second)];
    this.unchoose();
    this.render();
  }

  /** As a new form has them. */
  reset() {
    for (const preset of this.form.elements.preset) preset.checked = preset.value === FIRST;
    this.preset(FIRST);
  }

  /** In seconds, as they stand in the fields. */
  times() {
    const fields = this.form.elements, seconds = (field) => Math.round(60 * Number(field.value));
    const second = fields.second.checked;
    return { initial: seconds(fields.minutes), increment: Number(fields.increment.value),
      moves: second ? Number(fields.moves.value) : 0, second: second ? seconds(fields.more) : 0 };
  }

  /** As an `open` line has them. */
  line() {
    const { initial, increment, moves, second } = this.times();
    return moves ? `${moves}/${initial}:${second} ${increment}` : `${initial} ${increment}`;
  }

  unchoose() {
    for (const preset of this.form.elements.preset) preset.checked = false;
  }

  changed(field) {
    if (field.name === 'preset') this.preset(field.value);
    else if (TYPED.includes(field.name)) this.unchoose();
    this.render();
  }

  /** Minutes that are not whole stand below in words, too. */
  render() {
    const times = this.times();
    this.more.hidden = !this.form.elements.second.checked;
    setText(this.words, times.initial % 60 || times.second % 60 ? timesInFull(times) : '');
  }
}
