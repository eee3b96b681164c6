// What a player chooses, kept in the browser: colours, board, men, sounds, keys, and whether a move is asked about.

import { LANGUAGES, language, t } from './language.js';
import { byId, make, read, write } from './make.js';
import { BOARDS, SETS, chooseBoard, chooseSet, chosenBoard, chosenSet, pictureOf } from './pieces.js';
import { setSound, wantsSound } from './sound.js';

const THEMES = ['', 'light', 'dark'];
const NAMES = {
  '': t`As the system`, light: t`Light`, dark: t`Dark`, wood: t`Wood`, green: t`Green`, blue: t`Blue`, club: t`Club`,
  bold: t`Bold`, plain: t`Plain`,
};
const local = () => localStorage, keep = (key, value) => write(local, key, value);

/** Whether a move on the board is sent only once it was agreed to. */
export function asksFirst() {
  return read(local, 'ask-first') === 'on';
}

/** Whether letters are keys. */
export function hasLetters() {
  return read(local, 'letters') !== 'off';
}

function setTheme(theme) {
  if (theme) document.documentElement.dataset.theme = theme;
  else delete document.documentElement.dataset.theme;
  keep('theme', theme || null);
}

/** Radio buttons of one name, one of which is chosen. */
function choice(place, name, values, chosen, draw, choose) {
  byId(place).append(...values.map((value) => make('label', { class: 'choice' },
    make('input', { type: 'radio', name, value, class: 'unseen', checked: value === chosen,
      onchange: () => choose(value) }), draw(value))));
}

function drawSound() {
  const isOn = wantsSound();
  byId('sound').setAttribute('aria-pressed', String(isOn));
  byId('sound').title = isOn ? t`Sounds are on` : t`Sounds are off`;
}

export function listenToSettings() {
  const two = (set) => make('span', { class: 'two' }, ...['K', 'n'].map((letter) => make('img',
    { src: pictureOf(letter, set), alt: '' })));
  choice('choose-theme', 'theme', THEMES, document.documentElement.dataset.theme || '',
    (theme) => make('span', {}, NAMES[theme]), setTheme);
  choice('choose-board', 'board', BOARDS, chosenBoard(),
    (board) => make('span', {}, make('span', { class: `swatch ${board}` }), NAMES[board]), chooseBoard);
  choice('choose-men', 'men', SETS, chosenSet(), (set) => make('span', {}, two(set), NAMES[set]), chooseSet);
  choice('choose-language', 'language', Object.keys(LANGUAGES), language, (one) => make('span', { lang: one },
    LANGUAGES[one]), (one) => {
    keep('language', one);
    location.reload();
  });
  byId('ask-first').checked = asksFirst();
  byId('ask-first').addEventListener('change', (event) => keep('ask-first', event.target.checked ? 'on' : null));
  byId('letters').checked = hasLetters();
  byId('letters').addEventListener('change', (event) => keep('letters', event.target.checked ? null : 'off'));
  byId('sound').addEventListener('click', () => {
    setSound(!wantsSound());
    drawSound();
  });
  drawSound();
}
