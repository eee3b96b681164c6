// The board: 64 squares that are clicked, dragged over or walked by keys, and the men above them. It knows the legal
// moves that it was told and no rule beside them.

import { Arrows } from './arrows.js';
import { t } from './language.js';
import { placementOf, sideOf } from './lines.js';
import { make } from './make.js';
import { pictureOf } from './pieces.js';
import { kindWord, manWords } from './words.js';

const FILES = 'abcdefgh';
const PROMOTIONS = 'qnrb';
const WITH_A_PRESS = 500;            // milliseconds: a click so soon behind a press that has ended is of it
const STEPS = { ArrowLeft: [0, -1], ArrowRight: [0, 1], ArrowUp: [-1, 0], ArrowDown: [1, 0] };

/** What stands still: a board that is only looked at. */
export class Picture {
  constructor(label) {
    this.turned = false;
    this.men = new Map();              // square -> {letter, image}
    this.root = make('div', { class: 'board still', role: 'img', 'aria-label': label });
    this.squares = this.makeSquares();
    this.layer = make('div', { class: 'men', 'aria-hidden': 'true' });
    this.root.append(this.layer);
  }

  makeSquares() {
    const squares = [];
    for (let row = 0; row < 8; row += 1) {
      const rank = make('div', { class: 'rank' });
      for (let column = 0; column < 8; column += 1) {
        const square = make('div', { class: (row + column) % 2 ? 'square dark' : 'square light' });
        squares.push(square);
        rank.append(square);
      }
      this.root.append(rank);
    }
    return squares;
  }

  nameAt(row, column) {
    return this.turned ? FILES[7 - column] + (row + 1) : FILES[column] + (8 - row);
  }

  placeOf(name) {
    const file = FILES.indexOf(name[0]), rank = Number(name[1]);
    return this.turned ? [rank - 1, 7 - file] : [8 - rank, file];
  }

  squareOf(name) {
    const [row, column] = this.placeOf(name);
    return this.squares[8 * row + column];
  }

  /** {fen, last: {from, to}, check, turned}: draws what is another. */
  show(view) {
    const turning = this.turned !== Boolean(view.turned);
    this.turned = Boolean(view.turned);
    this.settle(placementOf(view.fen), turning || view.still);
    this.marks(view);
  }

  /** Puts the men where they stand now; a man that has moved slides there. */
  settle(placement, still) {
    this.layer.classList.toggle('sliding', !still);
    const left = new Map();
    for (const [name, man] of this.men) {
      if (placement.get(name) !== man.letter) left.set(name, man);
    }
    const men = new Map();
    for (const [name, letter] of placement) {
      let man = this.men.get(name);
      if (!man || man.letter !== letter) {
        const from = nearest(left, letter, name);
        man = from ? left.get(from) : { letter, image: this.picture(letter) };
        left.delete(from);
      }
      men.set(name, man);
    }
    for (const man of left.values()) man.image.remove();
    this.men = men;
    for (const [name, man] of men) this.put(man, name);
  }

  picture(letter) {
    const image = make('img', { class: 'man', src: pictureOf(letter), 'data-letter': letter, alt: '',
      draggable: false });
    this.layer.append(image);
    return image;
  }

  put(man, name) {
    const [row, column] = this.placeOf(name);
    man.image.style.transform = `translate(${100 * column}%, ${100 * row}%)`;
  }

  marks(view) {
    const king = view.check ? (sideOf(view.fen) === 'w' ? 'K' : 'k') : '';
    const last = view.last || {};
    this.squares.forEach((square, index) => {
      const name = this.nameAt(index >> 3, index & 7);
      const man = this.men.get(name);
      square.classList.toggle('last', name === last.from || name === last.to);
      square.classList.toggle('check', Boolean(man && man.letter === king));
    });
  }
}

function nearest(men, letter, name) {
  let found = '', least = 99;
  for (const [from, man] of men) {
    const far = Math.abs(from.charCodeAt(0) - name.charCodeAt(0)) + Math.abs(from.charCodeAt(1) - name.charCodeAt(1));
    if (man.letter === letter && far < least) [found, least] = [from, far];
  }
  return found;
}

/** The square that a king reaches which is put down on its own rook, as many castle; else '' */
function castled(men, from, name) {
  const king = men.get(from), rook = men.get(name), isOwn = { K: 'R', k: 'r' }[king ? king.letter : ''];
  if (!isOwn || !rook || rook.letter !== isOwn || from[1] !== name[1]) return '';
  return (name > from ? 'g' : 'c') + from[1];
}

/** The board that is played on. `chosen(move)` is called with a move of those that were told; `planned(plan)` with one
 * that is to be made next time, {from, to}, or null where it is taken back; `says` speaks. */
export class Board extends Picture {
  constructor({ chosen, planned, says }) {
    super('');
    this.chosen = chosen;
    this.planned = planned;
    this.says = says;
    this.moves = new Map();            // square left -> moves
    this.ahead = '';                   // the side whose men may be moved ahead of their turn
    this.plan = null;
    this.held = '';
    this.drag = null;
    this.at = 60;                      // the square that the keys are on
    this.byPointer = false;            // whether a pointer brought the keys here: then arrows go through the moves
    this.usesPointer = true;           // whether the last that was done was done by one, or nothing was so far
    this.isPressed = false;
    this.releasedAt = -Infinity;
    this.root.className = 'board';
    this.root.setAttribute('role', 'grid');
    this.root.setAttribute('aria-label', t`Board`);
    this.root.querySelectorAll('.rank').forEach((rank) => rank.setAttribute('role', 'row'));
    this.squares.forEach((square) => {
      square.setAttribute('role', 'gridcell');
      square.tabIndex = -1;
    });
    this.edges = [7, 15, 23, 31, 39, 47, 55, 63].map((index) => this.edge(index, 'rank-number'))
      .concat([56, 57, 58, 59, 60, 61, 62, 63].map((index) => this.edge(index, 'file-letter')));
    this.promotion = make('div', { class: 'promotion', role: 'group', 'aria-label': t`The pawn
      becomes`, hidden: true });
    this.root.append(this.promotion);
    this.arrows = new Arrows(this);
    this.listen();
    this.label();
  }

  edge(index, kind) {
    const text = make('span', { class: kind, 'aria-hidden': 'true' });
    this.squares[index].append(text);
    return { index, text, place: kind === 'rank-number' ? 1 : 0 };
  }

  listen() {
    const on = (event, act) => this.root.addEventListener(event, act);
    on('pointerdown', (event) => this.press(event));
    on('pointermove', (event) => this.carry(event));
    on('pointerup', (event) => this.drop(event));
    on('pointercancel', () => this.endDrag());
    this.root.addEventListener('click', (event) => this.endPress(event), true);
    on('click', (event) => this.click(event));
    on('keydown', (event) => this.key(event));
    on('focusin', (event) => this.focused(event));
    addEventListener('pointerdown', () => { this.usesPointer = true; }, true);
    addEventListener('keydown', () => { this.usesPointer = false; }, true);
  }

  /** As of a picture, and `moves`: the legal moves, none where nobody moves here; `ahead`, the side whose men may be
   * moved ahead of its turn, and `plan`, such a move. */
  show(view) {
    if (this.fen !== view.fen) this.arrows.clear();
    if (this.turned !== Boolean(view.turned)) {
      this.endDrag();
      this.letGo();
    }
    super.show(view);
    this.moves = new Map();
    for (const move of view.moves || []) {
      const from = move.slice(0, 2);
      this.moves.set(from, [...this.moves.get(from) || [], move]);
    }
    this.fen = view.fen;
    this.ahead = view.ahead || '';
    this.plan = view.plan || null;
    this.root.classList.toggle('live', this.moves.size > 0);
    this.root.classList.toggle('ahead', this.ahead !== '');
    this.stands(null);
    if (this.held && !this.isMovable(this.held)) this.letGo();
    if (!this.held) this.closePromotion();
    this.arrows.draw();
    this.label();
  }

  put(man, name) {
    if (this.drag && this.drag.man === man) return;
    super.put(man, name);
  }

  // ---- holding and putting down

  targets(from) {
    return (this.moves.get(from) || []).map((move) => move.slice(2, 4));
  }

  /** Whether a man may be moved ahead of its turn. */
  isAhead(name) {
    const man = this.men.get(name);
    return Boolean(man && this.ahead) && (man.letter === man.letter.toUpperCase()) === (this.ahead === 'w');
  }

  isMovable(name) {
    return this.moves.has(name) || this.isAhead(name);
  }

  /** Where a man goes that is put down on a square; '' where it goes back. */
  goal(from, name) {
    if (this.isAhead(from)) return name === from ? '' : name;
    const targets = this.targets(from);
    return [name, castled(this.men, from, name)].find((one) => targets.includes(one)) || '';
  }

  /** The move of those that were told which a plan means, if there is one: a pawn becomes a queen. */
  moveOf({ from, to }) {
    const goal = this.goal(from, to), moves = (this.moves.get(from) || []).filter((move) => move.slice(2, 4) === goal);
    return moves.find((move) => move[4] === 'q') || moves[0] || '';
  }

  hold(name) {
    this.held = name;
    this.label();
  }

  letGo() {
    this.held = '';
    this.closePromotion();
    this.label();
  }

  /** Puts the held man down on a square that it may reach. */
  putDown(name) {
    if (this.isAhead(this.held)) {
      const plan = { from: this.held, to: name };
      this.letGo();
      this.planned(plan);
      return;
    }
    const moves = this.moves.get(this.held).filter((move) => move.slice(2, 4) === name);
    if (moves.length > 1) this.askPromotion(name, moves);
    else this.choose(moves[0]);
  }

  choose(move) {
    this.place(move);
    this.chosen(move);
  }

  /** A man stands where a move puts it, until the board is shown anew. */
  place(move) {
    const from = move.slice(0, 2), to = move.slice(2, 4);
    this.moves = new Map();
    this.letGo();
    const man = this.men.get(from), taken = this.men.get(to);
    if (taken) taken.image.remove();
    this.men.delete(from);
    this.men.set(to, man);
    this.layer.classList.add('sliding');
    this.put(man, to);
    this.stands(to);
    this.label();
  }

  /** The square of a man that was put there and is not told yet. */
  stands(name) {
    const man = name && this.men.get(name);
    this.layer.querySelectorAll('.untold').forEach((image) => image.classList.remove('untold'));
    this.squares.forEach((square) => square.classList.remove('untold'));
    if (!man) return;
    man.image.classList.add('untold');
    this.squareOf(name).classList.add('untold');
  }

  // ---- the pointer

  nameUnder(event) {
    const box = this.root.getBoundingClientRect();
    const column = Math.floor(8 * (event.clientX - box.left) / box.width);
    const row = Math.floor(8 * (event.clientY - box.top) / box.height);
    return row >= 0 && row < 8 && column >= 0 && column < 8 ? this.nameAt(row, column) : '';
  }

  press(event) {
    this.releasedAt = -Infinity;
    if (event.target.closest('.promotion')) return;
    if (event.button === 2) this.arrows.begin(this.nameUnder(event), event);
    if (event.button !== 0) return;
    this.arrows.clear();
    const hadPlan = this.plan;
    if (hadPlan) this.planned(null);
    const wasPromoting = !this.promotion.hidden;
    this.closePromotion();
    const name = this.nameUnder(event);
    if (!name) return;
    event.preventDefault();
    this.isPressed = true;
    this.walkTo(this.squares.indexOf(this.squareOf(name)), true);
    const goal = this.held && !wasPromoting && this.goal(this.held, name);
    if (goal) {
      this.putDown(goal);
    } else if (this.isMovable(name) && !(hadPlan && name === hadPlan.to)) {
      this.drag = { man: this.men.get(name), name, again: this.held === name, x: event.clientX, y: event.clientY };
      this.hold(name);
      this.root.setPointerCapture(event.pointerId);
    } else {
      this.letGo();
    }
  }

  /** The click of a press is for nobody: a finger's would fall on what a pawn becomes, which the press has brought. */
  endPress(event) {
    if (event.timeStamp - this.releasedAt < WITH_A_PRESS) event.stopPropagation();
    this.releasedAt = -Infinity;
  }

  /** A click that no pointer made, as assistive software does it: as Enter on that square. */
  click(event) {
    const index = this.squares.indexOf(event.target.closest('.square'));
    if (index < 0) return;
    if (!this.promotion.hidden) this.letGo();
    this.walkTo(index);
    this.enter(this.nameAt(index >> 3, index & 7));
  }

  carry(event) {
    const drag = this.drag;
    if (!drag) return;
    if (!drag.carried && Math.hypot(event.clientX - drag.x, event.clientY - drag.y) < 5) return;
    drag.carried = true;
    const box = this.root.getBoundingClientRect(), half = box.width / 16;
    drag.man.image.classList.add('carried');
    drag.man.image.style.transform =
      `translate(${event.clientX - box.left - half}px, ${event.clientY - box.top - half}px)`;
    this.over(this.nameUnder(event));
  }

  over(name) {
    this.squares.forEach((square) => square.classList.remove('over'));
    if (name && this.goal(this.held, name)) this.squareOf(name).classList.add('over');
  }

  drop(event) {
    const drag = this.drag;
    if (this.isPressed) this.releasedAt = event.timeStamp;
    this.isPressed = false;
    if (!drag) return;
    const name = this.nameUnder(event);
    this.drag = null;
    this.over('');
    drag.man.image.classList.remove('carried');
    const goal = drag.carried && name && this.goal(drag.name, name);
    if (goal) {
      this.layer.classList.remove('sliding');
      this.put(drag.man, this.isAhead(drag.name) ? drag.name : goal);
      this.putDown(goal);
      return;
    }
    this.put(drag.man, drag.name);
    if (name !== drag.name || drag.again && !drag.carried) this.letGo();
  }

  endDrag() {
    if (!this.drag) return;
    const { man, name } = this.drag;
    this.drag = null;
    this.over('');
    man.image.classList.remove('carried');
    this.put(man, name);
    this.letGo();
  }

  // ---- the keys

  key(event) {
    if (!this.promotion.hidden) {
      this.promotionKey(event);
      return;
    }
    const row = this.at >> 3, column = this.at & 7;
    if (event.altKey || event.metaKey) return;
    if (this.byPointer && (event.key in STEPS || event.key === 'Home' || event.key === 'End')) return;
    if (event.key in STEPS && !event.ctrlKey) {
      const [down, right] = STEPS[event.key];
      this.walkTo(8 * Math.min(7, Math.max(0, row + down)) + Math.min(7, Math.max(0, column + right)));
    } else if (event.key === 'Home' || event.key === 'End') {
      const start = event.key === 'Home', left = event.ctrlKey ? (start ? 0 : 56) : 8 * row;
      this.walkTo(left + (start ? 0 : 7));
    } else if (event.key === 'Enter' || event.key === ' ') {
      this.enter(this.nameAt(row, column));
    } else if (event.key === 'Escape' && this.plan && !this.held) {
      this.planned(null);
    } else if (event.key === 'Escape' && this.held) {
      this.says(t`${kindWord(this.men.get(this.held).letter)} put back`);
      this.letGo();
    } else {
      return;
    }
    event.preventDefault();
    event.stopPropagation();
  }

  enter(name) {
    const goal = this.held && this.goal(this.held, name);
    if (goal) {
      this.putDown(goal);
    } else if (this.held === name) {
      this.says(t`put back`);
      this.letGo();
    } else if (this.isAhead(name)) {
      this.hold(name);
      this.says(t`${kindWord(this.men.get(name).letter)} on ${name} held, for your next move`);
    } else if (this.moves.has(name)) {
      this.hold(name);
      const targets = [...new Set(this.targets(name))];
      this.says(t`${kindWord(this.men.get(name).letter)} on ${name} held. It may go to ${targets.join(', ')}`);
    } else if (this.held) {
      this.says(t`not to ${name}`);
    } else if (this.men.has(name)) {
      this.says(this.moves.size ? t`no move from ${name}` : t`nothing to move now`);
    }
  }

  /** The keys are on this square from now on; softly where a pointer brings them. */
  walkTo(index, softly = false) {
    this.at = index;
    this.walking = true;
    this.byPointer = softly;
    this.squares.forEach((square, place) => { square.tabIndex = place === index ? 0 : -1; });
    this.squares[index].focus({ preventScroll: softly, focusVisible: !softly });
    this.walking = false;
  }

  focused(event) {
    const index = this.squares.indexOf(event.target);
    if (index < 0 || this.walking) return;
    if (event.relatedTarget) this.byPointer = false;         // (else the window has the keys again)
    this.at = index;
    this.squares.forEach((square, place) => { square.tabIndex = place === index ? 0 : -1; });
  }

  /** The keys go to the board: to the square where they were last. */
  focus() {
    this.walkTo(this.at, this.usesPointer);
  }

  // ---- what a pawn becomes

  askPromotion(name, moves) {
    const [row, column] = this.placeOf(name);
    const white = sideOf(this.fen) === 'w';
    const kinds = [...PROMOTIONS].filter((kind) => moves.some((move) => move[4] === kind));
    this.promotion.replaceChildren(...kinds.map((kind) => make('button', {
      type: 'button', 'aria-label': kindWord(kind), title: kindWord(kind),
      onclick: () => this.choose(moves.find((move) => move[4] === kind)),
    }, make('img', { src: pictureOf(white ? kind.toUpperCase() : kind), alt: '' }))));
    this.promotion.style.left = `${12.5 * column}%`;
    this.promotion.style.top = row < 4 ? '0' : 'auto';
    this.promotion.style.bottom = row < 4 ? 'auto' : '0';
    this.promotion.classList.toggle('upward', row >= 4);
    this.promotion.hidden = false;
    this.root.classList.add('asking');
    this.promotion.firstElementChild.focus();
    this.says(t`The pawn becomes a queen, knight, rook or bishop?`);
  }

  closePromotion() {
    if (this.promotion.hidden) return;
    const focused = this.promotion.contains(document.activeElement);
    this.promotion.hidden = true;
    this.root.classList.remove('asking');
    for (const [name, man] of this.men) this.put(man, name);
    if (focused) this.focus();
  }

  promotionKey(event) {
    const buttons = [...this.promotion.children], place = buttons.indexOf(document.activeElement);
    const step = { ArrowDown: 1, ArrowRight: 1, ArrowUp: -1, ArrowLeft: -1, Tab: event.shiftKey ? -1 : 1 }[event.key];
    if (event.key === 'Escape') this.letGo();
    else if (step) buttons[(place + step + buttons.length) % buttons.length].focus();
    else return;
    event.preventDefault();
    event.stopPropagation();
  }

  // ---- names and marks of the squares

  label() {
    const targets = new Set(this.held ? this.targets(this.held) : []);
    this.squares.forEach((square, index) => {
      const row = index >> 3, column = index & 7, name = this.nameAt(row, column), man = this.men.get(name);
      const target = targets.has(name), words = [name];
      if (man) words.push(manWords(man.letter));
      const isPlanned = Boolean(this.plan) && (name === this.plan.from || name === this.plan.to);
      if (name === this.held) words.push(t`held`);
      if (isPlanned) words.push(t`your next move`);
      if (target) words.push(man ? t`can be taken` : t`can be reached`);
      if (square.classList.contains('check')) words.push(t`in check`);
      if (square.classList.contains('last')) words.push(t`last move`);
      square.dataset.square = name;
      square.setAttribute('aria-label', words.join(', '));
      if (name === this.held) square.setAttribute('aria-selected', 'true');
      else square.removeAttribute('aria-selected');
      square.classList.toggle('held', name === this.held);
      square.classList.toggle('target', target && !man);
      square.classList.toggle('taking', target && Boolean(man));
      square.classList.toggle('movable', this.moves.has(name));
      square.classList.toggle('ahead', this.isAhead(name));
      square.classList.toggle('planned', isPlanned);
      square.tabIndex = index === this.at ? 0 : -1;
    });
    for (const { index, text, place } of this.edges) text.textContent = this.nameAt(index >> 3, index & 7)[place];
  }
}
