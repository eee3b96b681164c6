// Arrows and circles that are drawn on a board by the right button, for oneself alone.

const SVG = 'http://www.w3.org/2000/svg';

function part(tag, given) {
  const element = document.createElementNS(SVG, tag);
  for (const [name, value] of Object.entries(given)) element.setAttribute(name, String(value));
  return element;
}

export class Arrows {
  /** board: {root, turned, nameUnder(event), placeOf(name)}. */
  constructor(board) {
    this.board = board;
    this.marks = new Map();            // the squares it leads from and to -> its kind
    this.from = '';
    this.root = part('svg', { class: 'arrows', viewBox: '0 0 8 8', 'aria-hidden': 'true' });
    board.root.append(this.root);
    board.root.addEventListener('contextmenu', (event) => event.preventDefault());
    addEventListener('pointerup', (event) => event.button === 2 && this.end(event));
  }

  begin(name, event) {
    this.from = name;
    this.kind = event.shiftKey ? 'other' : '';
  }

  /** A mark that stands there already is taken away. */
  end(event) {
    const name = this.from && this.board.nameUnder(event), key = this.from + name, { kind } = this;
    this.from = '';
    if (!name) return;
    if (this.marks.get(key) === kind) this.marks.delete(key);
    else this.marks.set(key, kind);
    this.draw();
  }

  clear() {
    if (this.marks.size === 0) return;
    this.marks.clear();
    this.draw();
  }

  draw() {
    this.root.replaceChildren(...[...this.marks].map(([key, kind]) => this.mark(key.slice(0, 2), key.slice(2), kind)));
  }

  mark(from, to, kind) {
    const middle = (name) => {
      const [row, column] = this.board.placeOf(name);
      return { x: column + 0.5, y: row + 0.5 };
    };
    const a = middle(from), b = middle(to), across = b.x - a.x, down = b.y - a.y, far = Math.hypot(across, down);
    if (!far) return part('circle', { class: `circle ${kind}`, cx: a.x, cy: a.y, r: 0.44 });
    const [x, y] = [across / far, down / far], neck = { x: b.x - 0.42 * x, y: b.y - 0.42 * y };
    const at = (along, aside) => `${neck.x + along * x - aside * y} ${neck.y + along * y + aside * x}`;
    const arrow = part('g', { class: `arrow ${kind}` });
    arrow.append(part('path', { class: 'shaft', d: `M${a.x + 0.2 * x} ${a.y + 0.2 * y} L${neck.x} ${neck.y}` }),
      part('path', { class: 'head', d: `M${at(0.36, 0)} L${at(-0.04, 0.24)} L${at(-0.04, -0.24)} Z` }));
    return arrow;
  }
}
