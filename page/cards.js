// New links of many players, on a sheet that is printed and cut: each with its QR code, and shown this once.

import { t } from './language.js';
import { byId, make, setText } from './make.js';
import { qrCode } from './qr.js';

const SVG = 'http://www.w3.org/2000/svg';
const EDGE = 4;                      // cells of a light edge around a code

export class Cards {
  /** links: {app, desk, listed(), makeOne(name), note(text, kind)}. */
  constructor(links) {
    this.links = links;
    this.busy = false;
    byId('cards-make').addEventListener('click', () => this.ask());
    byId('cards-print').addEventListener('click', () => print());
    byId('cards-done').addEventListener('click', () => this.hide());
  }

  /** Who gets a link: the players that are listed, but no arbiter. */
  wanted() {
    return this.links.listed().filter(({ role }) => role !== 'arbiter');
  }

  render() {
    byId('cards-make').disabled = this.busy || !this.links.app.wire.state.open || !this.wanted().length;
  }

  ask() {
    const rows = this.wanted();
    this.links.desk.question.ask({ title: rows.length === 1 ? t`Make a new link for ${rows[0].full}, to print?`
      : t`Make new links for ${rows.length} players, to print?`, yes: t`Make them`,
      words: t`They are for the players who are listed here, arbiters left out. The links that they have hold no more: a
        page that is open with one asks for the new one. Clocks run on.` }, () => this.make(rows));
  }

  async make(rows) {
    const cards = [];
    this.hide();
    this.busy = true;
    for (const { name, full } of rows) {
      const link = await this.links.makeOne(name);
      if (!link) break;
      cards.push(card(name, full, link));
      this.links.note(t`${cards.length} of ${rows.length} links are made.`);
    }
    this.busy = false;
    this.render();
    if (cards.length === rows.length) this.links.note('');
    if (!cards.length) return;
    byId('cards').replaceChildren(...cards);
    document.body.classList.add('has-cards');
    byId('cards-shown').hidden = false;
    setText(byId('cards-words'), t`The sheet has ${cards.length} of ${rows.length} links. It is there this once: print it
      now.`);
    byId('cards-print').focus();
  }

  /** The link that a player had holds no more: it is not printed. */
  leaveOut(name) {
    for (const one of [...byId('cards').children].filter(({ dataset }) => dataset.name === name)) one.remove();
    if (!byId('cards').children.length) this.hide();
  }

  /** The sheet is there no more. */
  hide() {
    const had = byId('cards-shown').contains(document.activeElement);
    document.body.classList.remove('has-cards');
    byId('cards').replaceChildren();
    byId('cards-shown').hidden = true;
    if (had) byId('links-find').focus();
  }
}

function card(name, full, link) {
  return make('div', { class: 'card-of-link', 'data-name': name }, picture(link), make('div', {}, make('h2', {}, full),
    make('p', {}, t`Who opens this link plays as ${full}: keep it for yourself.`),
    make('p', { class: 'link-text' }, link)));
}

/** A text's QR code; nothing where the text is too long for one. */
export function picture(text) {
  const code = qrCode(text);
  if (!code) return '';
  const size = code.length + 2 * EDGE, [svg, path] = ['svg', 'path'].map((tag) => document.createElementNS(SVG, tag));
  svg.setAttribute('viewBox', `0 0 ${size} ${size}`);
  svg.setAttribute('aria-hidden', 'true');
  path.setAttribute('d', code.flatMap((row, down) => row.map((isDark, right) => (isDark
    ? `M${right + EDGE} ${down + EDGE}h1v1h-1z` : ''))).join(''));
  svg.append(path);
  return svg;
}
