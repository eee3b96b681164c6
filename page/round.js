// A round's pairings, the standings and the crosstable, of players and of teams, as the lobby serves them in one file,
// for everybody.

import { t } from './language.js';
import { AS_PLAYED } from './lines.js';
import { byId, make, read, setText, write } from './make.js';
import { SIDES, decidedWords, resultWords, withReason } from './words.js';

const FILE = new URL('round.json', import.meta.url);           // (the screens' pages stand in other folders)
// In milliseconds: while it is shown or none was told, and for a game's page where one was told.
const LOOKS_AGAIN = 15000, KNOWS_FOR = 60000;
const DECIDED = 'decided';           // of this tab: what the lobby has told of decisions
const DECIDED_FOR = 43200000;        // and for so long, in milliseconds
const tab = () => sessionStorage;
const SIGNS = { w: t`White`, b: t`Black` };

const TITLES = {
  BP: t`Board points`,                 // (of teams alone)
  DE: t`Direct encounter`, BHC1: t`Buchholz without the least`, BH: t`Buchholz`, SB: t`Sonneborn-Berger`, WIN: t`Wins`,
};

/** What the file tells of a tournament, and what the lobby has told of decisions before the file does. */
export class RoundFile {
  /** looked(isOther): the file was read, and whether it tells something else than before. */
  constructor(looked) {
    this.looked = looked;
    this.told = null;                  // what the file tells
    this.results = new Map();          // by it: game -> {result, why} of its board, why as far as that was told
    // `ROUND BOARD` -> {result, why, isTold, game, at}: what the lobby has told, maybe before it, and when
    this.decisions = new Map(keptDecisions());
    this.text = '';                    // the file, as it was told last
    this.state = 'sought';
    this.readAt = -Infinity;
  }

  /** Reads the file; where it cannot be read what was told stays. A file that is empty tells of no round. */
  async look() {
    this.readAt = performance.now();
    const before = this.text;
    try {
      const answer = await fetch(FILE, { cache: 'no-cache' }), text = answer.ok ? await answer.text() : '';
      const isNone = answer.ok ? !text.trim() : answer.status === 404;
      if (isNone || answer.ok) this.text = text;
      if (isNone) this.take(null, 'none');
      else if (answer.ok) this.take(JSON.parse(text), 'told');
      else this.state = this.told ? 'told' : 'failed';
    } catch (refused) {
      this.state = this.told ? 'told' : 'failed';
    }
    this.looked(this.text !== before);
  }

  /** What the file tells, and of a board what an arbiter has decided since. Matches of teams have no games. */
  take(told, state) {
    Object.assign(this, { told, state, results: new Map() });
    for (const [place, boards] of (told && !isOfTeams(told) ? told.rounds : []).entries()) {
      for (const board of boards) {
        const decided = this.decisionOf(`${place + 1} ${board.board}`, board);
        if (decided && !decided.isTold) Object.assign(board, { result: decided.result, law: undefined });
        const { game, result } = board, why = decided && decided.result === result ? decided.why : '';
        if (game) this.results.set(game, { result, why });
      }
    }
    this.keepDecisions();
  }

  /** What the lobby has told of a place whose board the file tells so; nothing where that has another game by now, as
   * one of another tournament. */
  decisionOf(place, { result, game }) {
    const decided = this.decisions.get(place);
    if (!decided) return undefined;
    if (decided.game && game && decided.game !== game) {
      this.decisions.delete(place);
      return undefined;
    }
    return Object.assign(decided, { game: game || decided.game, isTold: decided.isTold || decided.result === result });
  }

  keepDecisions() {
    write(tab, DECIDED, this.decisions.size ? JSON.stringify([...this.decisions]) : null);
  }

  /** The lobby tells that an arbiter has decided a board: its file does so a while later. What counts as it was played,
   * that file alone tells. */
  decides({ round, board, result, why }) {
    const place = `${round} ${board}`;
    if (result === AS_PLAYED) this.decisions.delete(place);
    else this.decisions.set(place, { result, why, isTold: false, game: 0, at: Date.now() });
    if (this.told) this.take(JSON.parse(this.text), this.state);
    else this.keepDecisions();
    this.looked(true);
  }

  /** Whether boards were decided, and nothing tells of which games they are. */
  decidesUnseen() {
    return !this.told && this.decisions.size > 0;
  }

  /** What an arbiter has decided of a game that is over by the server's result, {result, why}; null where nothing is known
   * of that: of who did not come, the file has `+/-` by the server's result too. */
  decided(number, result) {
    const found = this.results.get(number);
    if (!found || found.result === '*' || result === '*') return null;
    return found.why || SIDES.some((side) => worth(found.result, side) !== worth(result, side)) ? found : null;
  }

  /** The same in words, `½–½ Draw by the arbiter’s decision`, or what the server says. */
  outcomeWords({ number, result, article }) {
    const decided = this.decided(number, result), words = resultWords(result, article);
    return decided ? `${resultText(decided.result)} ${decidedWords(decided.result)}`.trim()
      : withReason(words.score, words.reason);
  }

  /** Reads the file where it was read some time ago: so the head has the way to the round wherever one is. */
  refresh() {
    if (performance.now() - this.readAt > (this.told ? KNOWS_FOR : LOOKS_AGAIN)) this.look();
  }

  /** Which board of which round a game is, {round, board}, as it was told last; null where it is none's. */
  placeOf(number) {
    for (const [place, boards] of (this.told ? this.told.rounds : []).entries()) {
      const found = boards.find(({ game }) => game === number);
      if (found) return { round: place + 1, board: found.board };
    }
    return null;
  }

  /** A board of a round, {round, board, game, white, black, names, bye} with the players' names, and full ones in `names`,
   * as it was told last; null where none was, and where the boards are matches of teams. */
  boardAt(round, board) {
    const boards = this.told && !isOfTeams(this.told) ? this.told.rounds[round - 1] : null;
    const found = boards && boards.find((one) => one.board === board);
    const player = (number) => this.told.players[number - 1] || { name: '', full: '' };
    if (!found) return null;
    const [white, black] = [player(found.white), player(found.black)];
    const names = found.bye ? white.full : `${white.full} – ${black.full}`;
    return { ...found, round, white: white.name, black: black.name, names };
  }

  /** The boards that have neither a game nor a result so far, as boardAt() has them. */
  unplayed() {
    const rounds = this.told && !isOfTeams(this.told) ? this.told.rounds : [];
    return rounds.flatMap((boards, place) => boards.filter(({ bye, game, result }) => !bye && !game && result === '*')
      .map(({ board }) => this.boardAt(place + 1, board)));
  }

  /** The board of the newest round that a player has and for which one of the two did not come: {event, round, board,
   * names, score}; null where there is none. */
  defaultOf(name) {
    const round = this.newest(), boards = round && !isOfTeams(this.told) ? this.told.rounds[round - 1] : [];
    for (const { board, result } of boards) {
      const { white, black, names } = this.boardAt(round, board), isOwn = white === name || black === name;
      const { event } = this.told, score = resultText(result);
      if (isOwn && /^[+-]\//.test(result)) return { event, round, board, names, score };
    }
    return null;
  }

  /** The boards of which the file tells what the Laws ask of their game: {round, board, game, white, black, law}. */
  asked() {
    const seat = (number) => (this.told.players[number - 1] || { full: '' }).full;
    return (this.told ? this.told.rounds : []).flatMap((boards, place) => boards.filter(({ law }) => law)
      .map(({ board, game, white, black, law }) => ({ round: place + 1, board, game, white: seat(white),
        black: seat(black), law })));
  }

  /** What the Laws ask of a game, as it was told last; null where nothing was. */
  lawOf(number) {
    const found = this.asked().find(({ game }) => game === number);
    return found ? found.law : null;
  }

  /** The players by {name, full}, as they were told last; of teams these. */
  players() {
    return this.told ? this.told.players : [];
  }

  /** How far the log goes, as it was told last: {lines, sum, at, broken}; null where it was not. */
  log() {
    return this.told && this.told.log || null;
  }

  /** What is wrong with what the file was made of, in the words of who made it. */
  wrong() {
    return this.told && this.told.wrong || [];
  }

  /** The number of the newest round, 0 where none was told. */
  newest() {
    return this.told ? this.told.rounds.length : 0;
  }
}

export class RoundView extends RoundFile {
  constructor(app) {
    super((isOther) => this.drawn(isOther));
    this.app = app;
    this.root = byId('round-view');
    this.hash = '#/round';
    this.number = 0;                   // the round that is shown, 0 for the newest
  }

  // ---- coming and going

  open(number) {
    this.number = number;
    this.root.hidden = false;
    this.look();
    this.looking = setInterval(() => !document.hidden && this.look(), LOOKS_AGAIN);
    this.render();
  }

  close() {
    this.root.hidden = true;
    clearInterval(this.looking);
  }

  /** The games that this view has to be told of. */
  needs() {
    return [];
  }

  /** What shows it, here and elsewhere. */
  drawn(isOther) {
    const { view, game, table, hall, finished, desk } = this.app;
    byId('to-round').hidden = !this.told;
    this.render();
    if (!isOther) return;
    this.app.tellDefault();
    if (view === desk) desk.renderRound();
    else if ([game, table, hall, finished].includes(view)) view.render();
  }

  /** For a game's page: which round's board a game is, in words; '' where it is none's. */
  boardWords(number) {
    this.refresh();
    const place = this.placeOf(number);
    return place ? t`Round ${place.round}, board ${place.board}` : '';
  }

  // ---- drawing

  render() {
    if (this.root.hidden) return;
    const { told } = this, shown = told ? Math.min(this.number || told.rounds.length, told.rounds.length) : 0;
    const title = shown ? t`Round ${shown}` : t`The round`, teams = shown ? told.teams : null;
    setText(byId('round-title'), title);
    this.app.titled(title);
    setText(byId('round-event'), told ? told.event : '');
    setText(byId('round-none'), { none: t`There is no round here.`, sought: t`Reading …`,
      failed: t`The round cannot be read now.` }[this.state] || '');
    for (const part of this.root.querySelectorAll('.round-part')) part.hidden = !shown;
    for (const part of this.root.querySelectorAll('.teams-part')) part.hidden = !teams;
    if (!shown) return;
    this.renderRounds(told.rounds.length, shown);
    new Tables(told).draw('round', shown);
    if (teams) new Tables(teams).draw('teams', shown);
  }

  /** The ways to the other rounds. */
  renderRounds(count, shown) {
    byId('round-others').replaceChildren(...Array.from({ length: count }, (_, place) => {
      const link = make('a', { href: `#/round/${place + 1}` }, t`Round ${place + 1}`);
      if (place + 1 === shown) link.setAttribute('aria-current', 'true');
      return link;
    }));
  }
}

/** What this tab has kept of decisions, of the last hours. */
function keptDecisions() {
  const kept = JSON.parse(read(tab, DECIDED) || '[]');
  return kept.filter(([, { at }]) => Date.now() - at < DECIDED_FOR);
}

/** Whether this is told of teams, whose boards are matches. */
function isOfTeams(told) {
  return told.breaks.includes('BP');
}

/** The tables of a tournament's players, or of its teams: a round, the standings and the crosstable. */
class Tables {
  constructor(told) {
    this.told = told;
    this.isOfTeams = isOfTeams(told);
    this.places = told.players.map((player, place) => ({ ...player, number: place + 1 }))
      .sort((one, other) => one.place - other.place || one.number - other.number);
  }

  /** Draws them into the tables whose ids begin so. */
  draw(front, shown) {
    const { places } = this, put = (name, rows) => byId(`${front}-${name}`).replaceChildren(...rows);
    put('boards', (this.told.rounds[shown - 1] || []).map((board) => this.boardRow(board)));
    put('breaks', this.headCells());
    put('standings', places.map((player) => this.standingRow(player)));
    put('columns', this.crossHead());
    put('cross', places.map((player, place) => this.crossRow(player, place)));
  }

  whoCell() {
    return make('th', { scope: 'col' }, this.isOfTeams ? t`Team` : t`Player`);
  }

  /** The name of a player, and the way to the games; a team has no page of its own. */
  seatLink(number) {
    const { name, full } = this.told.players[number - 1] || { name: '', full: '' };
    return this.isOfTeams || !name ? full : make('a', { href: `#/player/${encodeURIComponent(name)}` }, full);
  }

  boardRow({ board, white, black, bye, result, game }) {
    const words = bye ? t`bye` : result !== '*' ? resultText(result) : this.isOfTeams ? t`not over`
      : game ? t`goes on` : t`not begun`;
    return make('tr', {}, make('td', { class: 'number' }, String(board)), make('td', {}, this.seatLink(white)),
      make('td', { class: 'result' }, game ? make('a', { href: `#/game/${game}` }, words) : words),
      make('td', {}, bye ? '' : this.seatLink(black)));
  }

  headCells() {
    const column = (name) => make('th', { scope: 'col' }, make('abbr', { title: TITLES[name] || name }, name));
    return [make('th', { scope: 'col' }, t`Place`), this.whoCell(),
      make('th', { scope: 'col' }, this.isOfTeams ? t`Match points` : t`Points`),
      ...this.told.breaks.map((name) => (name === 'BP' ? make('th', { scope: 'col' }, TITLES.BP) : column(name)))];
  }

  standingRow({ place, number, points, values }) {
    return make('tr', {}, make('td', { class: 'number' }, String(place)),
      make('th', { scope: 'row' }, this.seatLink(number)),
      make('td', { class: 'number' }, pointsText(points)),
      ...values.map((value) => make('td', { class: 'number' }, pointsText(value))));
  }

  crossHead() {
    return [make('th', { scope: 'col' }, t`No.`), this.whoCell(),
      ...this.told.rounds.map((_, place) => make('th', { scope: 'col' }, String(place + 1)))];
  }

  /** A player's rounds: the line of the opponent, the colour and what it was worth. */
  crossRow(player, place) {
    return make('tr', {}, make('td', { class: 'number' }, String(place + 1)),
      make('th', { scope: 'row' }, this.seatLink(player.number)),
      ...this.told.rounds.map((boards) => this.crossCell(player.number, boards)));
  }

  /** Of a match both have their board points in it, the row's own first. */
  crossCell(number, boards) {
    const found = boards.find(({ white, black }) => white === number || black === number);
    if (!found) return make('td', { class: 'number' }, '–');
    if (found.bye) {
      const points = pointText(found.result);
      return make('td', { class: 'number' }, this.isOfTeams ? `${t`bye`} ${points}` : points);
    }
    const isWhite = found.white === number, [own, other] = isWhite ? ['w', 'b'] : ['b', 'w'];
    const line = this.places.findIndex((one) => one.number === (isWhite ? found.black : found.white)) + 1;
    const points = found.result === '*' ? '*' : sideText(found.result, own);
    return make('td', { class: 'number' }, `${line}`, make('span', { title: SIGNS[own] }, isWhite ? t`w` : t`b`),
      this.isOfTeams && points !== '*' ? ` ${points}–${sideText(found.result, other)}` : points);
  }
}

/** What a side has of `1-0`, `1/2-0`, `+/-` and the like, in words: `1`, `½`, `+`. */
export function sideText(result, side) {
  const [white, black] = /^[+-]\//.test(result) ? result.split('/') : result.split('-');
  return pointText(side === 'w' ? white : black);
}

/** The same in points. */
function worth(result, side) {
  return { 1: 1, '+': 1, '½': 0.5 }[sideText(result, side)] || 0;
}

function pointText(text) {
  return text.includes('.') ? pointsText(text) : text.replace('1/2', '½').replace('-', '–');
}

/** `2½` of `2.5`. */
function pointsText(text) {
  const [whole, part] = text.split('.'), half = part === '5' || part === '50' ? '½' : '';
  if (part && !half && Number(part)) return text;
  return half && whole === '0' ? half : `${whole}${half}`;
}

/** `1–0` of `1-0`, `½–½`, `+ –`. */
export function resultText(result) {
  if (/^[+-]\//.test(result)) return `${pointText(result[0])} ${pointText(result[2])}`;
  return result.split('-').map(pointText).join('–');
}
