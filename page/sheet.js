// How a game is drawn around its board: names and clocks, the moves, what can be done, how it stands.

import { t } from './language.js';
import { placementOf, readTimes, sideOf } from './lines.js';
import { byId, make, setText } from './make.js';
import { drawTaken } from './material.js';
import { resultText, sideText } from './round.js';
import { stopped } from './stopped.js';
import {
  CLOCKS_STOPPED, SIDES, colourWord, decidedWords, kindWord, rankWords, refusalWords, resultWords, sanShown, sanWords,
  timesInFull, timesWords, withReason,
} from './words.js';

/** What the button says by itself. */
const CLAIM = byId('claim').title;

export function drawPlayers(game) {
  const standing = game.standing, times = readTimes(game.tags.TimeControl || ''), result = game.counted();
  const isUncounted = game.isUncounted();
  for (const place of ['far', 'near']) {
    const side = game.sideAt(place), root = game.players[place], name = side === 'w' ? standing.white : standing.black;
    const turn = game.running() && standing.side === side;
    root.classList.toggle('white', side === 'w');
    root.classList.toggle('black', side === 'b');
    root.classList.toggle('turn', turn);
    root.classList.toggle('two-periods', Boolean(times && times.moves));
    root.classList.toggle('won', !isUncounted && ['1', '+'].includes(scoreOf(result, side)));
    setText(root.querySelector('.name'), name ? game.app.nameWords(name) : t`waiting …`);
    root.querySelector('.name').title = name;
    setText(root.querySelector('.colour'), colourWord(side));
    const { WhiteTitle, WhiteElo, BlackTitle, BlackElo } = game.tags;
    setText(root.querySelector('.rank'), side === 'w' ? rankWords(WhiteTitle, WhiteElo)
      : rankWords(BlackTitle, BlackElo));
    setText(root.querySelector('.away'), game.room.awayWords(name));
    const period = standing.article ? '' : periodWords(times, standing.ply, game.startSide(), side);
    setText(root.querySelector('.period'), period);
    setText(root.querySelector('.score'), game.adjournedBy || isUncounted ? '' : scoreOf(result, side));
    drawTaken(root.querySelector('.taken'), side, game.line[0] ? game.line[0].fen : standing.fen, game.fenShown());
    const clock = game.clocks[place];
    clock.label = t`${colourWord(side)}’s clock`;
    clock.set({ left: standing.left[side], at: standing.at, running: turn });
  }
}

export function drawMoves(game) {
  const list = byId('moves'), shown = game.shown();
  addMoves(list, game);
  list.querySelectorAll('button').forEach((button) => {
    const ply = Number(button.dataset.ply);
    if (ply === shown) button.setAttribute('aria-current', 'true');
    else button.removeAttribute('aria-current');
    button.tabIndex = ply === Math.max(1, shown) ? 0 : -1;
  });
  const current = list.querySelector('[aria-current]');
  if (current) keepInSight(list, current);
  else list.scrollTop = list.scrollLeft = 0;
  byId('first-move').disabled = byId('previous-move').disabled = shown === 0;
  byId('last-move').disabled = byId('next-move').disabled = game.back === null;
  byId('last-move').classList.toggle('news', game.back !== null);
  setText(byId('last-san'), game.last() ? lastWords(game) : '');
}

/** Puts the moves behind those that are there already, which stay: who is at one of them stays there. */
function addMoves(list, game) {
  const start = game.line[0] ? game.line[0].fen : '', key = `${game.number} ${start}`;
  const shift = game.startSide() === 'b' ? 1 : 0, first = Number(start.split(' ')[5] || 1);
  const shown = list.querySelectorAll('button');
  let next = 1;
  const stands = (ply) => shown[ply - 1].textContent === sanShown(game.line[ply].san);
  while (next <= shown.length && next <= game.last() && stands(next)) next += 1;
  if (list.dataset.key !== key || next <= shown.length) {
    list.dataset.key = key;
    list.replaceChildren();
    next = 1;
  }
  for (let ply = next; ply <= game.last(); ply += 1) {
    const place = ply - 1 + shift, number = first + Math.floor(place / 2);
    if (place % 2 === 0 || ply === 1) {
      list.append(make('li', {}, make('span', { class: 'number', 'aria-hidden': 'true' }, String(number)),
        place % 2 === 1 ? make('span', { class: 'ply none' }, '…') : ''));
    }
    list.lastElementChild.append(moveButton(game, ply, number, place % 2));
  }
}

function lastWords(game) {
  const { san, fen } = game.line[game.last()], full = Number(fen.split(' ')[5]);
  return sideOf(fen) === 'b' ? `${full}. ${sanShown(san)}` : `${full - 1}… ${sanShown(san)}`;
}

function moveButton(game, ply, number, black) {
  const { san } = game.line[ply];
  return make('button', { type: 'button', class: 'ply', 'data-ply': String(ply),
    'aria-label': `${number}${black ? t`, Black` : ''}: ${sanWords(san)}`, onclick: () => game.goTo(ply) }, sanShown(san));
}

export function drawActions(game) {
  const standing = game.standing, seat = game.seat(), runs = game.running(), me = game.app.me();
  const can = game.app.reachable();
  const show = (id, shown, enabled = true) => {
    byId(id).hidden = !shown;
    byId(id).disabled = !(enabled && can);
  };
  const offered = game.isOffered();
  show('offer', runs && seat && !offered, !standing.offer);
  const isOffering = seat && standing.offer.includes(seat);
  setText(byId('offer').querySelector('.words'), isOffering ? t`Draw offered` : t`Offer draw`);
  byId('offered').hidden = !offered;
  show('accept', offered);
  show('decline', offered);
  byId('proposed').hidden = !game.proposed;
  setText(byId('proposed-words'), game.proposed ? t`Play ${moveWords(game)}?` : '');
  show('play-it', game.proposed);
  show('claim', runs && seat, game.myTurn());
  byId('claim').title = runs && seat ? `${game.stoodWords()} ${CLAIM}`.trim() : CLAIM;
  show('resign', runs && seat);
  show('copy-invitation', !game.started() && seat);
  show('join', !game.started() && !seat && me && !game.room.absent());
  show('drop', (game.app.isArbiter() || seat) && !game.started());
  byId('look-again').hidden = !game.started() || game.isPlaying();
  const areHere = !game.kept || [standing.white, standing.black].every((name) => game.app.players.has(name));
  show('again', standing.article && seat && !game.adjournedBy && game.tags.TimeControl && areHere, !drawRematch(game));
  byId('move-form').hidden = !(runs && seat) || Boolean(game.proposed);
  byId('actions').hidden = Boolean(game.proposed) || ![...byId('actions').children].some((one) => !one.hidden);
}

/** What "Rematch" says, which may be offered; whether one offers it already. */
function drawRematch(game) {
  const { challenges } = game.app, line = game.rematchLine(), seat = game.seat(), { white, black } = game.standing;
  const [own, other] = seat === 'b' ? [black, white] : [white, black], isAsked = challenges.stands(other, line);
  const isOffered = challenges.stands(own, line);
  setText(byId('again'), isAsked ? t`Accept the rematch` : isOffered ? t`Rematch offered` : t`Rematch`);
  byId('again').classList.toggle('strong', isAsked);
  return isOffered;
}

/** The move that waits to be agreed to: `knight g1–f3`. */
function moveWords(game) {
  const { proposed } = game, from = proposed.slice(0, 2), man = placementOf(game.standing.fen).get(from);
  const kind = proposed[4] ? t`, becomes a ${kindWord(proposed[4])}` : '';
  return `${man ? kindWord(man) : ''} ${from}–${proposed.slice(2, 4)}${kind}`;
}

export function drawOutcome(game) {
  const standing = game.standing, place = byId('outcome');
  const words = standing.article ? resultWords(standing.result, standing.article) : null, decision = game.decision();
  place.classList.toggle('over', Boolean(words));
  let [head, more] = ['', ''];
  if (game.adjournedBy) {
    [head, more] = [t`Adjourned`, game.adjournedWords()];
  } else if (decision) {
    const { result, why } = decision, ended = t`The server says ${words.score}: ${withReason(words.result,
      words.reason).trim()}.`;
    [head, more] = [`${resultText(result)}  ${decidedWords(result)}`, why ? `${why}. ${ended}` : ended];
  } else if (words) {
    [head, more] = [`${words.score}  ${withReason(words.result, words.reason)}`, words.article];
    if (game.isUncounted()) [head, more] = [t`It does not count: not both have moved`, `${head}. ${more}`];
  } else if (!game.started()) {
    head = game.seat() ? t`Waiting for an opponent` : t`This seat is free`;
    more = game.seat() ? t`The clocks start as soon as somebody joins.` : t`The clocks start as soon as you join.`;
    if (game.seat()) more += ` ${game.app.offers.endWords(game.number)}`.trimEnd();
    if (!game.seat() && game.room.absent()) more = t`${game.app.nameWords(game.room.absent())} is not connected.`;
    if (!game.seat() && !game.app.me()) more = t`To play, open your personal link.`;
  } else if (SIDES.some((side) => standing.side === side && game.clockOf(side).now() <= 0)) {
    head = t`${colourWord(standing.side)}’s flag has fallen`;
    more = !game.seat() ? t`A player has to call it.` : game.app.reachable() ? t`Calling it …` : '';
  } else if (game.back !== null) {
    head = t`An earlier position`;
    more = t`The game goes on: go to the last move to play.`;
  } else if (game.isSlow) {
    head = t`Sending …`;
    more = t`The lobby has not answered yet.`;
  } else if (game.seat()) {
    head = game.myTurn() ? t`Your turn` : t`Waiting for your opponent`;
    more = stopped ? refusalWords({ number: CLOCKS_STOPPED }) : standing.check ? t`Check!` : '';
    if (game.plan) more = planWords(game);
  } else {
    head = t`${colourWord(standing.side)} to move`;
    more = standing.check ? t`Check!` : '';
  }
  setText(place.querySelector('.head'), head);
  setText(place.querySelector('.more'), more);
}

/** When the move is sent that was made before its time. */
function planWords(game) {
  const { from, to } = game.plan;
  return stopped && game.myTurn() ? t`Once the clocks run ${from}–${to}: a click takes it back.`
    : t`Then ${from}–${to}: a click takes it back.`;
}

/** Who sits there, and the way to the player's games, but for who plays: no click there leaves the board. */
function drawSeat(game, place, name) {
  const words = name ? game.app.nameWords(name) : t`free seat`, had = place.querySelector('a');
  const href = name && !game.isPlaying() ? `#/player/${encodeURIComponent(name)}` : '';
  if (place.textContent === words && (had ? had.getAttribute('href') : '') === href) return;
  place.replaceChildren(href ? make('a', { href }, words) : words);
}

export function drawFacts(game) {
  const { white, black } = game.standing, times = readTimes(game.tags.TimeControl || '');
  setText(byId('game-title'), t`Game ${game.number}`);
  setText(byId('game-times'), timesWords(times));
  byId('game-times').title = timesInFull(times);
  drawSeat(game, byId('game-white'), white);
  drawSeat(game, byId('game-black'), black);
  setText(byId('game-start'), game.tags.FEN ? t`From a position` : '');
  setText(byId('game-kept'), game.keptWords());
  setText(byId('game-board'), game.app.round.boardWords(game.number));
  byId('fen-text').value = game.fenShown();
  setText(byId('game-watched'), game.room.watchedWords());
  byId('watching').hidden = Boolean(game.seat()) || !game.started();
}

function scoreOf(result, side) {
  return result === '*' ? '' : sideText(result, side);
}

/** What a side's clock gets: the second period until it has come, and the increment. */
function periodWords(times, ply, startSide, side) {
  if (!times) return '';
  const own = Math.floor((ply + (side === startSide ? 1 : 0)) / 2);
  const parts = [];
  if (times.increment) parts.push(`+${times.increment} s`);
  if (times.moves) {
    const left = times.moves - own, more = timesWords({ initial: times.second, increment: 0, moves: 0 }).split('+')[0];
    const unit = /^\d+$/.test(more) ? ' min' : '';
    if (left > 0) parts.push(left === 1 ? t`+${more}${unit} in 1 move` : t`+${more}${unit} in ${left} moves`);
    else parts.push(t`second period`);
  }
  return parts.join(' · ');
}

/** Scrolls a list, and nothing around it, so that a part of it is in sight. */
export function keepInSight(list, child) {
  const box = list.getBoundingClientRect(), at = child.getBoundingClientRect();
  if (at.top < box.top) list.scrollTop += at.top - box.top - 4;
  if (at.bottom > box.bottom) list.scrollTop += at.bottom - box.bottom + 4;
  if (at.left < box.left) list.scrollLeft += at.left - box.left - 24;
  if (at.right > box.right) list.scrollLeft += at.right - box.right + 24;
}
