// What an arbiter announces, which every page shows until it is taken away or hidden there; what is decided about a
// board, which every page that is open then shows until it is hidden; and the line of the head that has it at one's own
// board.

import { t } from './language.js';
import { AS_PLAYED, BYES, readDecided } from './lines.js';
import { byId, read, setText, write } from './make.js';

const HIDDEN = 'hidden-announcement';  // of this tab: what was announced as it was hidden
const DEFAULT = 'hidden-default';      // of this browser: the board without a game that was hidden last
const tab = () => sessionStorage, local = () => localStorage;
/** What is told, the most urgent first: of these the first three are told in red. */
const TOLD = ['#clocks-stopped', '#told', '#invited', '#challenges > *', '#decided', '#defaulted', '#announced',
  '#taken-back', '#log-full'];
const URGENT = TOLD.slice(0, 3);

/** What the arbiter announces, as the lobby tells it; empty where that is nothing. */
export let announced = '';

export function announcedTold(text) {
  if (announced && !text) write(tab, HIDDEN, null);
  if (text !== announced) byId('announced').hidden = !text || read(tab, HIDDEN) === text;
  announced = text;
  setText(byId('announced-words'), text && t`The arbiter announces: ${text}`);
  dispatchEvent(new Event('announced'));
}

/** The line `decided ROUND BOARD RESULT ARTICLE REASON`, by {event, names, isOwn}: who has the board, where that is
 * known, and whether one has it oneself. One's own stays until it is hidden; another's is not shown while one plays. */
export function decidedTold(line, { event, names, isOwn }) {
  const { round, board, verdict, result, score, why } = readDecided(line), banner = byId('decided');
  if (!isOwn && !banner.hidden && !banner.classList.contains('others')) return;
  const words = verdict === AS_PLAYED ? t`as it was played` : verdict in BYES ? `${t`bye`} ${score}`
    : verdict === result ? score : t`${score}, not rated`;
  setText(byId('decided-words'), names
    ? t`The arbiter has decided board ${board} of round ${round}, ${names}: ${words}. Why: ${why}`
    : t`The arbiter has decided board ${board} of round ${round}: ${words}. Why: ${why}`);
  banner.classList.toggle('others', !isOwn);
  banner.hidden = false;
  const key = `${event} ${round} ${board} ${score}`;
  if (isOwn && byId('defaulted').dataset.key === key) hideDefault(key);
}

/** One's own board of the newest round to which a player did not come, {event, round, board, names, score}, or null: who
 * comes too late reads why the game is lost. */
export function defaultTold(found) {
  const { event, round, board, names, score } = found || {}, banner = byId('defaulted');
  const key = `${event} ${round} ${board} ${score}`;
  if (!found || read(local, DEFAULT) === key) {
    banner.hidden = true;
    return;
  }
  setText(byId('defaulted-words'), t`Board ${board} of round ${round}, ${names}: ${score}. Who does not come in time
    loses.`);
  banner.dataset.key = key;
  banner.hidden = false;
}

/** That is told no more, in this browser. */
function hideDefault(key) {
  write(local, DEFAULT, key);
  byId('defaulted').hidden = true;
}

export function listenToAnnounced() {
  byId('hide-announced').addEventListener('click', () => {
    write(tab, HIDDEN, announced);
    byId('announced').hidden = true;
  });
  byId('hide-decided').addEventListener('click', () => { byId('decided').hidden = true; });
  byId('hide-defaulted').addEventListener('click', () => hideDefault(byId('defaulted').dataset.key || ''));
  listenToNews();
}

// ---- the line of the head

function listenToNews() {
  const news = byId('news'), opens = byId('telling-opens');
  const look = new MutationObserver(renderNews), changes = { attributes: true, attributeFilter: ['hidden', 'class'] };
  look.observe(news, { ...changes, subtree: true, childList: true, characterData: true });
  look.observe(document.body, changes);
  opens.addEventListener('click', () => openNews(!news.classList.contains('open')));
  addEventListener('hashchange', () => openNews(false));
  document.addEventListener('pointerdown', ({ target }) => {
    if (target instanceof Element && !target.closest('#news, #telling')) openNews(false);
  });
  document.addEventListener('keydown', (event) => {
    if (event.key !== 'Escape' || !news.classList.contains('open')) return;
    openNews(false);
    opens.focus();
  });
}

/** Shows the words of the most urgent that is told, and how many more there are. */
function renderNews() {
  const isShown = (one) => !one.hidden && !(one.matches('.others') && document.body.matches('.plays'));
  const told = TOLD.flatMap((css) => [...document.querySelectorAll(css)]).filter(isShown), [first] = told;
  byId('telling').hidden = !first;
  byId('telling').classList.toggle('urgent', Boolean(first) && URGENT.some((css) => first.matches(css)));
  setText(byId('telling-words'), first ? lineOf(first) : '');
  setText(byId('telling-more'), told.length > 1 ? `+${told.length - 1}` : '');
  if (!first) openNews(false);
}

/** The words of a banner; of an announcement what is announced, as there is little room. */
function lineOf(banner) {
  const words = banner.querySelector('p') || banner;
  return banner.id === 'announced' ? announced : words.firstChild?.textContent || '';
}

function openNews(isOpen) {
  byId('news').classList.toggle('open', isOpen);
  byId('telling-opens').setAttribute('aria-expanded', String(isOpen));
}
