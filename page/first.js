// Runs before anything is drawn: takes a personal link's token out of the address bar, sets light or dark, and the board,
// and loads the page once more where one of its scripts has not come.
(function () {
  'use strict';
  const fragment = location.hash.slice(1);
  if (fragment !== '' && !fragment.startsWith('/')) {
    history.replaceState(null, '', location.pathname + location.search + '#/');
    window['personalLink'] = fragment;
  }
  try {
    const theme = localStorage.getItem('theme');
    if (theme === 'light' || theme === 'dark') document.documentElement.dataset.theme = theme;
    const board = localStorage.getItem('board');
    if (board === 'green' || board === 'blue') document.documentElement.dataset.board = board;
  } catch (refused) {
    // Without storage the system's choice stands.
  }
  // (with the link, and no sooner than the lobby answers: in the place of the page the browser's own would stand)
  const again = () => setTimeout(() => fetch(location.pathname, { cache: 'no-store' }).then(({ ok }) => {
    if (!ok) return again();
    if (fragment === window['personalLink']) history.replaceState(null, '', '#' + fragment);
    return location.reload();
  }).catch(again), 3000);
  addEventListener('error', ({ target }) => target instanceof HTMLScriptElement && again(), true);
})();
