// All clocks are stopped by the arbiter: every page says so and why, and its clocks stand still meanwhile.

import { halt } from './clock.js';
import { t } from './language.js';
import { byId, setText } from './make.js';

/** Why all clocks are stopped, as the lobby tells it; empty where they run. */
export let stopped = '';

export function clocksTold(reason) {
  stopped = reason;
  halt(Boolean(reason));
  byId('clocks-stopped').hidden = !reason;
  setText(byId('clocks-stopped'), reason && t`Clocks stopped by the arbiter: ${reason}`);
  dispatchEvent(new Event('clocks'));
}
