// Short sounds, made here: on, until they are switched off. A browser lets a page be heard from the first click or key
// on.

import { read, write } from './make.js';

const LOW = [0, 0.16, 0.32].map((at) => ({ hertz: 880, at, length: 0.08 }));
/** Of each sound its tones, {hertz, at, length} in seconds. */
const TONES = {
  move: [{ hertz: 320, at: 0, length: 0.06 }],
  take: [{ hertz: 210, at: 0, length: 0.09 }],
  check: [{ hertz: 320, at: 0, length: 0.06 }, { hertz: 640, at: 0.07, length: 0.1 }],
  offer: [{ hertz: 440, at: 0, length: 0.12 }, { hertz: 550, at: 0.14, length: 0.16 }],
  low: LOW,
  end: [{ hertz: 520, at: 0, length: 0.2 }, { hertz: 390, at: 0.2, length: 0.35 }],
};
const local = () => localStorage;
let audio = null;

export function wantsSound() {
  return read(local, 'sound') !== 'off';
}

export function setSound(wanted) {
  write(local, 'sound', wanted ? null : 'off');
  wake();
  sound('move');
}

/** From the first click or key on there are sounds. */
function wake() {
  if (!window.AudioContext) return;
  audio = audio || new AudioContext();
  if (audio.state === 'suspended') audio.resume();
}

export function sound(kind) {
  if (!wantsSound() || !audio) return;
  for (const { hertz, at, length } of TONES[kind]) {
    const source = audio.createOscillator(), loudness = audio.createGain(), start = audio.currentTime + at;
    source.type = 'triangle';
    source.frequency.value = hertz;
    loudness.gain.setValueAtTime(0.25, start);
    loudness.gain.exponentialRampToValueAtTime(0.001, start + length);
    source.connect(loudness).connect(audio.destination);
    source.start(start);
    source.stop(start + length);
  }
}

for (const kind of ['pointerdown', 'keydown']) addEventListener(kind, wake, { once: true, capture: true });
