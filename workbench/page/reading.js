// What is seen before the game is there: how far the program has read, what comes next, and a way to stop.
import { run } from './answers.js';
import { call } from './calls.js';
import { h } from './dom.js';
import { S, show } from './state.js';

const EACH = 500;
/** @type {{ read: number | null, size: number, since: number, timer: number | null }} */
const reading = { read: null, size: 0, since: 0, timer: null };

/** @type {(bytes: number) => string} */
const megabytes = bytes => (bytes / 1e6).toFixed(bytes < 1e7 ? 1 : 0);

async function look() {
  reading.timer = null;
  if (!S.busy) return;
  const it = await call('progress', { file: S.file }).catch(() => null);
  if (it) Object.assign(reading, it);
  show();
}

/** @type {() => string} */
function told() {
  const { read, size } = reading, seconds = Math.round((Date.now() - reading.since) / 1000);
  if (!size) return 'Reading the game …';
  const far = read === null || read >= size
    ? `Read ${megabytes(size)} MB. What it comes to is reckoned now: recipes, machines, and what can be had.`
    : `Reading the game: ${megabytes(read)} of ${megabytes(size)} MB. Then it is reckoned what can be had.`;
  return seconds < 3 ? far : `${far} (${seconds} s)`;
}

/**
 * The page before the game is there.
 *
 * @returns {View}
 */
export function readingView() {
  const again = () => {
    reading.since = 0;
    run(false);
  };
  if (S.fault) {
    return h('div.start', { key: 'fault', role: 'status' },
      h('p', null, `✗ The game can’t be read: ${S.fault}`),
      h('button.quiet', { type: 'button', 'data-key': 'read again', onclick: again }, 'Read it again'),
    );
  }
  if (!reading.since) reading.since = Date.now();
  if (S.busy) reading.timer ??= setTimeout(look, EACH);
  return h('div.start', { key: 'start', role: 'status' },
    h('p', null, told()),
    reading.size > 0 && h('progress', { max: reading.size, value: reading.read ?? reading.size, 'aria-label': 'Read' }),
    h('button.quiet', { type: 'button', 'data-key': 'stop', onclick: () => call('stop', { file: S.file }) }, 'Stop'),
  );
}
