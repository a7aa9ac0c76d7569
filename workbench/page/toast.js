// Short messages at the foot of the window. Each is told to who can't see it, too.
import { draw, h } from './dom.js';

/** @type {{ text: string, bad: boolean, act: [string, () => any] | null } | null} */
let shown = null;
/** @type {number | null} */
let timer = null;

/**
 * A message; `act` is a name and what a click on it does, and such a message stays.
 *
 * @param {string} text
 * @param {{ bad?: boolean, act?: [string, () => any] | null }} how
 */
export function toast(text, { bad = false, act = null } = {}) {
  shown = { text, bad, act };
  // (what was said last is there also when it is shown no more)
  document.getElementById('toasts').dataset.said = text;
  paint();
  clearTimeout(timer);
  if (!act) timer = setTimeout(clear, bad ? 9000 : 4500);
}

function clear() {
  shown = null;
  paint();
}

function paint() {
  draw(
    document.getElementById('toasts'),
    shown
      ? [
        h('div.toast' + (shown.bad ? '.bad' : ''), { key: shown.text },
          h('span', null, shown.bad ? '⚠ ' : '', shown.text),
          shown.act && h(
            'button',
            {
              onclick: () => {
                const [, how] = shown.act;
                clear();
                how();
              },
            },
            shown.act[0],
          ),
          h('button', { title: 'Close', 'aria-label': 'Close the message', onclick: clear }, '×'),
        ),
      ]
      : [],
  );
}
