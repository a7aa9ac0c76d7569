// What is refused of a click: told by what was clicked, with what would mend it.
import { undo } from './changes.js';
import { curesOfLine } from './cures.js';
import { h } from './dom.js';
import { icon } from './look.js';
import { form } from './pick.js';
import { linesOf } from './script.js';
import { S } from './state.js';

// The lines that clicks wrote and that aren't answered yet, and what was clicked last.
/** @type {Set<string>} */
const written = new Set();
/** @type {HTMLElement | null} */
let clicked = null;

/** @type {(e: UiEvent) => void} */
const notice = e => {
  const it = e.target.closest?.('button, input, select, [role=button]');
  if (it && !it.closest('.picker, .editor')) clicked = it;
};
document.addEventListener('pointerdown', notice, true);
document.addEventListener('focusin', notice, true);

/**
 * Notes the lines that a click wrote.
 *
 * @param {string[]} lines
 */
export function wrote(lines) {
  for (const it of lines) written.add(it);
}

/** Tells of the first of them that is refused. */
export function tellRefused() {
  const all = linesOf(S.script), [n] = [...S.refused.keys()].filter(k => written.has(all[k - 1]));
  written.clear();
  if (!n) return;
  const { why, cures } = curesOfLine(n);
  tellWhy(why, [{ id: null, text: 'Take it back', act: undo }, ...cures]);
}

/**
 * Says by what was clicked last why nothing came of it, with what would mend it.
 *
 * @param {string} why
 * @param {Cure[]} [cures]
 */
export function tellWhy(why, cures = []) {
  const again = clicked?.dataset.key;
  const anchor = clicked?.isConnected
    ? clicked
    : /** @type {HTMLElement | null} */ (again && document.querySelector(`[data-key="${CSS.escape(again)}"]`));
  form(anchor || document.getElementById('search'), 'It isn’t taken', leave => [
    h('div.refusal', { role: 'alert' }, h('b', null, '✗ It isn’t taken: '), why),
    h('div.tips', null, cures.map(c => h(
      'button.tip',
      {
        type: 'button',
        key: c.text,
        onclick: () => {
          leave();
          c.act();
        },
      },
      c.id ? icon(c.id) : '',
      c.text,
    ))),
    h('div.acts', null, h('button.quiet', { type: 'button', 'data-key': 'leave', onclick: leave }, 'Close')),
  ]);
}
