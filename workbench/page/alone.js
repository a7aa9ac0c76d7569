// The page without its server: what it says then, and how it goes on where it was once a server of the folder is there.
import { answering, run } from './answers.js';
import { download, greet, onLost } from './calls.js';
import { h } from './dom.js';
import { lookAround } from './files.js';
import { plain } from './look.js';
import { keep, S, sendKept, show } from './state.js';

const AGAIN_AFTER = 2000, LOOK_EACH = 5000;
/** @type {number | null} */
let waiting = null;

onLost(status => {
  S.alone = status ? 'other' : 'gone';
  if (S.version) keep('unsaved ' + S.file, S.script === S.saved ? null : { script: S.script, version: S.version });
  waiting ??= setTimeout(tryAgain, AGAIN_AFTER);
  show();
});

/** Looks whether the server is there again, and goes on with it: what wasn't saved is saved, if nobody else did. */
async function tryAgain() {
  clearTimeout(waiting);
  waiting = null;
  await answering();
  if (await greet() !== 200) return;
  S.alone = '';
  show();
  if (!S.version) return location.reload();
  if (S.script === S.saved) await lookAround();
  await answering();
  await run(S.script !== S.saved);
  keep('unsaved ' + S.file, null);
  await sendKept();
}

// (a server that ends is noticed before the next click)
setInterval(() => {
  if (!S.alone && S.version && !document.hidden && !answering()) greet();
}, LOOK_EACH);

/**
 * What the page says when it stands alone.
 *
 * @type {() => View}
 */
export const aloneView = () => h('div.conflict', { key: 'alone', role: 'alert' },
  h('b', null,
    S.alone === 'gone' ? '⚠ This page stands alone: its server doesn’t answer.' : '⚠ Another server answers here now.',
  ),
  ' What you type stays on the page. Nothing is saved or answered until factoplan workbench runs on this folder again.',
  S.alone === 'gone' ? ' The page tries again by itself.' : ' Open the address that it printed, if it has another.',
  h('span.acts', null,
    h('button.main', { type: 'button', 'data-key': 'again', onclick: tryAgain }, 'Try now'),
    h(
      'button.quiet',
      {
        type: 'button',
        'data-key': 'script as file',
        onclick: () => download(plain(S.file), S.script, 'text/plain'),
      },
      'Download the script',
    ),
  ),
);
