// The workbench: the top, the tabs, the keys, and how all of it is drawn.
import { aloneView } from './alone.js';
import { run } from './answers.js';
import { call, takeToken } from './calls.js';
import { cardView } from './card.js';
import { redo, undo } from './changes.js';
import { draw, h } from './dom.js';
import { isTyping, scriptView, settleTyping } from './editor.js';
import { exploreView } from './explore.js';
import { begin, lookAround, openFile } from './files.js';
import { game } from './game.js';
import { look, plain } from './look.js';
import { isPicking } from './pick.js';
import { readingView } from './reading.js';
import { go, side } from './routes.js';
import { kept, onChange, receive, S, show, tableShown } from './state.js';
import { tableView } from './table.js';
import { toast } from './toast.js';
import { conflictView, KEYS, noticeView, search, tabsView, theme, topView } from './top.js';
import { whatIfView } from './whatif.js';
import { wishView } from './wish.js';

// ---- Drawing ----

function view() {
  const table = tableShown();
  if (!game.at.size) return readingView();
  if (S.route === 'explore') return exploreView();
  if (S.route === 'what') return whatIfView();
  return table ? tableView(table) : wishView();
}

let waiting = false;
/** @type {string | null} */
let routeDrawn = null;

// What is shown is brought to the state once a frame, however often it changed.
function drawSoon() {
  if (waiting) return;
  waiting = true;
  queueMicrotask(() => {
    waiting = false;
    drawAll();
  });
}

function drawAll() {
  const aside = S.side === 'script'
    ? h('aside.broad', { key: 'aside script', 'aria-label': 'The script' }, scriptView())
    : S.side === 'card' && S.card
      ? h('aside', { key: 'aside card', 'aria-label': 'Card' }, cardView(S.card))
      : null;
  if (!look.belt || !game.at.has(look.belt)) {
    look.belt = game.belts.filter(b => b.rank).at(-1)?.id || game.belts[0]?.id || null;
  }
  draw(document.getElementById('app'), [
    topView(),
    tabsView(),
    S.alone && aloneView(),
    S.conflict && conflictView(),
    noticeView(),
    h('div.body', { key: 'body' }, h('main', { key: 'main' }, view()), aside),
  ]);
  if (S.route !== routeDrawn) {
    document.querySelector('.tab.now')?.scrollIntoView({ block: 'nearest', inline: 'nearest' });
  }
  routeDrawn = S.route;
  watchRoom(document.querySelector('main'));
  document.title = `${plain(tableShown()?.name || 'factoplan')} · workbench`;
}

// How wide the middle is, which the chart hangs on: told when it changes, since asking would lay out the page at each
// change of anything.
const rooms = new ResizeObserver(([{ target }]) => {
  if (target.clientWidth !== look.room) {
    look.room = target.clientWidth;
    show();
  }
});
/** @type {HTMLElement | null} */
let watched = null;

/** @param {HTMLElement} main */
function watchRoom(main) {
  if (main === watched) return;
  rooms.disconnect();
  rooms.observe(main);
  watched = main;
}

// ---- Keys ----

document.addEventListener('keydown', e => {
  const { tagName } = /** @type {HTMLElement} */ (e.target);
  const isTyped = /INPUT|TEXTAREA|SELECT/.test(tagName);
  // (in a field it is what was typed there that is taken back, which the browser does)
  const isField = isTyped && !/^(checkbox|select-one)$/.test(/** @type {HTMLInputElement} */ (e.target).type);
  const ctrl = e.ctrlKey || e.metaKey;
  const key = e.key.toLowerCase();
  /** @type {(how: () => any) => void} */
  const act = how => {
    e.preventDefault();
    how();
  };
  if (ctrl && key === 'z' && !isField) {
    act(e.shiftKey ? redo : undo);
  } else if (ctrl && key === 'y' && !isField) {
    act(redo);
  } else if ((ctrl && key === 'k') || (key === '/' && !isTyped)) {
    act(search);
  } else if (key === 'escape' && !isPicking() && S.side && (!isTyped || tagName === 'TEXTAREA')) {
    act(() => {
      settleTyping();
      side(S.side);
    });
  } else if (isTyped || ctrl || e.altKey || isPicking()) {
    return;
  } else if (key === '?') {
    toast(KEYS);
  } else if (key === 'e') {
    act(() => side('script'));
  } else if (key === 'w') {
    act(() => {
      go('wish');
      setTimeout(() => document.getElementById('good')?.focus());
    });
  } else if (/^[1-9]$/.test(key)) {
    const route = ['explore', 'what', ...[...S.model.tables.keys()].map(n => 'table:' + n)][Number(key) - 1];
    if (route) act(() => go(route));
  }
});
window.addEventListener('focus', lookAround);
window.addEventListener('beforeunload', e => {
  if (S.conflict || isTyping() || (S.version && S.saved !== S.script)) e.preventDefault();
});
window.addEventListener('resize', show);

// ---- The beginning ----

/**
 * Names and the like of a server, by kind: as maps, since what is so called may have any name.
 *
 * @param {Answer} it
 */
function takeLook(it) {
  look.names = new Map(Object.entries(it.names).map(([kind, names]) => [kind, new Map(Object.entries(names))]));
  look.pictures = new Map(Object.entries(it.pictures).map(([kind, names]) => [kind, new Set(names)]));
  receive(it.kept);
  theme(kept('theme', document.documentElement.dataset.theme));
  look.per = Number(kept('per', 60)) || 60;
  look.belt = kept('belt', null);
}

(async () => {
  const wanted = matchMedia('(prefers-color-scheme: dark)').matches ? 'dark' : 'light';
  document.documentElement.dataset.theme = kept('theme', wanted);
  try {
    await takeToken();
    const it = await call('open');
    takeLook(it);
    Object.assign(S, { stamp: it.stamp, dump: it.dump });
    onChange(drawSoon);
    const last = kept('file', it.file);
    if (last !== it.file && it.files.includes(last)) {
      await openFile(last);
    } else {
      begin(it);
      await run(S.script !== S.saved);
    }
  } catch (fault) {
    draw(document.getElementById('app'), [
      h('p.start', { role: 'alert' },
        fault.status === 403 ? 'Open the whole address that the workbench printed.' : `No answer: ${fault.message}`,
      ),
    ]);
  }
})();
