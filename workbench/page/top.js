// The top of the page, the tabs, and what a player should know whatever is shown.
import { change, closed, redo, undo } from './changes.js';
import { h } from './dom.js';
import { isTyping, settleTyping } from './editor.js';
import { settle, settleBeside } from './files.js';
import { resetScale } from './flows.js';
import { game } from './game.js';
import { look, noteOf, PER, plain } from './look.js';
import { pick } from './pick.js';
import { go, open, side } from './routes.js';
import { line } from './script.js';
import { keep, S, show } from './state.js';
import { toast } from './toast.js';

export const KEYS = '/ search · w wish · 1–9 tabs · e script · Ctrl Z undo · Ctrl Shift Z redo · Esc close';

/**
 * Opens the search over the whole game.
 *
 * @type {() => void}
 */
export const search = () => pick(document.getElementById('search'), {
  options: game.ids.map(id => ({ id, note: noteOf(id) })),
  hint: 'Items, fluids, recipes, machines, technologies …',
  done: open,
});

/**
 * The top of the page.
 *
 * @returns {View}
 */
export function topView() {
  const busy = S.busy || S.asking > 0 || isTyping();
  const dark = document.documentElement.dataset.theme === 'dark';
  const refused = S.refused.size;
  const state = isTyping()
    ? 'typing …'
    : busy
      ? 'working …'
      : S.conflict || S.saved !== S.script
        ? 'not saved'
        : 'saved';
  return h('header.top', { key: 'top' },
    h('b.brand', null, 'factoplan', h('span', null, ' workbench')),
    h(
      'button.search',
      { type: 'button', id: 'search', 'data-key': 'search', 'aria-haspopup': 'dialog', onclick: search },
      h('span', null, 'Search', h('span.wide', null, ' the game')),
      h('kbd', { 'aria-hidden': 'true' }, '/'),
    ),
    h('span.grow'),
    h(
      'span.state' + (busy ? '.busy' : ''),
      {
        id: 'state',
        role: 'status',
        title: `The script is ${plain(S.file)}. The last answer stood here ${S.times.shown} ms after the program’s.`,
      },
      state,
    ),
    h('span.seg', { role: 'group', 'aria-label': 'Unit of time' },
      Object.entries(PER).map(([k, text]) => h(
        'button' + (Number(k) === look.per ? '.now' : ''),
        {
          type: 'button',
          'aria-pressed': String(Number(k) === look.per),
          onclick: () => {
            look.per = Number(k);
            keep('per', look.per);
            show();
          },
        },
        text,
      )),
    ),
    h(
      'button.tool',
      {
        type: 'button',
        id: 'undo',
        disabled: !S.past.length,
        title: 'Undo in the plan (Ctrl Z outside of a field)',
        'aria-label': 'Undo',
        onclick: undo,
      },
      '↶',
    ),
    h(
      'button.tool',
      {
        type: 'button',
        id: 'redo',
        disabled: !S.future.length,
        title: 'Redo in the plan (Ctrl Shift Z outside of a field)',
        'aria-label': 'Redo',
        onclick: redo,
      },
      '↷',
    ),
    h(
      'button.tool.text' + (S.side === 'script' ? '.now' : ''),
      {
        type: 'button',
        id: 'script',
        title: 'The script (e)',
        'aria-pressed': String(S.side === 'script'),
        onclick: () => side('script'),
      },
      'Script',
      refused > 0 && h('span.badge', { title: `${refused} lines are refused` }, '✗ ', refused),
    ),
    h(
      'button.tool',
      {
        type: 'button',
        id: 'theme',
        title: 'Light or dark',
        'aria-label': dark ? 'Light' : 'Dark',
        onclick: () => {
          theme(dark ? 'light' : 'dark');
          show();
        },
      },
      '◐',
    ),
    h(
      'button.tool',
      { type: 'button', title: 'Keys (?)', 'aria-label': 'Which keys there are', onclick: () => toast(KEYS) },
      '?',
    ),
  );
}

/**
 * The tabs.
 *
 * @returns {View}
 */
export function tabsView() {
  /** @type {(route: string, text: string, mark?: Child) => View} */
  const tab = (route, text, mark) => h(
    'button.tab' + (S.route === route ? '.now' : ''),
    {
      type: 'button',
      key: route,
      'aria-current': S.route === route ? 'page' : null,
      'data-route': route,
      onclick: () => {
        resetScale();
        go(route);
      },
    },
    text,
    mark,
  );
  /** @type {(name: string) => Child} */
  const dot = name => {
    const plan = S.plans.get(name)?.plan;
    return plan && plan.kind !== 'plan' && h(
      'span.dot',
      { title: plan.kind === 'infeasible' ? 'There is no plan' : 'It is not answered' },
      '✗',
      h('span.unseen', null, ' no plan'),
    );
  };
  const empty = () => {
    let k = 1;
    while (S.model.tables.has('table-' + k)) k++;
    S.route = 'table:table-' + k;
    change({ add: closed([line('table', 'table-' + k)]) });
  };
  return h('nav.tabs', { key: 'tabs', 'aria-label': 'Tables' },
    tab('explore', 'Explore'),
    tab(
      'what',
      'What if',
      S.model.forbids.size + S.model.grants.size + S.model.edits.length > 0 && h(
        'span.dot.soft',
        { title: 'Something of the game is changed' },
        '●',
        h('span.unseen', null, ' changed'),
      ),
    ),
    h('span.bar', { key: 'bar' }),
    [...S.model.tables.keys()].map(name => tab('table:' + name, plain(name, 28), dot(name))),
    tab('wish', '+ Wish'),
    h('button.tab.quiet', { type: 'button', key: '+', title: 'An empty table', onclick: empty }, '+ Table'),
  );
}

/**
 * Another tab or an editor was first: one of three ways, and no text is lost.
 *
 * @type {() => View}
 */
export const conflictView = () => h(
  'div.conflict',
  { key: 'conflict', role: 'alertdialog', 'aria-label': 'The script was changed elsewhere' },
  h('b', null, '⚠ The script was changed elsewhere,'),
  ' in another tab or editor. Yours isn’t saved yet. The one that you don’t take stays behind Undo.',
  h('span.acts', null,
    h(
      'button.main',
      {
        type: 'button',
        id: 'take-theirs',
        onclick: () => {
          settleTyping();
          settle('theirs');
        },
      },
      'Take theirs',
    ),
    h(
      'button.quiet',
      {
        type: 'button',
        id: 'keep-mine',
        onclick: () => {
          settleTyping();
          settle('mine');
        },
      },
      'Keep mine',
    ),
    h(
      'button.quiet',
      {
        type: 'button',
        id: 'keep-both',
        onclick: () => {
          settleTyping();
          settleBeside().catch(fault => toast(fault.message, { bad: true }));
        },
      },
      'Keep both: mine as a script of its own',
    ),
  ),
);

/**
 * What a player should know whatever is shown: that the file is no game, and that lines wait for the end of their
 * batch.
 *
 * @type {() => Child[]}
 */
export const noticeView = () => [
  game.at.size > 0 && !game.isGame && h('div.notice', { key: 'no game', role: 'status' },
    h('span', null,
      h('b', null, '⚠ No section of Factorio 1.1 found'),
      ` in ${plain(S.dump)}. A dump is the file data-raw-dump.json that factorio --dump-data writes.`,
    ),
  ),
  S.model.open && h('div.notice', { key: 'batch', role: 'status' },
    h('span', null, h('b', null, '⚠ A batch is open'), ' in the script: what it holds counts once it ends.'),
    h('span.acts', null,
      h('button.quiet', { type: 'button', 'data-key': 'end batch', onclick: () => change({ add: ['end'] }) }, 'End it'),
      h('button.quiet', { type: 'button', 'data-key': 'cancel batch', onclick: () => change({ add: ['cancel'] }) },
        'Cancel it',
      ),
    ),
  ),
];

/**
 * Light or dark.
 *
 * @param {string} name
 */
export function theme(name) {
  document.documentElement.dataset.theme = name;
  keep('theme', name);
}
