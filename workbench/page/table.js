// A table with its plan: what is wanted, what came of it, the rows, the flow chart, and what comes in and goes out.
import { isStale } from './answers.js';
import { addLines, change, closed } from './changes.js';
import { curesOfPlan } from './cures.js';
import { h } from './dom.js';
import { sum } from './exact.js';
import { saveCertificate, savePage } from './exports.js';
import { flowSection } from './flows.js';
import { game, isReached, kindOf, machinesFor, newRow } from './game.js';
import { goods, pickGood, set } from './goods.js';
import { icon, look, mark, nameOf, num, PER, plain, power } from './look.js';
import { tellBeside } from './numbers.js';
import { edit, pick } from './pick.js';
import { open } from './routes.js';
import { allRows, rowsView } from './rows.js';
import { line, linesAbout, rowLine } from './script.js';
import { planFor, S } from './state.js';
import { toast } from './toast.js';

/**
 * The tab of a table.
 *
 * @param {Table} table
 * @returns {View}
 */
export function tableView(table) {
  const plan = planFor(table), isPlan = plan?.kind === 'plan', stale = isStale(table);
  const isEmpty = !table.rows.length && !table.want.size;
  return h('section.tableview' + (stale ? '.stale' : ''), { key: 'table ' + table.name, 'aria-label': `Table ${plain(table.name)}` },
    head(table),
    isEmpty ? beginning(table) : verdict(table, plan, stale),
    table.rows.length > 0 && rowsView(table, plan, S.rates),
    h('div.under', null,
      h(
        'button.quiet',
        {
          type: 'button',
          'data-key': 'addrow',
          onclick: e => pick(e.currentTarget, {
            options: game.ids
              .filter(i => machinesFor(i).length && isReached(i))
              .map(id => ({ id, note: kindOf(id) })),
            hint: 'A recipe, a mine, a pump, a technology …',
            done: id => {
              const row = newRow(table, id);
              if (row) addLines(table, rowLine(table.name, row));
            },
          }),
        },
        '+ Row',
      ),
      allRows(table),
    ),
    isPlan && !isEmpty && flowSection(table, plan),
    !isEmpty && goods(table, plan),
  );
}

/**
 * What a table that has nothing yet begins with.
 *
 * @type {(table: Table) => View}
 */
const beginning = table => h('div.verdict', { key: 'beginning' },
  h('div', null,
    h('b', null, 'Nothing is wanted yet.'),
    ' Choose what this table should make; what makes it, and what it takes, is then offered step by step.',
  ),
  h(
    'button.main',
    {
      type: 'button',
      'data-key': 'begin',
      'aria-haspopup': 'dialog',
      onclick: e => pickGood(e.currentTarget, 'What should it make?', id => set(table, 'want', id, '1')),
    },
    'Choose a good',
  ),
);

/**
 * Gives a table another name; where that is another's, it says so by the field.
 *
 * @param {Table} table
 * @param {HTMLInputElement} it
 */
function rename(table, it) {
  const name = it.value.trim();
  it.value = name || table.name;
  if (!name || name === table.name) return;
  if (S.model.tables.has(name)) {
    it.value = table.name;
    tellBeside(it, `✗ another table is called ${plain(name)}`);
    return;
  }
  S.route = 'table:' + name;
  change({
    put: Object.fromEntries(linesAbout(S.model, table.name).map(([w, n]) => [n, line(w[0], name, ...w.slice(2))])),
  });
}

/** @param {Table} table */
function remove(table) {
  const others = [...S.model.tables.keys()].filter(n => n !== table.name);
  S.route = others.length ? 'table:' + others[0] : 'wish';
  change(
    S.model.hasUndo
      ? { add: closed([line('untable', table.name)]) }
      : { put: Object.fromEntries(linesAbout(S.model, table.name).map(([, n]) => [n, null])) },
  );
  toast(`The table ${plain(table.name)} is gone: Ctrl Z brings it back.`);
}

/**
 * @param {Table} table
 * @returns {View}
 */
function head(table) {
  /** @type {(g: Id) => boolean} */
  const isPower = g => g === 'special:electricity';
  const title = h('input.title', {
    key: 'title',
    value: table.name,
    'aria-label': 'Name of the table',
    spellcheck: false,
    size: Math.max(4, Math.min(40, table.name.length)),
    'data-key': 'title',
    onchange: e => rename(table, e.target),
    onkeydown: e => e.key === 'Enter' && e.target.blur(),
  });
  const wants = [...table.want].map(([g, w]) => h('div.want', { key: 'want ' + g },
    icon(g),
    edit(w.value, {
      label: `How much of ${nameOf(g)} is wanted, ${isPower(g) ? 'W' : PER[look.per]}`,
      key: 'want ' + g,
      sort: isPower(g) ? 'power' : 'rate',
      wide: true,
      done: x => set(table, 'want', g, x),
    }),
    !isPower(g) && h('span.dim', null, PER[look.per]),
    h('button.link', { type: 'button', onclick: () => open(g), title: plain(g, 200) }, nameOf(g)),
    mark('×', `${nameOf(g)} is no longer wanted`, () => set(table, 'want', g, null)),
  ));
  return h('header.table', null,
    title,
    wants,
    h(
      'button.quiet',
      {
        type: 'button',
        key: 'add',
        'data-key': 'addwant',
        onclick: e => pickGood(e.currentTarget, 'What else is wanted?', id => set(table, 'want', id, '1'), table.want),
      },
      '+ Want',
    ),
    h('span.grow', { key: 'grow' }),
    h('label.check', { key: 'power', title: 'The machines’ electric power is a good of the table' },
      h('input', {
        type: 'checkbox',
        checked: Boolean(table.power?.on),
        'data-key': 'power',
        onchange: e =>
          table.power
            ? change({ put: { [table.power.line]: line('power', table.name, e.target.checked ? 'on' : 'off') } })
            : addLines(table, line('power', table.name, 'on')),
      }),
      'Make the power',
    ),
    h(
      'button.quiet',
      {
        type: 'button',
        key: 'page',
        title: 'All plans of the script as one file of HTML, to keep or to send',
        'data-key': 'page',
        onclick: savePage,
      },
      'Save as page',
    ),
    h(
      'button.quiet',
      { type: 'button', key: 'remove', title: 'Remove the table', 'data-key': 'remove', onclick: () => remove(table) },
      'Remove',
    ),
  );
}

// ---- What came of it ----

/**
 * @param {Table} table
 * @param {Plan | null} plan
 * @param {boolean} stale
 * @returns {View}
 */
function verdict(table, plan, stale) {
  if (!plan || (stale && plan.kind !== 'plan')) {
    return h('div.verdict', { key: 'verdict', role: 'status' },
      h('span.dim', null, stale ? 'Not answered: this table is as you left it.' : 'Solving …'),
    );
  }
  if (plan.kind !== 'plan') {
    const { why, cures } = curesOfPlan(table, plan);
    return h('div.verdict.bad', { key: 'verdict', role: 'status' },
      h('div', null, h('b', null, plan.kind === 'infeasible' ? '✗ No plan: ' : '✗ Not answered: '), why),
      cures.length > 0 && h('div.tips', null,
        'Try one of these:',
        cures.map(c =>
          h('button.tip', { type: 'button', key: c.text, onclick: c.act }, c.id ? icon(c.id) : '', c.text)),
      ),
      plan.kind === 'refused'
        ? h('small.dim', null, `refused ${plan.words[1]}`)
        : proof(
          table,
          'there is none',
          'No rows of this table, whatever they run at, give what is wanted: prices prove it. A click gives the certificate, with which anyone can check that.',
        ),
    );
  }
  /** @type {(k: string) => Figure} */
  const of = k => plan.total?.[k];
  const all = ['power', 'drain', 'beacons'].map(of);
  const counts = [...plan.rows.values()].map(r => r.count);
  /** @type {(name: string, value: Child, note?: string) => View} */
  const figure = (name, value, note) => h('div.kpi', { title: note || '' }, h('b', null, value), h('span', null, name));
  return h('div.verdict' + (stale ? '' : '.good'), { key: 'verdict', role: 'status' },
    figure('machines', num(sum(counts)), 'Whole machines, of all rows'),
    figure('electric power', power(sum(all)), 'At work, at rest and for beacons'),
    figure('pollution /min', num(of('pollution'))),
    figure(
      'cost /s',
      num(plan.cost),
      'What the plan costs a second, in the prices of what comes in, what goes out and rows',
    ),
    stale
      ? h('span.unanswered', null, 'Not answered: the figures are those of the table before.')
      : proof(
        table,
        'nothing is cheaper',
        'No plan of this table costs less: its prices prove it. A click gives the certificate, with which anyone can check that.',
      ),
  );
}

/**
 * The mark of what is proved, which gives the certificate.
 *
 * @type {(table: Table, what: string, note: string) => View}
 */
const proof = (table, what, note) => h(
  'button.proof',
  { type: 'button', 'data-key': 'proof', title: note, onclick: () => saveCertificate(table) },
  `✓ proved: ${what}`,
  h('span.dim', null, ' · certificate'),
);
