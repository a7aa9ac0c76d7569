// The rows of a table: what each does by which machine, with which modules, beacons and fuel, and what the plan makes
// of it.
import { beaconForm, beacons } from './beacons.js';
import { addLines, change } from './changes.js';
import { h, memo } from './dom.js';
import { Frac } from './exact.js';
import { effect, effectsOf, fuel, machine, machineNote, MOST_SLOTS, rowNow, slots, tableNow, temperature } from './fittings.js';
import { beaconsFor, byOther, choicesOf, game, get, isReached, machinesFor, modulesFor, rawOf } from './game.js';
import { carried, chip, flowText, look, mark, nameOf, num, PER, plain, power, rate } from './look.js';
import { edit, pick } from './pick.js';
import { open } from './routes.js';
import { line, rowLine } from './script.js';
import { S } from './state.js';

/**
 * The rows as a table of the page. Each is drawn anew only where its line, its plan or what is shown of it changed.
 *
 * @param {Table} table
 * @param {Plan | null} plan
 * @param {Map<Label, Effects | null>} rates
 * @returns {View}
 */
export function rowsView(table, plan, rates) {
  const burns = table.rows.some(r => (get(r.by).fuels || []).length);
  /** @type {(text: Child, tag?: string, note?: string) => View} */
  const th = (text, tag = 'th', note = '') => h(tag, { scope: 'col', title: note }, text);
  /** @type {(r: Row) => Figures | null} */
  const figures = r => plan?.kind === 'plan' ? plan.rows.get(r.label) : null;
  /** @type {(r: Row) => string} */
  const stamp = r => [
    S.model.commands[r.line - 1].join('\u0001'),
    r.price,
    burns,
    look.per,
    look.belt,
    game.stamp,
    figures(r)?.said,
    plan?.flows?.get(r.label)?.said,
    Object.values(rates.get(r.label) || {}).join(' '),
  ].join('|');
  return h('div.scroll', { role: 'region', 'aria-label': 'Rows', tabindex: '0' },
    h('table.rows' + (burns ? '.burns' : ''), { style: wideness(table, plan) },
      h('thead', null,
        h('tr', null,
          th('Recipe', 'th.name'),
          th(`Crafts ${PER[look.per]}`, 'th.r.crafts'),
          th('Machines', 'th.r.count', 'To build, and exactly at full work'),
          th('By', 'th.by'),
          th('Modules', 'th.mods'),
          th('Beacons', 'th.ring'),
          burns && th('Fuel', 'th.fuel'),
          th('Power', 'th.r.power'),
          th('Pollution', 'th.r.smoke', 'per minute'),
          th('Price', 'th.r.price', 'What one craft a second costs you'),
          th(h('span.unseen', null, 'Remove'), 'th.last'),
        ),
      ),
      h('tbody', null,
        table.rows.map(r =>
          memo(r.label, stamp(r), () => rowView(table, r, plan, figures(r), rates.get(r.label), burns))),
      ),
    ),
  );
}

/** @type {(counts: Figure[]) => number} */
const longest = counts => Math.max(0, ...counts.map(x => x?.text.length ?? 0));
/**
 * What the widths of the columns hang on (look.css). Of the plan's numbers only counts of machines that are longer than
 * most, and prices, have a part in it: no figure of theirs is cut, and another number lays out no other row anew.
 *
 * @type {(table: Table, plan: Plan | null) => Props}
 */
const wideness = (table, plan) => ({
  '--counted': Math.max(0, longest([...(plan?.rows?.values() || [])].map(r => r.count)) - 5),
  '--priced': Math.max(0, longest(table.rows.map(r => Frac.of(r.price || '0'))) - 4),
  '--slots': Math.max(2, ...table.rows.map(r => Math.min(get(r.by).slots || 0, MOST_SLOTS))),
  '--effects': Number(table.rows.some(r => r.modules.length || r.beacons.length)),
  '--ring': Number(table.rows.some(r => r.beacons.length)),
});

/**
 * @param {Table} table
 * @param {Row} r
 * @param {Plan | null} plan
 * @param {Figures | null} figures
 * @param {Effects | undefined} effects
 * @param {boolean} burns
 * @returns {View}
 */
function rowView(table, r, plan, figures, effects, burns) {
  const idle = figures?.rate?.isZero, name = plain(r.label);
  /** @type {(what: string) => string} */
  const key = what => `${what} ${r.label}`;
  const flows = plan?.flows?.get(r.label);
  /** @type {(verb: string, g: Id, x: Figure) => string} */
  const said = (verb, g, x) => [`${verb} ${nameOf(g)} ${flowText(g, x)}`, carried(g, x)].filter(Boolean).join(' · ');
  const told = flows && [...flows.takes]
    .map(([g, x]) => said('takes', g, x))
    .concat([...flows.gives].map(([g, x]) => said('gives', g, x)))
    .join('\n');
  return h('tr' + (idle ? '.idle' : ''), null,
    h('td.name', { title: told || '' },
      chip(r.does, open, rawOf(r.does) !== r.label && h('small.dim', null, name)),
      idle && h('small.rest', { title: 'The plan is cheaper without it' }, 'at rest'),
      choicesOf(r).map(p => temperature(table, r, p)),
    ),
    h('td.r.crafts', null,
      !figures ? '–' : r.does === 'special:electricity' ? power(figures.rate) : rate(figures.rate),
    ),
    h('td.r.count', null, figures ? countOf(figures) : '–'),
    h('td.by', null, machine(table, r, key)),
    h('td.mods', null, h('div.mods', null, slots(table, r, key), effect(effects))),
    h('td.ring', null, beacons(table, r, key)),
    burns && h('td.fuel', null, fuel(table, r, key)),
    h('td.r.power', null,
      figures?.power && figures.drain && figures.beacons
        ? power(figures.power.plus(figures.drain).plus(figures.beacons))
        : '–',
    ),
    h('td.r.smoke', null, figures ? num(figures.pollution, '/min') : '–'),
    h('td.r.price', null,
      edit(r.price || '0', {
        label: `Price of a craft of ${name}`,
        key: key('price'),
        done: x => setPrice(table, rowNow(table, r), line('price', table.name, r.label, x)),
      }),
    ),
    h('td.last', null, mark('×', `Remove row ${name}`, () => removeRow(table, r))),
  );
}

/** @type {(table: Table, r: Row, said: string) => void} */
const setPrice = (table, r, said) => r.priceLine ? change({ put: { [r.priceLine]: said } }) : addLines(table, said);

/**
 * Takes a row out of its table, with the price that it has.
 *
 * @param {Table} table
 * @param {Row} row
 */
export function removeRow(table, row) {
  const r = rowNow(table, row);
  if (S.model.hasUndo) return addLines(table, line('unrow', table.name, r.label));
  return change({ put: Object.fromEntries([r.line, r.priceLine].filter(Boolean).map(n => [n, null])) });
}

/**
 * How many machines to build, and behind it how many there were at full work, where that is another number.
 *
 * @param {Figures} figures
 * @returns {Child}
 */
function countOf({ count, machines }) {
  const whole = count && machines && `${count}` === `${machines}`;
  return [
    h('b', { title: whole ? 'To build, each at full work' : 'To build' }, count ? count.text : 'wide'),
    h('span.dim', null, whole ? '' : num(machines, 'machines at full work')),
  ];
}

// ---- All rows at once ----

/** @type {(lists: Id[][]) => Id[]} */
const union = lists => [...new Set(lists.flat())].sort((a, b) => Number(isReached(b)) - Number(isReached(a)));

/**
 * Changes each row for which `next` gives another, in one step.
 *
 * @param {Table} table
 * @param {(r: Row) => Row | any} next
 */
function putAll(table, next) {
  const rows = tableNow(table).rows.map(r => [r.line, next(r)]).filter(([, r]) => r);
  change({ put: Object.fromEntries(rows.map(([n, r]) => [n, rowLine(table.name, r)])) });
}

/**
 * What is set in all rows of a table at once, each where it fits. Which buttons there are hangs on what the rows do by
 * which machines.
 *
 * @param {Table} table
 * @returns {View | false}
 */
export function allRows(table) {
  const stamp = [
    ...new Set(table.rows.map(r => `${r.does} ${r.by}`)),
    table.rows.some(r => r.beacons.length),
    game.stamp,
  ].join('|');
  return table.rows.length > 1 && memo('all rows', stamp, () => allButtons(table));
}

/**
 * @param {Table} table
 * @returns {View}
 */
function allButtons(table) {
  // (rows that do the same by the same machine take the same)
  const kinds = [...new Map(table.rows.map(r => [`${r.does} ${r.by}`, r])).values()];
  const machines = union(kinds.map(r => machinesFor(r.does))).filter(id => get(id).speed);
  const modules = union(kinds.map(r => modulesFor(r.by, r.does))), able = new Map();
  for (const r of kinds) {
    for (const b of beaconsFor(r.by, r.does)) {
      able.set(b.id, { ...b, modules: union([able.get(b.id)?.modules || [], b.modules]) });
    }
  }
  /** @type {(text: string, key: string, title: string, onclick: (e: UiEvent) => any) => View} */
  const one = (text, key, title, onclick) => h(
    'button.quiet',
    { type: 'button', key, 'data-key': 'all ' + key, title, 'aria-haspopup': 'dialog', onclick },
    text,
  );
  /** @type {(r: Row, b: Beacon) => boolean} */
  const fits = (r, b) => beaconsFor(r.by, r.does).some(x => x.id === b.by && x.modules.includes(b.modules[0][0]));
  return h('span.all', { role: 'group', 'aria-label': 'In all rows' },
    h('span.dim', null, 'In all rows:'),
    machines.length > 1 && one('machines', 'by', 'One machine wherever it does what the row does', e => pick(
      e.currentTarget,
      {
        options: machines.map(id => ({ id, note: machineNote(id) })),
        hint: 'Which machine, wherever it fits?',
        done: id => putAll(table, r => r.by !== id && machinesFor(r.does).includes(id) && byOther(table, r, id)),
      },
    )),
    modules.length > 0 && one('modules', 'modules', 'One module in all slots that take it', e => pick(e.currentTarget, {
      options: modules.map(id => ({ id, note: effectsOf(id) })),
      none: 'Empty all slots',
      hint: 'Which module, wherever it fits?',
      done: id => putAll(table, r =>
        id
          ? get(r.by).slots && modulesFor(r.by, r.does).includes(id) && { ...r, modules: [[id, get(r.by).slots]] }
          : r.modules.length && { ...r, modules: [] }),
    })),
    able.size > 0 && one('beacons', 'beacons', 'Beacons around all machines that take them', e => beaconForm(
      e.currentTarget,
      [...able.values()],
      null,
      table.rows.some(r => r.beacons.length),
      b => putAll(table, r => b ? fits(r, b) && { ...r, beacons: [b] } : r.beacons.length && { ...r, beacons: [] }),
    )),
  );
}
