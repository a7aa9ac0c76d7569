// What comes in and goes out of a table, what is to be built, and prices.
import { addLines, change } from './changes.js';
import { h } from './dom.js';
import { Frac, ZERO } from './exact.js';
import { game, get, isGood, isReached, kindOf } from './game.js';
import { carried, chip, flow, look, mark, nameOf, num } from './look.js';
import { edit, pick } from './pick.js';
import { open } from './routes.js';
import { line } from './script.js';
import { keep, S, show } from './state.js';
import { makeHere } from './wishing.js';

const goodOptions = () => [
  ...game.ids.filter(isGood),
  'special:electricity',
  ...game.ids.filter(i => kindOf(i) === 'tech'),
];
/**
 * Picks one of all goods, also of those that only a table can want, but for those that are there.
 *
 * @type {(anchor: HTMLElement, hint: string, done: (id: Id) => any, there?: Map<Id, any>) => void}
 */
export const pickGood = (anchor, hint, done, there = new Map()) =>
  pick(anchor, { options: goodOptions().filter(id => !there.has(id)), hint, done });

/**
 * Sets how much is wanted of a good, or at what price it comes in or goes out; null is no longer.
 *
 * @param {Table} table
 * @param {GoodsOf} what
 * @param {Id} good
 * @param {any} value
 */
export function set(table, what, good, value) {
  const had = table[what].get(good);
  if (!had) return value === null ? null : addLines(table, line(what, table.name, good, value));
  if (value !== null) return change({ put: { [had.line]: line(what, table.name, good, value) } });
  return S.model.hasUndo
    ? addLines(table, line(what, table.name, good, what === 'want' ? '0' : 'off'))
    : change({ put: { [had.line]: null } });
}

// ---- What comes in and goes out, what is to be built, and prices ----

/**
 * What comes in and goes out of a table, what is to be built, and the prices of its plan.
 *
 * @param {Table} table
 * @param {Plan | null} plan
 * @returns {View}
 */
export function goods(table, plan) {
  const belts = game.belts.length > 0 && h('label.belt', { key: 'belts' },
    h('span.dim', null, 'Belts of'),
    h(
      'select',
      {
        'data-key': 'belt',
        'aria-label': 'Belts that flows are counted in',
        onchange: e => {
          look.belt = e.target.value;
          keep('belt', look.belt);
          show();
        },
      },
      game.belts.map(b =>
        h('option', { value: b.id, selected: b.id === look.belt }, `${Frac.of(b.belt).text} /s: ${nameOf(b.id)}`)),
    ),
  );
  return h('div.sides', { key: 'sides' },
    toBuild(table, plan),
    side(table, 'import', 'Comes in', 'Bring in …', plan?.imports, '1', belts),
    side(table, 'surplus', 'Goes out', 'Let out …', plan?.surpluses, '0'),
    prices(plan),
  );
}

/** @type {(good: Id) => boolean} */
const isMade = good =>
  kindOf(good) !== 'tech' && (get(good).made || []).some(r => kindOf(r) === 'recipe' && isReached(r));

/**
 * @param {Table} table
 * @param {GoodsOf} what
 * @param {string} name
 * @param {string} hint
 * @param {Map<Id, Figure> | undefined} flows
 * @param {string} start
 * @param {Child} [more]
 * @returns {View}
 */
function side(table, what, name, hint, flows, start, more) {
  /** @type {(g: Id, it: Said) => View} */
  const price = (g, it) => edit(it.value, {
    label: `Price of one ${nameOf(g)} that ${what === 'import' ? 'comes in' : 'goes out'}`,
    key: `${what} ${g}`,
    done: x => set(table, what, g, x),
  });
  /** @type {(entry: [Id, Said]) => View} */
  const one = ([g, it]) => {
    const x = flows?.get(g), idle = x?.isZero;
    return h('tr' + (idle ? '.idle' : ''), { key: g },
      h('td', null,
        chip(g, open),
        idle && h('small.rest', null, 'not used'),
        what === 'import' && isMade(g) && h(
          'button.mini',
          { type: 'button', title: `Rows that make ${nameOf(g)} in this table`, onclick: () => makeHere(table, g) },
          'make it here',
        ),
      ),
      h('td.r', null,
        x ? flow(g, x) : '–',
        x && carried(g, x).split(' · ').filter(Boolean).map(text => h('small.carried', null, text)),
      ),
      h('td.r', null, h('span.dim', null, 'at '), price(g, it)),
      h('td', null,
        mark('×', `${nameOf(g)} no longer ${what === 'import' ? 'comes in' : 'goes out'}`, () =>
          set(table, what, g, null)),
      ),
    );
  };
  return h('section.side', { key: what, 'aria-label': name },
    h('h2', null,
      name,
      h(
        'button.quiet',
        {
          type: 'button',
          'aria-label': hint,
          title: hint,
          'data-key': 'add ' + what,
          onclick: e => pickGood(e.currentTarget, hint, id => set(table, what, id, start), table[what]),
        },
        '+',
      ),
      h('span.grow'),
      more,
    ),
    table[what].size
      ? h('table.goods', null, h('tbody', null, [...table[what]].map(one)))
      : h('p.dim', null, 'Nothing.'),
  );
}

/**
 * Whole machines, the modules in them, and beacons, by kind. The counts of machines and beacons are the program's; the
 * rest is their sum.
 *
 * @param {Table} table
 * @param {Plan | null} plan
 * @returns {View | null}
 */
function toBuild(table, plan) {
  if (plan?.kind !== 'plan') return null;
  /** @type {Map<Id, Frac>} */
  const sums = new Map();
  /** @type {(id: Id, x: Figure) => any} */
  const more = (id, x) => x?.n && sums.set(id, (sums.get(id) || ZERO).plus(x));
  for (const r of table.rows) {
    const count = plan.rows.get(r.label)?.count;
    if (!count) continue;
    more(r.by, count);
    r.modules.forEach(([m, k]) => more(m, count.times(k)));
  }
  for (const b of plan.build) {
    more(b.machine, b.count);
    const beacon = table.rows.find(r => r.label === b.label)?.beacons.find(x => x.by === b.machine);
    beacon?.modules.forEach(([m, k]) => b.count && more(m, b.count.times(k)));
  }
  return h('section.side.build', { key: 'build', 'aria-label': 'To build' },
    h('h2', null, 'To build'),
    h('table.goods', null,
      h('tbody', null,
        [...sums]
          .sort((a, b) => b[1].number - a[1].number)
          .map(([id, x]) => h('tr', { key: id }, h('td', null, chip(id, open)), h('td.r', null, num(x)))),
      ),
    ),
  );
}

/**
 * @param {Plan | null} plan
 * @returns {View | null}
 */
function prices(plan) {
  if (!plan?.prices?.size) return null;
  return h('details', { key: 'prices' },
    h('summary', null,
      plan.kind === 'plan'
        ? 'Prices: what one more of each good would cost'
        : 'Prices that prove that there is no plan',
    ),
    h('div.prices', null, [...plan.prices].map(([g, y]) => h('div', { key: g }, chip(g, open), num(y)))),
  );
}
