// The flows of a plan: the chart, its size, and the same as a list.
import { chart } from './chart.js';
import { h, memo } from './dom.js';
import { sum } from './exact.js';
import { game, rawOf } from './game.js';
import { graphOf } from './graph.js';
import { carried, chip, flow, look, nameOf, plain } from './look.js';
import { open } from './routes.js';
import { show } from './state.js';

/**
 * The buttons of the chart's size: a sign, what the scale is multiplied by (0 is to fit), a name.
 *
 * @type {[string, number, string][]}
 */
const SIZES = [['−', 1 / 1.25, 'Smaller'], ['Fit', 0, 'To fit'], ['+', 1.25, 'Larger']];
let scale = 0, fitting = 1;
/**
 * Shows the chart as large as fits again.
 *
 * @type {() => void}
 */
export const resetScale = () => {
  scale = 0;
};

/**
 * The flow chart of a plan and its list. Both are made anew only where something of them changed.
 *
 * @param {Table} table
 * @param {Plan} plan
 * @returns {View}
 */
export function flowSection(table, plan) {
  const stamp = chartStamp(table, plan);
  return h('section.flow', { key: 'flow', 'aria-label': 'Flow chart' },
    h('h2', null,
      'Flow',
      h('span.grow'),
      h('span.seg', { role: 'group', 'aria-label': 'Size of the chart' },
        SIZES.map(([sign, k, name]) => h(
          'button',
          {
            type: 'button',
            title: name,
            'aria-label': name,
            onclick: () => {
              scale = k ? Math.max(0.3, Math.min(2.5, (scale || fitting) * k)) : 0;
              show();
            },
          },
          sign,
        )),
      ),
    ),
    memo('chart', stamp, () => drawn(table, plan)),
    memo('flows', stamp, () => flowsView(table, plan)),
  );
}

/** @type {(table: Table, plan: Plan) => string} */
const chartStamp = (table, plan) => [
  [...plan.flows].map(([l, f]) => l + f.said).join('\n'),
  [...plan.rows].map(([l, r]) => `${l} ${r.said}`).join(' '),
  table.rows.map(r => `${r.label} ${r.does} ${r.by}`).join('\n'),
  [...plan.imports, ...plan.surpluses].join(' '),
  [...table.want].map(([g, w]) => g + w.value).join(' '),
  look.per,
  look.belt,
  game.stamp,
  scale,
  look.room,
].join('|');

/**
 * @param {Table} table
 * @param {Plan} plan
 * @returns {View}
 */
function drawn(table, plan) {
  const { svg, width, height } = chart(graphOf(table, plan), open);
  fitting = Math.max(0.5, Math.min(1, (look.room - 64) / width));
  const k = scale || fitting;
  return h('div.scroll', { role: 'region', 'aria-label': 'Flow chart, to scroll', tabindex: '0' },
    { ...svg, props: { ...svg.props, width: Math.round(width * k), height: Math.round(height * k) } },
  );
}

/**
 * All flows as a list: what the chart shows, for who reads rather than looks, with the exact numbers. Where a good
 * comes from several, or goes to several, each has its own flow beside it.
 *
 * @param {Table} table
 * @param {Plan} plan
 * @returns {View}
 */
function flowsView(table, plan) {
  const { hubs } = graphOf(table, plan);
  /** @type {(c: Card) => string} */
  const named = c =>
    c.kind === 'row'
      ? (rawOf(c.row.does) === c.row.label ? nameOf(c.row.does) : plain(c.row.label, 40))
      : { import: 'comes in', surplus: 'goes out', want: 'wanted' }[c.kind];
  /** @type {(good: Id, flows: ChartFlow[]) => View[]} */
  const ends = (good, flows) => flows.map(({ card, amount }, i) => h('div', { key: `${i}` },
    named(card),
    flows.length > 1 && [': ', flow(good, amount), h('small.carried', null, carried(good, amount))],
  ));
  /** @type {(hub: Hub) => View} */
  const one = hub => {
    const total = sum(hub.from.map(f => f.amount));
    return h('tr', { key: hub.id },
      h('td', null, chip(hub.id, open)),
      h('td.r', null, flow(hub.id, total)),
      h('td.r', null, carried(hub.id, total).split(' · ').map(text => h('div', null, text))),
      h('td', null, ends(hub.id, hub.from)),
      h('td', null, ends(hub.id, hub.to)),
      h('td.r.exact', null, total ? `${total}` : 'wide'),
    );
  };
  /** @type {(text: Child, tag?: string) => View} */
  const th = (text, tag = 'th') => h(tag, { scope: 'col' }, text);
  return h('details', { key: 'flows' },
    h('summary', null, 'All flows as a list, with belts, stacks and exact numbers'),
    h('div.scroll', { role: 'region', 'aria-label': 'All flows', tabindex: '0' },
      h('table.list', null,
        h('thead', null,
          h('tr', null,
            th('Good'),
            th('Flow', 'th.r'),
            th('Belts and stacks', 'th.r'),
            th('From'),
            th('To'),
            th('Exactly, a second', 'th.r'),
          ),
        ),
        h('tbody', null, hubs.map(one)),
      ),
    ),
  );
}
