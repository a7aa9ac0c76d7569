// The flow chart of a plan. What flows is what the program says (`?flow`); only where boxes stand is decided here.
import { h } from './dom.js';
import { sum } from './exact.js';
import { HIGH, isPower, place, WIDE } from './graph.js';
import { carried, flowText, hasPicture, hueOf, lettersOf, nameOf, pictureOf, plain } from './look.js';

/** @type {(text: string, n: number) => string} */
const cut = (text, n) => text.length > n ? text.slice(0, n - 1) + '…' : text;
/**
 * What is pointed at, or has the focus, is lit with all that it is joined to.
 *
 * @type {(what: string, on: boolean) => (e: UiEvent) => void}
 */
const light = (what, on) => e => {
  /** @type {SVGElement} */
  const svg = e.currentTarget.ownerSVGElement;
  svg.classList.toggle('some', on);
  svg.querySelectorAll(`[data-joins~="${what}"]`).forEach(x => x.classList.toggle('lit', on));
};
/** @type {(what: string) => Props} */
const lights = what => ({
  onmouseenter: light(what, true),
  onmouseleave: light(what, false),
  onfocus: light(what, true),
  onblur: light(what, false),
});
/** @type {(label: string, act: () => any) => Props} */
const button = (label, act) => ({
  role: 'button',
  tabindex: '0',
  'aria-label': label,
  onclick: act,
  onkeydown: e => {
    if (e.key === 'Enter' || e.key === ' ') {
      e.preventDefault();
      act();
    }
  },
});

/**
 * The chart as a drawing, and its size.
 *
 * @param {Graph} graph
 * @param {(id: Id) => any} open
 * @returns {{ svg: View, width: number, height: number }}
 */
export function chart(graph, open) {
  if (!graph.cards.length) return { svg: h('p.dim', null, 'Nothing flows.'), width: 1, height: 1 };
  const { width, height } = place(graph);
  /** @type {Map<string, number>} */
  const most = new Map();
  graph.cards.forEach((c, i) => {
    c.name = 'c' + i;
  });
  graph.hubs.forEach((x, i) => {
    x.name = 'h' + i;
  });
  const flows = graph.cards.flatMap(c => [...c.in, ...c.out]);
  /** @type {(f: ChartFlow) => string} */
  const sort = f => f.hub.id.split(':')[0];
  for (const f of flows) most.set(sort(f), Math.max(most.get(sort(f)) || 0, f.amount?.number || 0));
  const svg = h('svg', { viewBox: `0 0 ${width} ${height}`, role: 'group', 'aria-label': 'Flow chart of the plan' },
    h('g', { 'aria-hidden': 'true' }, flows.map(f => flowLine(f, most.get(sort(f))))),
    graph.hubs.map(x => hubBox(x, open)),
    graph.cards.map(c => cardBox(c, open)),
  );
  return { svg, width, height };
}

/**
 * @param {ChartFlow} f
 * @param {number} most
 * @returns {View}
 */
function flowLine(f, most) {
  const c = f.card;
  const list = f.gives ? c.out : c.in;
  const y =
    c.y
    + HIGH / 2
    + (list.indexOf(f) - (list.length - 1) / 2) * Math.min(11, (HIGH - 16) / Math.max(1, list.length - 1));
  const [x1, y1, x2, y2] = f.gives ? [c.x + WIDE, y, f.hub.x, f.hub.y] : [f.hub.x, f.hub.y, c.x, y];
  const bend = x2 < x1 ? 80 : Math.max(24, (x2 - x1) / 2);
  const more = carried(f.hub.id, f.amount);
  return h(
    'path.flow' + (isPower(f) ? '.watts' : ''),
    {
      d: `M${x1} ${y1}C${x1 + bend} ${y1} ${x2 - bend} ${y2} ${x2} ${y2}`,
      'data-joins': `${c.name} ${f.hub.name}`,
      style: { '--hue': hueOf(f.hub.id), 'stroke-width': 1.3 + 4 * Math.sqrt((f.amount?.number || 0) / (most || 1)) },
    },
    h('title', null,
      `${nameOf(f.hub.id)}: ${flowText(f.hub.id, f.amount)}${more && `\n${more}`}\nexactly ${f.amount ?? 'wide'} /s`,
    ),
  );
}

/**
 * @param {Hub} hub
 * @param {(id: Id) => any} open
 * @returns {View}
 */
function hubBox(hub, open) {
  const total = sum(hub.from.map(f => f.amount));
  const said = flowText(hub.id, total);
  const name = cut(nameOf(hub.id), 20);
  const beside = carried(hub.id, total).split(' · ').filter(Boolean);
  const lines = [[said, ''], [name, '.dim'], ...beside.map(text => [text, '.dim'])];
  const wide = Math.max(...lines.map(([t]) => t.length * 6.1)) + 14;
  const high = 4 + 12.5 * lines.length;
  const joined = [hub.name, ...hub.from.concat(hub.to).map(f => f.card.name)].join(' ');
  return h(
    'g.hub',
    {
      'data-joins': joined,
      ...lights(hub.name),
      ...button([nameOf(hub.id), said, ...beside].join(', '), () => open(hub.id)),
    },
    h('rect', { x: hub.x - wide / 2, y: hub.y - high / 2, width: wide, height: high, rx: 8 }),
    lines.map(([t, tag], i) =>
      h('text' + tag, { x: hub.x, y: hub.y - high / 2 + 12.5 * (i + 1), 'text-anchor': 'middle' }, t)),
    h('title', null, `${nameOf(hub.id)}: ${said}\n${carried(hub.id, total)}\nexactly ${total ?? 'wide'} /s`),
  );
}

/**
 * @param {Card} c
 * @param {(id: Id) => any} open
 * @returns {View}
 */
function cardBox(c, open) {
  const id = c.kind === 'row' ? c.row.does : c.good;
  const flow = [...c.in, ...c.out][0]?.amount;
  const told = { row: '', import: 'comes in', surplus: 'goes out', want: 'wanted' }[c.kind];
  const about = c.kind === 'row' ? `${c.count ?? 'wide'} × ${nameOf(c.row.by)}` : `${told} · ${flowText(id, flow)}`;
  const joined = [c.name, ...[...c.in, ...c.out].map(f => f.hub.name)].join(' ');
  const label = c.kind === 'row' ? `${nameOf(id)}, ${about}` : `${nameOf(id)}, ${told}, ${flowText(id, flow)}`;
  return h(
    `g.card.${c.kind}`,
    {
      transform: `translate(${c.x} ${c.y})`,
      'data-joins': joined,
      ...lights(c.name),
      ...button(label, () => open(id)),
    },
    h('rect', { width: WIDE, height: HIGH, rx: 9 }),
    picture(id),
    h('text.title', { x: 46, y: 27 }, cut(nameOf(id), 20)),
    h('text.dim', { x: 46, y: 44 }, cut(about, 27)),
    h('title', null,
      c.kind === 'row' ? `${nameOf(id)} (row ${plain(c.row.label)})\nexactly ${c.machines ?? 'wide'} machines` : label,
    ),
  );
}

/**
 * @param {Id} id
 * @returns {View}
 */
function picture(id) {
  if (hasPicture(id)) return h('image', { href: pictureOf(id), x: 10, y: 17, width: 28, height: 28 });
  return h('g.tile', { style: { '--hue': hueOf(id) } },
    h('rect', { x: 10, y: 17, width: 28, height: 28, rx: 7 }),
    h('text', { x: 24, y: 35, 'text-anchor': 'middle' }, lettersOf(id)),
  );
}
