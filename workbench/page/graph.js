// The boxes of a plan's flow chart, and where each stands.

export const WIDE = 196, HIGH = 62;
const GAP = 140, ROOM = 22, HUB = 54, TURNS = 24;

/**
 * The boxes of a plan: a card for each row at work, each import, surplus and want; a hub for each good between them.
 *
 * @param {Table} table
 * @param {Plan} plan
 * @returns {Graph}
 */
export function graphOf(table, plan) {
  /** @type {Card[]} */
  const cards = [];
  /** @type {Map<Id, Hub>} */
  const hubs = new Map();
  /** @type {(card: Card, good: Id, amount: Figure, gives: boolean) => void} */
  const join = (card, good, amount, gives) => {
    if (!hubs.has(good)) hubs.set(good, { id: good, from: [], to: [] });
    const flow = { card, hub: hubs.get(good), amount, gives };
    (gives ? card.out : card.in).push(flow);
    (gives ? flow.hub.from : flow.hub.to).push(flow);
  };
  /** @type {(card: Card) => Card} */
  const add = card => {
    cards.push({ ...card, in: [], out: [] });
    return cards.at(-1);
  };
  for (const [label, flows] of plan.flows) {
    const card = add({
      kind: 'row',
      row: table.rows.find(r => r.label === label) || { label, does: 'recipe:' + label, by: 'machine:?' },
      ...plan.rows.get(label),
    });
    for (const [g, x] of flows.takes) join(card, g, x, false);
    for (const [g, x] of flows.gives) join(card, g, x, true);
  }
  for (const [g, x] of plan.imports) if (!x || x.n) join(add({ kind: 'import', good: g }), g, x, true);
  for (const [g, x] of plan.surpluses) if (!x || x.n) join(add({ kind: 'surplus', good: g }), g, x, false);
  for (const [g, x] of plan.wanted) join(add({ kind: 'want', good: g }), g, x, false);
  return { cards, hubs: [...hubs.values()] };
}

/**
 * Electricity goes to nearly all: it neither ranks cards nor pulls at them.
 *
 * @type {(f: ChartFlow) => boolean}
 */
export const isPower = f => f.hub.id === 'special:electricity';
/** @type {(all: number[]) => number} */
const mean = all => all.reduce((x, y) => x + y, 0) / all.length;

/**
 * @param {Graph} graph
 * @returns {{ width: number, height: number }}
 */
export function place({ cards, hubs }) {
  const last = layer(cards), layers = Array.from({ length: last + 1 }, () => []);
  cards.forEach(c => layers[c.layer].push(c));
  layers.forEach(l => l.forEach((c, i) => {
    c.y = i * (HIGH + ROOM);
  }));
  /**
   * Cards move toward the middle of what they are joined to, and apart again.
   *
   * @type {(c: Card, back: boolean) => number[]}
   */
  const near = (c, back) =>
    (back ? c.in : c.out).filter(f => !isPower(f)).flatMap(f => back ? f.hub.from : f.hub.to).map(f => f.card.y);
  for (let turn = 0; turn < TURNS; turn++) {
    const back = turn % 2 === 0;
    for (const l of back ? layers : [...layers].reverse()) {
      for (const c of l) {
        const ys = turn > TURNS - 5 ? [...near(c, true), ...near(c, false)] : near(c, back);
        c.want = ys.length ? mean(ys) : c.y;
      }
      l.sort((a, b) => a.want - b.want);
      l.forEach((c, i) => {
        c.y = i ? Math.max(c.want, l[i - 1].y + HIGH + ROOM) : c.want;
      });
      const shift = l.length ? mean(l.map(c => c.y - c.want)) : 0;
      l.forEach(c => {
        c.y -= shift;
      });
    }
  }
  const top = Math.min(...cards.map(c => c.y));
  for (const c of cards) {
    c.x = 16 + c.layer * (WIDE + GAP);
    c.y += 16 - top;
  }
  for (const hub of hubs) {
    const ends = hub.from.length && hub.id === 'special:electricity' ? hub.from : [...hub.from, ...hub.to];
    hub.x = (hub.from.length ? Math.min(...hub.from.map(f => f.card.x)) + WIDE : 0) + GAP / 2;
    hub.y = mean(ends.map(f => f.card.y + HIGH / 2));
  }
  hubs.sort((a, b) => a.x - b.x || a.y - b.y);
  hubs.forEach((hub, i) => {
    const p = hubs[i - 1];
    if (p && p.x === hub.x) hub.y = Math.max(hub.y, p.y + HUB + 5);
  });
  return {
    width: 32 + (last + 1) * (WIDE + GAP) - GAP,
    height: Math.max(...cards.map(c => c.y + HIGH), ...hubs.map(x => x.y + HUB / 2)) + 16,
  };
}

/**
 * Each card stands behind what it takes; a way back to a card that is being looked at is cut. The number of the last
 * layer.
 *
 * @param {Card[]} cards
 * @returns {number}
 */
function layer(cards) {
  const seen = new Map();
  /** @type {(c: Card) => number} */
  const depth = c => {
    if (seen.has(c)) return seen.get(c) ?? -1;
    seen.set(c, null);
    let d = -1;
    for (const f of c.in) if (!isPower(f)) for (const g of f.hub.from) if (g.card !== c) d = Math.max(d, depth(g.card));
    seen.set(c, d + 1);
    return d + 1;
  };
  cards.forEach(c => {
    c.layer = depth(c);
  });
  const last = Math.max(0, ...cards.map(c => c.layer));
  for (const c of cards) {
    if (c.kind === 'want' || c.kind === 'surplus') c.layer = Math.max(c.layer, c.kind === 'want' ? last : 0);
    if (c.kind === 'import') {
      c.layer = Math.max(0, Math.min(last, ...c.out.flatMap(f => f.hub.to).map(f => f.card.layer)) - 1);
    }
  }
  return last;
}
