// The game as its catalog has it (docs/CATALOG.md), with what follows from it in one pass: what makes and uses a thing,
// what fits where.
import { Frac } from './exact.js';

export const KINDS = ['item', 'fluid', 'recipe', 'tech', 'machine', 'source', 'special'];
/** @type {{ [kind: string]: string }} */
export const PLURAL = {
  item: 'Items',
  fluid: 'Fluids',
  recipe: 'Recipes',
  tech: 'Technologies',
  machine: 'Machines',
  source: 'Mined',
  special: 'Other',
};
export const EFFECTS = ['speed', 'productivity', 'consumption', 'pollution'];

/** @type {Game} */
export const game = {
  at: new Map(),
  ids: [],
  belts: [],
  packs: [],
  beacons: [],
  isGame: true,
  get: id => game.at.get(id) || {},
  /** Puts the ranks of `list` into all things, and the things in the order in which they come within reach. */
  rank(ranks) {
    for (const it of game.at.values()) it.rank = ranks.get(it.id) || null;
    game.ids = [...game.at.values()]
      .filter(it => it.id !== 'special:character')
      .sort((a, b) => (a.rank || 1e9) - (b.rank || 1e9) || byOrder(a, b))
      .map(it => it.id);
    const packs = [...game.at.values()].filter(m => m.kind === 'lab').flatMap(m => m.inputs || []);
    game.packs = [...new Set(packs)].sort((a, b) => (rankOf(a) || 1e9) - (rankOf(b) || 1e9));
    game.belts = [...game.at.values()]
      .filter(it => Frac.of(it.belt || '')?.n)
      .sort((a, b) => Frac.of(a.belt).number - Frac.of(b.belt).number);
    game.stamp++;
  },
  stamp: 0,
};
export const get = game.get;
/** @type {(a: Thing, b: Thing) => number} */
const byOrder = (a, b) => {
  const x = a.order || [], y = b.order || [];
  for (let i = 0; i < 5; i++) if ((x[i] || '') !== (y[i] || '')) return (x[i] || '') < (y[i] || '') ? -1 : 1;
  return 0;
};

/**
 * Reads a catalog: for each thing what makes it, what uses it, what a machine does and what a technology leads to.
 *
 * @param {{ [kind: string]: any }} catalog
 */
export function derive(catalog) {
  game.at = new Map(KINDS.flatMap(k => catalog[k] || []).map(it => [it.id, it]));
  for (const it of game.at.values()) Object.assign(it, { made: [], used: [], does: [], after: [] });
  for (const it of game.at.values()) {
    const kind = kindOf(it.id);
    if (kind === 'recipe' || kind === 'source') for (const p of it.out || []) get(p.good).made?.push(it.id);
    if (kind === 'recipe' || kind === 'tech' || kind === 'source') {
      for (const p of it.in || []) for (const g of new Set([p.good, ...(p.fits || [])])) get(g).used?.push(it.id);
    }
    for (const m of it.by || []) get(m).does?.push(it.id);
    for (const t of it.needs || []) get(t).after?.push(it.id);
  }
  game.isGame = [...game.at.values()].some(it => kindOf(it.id) !== 'special');
  game.beacons = [...game.at.values()].filter(m => m.kind === 'beacon' && m.slots);
}

/**
 * The kind of a thing: the part of its word before the colon.
 *
 * @type {(id: Id) => string}
 */
export const kindOf = id => id.slice(0, Math.max(0, id.indexOf(':')));
/**
 * The name of a thing in the game: the part of its word behind the colon.
 *
 * @type {(id: Id) => string}
 */
export const rawOf = id => id.slice(id.indexOf(':') + 1);
/**
 * The round in which a thing comes within reach; null where it never does.
 *
 * @type {(id: Id) => number | null}
 */
export const rankOf = id => get(id).rank || null;
/**
 * Whether a thing can be had.
 *
 * @type {(id: Id) => boolean}
 */
export const isReached = id => Boolean(rankOf(id));
/**
 * Whether it is a good that a table may have: a fluid of several temperatures is one only by its variants.
 *
 * @type {(id: Id) => boolean}
 */
export const isGood = id => kindOf(id) === 'item' || (kindOf(id) === 'fluid' && !(get(id).variants || []).length);
/**
 * Those of some things that can be had.
 *
 * @type {(ids: Id[] | undefined) => Id[]}
 */
export const reached = ids => (ids || []).filter(isReached);
/** @type {(id: Id) => number} */
const speedOf = id => Frac.of(get(id).speed || '1')?.number ?? 0;

// ---- What fits a row ----

const UNPLANNED = new Set(['heat', 'fluid']);
/**
 * The machines by which it may be a row. Heat is none, and neither is what runs on it or on a fluid (docs/LIMITS.md).
 *
 * @type {(does: Id) => Id[]}
 */
export const machinesFor = does =>
  does === 'special:heat' ? [] : (get(does).by || []).filter(m => !UNPLANNED.has(get(m).energy));

/** @type {(module: Id, does: Id) => boolean} */
const isLimited = (module, does) => {
  const { only, not } = get(module).module || {};
  return kindOf(does) === 'recipe' && Boolean((only && !only.includes(does)) || not?.includes(does));
};
/**
 * The modules that a machine takes for what it does.
 *
 * @type {(by: Id, does: Id) => Id[]}
 */
export const modulesFor = (by, does) => (get(by).modules || []).filter(m => !isLimited(m, does));

/**
 * The beacons that may stand round it, each with the modules that may be in it.
 *
 * @param {Id} by
 * @param {Id} does
 * @returns {AbleBeacon[]}
 */
export function beaconsFor(by, does) {
  const fits = modulesFor(by, does);
  return game.beacons
    .map(m => ({ id: m.id, slots: m.slots, modules: (m.modules || []).filter(x => fits.includes(x)) }))
    .filter(b => b.modules.length);
}

/**
 * A row for an activity, by the fastest machine that is reached, with a label that no row has.
 *
 * @param {Table} table
 * @param {Id} does
 * @returns {Row | null}
 */
export function newRow(table, does) {
  const all = machinesFor(does), able = reached(all).length ? reached(all) : all;
  const [by] = [...able].sort((a, b) =>
    Number(get(a).energy === 'burner') - Number(get(b).energy === 'burner') || speedOf(b) - speedOf(a));
  if (!by) return null;
  const base = rawOf(does);
  let label = base;
  for (let k = 2; table.rows.some(r => r.label === label); k++) label = `${base}-${k}`;
  return fuelled(table, { label, does, by, fuel: null, modules: [], beacons: [], at: [] });
}

/**
 * The row with a fuel that its machine takes: its own, one that the table burns already, or the first that is reached.
 *
 * @param {Table} table
 * @param {Row} row
 * @returns {Row}
 */
function fuelled(table, row) {
  const fuels = get(row.by).energy === 'burner' ? get(row.by).fuels || [] : [];
  if (fuels.includes(row.fuel)) return row;
  return {
    ...row,
    fuel: table.rows.map(r => r.fuel).find(f => f && fuels.includes(f)) || reached(fuels)[0] || fuels[0] || null,
  };
}

/**
 * The row by another machine: modules, beacons and fuel stay where they fit.
 *
 * @param {Table} table
 * @param {Row} row
 * @param {Id} by
 * @returns {Row}
 */
export function byOther(table, row, by) {
  const fits = modulesFor(by, row.does);
  let room = get(by).slots || 0;
  const modules = row.modules
    .filter(([m]) => fits.includes(m))
    .map(/** @returns {[Id, number]} */ ([m, n]) => {
      const k = Math.min(n, room);
      room -= k;
      return [m, k];
    })
    .filter(([, n]) => n);
  return fuelled(table, {
    ...row,
    by,
    modules,
    beacons: row.beacons.filter(b => b.modules.every(([m]) => fits.includes(m))),
  });
}

/**
 * Where a row's fluid may have one of several temperatures.
 *
 * @type {(row: Row) => Part[]}
 */
export const choicesOf = row => (get(row.does).in || []).filter(p => p.fits?.length > 1);
