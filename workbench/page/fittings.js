// What stands in a row: its machine, fuel, modules and beacons, and how each is chosen.
import { change } from './changes.js';
import { h } from './dom.js';
import { Frac } from './exact.js';
import { byOther, EFFECTS, get, isReached, machinesFor, modulesFor } from './game.js';
import { icon, nameOf, percent, plain, watts } from './look.js';
import { pick } from './pick.js';
import { rowLine } from './script.js';
import { S } from './state.js';

export const MOST_SLOTS = 6;
/**
 * The effects of a module, in words.
 *
 * @type {(id: Id) => string}
 */
export const effectsOf = id => EFFECTS
  .filter(k => get(id).module?.[k])
  .map(k => `${k === 'consumption' ? 'power' : k} ${percent(get(id).module[k])}`)
  .join(', ');
/**
 * What a list shows beside a machine.
 *
 * @type {(id: Id) => string}
 */
export const machineNote = id => {
  const it = get(id), usage = it.usage && it.usage !== '0' && Frac.of(it.usage);
  return [
    it.speed && `×${Frac.of(it.speed)?.text ?? 'wide'}`,
    usage && watts(usage).join(' '),
    it.energy === 'burner' && 'burns fuel',
    it.slots && `${it.slots} slots`,
    !isReached(id) && 'not reached',
  ].filter(Boolean).join(' · ');
};
/** @type {(id: Id) => string} */
const fuelNote = id => `${Frac.of(get(id).fuel.value)?.over(1000000).text ?? 'wide'} MJ${isReached(id) ? '' : ' · not reached'}`;

/**
 * A row that is drawn may have moved in the script since: what is changed is looked up by name.
 *
 * @type {(table: Table) => Table}
 */
export const tableNow = table => S.model.tables.get(table.name) || table;
/** @type {(table: Table, row: Row) => Row} */
export const rowNow = (table, row) => tableNow(table).rows.find(r => r.label === row.label) || row;
/** @type {(table: Table, row: Row, next: Row) => void} */
export const put = (table, row, next) => change({ put: { [rowNow(table, row).line]: rowLine(table.name, next) } });

/**
 * The machine of a row, to be chosen.
 *
 * @param {Table} table
 * @param {Row} r
 * @param {(what: string) => string} key
 * @returns {View}
 */
export function machine(table, r, key) {
  return h(
    'button.chip.by',
    {
      type: 'button',
      'data-key': key('by'),
      title: `By ${plain(r.by, 200)}: choose another machine`,
      'aria-haspopup': 'dialog',
      onclick: e => pick(e.currentTarget, {
        current: r.by,
        hint: 'Which machine?',
        options: machinesFor(r.does).map(id => ({ id, note: machineNote(id) })),
        done: id => id !== r.by && put(table, r, byOther(table, r, id)),
      }),
    },
    icon(r.by),
    h('span.name', null, nameOf(r.by)),
  );
}

/**
 * The temperature of a fluid that a row takes, to be chosen.
 *
 * @param {Table} table
 * @param {Row} r
 * @param {Part} part
 * @returns {View}
 */
export function temperature(table, r, part) {
  const now = r.at.find(f => part.fits.includes(f)) || part.fits[0];
  return h(
    'button.mini',
    {
      type: 'button',
      title: 'The fluid of which temperature',
      'data-key': `at ${r.label} ${part.good}`,
      onclick: e => pick(e.currentTarget, {
        options: part.fits,
        current: now,
        hint: 'Which temperature?',
        done: f => put(table, r, { ...r, at: [...r.at.filter(x => !part.fits.includes(x)), f] }),
      }),
    },
    nameOf(now),
    ' ▾',
  );
}

/**
 * The fuel of a row, to be chosen; null where its machine burns none.
 *
 * @param {Table} table
 * @param {Row} r
 * @param {(what: string) => string} key
 * @returns {View | null}
 */
export function fuel(table, r, key) {
  const fuels = get(r.by).fuels || [];
  if (!fuels.length) return null;
  return h(
    'button.chip',
    {
      type: 'button',
      'data-key': key('fuel'),
      title: 'Another fuel',
      'aria-haspopup': 'dialog',
      onclick: e => pick(e.currentTarget, {
        current: r.fuel,
        hint: 'Which fuel?',
        options: fuels.map(id => ({ id, note: fuelNote(id) })),
        done: id => put(table, r, { ...r, fuel: id }),
      }),
    },
    r.fuel ? icon(r.fuel) : '',
    h('span.name', null, r.fuel ? nameOf(r.fuel) : 'no fuel'),
  );
}

/**
 * What modules and beacons do to a row, in short.
 *
 * @param {Effects | undefined} effects
 * @returns {Child}
 */
export function effect(effects) {
  if (!effects) return null;
  const short = [
    effects.speed !== '1' && `×${Frac.of(effects.speed)?.text ?? 'wide'}`,
    effects.productivity !== '0' && percent(effects.productivity),
  ].filter(Boolean).join(' ');
  /** @type {(k: string) => string} */
  const x = k => Frac.of(effects[k])?.text ?? 'wide';
  const floors = effects.floors && `\nat its floor, which no module passes: ${effects.floors}`;
  return short && h(
    'small.effect',
    {
      title: `speed ×${x('speed')}, productivity ${percent(effects.productivity)}, power ×${x('consumption')}, pollution ×${x('pollution')}${floors}`,
    },
    short,
    floors && ' ⌊⌋',
  );
}

/**
 * The slots of a machine. A click on the first of equal ones fills them all, on one among others that one.
 *
 * @param {Table} table
 * @param {Row} r
 * @param {(what: string) => string} key
 * @returns {View[] | null}
 */
export function slots(table, r, key) {
  const n = get(r.by).slots || 0, fits = modulesFor(r.by, r.does);
  if (!n || (!fits.length && !r.modules.length)) return null;
  const filled = r.modules.flatMap(([m, k]) => Array(Math.min(k, n)).fill(m)).slice(0, n);
  const all = [...filled, ...Array(n - filled.length).fill(null)];
  const same = all.every(m => m === all[0]);
  /** @type {(list: (Id | null)[]) => Modules} */
  const counted = list => [...list.reduce((a, m) => m ? a.set(m, (a.get(m) || 0) + 1) : a, new Map())];
  return all.slice(0, MOST_SLOTS).map((m, i) => h(
    'button.slot' + (m ? '' : '.empty'),
    {
      type: 'button',
      'data-key': key('slot' + i),
      'aria-haspopup': 'dialog',
      'aria-label': m ? `Slot ${i + 1}: ${nameOf(m)}, ${effectsOf(m)}` : `Slot ${i + 1}, empty`,
      title: m
        ? `${nameOf(m)}: ${effectsOf(m)}`
        : same
          ? 'Fill the slots (with Shift: this one alone)'
          : 'An empty slot',
      onclick: e => {
        const one = e.shiftKey || !same;
        pick(e.currentTarget, {
          current: m,
          none: one ? 'Empty this slot' : 'Empty the slots',
          hint: one ? 'A module for this slot' : `Modules for all ${n} slots`,
          options: fits.map(id => ({ id, note: effectsOf(id) })),
          done: id =>
            put(table, r, { ...r, modules: counted(one ? all.map((x, k) => k === i ? id : x) : all.map(() => id)) }),
        });
      },
    },
    m ? icon(m, 'small') : '+',
  ));
}
