// What would mend a row that is refused.
import { choicesOf, get, isReached, machinesFor, modulesFor, rawOf, reached } from './game.js';
import { nameOf } from './look.js';
import { S } from './state.js';

/**
 * Something that may mend: the thing that it is about, its name, and what a click does.
 *
 * @type {(id: Id | null, text: string, act: () => any) => Cure}
 */
export const cure = (id, text, act) => ({ id, text, act });

/**
 * What may mend a row that is refused for a cause; `put` is told the row that stands in its place.
 *
 * @param {string} code
 * @param {string[]} details
 * @param {Row} r
 * @param {(next: Row) => any} put
 * @returns {Cure[]}
 */
export function curesOfRow(code, details, r, put) {
  const by = () => [...reached(machinesFor(r.does)), ...machinesFor(r.does).filter(m => !isReached(m))]
    .filter(m => m !== r.by)
    .slice(0, 4)
    .map(m => cure(m, `By ${nameOf(m)}`, () => put({ ...r, by: m })));
  const fuels = () => {
    const all = get(r.by).fuels || [];
    return [...reached(all), ...all]
      .filter((f, i, a) => a.indexOf(f) === i)
      .slice(0, 4)
      .map(f => cure(f, `Burn ${nameOf(f)}`, () => put({ ...r, fuel: f })));
  };
  const module = details[0], slots = get(r.by).slots || 0, allowed = modulesFor(r.by, r.does);
  const without = () => ({
    ...r,
    modules: r.modules.filter(([m]) => m !== module),
    beacons: r.beacons
      .map(b => ({ ...b, modules: b.modules.filter(([m]) => m !== module) }))
      .filter(b => b.modules.length),
  });
  /** @type {(m: Id) => Row} */
  const swapped = m => ({
    ...r,
    modules: r.modules.map(([x, n]) => [x === module ? m : x, n]),
    beacons: r.beacons.map(b => ({ ...b, modules: b.modules.map(([x, n]) => [x === module ? m : x, n]) })),
  });
  switch (code) {
    case 'K1':
    case 'K2':
    case 'K3':
    case 'K5':
    case 'L4':
      return by();
    case 'L1':
    case 'L2':
      return fuels();
    case 'L3':
      return [cure(null, 'Take the fuel away', () => put({ ...r, fuel: null }))];
    case 'U1': {
      let room = slots;
      const fitting = r.modules
        .map(/** @returns {[Id, number]} */ ([m, n]) => {
          const k = Math.min(n, room);
          room -= k;
          return [m, k];
        })
        .filter(([, n]) => n);
      const beacons = r.beacons.map(b => ({
        ...b,
        modules: b.modules
          .map(/** @returns {[Id, number]} */ ([m, n]) => [m, Math.min(n, get(b.by).slots || 0)])
          .filter(([, n]) => n),
      }));
      return [
        cure(module?.startsWith('item:') ? module : null, `Keep as many modules as there are slots`, () =>
          put({ ...r, modules: fitting, beacons })),
      ];
    }
    case 'U2':
    case 'U3':
      return [
        cure(module, `Take ${nameOf(module || '')} out`, () => put(without())),
        ...allowed.filter(isReached).slice(0, 3).map(m => cure(m, `${nameOf(m)} instead`, () => put(swapped(m)))),
      ];
    case 'B1':
      return [
        cure(null, 'Let each beacon be shared by 1 machine', () =>
          put({ ...r, beacons: r.beacons.map(b => ({ ...b, share: Math.max(1, b.share) })) })),
      ];
    case 'P4':
      return choicesOf(r).flatMap(p => p.fits.slice(0, 4).map(f => cure(f, nameOf(f), () => put({
        ...r,
        at: [...r.at.filter(x => !p.fits.includes(x) && rawOf(x).split('@')[0] !== rawOf(f).split('@')[0]), f],
      }))));
    case 'P5':
      return [cure(null, `Call it ${free(r)}`, () => put({ ...r, label: free(r) }))];
    default:
      return [];
  }
}

/**
 * @param {Row} r
 * @returns {Label}
 */
function free(r) {
  const taken = new Set([...S.model.tables.values()].flatMap(t => t.rows.map(x => x.label)));
  for (let k = 2; ; k++) if (!taken.has(`${r.label}-${k}`)) return `${r.label}-${k}`;
}
