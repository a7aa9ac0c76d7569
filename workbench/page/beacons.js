// The beacons of a row, and the form in which they are chosen.
import { h } from './dom.js';
import { Frac } from './exact.js';
import { put } from './fittings.js';
import { beaconsFor, get, isReached } from './game.js';
import { icon, nameOf } from './look.js';
import { hear, tellBeside } from './numbers.js';
import { choose, form, whole } from './pick.js';
import { BEACONS } from './wishing.js';

/**
 * The beacons of a row, to be chosen; null where none may stand round its machine.
 *
 * @param {Table} table
 * @param {Row} r
 * @param {(what: string) => string} key
 * @returns {View | null}
 */
export function beacons(table, r, key) {
  const able = beaconsFor(r.by, r.does), b = r.beacons[0];
  if (!able.length && !b) return null;
  /** @type {(beacon: Beacon | null) => void} */
  const set = beacon => put(table, r, { ...r, beacons: [...(beacon ? [beacon] : []), ...r.beacons.slice(1)] });
  const holds = b && (b.modules[0]?.[0] || b.by);
  return h(
    'button.chip' + (b ? '' : '.faint'),
    {
      type: 'button',
      'data-key': key('beacon'),
      'aria-haspopup': 'dialog',
      onclick: e => beaconForm(e.currentTarget, able, b, Boolean(b), set),
      'aria-label': b
        ? `${b.count} beacons of ${nameOf(holds)}, each shared by ${b.share}`
        : `Beacons around ${nameOf(r.by)}`,
      title: b ? `${b.count} beacons, each shared by ${b.share}` : 'Beacons around it',
    },
    b
      ? [
        h('span', null, `${b.count} ×`),
        icon(holds, 'small'),
        h('small.dim', null, `÷${b.share}`),
        r.beacons.length > 1 && '…',
      ]
      : '+',
  );
}

/** @type {(m: Id) => number} */
const swiftness = m => (isReached(m) ? 100 : 0) + (Frac.of(get(m).module?.speed || '0')?.number ?? 0);
/** @type {(list: Id[]) => Id} */
const swiftest = list => [...list].sort((x, y) => swiftness(y) - swiftness(x))[0];

/**
 * A form of beacons: `set` is told them, or null for none, which is offered where `mayEnd`.
 *
 * @param {HTMLElement} anchor
 * @param {AbleBeacon[]} able
 * @param {Beacon | null} now
 * @param {boolean} mayEnd
 * @param {(beacon: Beacon | null) => any} set
 */
export function beaconForm(anchor, able, now, mayEnd, set) {
  const first = able.find(x => isReached(x.id)) || able[0];
  /** @type {{ [part: string]: any }} */
  const it = now
    ? { by: now.by, count: now.count, share: now.share, module: now.modules[0]?.[0] }
    : { by: first.id, count: 8, share: 4, module: swiftest(first.modules) };
  /** @type {(text: string, k: string) => View} */
  const number = (text, k) => h('label', null, h('span', null, text), whole(
    {
      value: it[k],
      'data-key': k,
      oninput: e => {
        it[k] = e.target.value;
      },
    },
    BEACONS,
  ));
  /** @type {(k: string) => Heard} */
  const heard = k => hear(`${it[k]}`, 'whole', BEACONS);
  form(anchor, 'Beacons around each machine', (leave, paint) => {
    const beacon = able.find(x => x.id === it.by) || first;
    const finish = () => {
      const wrong = ['count', 'share'].find(k => !heard(k).x);
      if (wrong) {
        tellBeside(document.querySelector(`.picker [data-key="${wrong}"]`), heard(wrong).said);
        return;
      }
      const [count, share] = [heard('count'), heard('share')].map(({ x }) => x.number);
      leave();
      set({ by: beacon.id, count, share, modules: [[it.module, beacon.slots]] });
    };
    /** @type {(id: Id) => void} */
    const another = id => {
      it.by = id;
      it.module = swiftest(able.find(x => x.id === id).modules);
      paint();
    };
    return [
      h('h3', null, 'Beacons around each machine'),
      able.length > 1 && choose('Beacon', able.map(x => x.id), it.by, another),
      number('How many', 'count'),
      number('Shared by machines', 'share'),
      choose('Full of', beacon.modules, it.module, id => {
        it.module = id;
      }),
      h('div.acts', null,
        mayEnd && h(
          'button.quiet',
          {
            type: 'button',
            onclick: () => {
              leave();
              set(null);
            },
          },
          'None',
        ),
        h('button.main', { type: 'button', onclick: finish }, 'Set'),
      ),
    ];
  });
}
